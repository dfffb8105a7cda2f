//! A table laid over another: the look-up, the join, and their refusals. PEER_ROUNDS makes the runs longer.

use peer::generate::Random;
use peer::overlay::{find, join, lookup, Side};
use peer::overlay_inputs::{handlers, keys, pair, relay, sized};
use peer::table::{kind::*, read_narrow, Refusal, WIDE};
use peer::terms::*;
use std::collections::BTreeMap;

const UNUSED: u32 = 0xa5a5_a5a5;

fn rounds(usual: u64) -> u64 {
    usual * std::env::var("PEER_ROUNDS").map_or(1, |times| times.parse().expect("PEER_ROUNDS is a number"))
}

/// The joined words, or the refusal; the output keeps what is not written.
fn joined(base: &[u32], overlay: &[u32], room: usize) -> Result<Vec<u32>, (u32, usize)> {
    let mut out = vec![UNUSED; room];
    match join(base, overlay, &mut out) {
        Ok(words) => {
            assert!(out[words..].iter().all(|&word| word == UNUSED));
            Ok(out[..words].to_vec())
        }
        Err(Refusal { number, place }) => {
            assert!(out.iter().all(|&word| word == UNUSED));
            Err((number, place))
        }
    }
}

fn place(base: &[u32], overlay: &[u32], name: u32, permissions: u32) -> Result<(Side, usize, usize), (u32, usize)> {
    match find(base, overlay, name, permissions) {
        Ok((side, span)) => {
            let table = if side == Side::Base { base } else { overlay };
            assert_eq!(lookup(base, overlay, name, permissions), &table[span.clone()]);
            Ok((side, span.start, span.end))
        }
        Err(Refusal { number, place }) => {
            assert!(lookup(base, overlay, name, permissions).is_empty());
            Err((number, place))
        }
    }
}

#[test]
fn a_sample() {
    let (base, overlay) = relay();
    let both = system(&[block(0, 8, 0, send(0, name(1), variable(0))), block(1, 2, 0, empty()), block(1, 4, 8, exercise(4))]);
    assert_eq!(joined(&base, &overlay, 16), Ok(both.clone()));
    assert_eq!(joined(&base, &overlay, 15), Ok(both));
    assert_eq!(joined(&base, &overlay, 14), Err((50, 0)));
    assert_eq!(place(&base, &overlay, 1, 2), Ok((Side::Overlay, 5, 9)));
    assert_eq!(place(&base, &overlay, 1, 4), Ok((Side::Overlay, 1, 5)));
    assert_eq!(place(&base, &overlay, 0, 8), Ok((Side::Base, 1, 7)));
    assert_eq!(place(&overlay, &base, 1, 2), Ok((Side::Overlay, 7, 11)));
}

#[test]
fn an_overlay_without_handlers_gives_the_base() {
    let (base, _) = relay();
    assert_eq!(joined(&base, &system(&[]), 11), Ok(base.clone()));
    assert_eq!(joined(&system(&[]), &base, 11), Ok(base));
    assert_eq!(joined(&system(&[]), &system(&[]), 1), Ok(system(&[])));
}

#[test]
fn no_such_block() {
    let (base, overlay) = relay();
    // The last three would be mistaken for handler 1 with the set 2 by a key that packs name and set into 24 bits each, or 32 in all.
    for (name, permissions) in [(2, 2), (1, 8), (0, 2), (0, (1 << 24) + 2), (1 << 8 | 1, 2), (33, 2)] {
        assert_eq!(place(&base, &overlay, name, permissions), Err((47, 0)));
    }
}

#[test]
fn refusals_of_the_tables_come_first() {
    let (base, overlay) = relay();
    let deep = system(&[block(0, 1, 0, [vec![word(FUNCTION, 0); 64], constant(0)].concat())]);
    let wide = system_with(WIDE, &[block(1, 2, 0, empty())]);
    for (broken, number, at) in [(vec![], 1, 0), (wide, 1, 0), (vec![word(SYSTEM, 33)], 3, 0), (base[..9].to_vec(), 4, 9), (deep, 11, 68)] {
        for other in [&overlay, &broken] {
            assert_eq!(place(&broken, other, 5, 5), Err((number, at)));
            assert_eq!(joined(&broken, other, 0), Err((number, at)));
        }
        assert_eq!(place(&base, &broken, 5, 5), Err((100 + number, at)));
        assert_eq!(joined(&base, &broken, 0), Err((100 + number, at)));
    }
}

#[test]
fn limits() {
    // 48 counts after replacement, and before 49 and 50.
    assert_eq!(joined(&handlers(0, 20, 4), &handlers(12, 32, 4), 129), Ok(handlers(0, 32, 4)));
    assert_eq!(joined(&handlers(0, 20, 4), &handlers(12, 32, 4), 128), Err((50, 0)));
    let more = system(&[block(31, 1, 0, empty()), block(31, 2, 0, empty())]);
    assert_eq!(joined(&handlers(0, 30, 4), &more, 129).map(|words| words.len()), Ok(129));
    assert_eq!(joined(&handlers(0, 31, 4), &more, 2000), Err((48, 0)));
    assert_eq!(joined(&handlers(0, 31, 33), &more, 0), Err((48, 0)));
    assert_eq!(joined(&handlers(0, 31, 33), &handlers(31, 32, 4), 2000), Err((49, 0)));
    // 1,024 words, and one more; 49 before 50.
    let base = handlers(0, 16, 60);
    for (words, expected) in [(63, Ok(1024)), (64, Err((49, 0)))] {
        assert_eq!(joined(&base, &sized(&[(16, words)]), 1024).map(|words| words.len()), expected);
    }
    assert_eq!(joined(&base, &sized(&[(16, 64)]), 0), Err((49, 0)));
    assert_eq!(joined(&base, &sized(&[(16, 63)]), 1023), Err((50, 0)));
    // A block that is replaced by a shorter one makes room.
    assert_eq!(joined(&base, &sized(&[(16, 64), (15, 59)]), 1024).map(|words| words.len()), Ok(1024));
}

#[test]
fn random_pairs() {
    let mut random = Random(21);
    let mut answers: BTreeMap<u32, u64> = BTreeMap::new();
    for _ in 0..rounds(4_000) {
        let (base, overlay) = pair(&mut random);
        let room = if random.once_in(10) { random.below(200) } else { 1024 };
        let answer = joined(&base, &overlay, room);
        *answers.entry(answer.as_ref().err().map_or(0, |refusal| refusal.0)).or_default() += 1;
        let words = match answer {
            Ok(words) => words,
            Err((number, place)) => {
                assert_eq!(number < 47, read_narrow(&base).is_err());
                assert_eq!(number > 100, read_narrow(&base).is_ok() && read_narrow(&overlay).is_err());
                assert!((47..100).contains(&number) <= (place == 0));
                continue;
            }
        };
        let [under, over] = [&base, &overlay].map(|words| read_narrow(words).unwrap());
        let both = read_narrow(&words).expect("a join is a valid table");
        // The base's keys in its order, then the overlay's new ones in theirs.
        let mut order = keys(&under);
        order.extend(keys(&over).into_iter().filter(|key| !keys(&under).contains(key)));
        assert_eq!(keys(&both), order);
        for (name, permissions) in order {
            assert_eq!(lookup(&words, &system(&[]), name, permissions), lookup(&base, &overlay, name, permissions));
            let (side, ..) = place(&base, &overlay, name, permissions).expect("a block of the two");
            assert_eq!(side == Side::Overlay, keys(&over).contains(&(name, permissions)));
        }
    }
    println!("{answers:?}");
    for number in [0, 48, 49, 50] {
        assert!(answers.get(&number).copied().unwrap_or(0) > 20, "{number} is rare: {answers:?}");
    }
    assert!(answers.keys().any(|number| (1..13).contains(number)) && answers.keys().any(|number| (101..113).contains(number)));
}
