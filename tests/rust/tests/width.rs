//! The converters between narrow and wide tables (document 02, wish 13): their refusals, and that the leak stays. PEER_ROUNDS makes the runs longer.

use peer::check::broken;
use peer::estimate::{leak, plain, Layout};
use peer::generate::{exact_table, lowered, sensible_table, words, Random};
use peer::naive;
use peer::samples::{forty_one, samples};
use peer::solve::solve;
use peer::table::{kind::*, read, system_kind, Refusal, Table, NARROW, WIDE, WIDTHS};
use peer::terms::*;
use peer::widths::{narrow, other_width, widen};
use std::collections::BTreeMap;

const UNUSED: u32 = 0xa5a5_a5a5;

type Converter = fn(&[u32], &mut [u32]) -> Result<usize, Refusal>;

fn rounds(usual: u64) -> u64 {
    usual * std::env::var("PEER_ROUNDS").map_or(1, |times| times.parse().expect("PEER_ROUNDS is a number"))
}

/// The words written, or the refusal; the output keeps what is not written.
fn converted(by: Converter, words: &[u32], room: usize) -> Result<Vec<u32>, (u32, usize)> {
    let mut out = vec![UNUSED; room];
    match by(words, &mut out) {
        Ok(count) => {
            assert!(out[count..].iter().all(|&word| word == UNUSED));
            Ok(out[..count].to_vec())
        }
        Err(Refusal { number, place }) => {
            assert!(out.iter().all(|&word| word == UNUSED));
            Err((number, place))
        }
    }
}

fn direct(names: u32) -> Vec<u32> {
    system_with(names, &[block(0, 3, 0, exercise(2))])
}

#[test]
fn only_the_first_word_changes() {
    for (by, from, to) in [(widen as Converter, NARROW, WIDE), (narrow, WIDE, NARROW)] {
        assert_eq!(converted(by, &direct(from), 5), Ok(direct(to)));
        assert_eq!(converted(by, &direct(from), 8), Ok(direct(to)));
        assert_eq!(converted(by, &system_with(from, &[]), 1), Ok(system_with(to, &[])));
        assert_eq!(converted(by, &system_with(from, &[]), 0), Err((57, 0)));
        assert_eq!(converted(by, &direct(from), 4), Err((57, 0)));
        // the other kind, before the table's numbers and 57; no word
        assert_eq!(converted(by, &direct(to), 5), Err((1, 0)));
        assert_eq!(converted(by, &[word(system_kind(to), 99)], 0), Err((1, 0)));
        assert_eq!(converted(by, &[], 5), Err((1, 0)));
        assert_eq!(converted(by, &[word(BLOCK, 0)], 5), Err((1, 0)));
        // the table's numbers, before 57
        assert_eq!(converted(by, &[word(system_kind(from), from + 1)], 0), Err((3, 0)));
        assert_eq!(converted(by, &[word(system_kind(from), from)], 0), Err((4, 1)));
        assert_eq!(converted(by, &system_with(from, &[block(from, 3, 0, exercise(2))]), 0), Err((5, 1)));
        assert_eq!(converted(by, &system_with(from, &[block(0, 3, 0, name(from))]), 0), Err((9, 4)));
        assert_eq!(converted(by, &[word(system_kind(from), 0); 1025], 0), Err((2, 0)));
        assert_eq!(converted(by, &[word(system_kind(from), 0); 2], 0), Err((12, 1)));
    }
}

/// 55, then 56 at the first name over 31, of a block or in a term, then 57.
#[test]
fn what_only_a_wide_table_may_have() {
    let wide = |blocks: &[Term]| system_with(WIDE, blocks);
    let handlers = |count: u32| wide(&(0..count).map(|i| block(0, i, 0, exercise(2))).collect::<Vec<_>>());
    assert_eq!(converted(narrow, &forty_one(), 1024), Err((55, 0)));
    assert_eq!(converted(narrow, &handlers(32), 129).map(|words| words.len()), Ok(129));
    assert_eq!(converted(narrow, &handlers(32), 128), Err((57, 0)));
    assert_eq!(converted(narrow, &handlers(33), 0), Err((55, 0)));
    // 55 before 56, and the table's numbers before both
    let names = |count: u32| wide(&(32 - count / 2..32 + count / 2).map(|i| block(i, 2, 0, exercise(2))).collect::<Vec<_>>());
    assert_eq!(converted(narrow, &names(34), 0), Err((55, 0)));
    assert_eq!(converted(narrow, &names(32), 0), Err((56, 1 + 4 * 16)));
    assert_eq!(converted(narrow, &[names(34), vec![0]].concat(), 0), Err((12, 1 + 4 * 34)));
    // the first word with a name, whether it stands in a term or names a block
    let both = |term: u32, second: u32| wide(&[block(0, 3, 0, send(0, name(term), name(term))), block(second, 3, 0, exercise(2))]);
    assert_eq!(converted(narrow, &both(31, 31), 11).map(|words| words[0]), Ok(word(SYSTEM, 2)));
    assert_eq!(converted(narrow, &both(32, 63), 0), Err((56, 5)));
    assert_eq!(converted(narrow, &both(31, 32), 0), Err((56, 7)));
    assert_eq!(converted(narrow, &both(31, 31), 10), Err((57, 0)));
    assert_eq!(converted(narrow, &wide(&[block(32, 3, 0, name(33))]), 5), Err((56, 1)));
    assert_eq!(converted(narrow, &wide(&[block(31, 3, 0, name(32))]), 5), Err((56, 4)));
    // arguments over 31 that are no names
    let others = wide(&[block(0, 0xff_ffff, 0xff_ffff, sequence(&[exercise(63), term(NUMBER, 40, []), send(40, constant(1), constant(1))]))]);
    assert_eq!(converted(narrow, &others, 1024).map(|words| words.len()), Ok(others.len()));
}

/// Every sample of one width that the other may have too is the other's, and back again.
#[test]
fn there_and_back() {
    let mut count = 0;
    for sample in samples() {
        if let Ok(words) = other_width(&sample.words) {
            assert_ne!(words[0], sample.words[0]);
            assert_eq!(words[1..], sample.words[1..], "{}", sample.name);
            assert_eq!(other_width(&words).as_ref(), Ok(&sample.words), "{}", sample.name);
            same_leak(&sample.words, sample.rho);
            count += 1;
        }
    }
    assert!(count > 20, "{count}");
}

fn least(table: &Table, rho: u32) -> Vec<u32> {
    let mut estimate = vec![0; Layout::of(table).total()];
    solve(table, rho, &mut estimate);
    estimate
}

/// An estimate in the layout of the other width: what is made moves, and a name that the narrow table lacks stands where all 64 stand.
fn moved(from: &Table, to: &Table, estimate: &[u32]) -> Vec<u32> {
    let (old, new) = (Layout::of(from), Layout::of(to));
    let mut out = vec![0; new.total()];
    for row in 0..2 * old.size {
        let has = |x: usize| estimate[row * old.row + x / 32] >> (x % 32) & 1 != 0;
        let all = (0..plain(NARROW)).all(has);
        let mut put = |x: usize| out[row * new.row + x / 32] |= 1 << (x % 32);
        (0..new.plain).filter(|&x| if x < plain(NARROW) { has(x) } else { all }).for_each(&mut put);
        (0..old.size).filter(|i| has(old.plain + i)).for_each(|i| put(new.plain + i));
    }
    out[new.rows()..].copy_from_slice(&estimate[old.rows()..]);
    out
}

/// The least estimate of each width, moved, is that of the other, so that it obeys the other's rules, and the leak is the same; the leak.
fn same_leak(words: &[u32], rho: u32) -> u32 {
    let other = other_width(words).expect("a table of either width");
    let [table, other] = [words, &other].map(|words| read(words).expect("a valid table"));
    let [one, two] = [&table, &other].map(|table| least(table, rho));
    let [first, second] = [leak(&table, rho, &one), leak(&other, rho, &two)];
    assert_eq!(first, second, "{words:08x?} rho {rho:x}");
    assert!(moved(&table, &other, &one) == two && moved(&other, &table, &two) == one, "{words:08x?} rho {rho:x}");
    if words.len() <= 60 {
        assert_eq!(naive::solve(&other, rho), two);
        assert_eq!(broken(&other, rho, &two), None, "{words:08x?} rho {rho:x}");
    }
    first
}

/// Random tables of both widths with several sets of the opponent's.
#[test]
fn the_leak_stays() {
    let mut random = Random(131);
    let (mut ups, mut downs, mut leaking, mut refusals) = (0, 0, 0, BTreeMap::new());
    for round in 0..rounds(20_000) {
        let (names, size) = (WIDTHS[round as usize % 2], 1 + random.below(250));
        let most = if random.once_in(3) { names as usize } else { 12 };
        let words = if random.once_in(4) { exact_table(&mut random, names, size) } else { sensible_table(&mut random, names, size, most) };
        let words = if names == WIDE && !random.once_in(4) { lowered(&words) } else { words };
        if let Err(refusal) = other_width(&words) {
            // 6 where two names became one
            assert!(names == WIDE && [6, 55, 56].contains(&refusal.number), "{refusal:?}");
            *refusals.entry(refusal.number).or_insert(0) += 1;
            continue;
        }
        *(if names == WIDE { &mut downs } else { &mut ups }) += 1;
        for rho in [0, 0xff_ffff, random.permissions(2), random.permissions(6), 1 << random.below(24)] {
            leaking += u64::from(same_leak(&words, rho) != 0);
        }
    }
    println!("{ups} tables widened, {downs} narrowed, {leaking} leaks that are not empty, refusals {refusals:?}");
    assert!(ups > 5000 && downs > 3000 && leaking > 10_000 && refusals[&55] > 100 && refusals[&56] > 100);
}

/// A converter refuses what the reading refuses, with its number and place, and the other width.
#[test]
fn damaged_tables() {
    let mut random = Random(132);
    let mut counts = BTreeMap::new();
    for round in 0..rounds(20_000) {
        let words = words(&mut random, WIDTHS[round as usize % 2]);
        for (by, kind) in [(widen as Converter, SYSTEM), (narrow, WIDE_SYSTEM)] {
            let answer = converted(by, &words, 1024);
            let first = words.first().map_or(0, |first| (first >> 24) as u8);
            match (&answer, read(&words)) {
                (Err(refusal), _) if first != kind => assert_eq!(*refusal, (1, 0)),
                (Err((number, place)), Err(refusal)) => assert_eq!((*number, *place), (refusal.number, refusal.place)),
                (Err((number, _)), Ok(_)) => assert!(kind == WIDE_SYSTEM && [55, 56].contains(number)),
                (Ok(out), table) => assert!(table.is_ok() && read(out).is_ok() && out[1..] == words[1..]),
            }
            *counts.entry(answer.map_or_else(|refusal| refusal.0, |_| 0)).or_insert(0) += 1;
        }
    }
    println!("converted (0) and refused: {counts:?}");
    assert!([0, 1, 3, 4, 5, 6, 7, 8, 9, 10, 12, 55, 56].iter().all(|number| counts.contains_key(number)), "{counts:?}");
}

/// Delete passes the opponent's record on alone, and `equal` has nothing to compare it with; what is read from it may be any name.
#[test]
fn the_opponents_record_alone() {
    let passed = |then: Term| system(&[block(0, 3, 0, bind(term(DELETE, 0, [variable(0), literal(0)]), then))]);
    let equal = |x, y| term(OPERATION, 2, [x, y]);
    let choice = |x| passed(branch(equal(x, name(3)), exercise(1), exercise(2)));
    assert_eq!(same_leak(&choice(variable(0)), 0), 0);
    assert_eq!(same_leak(&choice(get(variable(0), literal(1))), 0), 3);
}
