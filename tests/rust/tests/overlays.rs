//! The proved calls of a table laid over another, against the independent ones: answers and every byte of the output. PEER_ROUNDS makes
//! the runs longer.
#![cfg(proved)]

use peer::generate::Random;
use peer::overlay::{find, join, Side};
use peer::overlay_inputs::{handlers, keys, pair, relay, sized};
use peer::table::{read, Refusal, WIDE};
use peer::terms::{block, empty, system, system_with};
use peer::verdict::bytes_of;
use std::collections::BTreeMap;

extern "C" {
    /// As include/wiphosega.h declares them.
    fn wiphosega_join(base: *const u8, base_bytes: usize, overlay: *const u8, overlay_bytes: usize, out: *mut u8, out_bytes: usize) -> u64;
    fn wiphosega_lookup(base: *const u8, base_bytes: usize, overlay: *const u8, overlay_bytes: usize, name: u32, set: u32) -> u64;
}

const UNUSED: u8 = 0xa5;

fn proved_join(base: &[u8], overlay: &[u8], out: &mut [u8]) -> u64 {
    unsafe { wiphosega_join(base.as_ptr(), base.len(), overlay.as_ptr(), overlay.len(), out.as_mut_ptr(), out.len()) }
}

fn proved_lookup(base: &[u8], overlay: &[u8], name: u32, set: u32) -> u64 {
    unsafe { wiphosega_lookup(base.as_ptr(), base.len(), overlay.as_ptr(), overlay.len(), name, set) }
}

fn rounds(usual: u64) -> u64 {
    usual * std::env::var("PEER_ROUNDS").map_or(1, |times| times.parse().expect("PEER_ROUNDS is a number"))
}

fn refusal(number: u32, place: usize) -> u64 {
    (1 << 32) + u64::from(number) * 65_536 + place as u64
}

/// The words of bytes, or the answer where they are no whole words.
fn words(bytes: &[u8], number: u32) -> Result<Vec<u32>, u64> {
    match bytes.len() % 4 {
        0 => Ok(bytes.chunks(4).map(|word| u32::from_le_bytes(word.try_into().unwrap())).collect()),
        _ => Err(refusal(number, 0)),
    }
}

fn tables(base: &[u8], overlay: &[u8]) -> Result<(Vec<u32>, Vec<u32>), u64> {
    Ok((words(base, 30)?, words(overlay, 130)?))
}

/// Compares the answer and every byte of an output of `size` bytes; the joined bytes, or the answer that refuses.
fn compare_join(base: &[u8], overlay: &[u8], size: usize) -> Result<Vec<u8>, u64> {
    let expected = tables(base, overlay).and_then(|(base, overlay)| {
        let mut out = vec![0; size / 4];
        let count = join(&base, &overlay, &mut out).map_err(|Refusal { number, place }| refusal(number, place))?;
        Ok(bytes_of(&out[..count]))
    });
    let mut out = vec![UNUSED; size];
    let answer = proved_join(base, overlay, &mut out);
    let written = expected.as_ref().map_or(&[][..], |bytes| bytes);
    assert_eq!(answer, expected.as_ref().map_or_else(|&refusal| refusal, |bytes| bytes.len() as u64));
    assert!(out[..written.len()] == *written && out[written.len()..].iter().all(|&byte| byte == UNUSED));
    assert_eq!(answer >> 32 & 1 == 1, expected.is_err());
    expected
}

/// Compares the answer; the bytes of the block, or the answer that refuses.
fn compare_lookup(base: &[u8], overlay: &[u8], name: u32, set: u32) -> Result<Vec<u8>, u64> {
    let expected =
        tables(base, overlay).and_then(|(base, overlay)| find(&base, &overlay, name, set).map_err(|Refusal { number, place }| refusal(number, place)));
    let answer = proved_lookup(base, overlay, name, set);
    assert_eq!(answer >> 32 & 1 == 1, expected.is_err());
    match expected {
        Ok((side, span)) => {
            let part = 4 * span.start..4 * span.end;
            let bit = u64::from(side == Side::Overlay) << 33;
            assert_eq!(answer, part.start as u64 + (part.len() as u64) * 65_536 + bit);
            Ok(if side == Side::Base { base } else { overlay }[part].to_vec())
        }
        Err(refusal) => {
            assert_eq!(answer, refusal);
            Err(refusal)
        }
    }
}

#[test]
fn a_sample_and_its_rooms() {
    let (base, overlay) = relay();
    let (base, overlay) = (bytes_of(&base), bytes_of(&overlay));
    for size in [4096, 64, 63, 61, 60, 59, 3, 0] {
        assert_eq!(compare_join(&base, &overlay, size).err(), if size < 60 { Some(refusal(50, 0)) } else { None });
    }
    assert_eq!(proved_lookup(&base, &overlay, 1, 2), 20 + 16 * 65_536 + (1 << 33));
    assert_eq!(proved_lookup(&base, &overlay, 0, 8), 4 + 24 * 65_536);
    for (name, set) in [(2, 2), (1, 8), (0, (1 << 24) + 2), (257, 2), (33, 2), (u32::MAX, u32::MAX)] {
        assert_eq!(compare_lookup(&base, &overlay, name, set), Err(refusal(47, 0)));
    }
}

/// 30 for the base's bytes, then 130 for the overlay's, before anything else.
#[test]
fn odd_bytes() {
    let good = bytes_of(&relay().0);
    for odd in [1, 2, 3, 4099, 8001] {
        let odd = vec![0; odd];
        for (base, overlay, number) in [(&odd, &good, 30), (&odd, &odd, 30), (&good, &odd, 130), (&vec![0; 8], &odd, 130)] {
            assert_eq!(compare_join(base, overlay, 100), Err(refusal(number, 0)));
            assert_eq!(compare_lookup(base, overlay, 0, 8), Err(refusal(number, 0)));
        }
    }
}

/// 1 at 0 for a wide base, whatever the overlay is, and 101 for a wide overlay.
#[test]
fn wide_tables() {
    let good = bytes_of(&relay().0);
    let wide = |blocks: &[_]| bytes_of(&system_with(WIDE, blocks));
    for wide in [wide(&[]), wide(&[block(1, 2, 0, empty())]), bytes_of(&[0x0500_0041]), bytes_of(&[0x0500_0000; 1025])] {
        for overlay in [&good, &wide, &vec![]] {
            assert_eq!(compare_join(&wide, overlay, 4096), Err(refusal(1, 0)));
            assert_eq!(compare_lookup(&wide, overlay, 1, 2), Err(refusal(1, 0)));
        }
        assert_eq!(compare_join(&good, &wide, 4096), Err(refusal(101, 0)));
        assert_eq!(compare_lookup(&good, &wide, 1, 2), Err(refusal(101, 0)));
    }
}

#[test]
fn limits() {
    let compare = |base: &[u32], overlay: &[u32], size| compare_join(&bytes_of(base), &bytes_of(overlay), size).map(|bytes| bytes.len());
    let more = system(&[block(31, 1, 0, empty()), block(31, 2, 0, empty())]);
    // 32 and 33 handlers.
    assert_eq!(compare(&handlers(0, 30, 4), &more, 4096), Ok(4 * 129));
    assert_eq!(compare(&handlers(0, 31, 4), &more, 4096), Err(refusal(48, 0)));
    assert_eq!(compare(&handlers(0, 31, 33), &more, 0), Err(refusal(48, 0)));
    // 1,024 and 1,025 words: of the join, of the base, of the overlay, and many more.
    let base = handlers(0, 16, 60);
    assert_eq!(compare(&base, &sized(&[(16, 63)]), 4096), Ok(4096));
    assert_eq!(compare(&base, &sized(&[(16, 63)]), 4095), Err(refusal(50, 0)));
    assert_eq!(compare(&base, &sized(&[(16, 64)]), 4096), Err(refusal(49, 0)));
    assert_eq!(compare(&base, &sized(&[(16, 64)]), 0), Err(refusal(49, 0)));
    let whole = handlers(0, 15, 64);
    for words in [1025, 1026, 20_000] {
        let long = [whole.clone(), vec![0; words - whole.len()]].concat();
        assert_eq!(compare(&long, &base, 4096), Err(refusal(2, 0)));
        assert_eq!(compare(&base, &long, 4096), Err(refusal(102, 0)));
        assert_eq!(compare_lookup(&bytes_of(&long), &bytes_of(&base), 0, 1), Err(refusal(2, 0)));
        assert_eq!(compare_lookup(&bytes_of(&base), &bytes_of(&long), 0, 1), Err(refusal(102, 0)));
        let other = vec![0; words];
        assert_eq!(compare(&other, &base, 4096), Err(refusal(1, 0)));
        assert_eq!(compare(&base, &other, 4096), Err(refusal(101, 0)));
    }
}

#[test]
fn random_pairs() {
    let mut random = Random(22);
    let mut answers: BTreeMap<u64, u64> = BTreeMap::new();
    let mut blocks = 0u64;
    for _ in 0..rounds(20_000) {
        let (base, overlay) = pair(&mut random);
        let (mut base, mut overlay) = (bytes_of(&base), bytes_of(&overlay));
        for bytes in [&mut base, &mut overlay] {
            if random.once_in(50) {
                bytes.truncate(bytes.len().saturating_sub(1 + random.below(3)));
            }
        }
        let size = if random.once_in(10) { random.below(800) } else { 4096 };
        let answer = compare_join(&base, &overlay, size);
        *answers.entry(answer.as_ref().err().map_or(0, |answer| answer >> 16 & 0xffff)).or_default() += 1;
        let _ = compare_lookup(&base, &overlay, random.below(34) as u32, random.permissions(10));
        // Every block of the join is what the look-up gives, in the two and in the join itself.
        let Ok(joined) = answer else { continue };
        let table = read(&words(&joined, 0).unwrap()).expect("a join is a valid table");
        for (position, (name, set)) in keys(&table).into_iter().enumerate() {
            let end = table.blocks.get(position + 1).map_or(joined.len(), |next| 4 * next.start);
            let block = &joined[4 * table.blocks[position].start..end];
            assert_eq!(compare_lookup(&base, &overlay, name, set).as_deref(), Ok(block));
            assert_eq!(compare_lookup(&joined, &bytes_of(&system(&[])), name, set).as_deref(), Ok(block));
            blocks += 1;
        }
    }
    println!("joins (0) and refusals by number: {answers:?}; {blocks} blocks");
    for number in [0, 30, 48, 49, 50, 130] {
        assert!(answers.get(&number).copied().unwrap_or(0) > 50, "{number} is rare: {answers:?}");
    }
    assert!(answers.keys().any(|number| (1..13).contains(number)) && answers.keys().any(|number| (101..113).contains(number)));
}
