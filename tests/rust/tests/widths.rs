//! The proved converters between narrow and wide tables (document 02, wish 13), against the independent ones: answers and every byte of the output, and
//! that the leak stays. PEER_ROUNDS makes the runs longer.
#![cfg(proved)]

use peer::estimate::Layout;
use peer::generate::{exact_table, lowered, sensible_table, words, Random};
use peer::samples::{forty_one, samples};
use peer::table::{kind::*, read, Refusal, NARROW, WIDE, WIDTHS};
use peer::terms::*;
use peer::verdict::{bytes_of, words_of};
use peer::widths::{narrow, widen};
use std::collections::BTreeMap;

extern "C" {
    /// As include/wiphosega.h declares them.
    fn wiphosega_widen(system: *const u8, system_bytes: usize, out: *mut u8, out_bytes: usize) -> u64;
    fn wiphosega_narrow(system: *const u8, system_bytes: usize, out: *mut u8, out_bytes: usize) -> u64;
    fn wiphosega_verdict(
        system: *const u8,
        system_bytes: usize,
        rho: u32,
        bound: u32,
        estimate: *mut u8,
        estimate_bytes: usize,
        work: *mut u8,
        work_bytes: usize,
    ) -> u64;
}

const UNUSED: u8 = 0xa5;

#[derive(Clone, Copy, Debug, PartialEq)]
enum Converter {
    Up,
    Down,
}
use Converter::*;

fn proved(by: Converter, system: &[u8], out: &mut [u8]) -> u64 {
    let call = if by == Up { wiphosega_widen } else { wiphosega_narrow };
    unsafe { call(system.as_ptr(), system.len(), out.as_mut_ptr(), out.len()) }
}

fn rounds(usual: u64) -> u64 {
    usual * std::env::var("PEER_ROUNDS").map_or(1, |times| times.parse().expect("PEER_ROUNDS is a number"))
}

fn refusal(number: u32, place: usize) -> u64 {
    (1 << 32) + u64::from(number) * 65_536 + place as u64
}

/// What the bytes written should be, or the answer that refuses: 30 where the system's bytes are no whole words.
fn expected(by: Converter, system: &[u8], size: usize) -> Result<Vec<u8>, u64> {
    if system.len() % 4 != 0 {
        return Err(refusal(30, 0));
    }
    let mut out = vec![0; size / 4];
    let call = if by == Up { widen } else { narrow };
    let count = call(&words_of(system), &mut out).map_err(|Refusal { number, place }| refusal(number, place))?;
    Ok(bytes_of(&out[..count]))
}

/// Compares the answer and every byte of an output of `size` bytes; the bytes written, or the answer that refuses.
fn compare(by: Converter, system: &[u8], size: usize) -> Result<Vec<u8>, u64> {
    let expected = expected(by, system, size);
    let mut out = vec![UNUSED; size];
    let answer = proved(by, system, &mut out);
    let written = expected.as_ref().map_or(&[][..], |bytes| bytes);
    assert_eq!(answer, expected.as_ref().map_or_else(|&refusal| refusal, |bytes| bytes.len() as u64), "{by:?} {:08x?}", words_of(system));
    assert!(out[..written.len()] == *written && out[written.len()..].iter().all(|&byte| byte == UNUSED));
    expected
}

/// The answer of the verdict.
fn verdict(system: &[u8], rho: u32) -> u64 {
    let (mut estimate, mut work) = (vec![0; 4 * Layout::sized(WIDE, 256).total()], vec![0; 4096]);
    unsafe {
        wiphosega_verdict(
            system.as_ptr(),
            system.len(),
            rho,
            0,
            estimate.as_mut_ptr(),
            estimate.len(),
            work.as_mut_ptr(),
            work.len(),
        )
    }
}

#[test]
fn every_sample() {
    for sample in samples() {
        let bytes = bytes_of(&sample.words);
        for by in [Up, Down] {
            for size in [5000, 4 * 1024, bytes.len() + 4, bytes.len() + 3, bytes.len(), bytes.len().saturating_sub(1), 3, 0] {
                let _ = compare(by, &bytes, size);
            }
        }
    }
}

#[test]
fn refusals() {
    for odd in [1, 2, 3, 4099, 8001] {
        for by in [Up, Down] {
            assert_eq!(compare(by, &vec![0; odd], 100), Err(refusal(30, 0)));
        }
    }
    for (by, own, other) in [(Up, NARROW, WIDE), (Down, WIDE, NARROW)] {
        let bytes = |names, blocks: &[Term]| bytes_of(&system_with(names, blocks));
        assert_eq!(compare(by, &[], 100), Err(refusal(1, 0)));
        assert_eq!(compare(by, &bytes(other, &[]), 0), Err(refusal(1, 0)));
        assert_eq!(compare(by, &bytes_of(&[word(BLOCK, 0); 2000]), 0), Err(refusal(1, 0)));
        assert_eq!(compare(by, &bytes(own, &[]), 3), Err(refusal(57, 0)));
        assert_eq!(compare(by, &bytes(own, &[]), 4), Ok(bytes(other, &[])));
        let first = bytes(own, &[]);
        for count in [1025, 1026, 20_000] {
            assert_eq!(compare(by, &first.repeat(count), 4096), Err(refusal(2, 0)));
            assert_eq!(compare(by, &bytes(other, &[]).repeat(count), 4096), Err(refusal(1, 0)));
        }
    }
    let wide = |blocks: &[Term]| bytes_of(&system_with(WIDE, blocks));
    assert_eq!(compare(Down, &bytes_of(&forty_one()), 4096), Err(refusal(55, 0)));
    assert_eq!(compare(Down, &wide(&[block(32, 3, 0, exercise(2))]), 0), Err(refusal(56, 1)));
    assert_eq!(compare(Down, &wide(&[block(31, 3, 0, name(32))]), 0), Err(refusal(56, 4)));
    assert_eq!(compare(Down, &wide(&[block(31, 3, 0, name(31))]), 0), Err(refusal(57, 0)));
    assert_eq!(compare(Down, &wide(&[block(31, 3, 0, name(31))]), 20), Ok(bytes_of(&system(&[block(31, 3, 0, name(31))]))));
}

/// Tables of either width, valid, damaged and random, and outputs that may be short.
#[test]
fn random_tables() {
    let mut random = Random(133);
    let mut counts = BTreeMap::new();
    for round in 0..rounds(40_000) {
        let mut system = bytes_of(&words(&mut random, WIDTHS[round as usize % 2]));
        if random.once_in(50) {
            system.truncate(system.len().saturating_sub(1 + random.below(3)));
        }
        let size = if random.once_in(10) { random.below(800) } else { 4096 };
        for by in [Up, Down] {
            let answer = compare(by, &system, size);
            *counts.entry(answer.as_ref().err().map_or(0, |answer| answer >> 16 & 0xffff)).or_insert(0u64) += 1;
            // Back again it is the same words.
            if let Ok(bytes) = answer {
                assert_eq!(compare(if by == Up { Down } else { Up }, &bytes, 4096), Ok(system.clone()));
            }
        }
    }
    println!("converted (0) and refused: {counts:?}");
    for number in [0, 1, 3, 4, 5, 6, 7, 8, 9, 10, 12, 30, 55, 56, 57] {
        assert!(counts.get(&number).copied().unwrap_or(0) > 20, "{number} is rare: {counts:?}");
    }
}

/// The verdict on both tables is the same, for several sets of the opponent's.
#[test]
fn the_leak_stays() {
    let mut random = Random(134);
    let (mut tables, mut leaking) = ([0u64; 2], 0u64);
    for round in 0..rounds(4000) {
        let (names, size) = (WIDTHS[round as usize % 2], 1 + random.below(256));
        let table = if random.once_in(4) { exact_table(&mut random, names, size) } else { sensible_table(&mut random, names, size, 12) };
        let by = if names == WIDE { Down } else { Up };
        let system = bytes_of(&if names == WIDE { lowered(&table) } else { table });
        let Ok(other) = compare(by, &system, 1024) else { continue };
        assert!(read(&words_of(&other)).is_ok());
        tables[usize::from(names == WIDE)] += 1;
        for rho in [0, 0xff_ffff, random.permissions(2), random.permissions(6), 1 << random.below(24)] {
            let answer = verdict(&system, rho);
            assert_eq!(answer, verdict(&other, rho), "{:08x?} rho {rho:x}", words_of(&system));
            assert!(answer >> 32 == 0);
            leaking += u64::from(answer != 0);
        }
    }
    println!("{} tables widened, {} narrowed, {leaking} leaks that are not empty", tables[0], tables[1]);
    assert!(tables.iter().all(|&count| count > 1000) && leaking > 2000, "{tables:?} {leaking}");
}
