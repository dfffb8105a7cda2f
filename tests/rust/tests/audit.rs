//! The check of an estimate from elsewhere (document 02, wish 12) through the proved library, against the independent checker, for systems of either
//! width: the library's own estimates with each bit turned over, with many bits turned over, with every bit that may be set, and of other lengths.
#![cfg(proved)]

use peer::audit::audit_of_bytes;
use peer::check::first_stray;
use peer::estimate::Layout;
use peer::generate::{damaged, sensible_table, table, Random};
use peer::samples::samples;
use peer::table::{read, WIDE, WIDTHS};
use peer::verdict::{bytes_of, words_of};
use std::collections::BTreeMap;

extern "C" {
    /// As include/wiphosega.h declares them.
    fn wiphosega_check(system: *const u8, system_bytes: usize, rho: u32, estimate: *const u8, estimate_bytes: usize) -> u64;
    fn wiphosega_verdict(
        system: *const u8,
        system_bytes: usize,
        rho: u32,
        bound: u32,
        estimate: *mut u8,
        estimate_bytes: usize,
        work: *mut u8,
        work_bytes: usize,
    ) -> u64;
}

/// The most words of an estimate that the C call takes.
fn most() -> usize {
    Layout::sized(WIDE, 256).total()
}

fn rounds(usual: usize) -> usize {
    usual * std::env::var("PEER_ROUNDS").map_or(1, |times| times.parse().expect("PEER_ROUNDS is a number"))
}

fn checked(system: &[u8], rho: u32, estimate: &[u8]) -> u64 {
    unsafe { wiphosega_check(system.as_ptr(), system.len(), rho, estimate.as_ptr(), estimate.len()) }
}

/// The library's own least estimate, or nothing where the call is refused.
fn own(words: &[u32], rho: u32) -> Option<(Vec<u32>, u64)> {
    let (system, mut estimate, mut work) = (bytes_of(words), vec![0; 4 * most()], vec![0; 4 * 1024]);
    let answer = unsafe {
        wiphosega_verdict(
            system.as_ptr(),
            system.len(),
            rho,
            0,
            estimate.as_mut_ptr(),
            estimate.len(),
            work.as_mut_ptr(),
            work.len(),
        )
    };
    (answer >> 32 == 0).then(|| {
        let total = Layout::of(&read(words).expect("the library accepts it")).total();
        (words_of(&estimate[..4 * total]), answer & 0xff_ffff)
    })
}

/// Both answers are the same; it is answered.
fn compare(system: &[u8], rho: u32, estimate: &[u8]) -> u64 {
    let answer = checked(system, rho, estimate);
    assert_eq!(answer, audit_of_bytes(system, rho, estimate), "{:08x?} rho {rho:x}: {:08x?}", words_of(system), words_of(estimate));
    answer
}

/// The number of a refusal, 0 for an estimate that obeys.
fn number(answer: u64) -> u64 {
    if answer >> 32 == 0 {
        0
    } else {
        answer >> 16 & 0xff
    }
}

/// Every system of the samples that is accepted.
fn systems() -> Vec<(Vec<u32>, u32)> {
    let all = samples().into_iter().filter(|sample| sample.words.len() <= 256 && read(&sample.words).is_ok());
    all.map(|sample| (sample.words, sample.rho)).collect()
}

/// The own estimate passes with its leak; then each bit of it is turned over, and counted by whether it was set and by the answer.
fn each_bit(words: &[u32], rho: u32, counts: &mut BTreeMap<(bool, u64), usize>) {
    let Some((mut estimate, leak)) = own(words, rho) else { return };
    let system = bytes_of(words);
    assert_eq!(compare(&system, rho, &bytes_of(&estimate)), leak);
    for k in 0..estimate.len() {
        for d in 0..32 {
            let set = estimate[k] >> d & 1 != 0;
            estimate[k] ^= 1 << d;
            let answer = compare(&system, rho, &bytes_of(&estimate));
            *counts.entry((set, number(answer))).or_default() += 1;
            estimate[k] ^= 1 << d;
        }
    }
}

#[test]
fn each_bit_of_the_samples() {
    let mut counts = BTreeMap::new();
    for (words, rho) in systems().iter().filter(|(words, _)| words.len() <= 24) {
        each_bit(words, *rho, &mut counts);
    }
    println!("bits that were set, and answers: {counts:?}");
    for key in [(true, 54), (false, 0), (false, 53), (false, 54)] {
        assert!(counts.contains_key(&key), "{counts:?}");
    }
    assert!(!counts.contains_key(&(true, 53)), "{counts:?}");
}

#[test]
fn each_bit_of_random_systems() {
    let mut random = Random(1201);
    let mut counts = BTreeMap::new();
    for round in 0..rounds(24) {
        let size = 12 + random.below(16);
        let words = sensible_table(&mut random, WIDTHS[round % 2], size, 4);
        each_bit(&words, random.permissions(4), &mut counts);
    }
    println!("bits that were set, and answers: {counts:?}");
    assert!(!counts.contains_key(&(true, 53)), "{counts:?}");
}

/// Own estimates of valid and damaged tables with some bits turned over, lengths and sets that are wrong.
#[test]
fn random_estimates() {
    let mut random = Random(1202);
    let mut counts = BTreeMap::new();
    for round in 0..rounds(8000) {
        let (names, round) = (WIDTHS[round % 2], round / 2);
        let mut words = if round % 2 == 0 { table(&mut random, names) } else { sensible_table(&mut random, names, 120, 16) };
        words.truncate(256);
        let rho = random.permissions(4);
        let Some((mut estimate, _)) = own(&words, rho) else { continue };
        for _ in 0..random.below(4) {
            let k = random.below(estimate.len());
            estimate[k] ^= 1 << random.below(32);
        }
        let mut system = bytes_of(&words);
        let mut bytes = bytes_of(&estimate);
        match round % 16 {
            0 => bytes.truncate(bytes.len() - 4),
            1 => bytes.extend([0; 4]),
            2 => bytes.truncate(bytes.len() - 1 - random.below(3)),
            3 => bytes.resize(4 * most() + random.below(9), 0),
            4 => system = bytes_of(&damaged(&mut random, words)),
            5 => system.truncate(system.len() - 1),
            6 => system.resize(1028, 0),
            // The other width: the estimate has the words of this one.
            8 => system[3] ^= 1 ^ 5,
            _ => {}
        }
        let rho = if round % 32 == 7 { rho | 1 << 24 } else { rho };
        *counts.entry(number(compare(&system, rho, &bytes))).or_insert(0) += 1;
    }
    println!("answers: {counts:?}");
    for number in [0, 20, 30, 31, 52, 53, 54] {
        assert!(counts.contains_key(&number), "{counts:?}");
    }
}

/// With every bit that may be set the estimate obeys, and every permission leaks where the opponent may enter a block.
#[test]
fn everything_that_may_be_set() {
    let mut random = Random(1203);
    let random_systems = (0..rounds(80)).map(|round| (sensible_table(&mut random, WIDTHS[round % 2], 60, 6), 0)).collect::<Vec<_>>();
    let mut leaking = 0;
    for (words, rho) in systems().into_iter().chain(random_systems) {
        let table = read(&words).expect("a valid table");
        let mut estimate = vec![0u32; Layout::of(&table).total()];
        for k in 0..estimate.len() {
            for d in 0..32 {
                estimate[k] ^= 1 << d;
                if first_stray(&table, &estimate[..]).is_some() {
                    estimate[k] ^= 1 << d;
                }
            }
        }
        let entered = table.blocks.iter().any(|block| block.guard & !rho == 0);
        let expected = if entered { 0xff_ffff } else { 0 };
        assert_eq!(compare(&bytes_of(&words), rho, &bytes_of(&estimate)), expected, "{words:08x?}");
        leaking += usize::from(entered);
    }
    assert!(leaking > 10);
}
