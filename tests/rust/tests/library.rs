//! The proved static library, linked and called as a program would, against the independent implementation: answers, the bytes of both
//! slices, and runs of the machine, for systems of either width. PEER_ROUNDS makes the runs longer.
#![cfg(proved)]

use peer::estimate::Layout;
use peer::generate::{call, damaged, event, exact_table, random_words, sensible_table, table, Call, Random};
use peer::machine::World;
use peer::samples::{samples, Expected};
use peer::table::{read, within, NARROW, WIDE, WIDTHS};
use peer::verdict::{bytes_of, verdict_of_bytes, words_of};
use std::collections::BTreeMap;

extern "C" {
    /// As include/wiphosega.h declares it.
    fn wiphosega_verdict(
        system: *const u8,
        system_bytes: usize,
        rho: u32,
        bound: u32,
        estimate: *mut u8,
        estimate_bytes: usize,
        work: *mut u8,
        work_bytes: usize,
    ) -> u64;
}

/// The library's answer.
fn proved(system: &[u8], rho: u32, bound: u32, estimate: &mut [u8], work: &mut [u8]) -> u64 {
    unsafe {
        wiphosega_verdict(
            system.as_ptr(),
            system.len(),
            rho,
            bound,
            estimate.as_mut_ptr(),
            estimate.len(),
            work.as_mut_ptr(),
            work.len(),
        )
    }
}

fn rounds(usual: u64) -> u64 {
    usual * std::env::var("PEER_ROUNDS").map_or(1, |times| times.parse().expect("PEER_ROUNDS is a number"))
}

/// The number of a refusal, 0 for a verdict.
fn number(answer: u64) -> u64 {
    if answer >> 32 == 0 {
        0
    } else {
        answer >> 16 & 0xff
    }
}

/// Makes the call of both, compares answer and every byte, and answers the number of the refusal.
fn compare(call: &Call) -> u64 {
    let (mut own, mut other) = (call.clone(), call.clone());
    let answer = proved(&own.system, own.rho, own.bound, &mut own.estimate, &mut own.work);
    let expected = verdict_of_bytes(&other.system, other.rho, other.bound, &mut other.estimate, &mut other.work);
    assert_eq!(answer, expected, "{:02x?} rho {:x} bound {:x}", call.system, call.rho, call.bound);
    assert!(own.estimate == other.estimate, "estimates differ: {:02x?} rho {:x}", call.system, call.rho);
    assert!(own.work == other.work, "work slices differ: {:02x?}", call.system);
    number(answer)
}

/// A call with slices that are long enough, filled with what is not zero.
fn fitting(words: &[u32], rho: u32, bound: u32) -> Call {
    let most = Layout::sized(WIDE, 256).total();
    Call { system: bytes_of(words), rho, bound, estimate: vec![0xa5; 4 * most + 3], work: vec![0x5a; 4 * 1024 + 1] }
}

#[test]
fn every_sample() {
    for sample in samples().iter().filter(|sample| sample.words.len() <= 256) {
        let mut call = fitting(&sample.words, sample.rho, sample.bound);
        compare(&call);
        let answer = proved(&call.system, call.rho, call.bound, &mut call.estimate, &mut call.work);
        match sample.expected {
            Expected::Leak(leak, _) => assert_eq!(answer & 0xff_ffff, u64::from(leak), "{}", sample.name),
            Expected::Refused(n, at) => assert_eq!(answer, (1 << 32) + u64::from(n) * 65536 + at as u64, "{}", sample.name),
        }
    }
}

/// A system of 256 words of either width, in slices that just fit, as include/wiphosega.h gives their bytes, and in shorter ones.
#[test]
fn the_largest_systems() {
    let mut random = Random(10);
    for (names, bytes) in [(NARROW, 21_504), (WIDE, 23_552)] {
        for _ in 0..rounds(50) {
            let system = bytes_of(&exact_table(&mut random, names, 256));
            let call = |estimate, work| Call { system: system.clone(), rho: 0, bound: 0, estimate: vec![0xa5; estimate], work: vec![0x5a; work] };
            assert_eq!(compare(&call(bytes, 4096)), 0);
            assert_eq!(compare(&call(bytes - 1, 4096)), 21);
            assert_eq!(compare(&call(bytes, 4095)), 22);
        }
    }
}

/// Valid, damaged and random tables, and calls with short and odd slices and stray bits.
#[test]
fn answers_and_bytes() {
    let mut random = Random(11);
    for names in WIDTHS {
        let mut counts = BTreeMap::new();
        let mut large = 0;
        for round in 0..rounds(24_000) {
            let words = match round % 4 {
                0 => random_words(&mut random),
                1 => {
                    let words = table(&mut random, names);
                    damaged(&mut random, words)
                }
                _ => table(&mut random, names),
            };
            let call = if round % 3 == 0 { call(&mut random, names) } else { fitting(&words, random.permissions(4), random.permissions(6)) };
            let number = compare(&call);
            *counts.entry(number).or_insert(0u64) += 1;
            large += u64::from(number == 0 && words_of(&call.system)[0] & 0xff_ffff > NARROW);
        }
        println!("{names} names, verdicts (0) and refusals by number: {counts:?}; {large} verdicts on over 32 handlers");
        let all = [0, 1, 3, 4, 5, 6, 7, 8, 9, 10, 12, 20, 21, 22, 30, 31];
        assert!(all.iter().all(|number| counts.contains_key(number)), "{counts:?}");
        assert!(counts[&0] > rounds(24_000) / 4, "{counts:?}");
        assert!(names == NARROW || large > rounds(200), "{large}");
    }
}

/// What a machine of its own exercises lies in the leak that the library reports.
#[test]
fn runs_lie_in_the_leak() {
    let mut random = Random(12);
    let (mut systems, mut exercising, mut leaking) = (0u64, 0u64, 0u64);
    for round in 0..rounds(8000) {
        let words = sensible_table(&mut random, WIDTHS[round as usize % 2], 120, 8);
        let (table, rho) = (read(&words).expect("a valid table"), random.permissions(4));
        let mut call = fitting(&words, rho, 0);
        let answer = proved(&call.system, rho, 0, &mut call.estimate, &mut call.work);
        assert_eq!(number(answer), 0);
        let leak = (answer & 0xff_ffff) as u32;
        let mut world = World::empty();
        for _ in 0..300 {
            let next = event(&mut random, &table, &world);
            world.act(&table, rho, &next);
        }
        let exercised = world.exercised.iter().fold(0, |all, (_, set)| all | set);
        assert!(within(exercised, leak), "{words:08x?} rho {rho:x}: {exercised:06x} is not within {leak:06x}");
        systems += 1;
        exercising += u64::from(exercised != 0);
        leaking += u64::from(leak != 0);
    }
    println!("{systems} systems, {leaking} leak, {exercising} exercise something");
    assert!(exercising * 4 > systems, "{exercising} of {systems}");
}
