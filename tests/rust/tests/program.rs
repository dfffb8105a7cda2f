//! The proved program, run as a user runs it, against the independent implementation: what it prints for samples, inputs of every length that matters,
//! and random ones. WIPHOSEGA_PROGRAM names it; PEER_ROUNDS makes the run longer.
#![cfg(proved)]

use peer::generate::{call, Random};
use peer::samples::{forty_one, samples};
use peer::table::WIDTHS;
use peer::verdict::{bytes_of, program};
use std::io::Write;
use std::process::{Command, Stdio};

/// What the program prints for this standard input.
fn printed(input: &[u8]) -> String {
    let name = std::env::var("WIPHOSEGA_PROGRAM").expect("WIPHOSEGA_PROGRAM names the program");
    let mut child = Command::new(name).stdin(Stdio::piped()).stdout(Stdio::piped()).spawn().expect("the program can be started");
    child.stdin.take().unwrap().write_all(input).expect("the program reads its input to the end");
    let output = child.wait_with_output().expect("the program ends");
    assert!(output.status.success());
    String::from_utf8(output.stdout).expect("the program prints text")
}

fn compare(input: &[u8]) -> String {
    let text = printed(input);
    assert_eq!(text, program(input), "{input:02x?}");
    text
}

#[test]
fn every_sample() {
    for sample in samples() {
        compare(&bytes_of(&[vec![sample.rho, sample.bound], sample.words].concat()));
    }
}

/// 30 and 31 by length alone, and inputs much longer than what is kept of them.
#[test]
fn lengths() {
    for length in (0..=16).chain([1028, 1030, 1032, 1033, 1036, 4096, 5129, 200_000]) {
        compare(&vec![0; length]);
    }
    assert_eq!(compare(&[0; 200_000]), "refused 31 at 0\n");
    assert_eq!(compare(&[0; 7]), "refused 30 at 0\n");
}

/// 1 at 0 for a wide table, after 31 and 30 and before all else.
#[test]
fn wide_tables() {
    let input = |rho: u32, words: &[u32]| bytes_of(&[&[rho, 0], words].concat());
    for words in [vec![0x0500_0000], vec![0x0500_0041], vec![0x0500_0000; 256], forty_one()] {
        assert_eq!(compare(&input(0, &words)), "refused 1 at 0\n");
        assert_eq!(compare(&input(1 << 24, &words)), "refused 1 at 0\n");
        assert_eq!(compare(&input(0, &words)[1..]), "refused 30 at 0\n");
    }
    assert_eq!(compare(&input(0, &[0x0500_0000; 257])), "refused 31 at 0\n");
}

#[test]
fn random_inputs() {
    let rounds: u64 = std::env::var("PEER_ROUNDS").map_or(1, |times| times.parse().expect("PEER_ROUNDS is a number"));
    let mut random = Random(13);
    let (mut verdicts, mut refusals) = (0, 0);
    for round in 0..400 * rounds {
        let call = call(&mut random, WIDTHS[usize::from(round % 4 == 0)]);
        let text = compare(&[bytes_of(&[call.rho, call.bound]), call.system].concat());
        if text.starts_with("leak") {
            verdicts += 1;
        } else {
            refusals += 1;
        }
    }
    println!("{verdicts} verdicts, {refusals} refusals");
    assert!(verdicts > 100 && refusals > 100);
}
