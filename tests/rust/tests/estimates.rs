//! The commands `estimate`, which reads a listing, and `audit`, for systems of either width, of the program, run as a user runs it (document 02, wish 12):
//! systems up to 1,024 words, which the C call does not take. WIPHOSEGA_LISTINGS names the program.
#![cfg(proved)]

use peer::audit::audit;
use peer::estimate::Layout;
use peer::generate::{exact_table, sensible_table, table, Random};
use peer::listing::{write, MOST_BYTES};
use peer::samples::samples;
use peer::solve::solve;
use peer::table::{read, Refusal, NARROW, WIDTHS};
use peer::verdict::{bytes_of, words_of};
use std::io::Write;
use std::process::{Command, Stdio};

/// What the program prints for these arguments and this standard input.
fn run(arguments: &[&str], input: &[u8]) -> Vec<u8> {
    let name = std::env::var("WIPHOSEGA_LISTINGS").expect("WIPHOSEGA_LISTINGS names the program");
    let mut child = Command::new(name).args(arguments).stdin(Stdio::piped()).stdout(Stdio::piped()).spawn().expect("the program can be started");
    let _ = child.stdin.take().unwrap().write_all(input);
    let output = child.wait_with_output().expect("the program ends");
    assert!(output.status.success());
    output.stdout
}

fn said(result: Result<u32, Refusal>) -> String {
    match result {
        Ok(leak) => format!("obeys leak {leak:06x}\n"),
        Err(refusal) => format!("refused {} at {}\n", refusal.number, refusal.place),
    }
}

fn audited(words: &[u32], rho: u32, estimate: &[u32]) -> String {
    let input = bytes_of(&[&[words.len() as u32], words, estimate].concat());
    String::from_utf8(run(&["audit", &format!("{rho:x}")], &input)).expect("text")
}

/// The program's estimate is that of the independent implementation; it passes; with one bit turned over both say the same.
fn around(random: &mut Random, words: &[u32], rho: u32) {
    let Ok(table) = read(words) else { return };
    let mut own = vec![0; Layout::of(&table).total()];
    solve(&table, rho, &mut own);
    if let Ok(listing) = write(words, MOST_BYTES) {
        assert!(words_of(&run(&["estimate", &format!("{rho:x}")], &listing)) == own, "{words:08x?}");
    }
    let passed = audited(words, rho, &own);
    assert!(passed.starts_with("obeys leak "), "{words:08x?}");
    assert_eq!(passed, said(audit(words, rho, &own)));
    for _ in 0..4 {
        let mut other = own.clone();
        let k = random.below(other.len());
        other[k] ^= 1 << random.below(32);
        assert_eq!(audited(words, rho, &other), said(audit(words, rho, &other)), "{words:08x?} word {k}");
    }
}

#[test]
fn every_sample() {
    let mut random = Random(1210);
    for sample in samples() {
        around(&mut random, &sample.words, sample.rho);
    }
}

#[test]
fn random_systems() {
    let mut random = Random(1211);
    for names in WIDTHS {
        for size in [40, 300, 700, 1000] {
            let words = sensible_table(&mut random, names, size, names as usize / 4);
            around(&mut random, &words, 3);
        }
        let words = exact_table(&mut random, names, 1024);
        around(&mut random, &words, 0);
    }
}

#[test]
fn other_inputs() {
    let mut random = Random(1212);
    let (words, rho) = (table(&mut random, NARROW), 0);
    let total = Layout::sized(NARROW, words.len()).total();
    let printed = |input: &[u8]| String::from_utf8(run(&["audit", "0"], input)).expect("text");
    assert_eq!(printed(&[]), "refused 30 at 0\n");
    assert_eq!(printed(&[1, 0, 0]), "refused 30 at 0\n");
    assert_eq!(printed(&bytes_of(&[2, 0x0100_0000])), "refused 30 at 0\n");
    assert_eq!(printed(&bytes_of(&[0])), "refused 1 at 0\n");
    assert_eq!(printed(&bytes_of(&[1, 0x0100_0000, 0, 0, 0, 0, 0, 0, 0])), "obeys leak 000000\n");
    assert_eq!(printed(&bytes_of(&[1, 0x0500_0000, 0, 0, 0, 0, 0, 0, 0])), "refused 52 at 0\n");
    assert_eq!(printed(&bytes_of(&[1, 0x0500_0000, 0, 0, 0, 0, 0, 0, 0, 0, 0])), "obeys leak 000000\n");
    assert_eq!(printed(&bytes_of(&[1, 0x0500_0041])), "refused 3 at 0\n");
    assert_eq!(audited(&words, rho, &vec![0; total + 1]), "refused 52 at 0\n");
    assert_eq!(audited(&words, rho, &vec![0; 80_000]), "refused 52 at 0\n");
    assert_eq!(audited(&words, 1 << 24, &[]), "refused 20 at 0\n");
    assert_eq!(audited(&[0x0100_0000; 1025], 0, &[]), "refused 2 at 0\n");
}
