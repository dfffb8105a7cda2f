//! The ceiling on facts (document 02, wish 7) through the proved program `bench`, whose arguments are how often it solves and the ceiling:
//! refused with 23 at the ceiling exactly where the independent implementation counts more facts, for systems of either width. WIPHOSEGA_BENCH names the program.
#![cfg(proved)]

use peer::estimate::{facts, plain};
use peer::generate::{sensible_table, Random};
use peer::samples::samples;
use peer::table::WIDTHS;
use peer::verdict::{analyse, bytes_of, slices};
use std::io::Write;
use std::process::{Command, Stdio};

fn printed(words: &[u32], rho: u32, ceiling: u64) -> String {
    let name = std::env::var("WIPHOSEGA_BENCH").expect("WIPHOSEGA_BENCH names the program");
    let mut child = Command::new(name)
        .args(["1".to_string(), ceiling.to_string()])
        .stdin(Stdio::piped())
        .stdout(Stdio::piped())
        .spawn()
        .expect("the program can be started");
    child.stdin.take().unwrap().write_all(&bytes_of(&[&[rho, 0], words].concat())).expect("the program reads its input");
    let output = child.wait_with_output().expect("the program ends");
    String::from_utf8(output.stdout).expect("the program prints text")
}

/// The facts of the least estimate and the figure that no system passes, or nothing where the table is refused.
fn counted(words: &[u32], rho: u32) -> Option<(u64, u64)> {
    let (mut estimate, mut work) = slices();
    let table = analyse(words, rho, 0, &mut estimate, &mut work).ok()?;
    let size = words.len();
    Some((u64::from(facts(&table, &estimate)), (size * (2 * (plain(table.names) + size) + 25)) as u64))
}

/// The ceilings at which the answer changes, none, the figure that no system passes, and one less.
fn around(words: &[u32], rho: u32) {
    let Some((n, figure)) = counted(words, rho) else { return };
    assert!(n <= figure);
    for ceiling in [0, n.saturating_sub(1), n, n + 1, figure.saturating_sub(1), figure] {
        let text = printed(words, rho, ceiling);
        if ceiling < n {
            assert_eq!(text, format!("refused 23 at {ceiling}\n"), "{words:08x?}");
        } else {
            assert!(text.ends_with(&format!(" facts {n}\n")), "{text} {words:08x?}");
        }
    }
}

#[test]
fn every_sample() {
    for sample in samples() {
        around(&sample.words, sample.rho);
    }
}

#[test]
fn random_systems() {
    let rounds: usize = std::env::var("PEER_ROUNDS").map_or(1, |times| times.parse().expect("PEER_ROUNDS is a number"));
    let mut random = Random(23);
    for round in 0..120 * rounds {
        let (names, words) = (WIDTHS[round % 2], 20 + random.below(400));
        let table = sensible_table(&mut random, names, words, names as usize / 4);
        let rho = random.permissions(4);
        around(&table, rho);
    }
}
