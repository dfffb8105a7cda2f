//! Times of the proved program `class`, its first argument, on streams of 10,000 systems of 256 words, beside the peer's: the best of some runs of each in turn.

use peer::class::{record, report, MOST_SYSTEMS, MOST_SYSTEM_WORDS};
use peer::generate::{exact_table, sensible_table, Random};
use peer::table::{NARROW, WIDE};
use std::fs::File;
use std::process::{Command, Stdio};
use std::time::{Duration, Instant};

const RUNS: usize = 3;

/// A stream of the most systems, each of the most words.
fn stream(mut words: impl FnMut() -> Vec<u32>) -> Vec<u8> {
    let mut stream = Vec::new();
    for position in 0..MOST_SYSTEMS {
        let mut words = words();
        words.resize(MOST_SYSTEM_WORDS, 0);
        stream.extend(record(position as u32 % 16, &words));
    }
    stream
}

/// A sensible table of exactly the most words: smaller ones are passed over.
fn sensible(random: &mut Random, names: u32) -> Vec<u32> {
    loop {
        let words = sensible_table(random, names, MOST_SYSTEM_WORDS, names as usize / 2);
        if words.len() == MOST_SYSTEM_WORDS {
            return words;
        }
    }
}

fn main() {
    let program = std::env::args().nth(1).expect("the program is the first argument");
    let path = std::env::temp_dir().join(format!("compare-class-{}", std::process::id()));
    let mut random = Random(1);
    let (mut second, mut third) = (Random(2), Random(3));
    let streams = [
        ("any terms", stream(|| exact_table(&mut random, NARROW, MOST_SYSTEM_WORDS))),
        ("sensible systems", stream(|| sensible(&mut second, NARROW))),
        ("sensible wide systems", stream(|| sensible(&mut third, WIDE))),
        ("refused at the first word", stream(Vec::new)),
    ];
    println!("{:36} {:>10} {:>10} {:>6}", "10,000 systems of 256 words", "ms", "peer ms", "ratio");
    for (name, stream) in streams {
        std::fs::write(&path, &stream).expect("the stream can be written");
        let mut best = [Duration::MAX; 2];
        for _ in 0..RUNS {
            let start = Instant::now();
            let output = Command::new(&program).stdin(Stdio::from(File::open(&path).unwrap())).output().expect("the program runs");
            best[0] = best[0].min(start.elapsed());
            let start = Instant::now();
            let text = report(&stream);
            best[1] = best[1].min(start.elapsed());
            assert!(output.stdout == text.as_bytes(), "{name}");
        }
        let [ours, peers] = best.map(|time| time.as_secs_f64() * 1e3);
        println!("{name:36} {ours:10.1} {peers:10.1} {:6.2}", ours / peers);
    }
    std::fs::remove_file(&path).expect("the stream can be removed");
}
