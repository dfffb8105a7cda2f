//! The proved program `class`, run as a user runs it, against the independent implementation: whole streams of systems of either width, streams cut at
//! every byte, the largest ones, and random ones. WIPHOSEGA_CLASS names it; PEER_ROUNDS makes the run longer.
#![cfg(proved)]

use peer::class::{record, report, MOST_SYSTEMS, MOST_SYSTEM_WORDS};
use peer::generate::{exact_table, words, Random};
use peer::samples::{forty_one, samples};
use peer::table::WIDTHS;
use std::io::Write;
use std::process::{Command, Stdio};

/// What the program prints for a stream that comes in these pieces. It may end before it has read all of them.
fn printed<'a>(pieces: impl Iterator<Item = &'a [u8]>) -> String {
    let name = std::env::var("WIPHOSEGA_CLASS").expect("WIPHOSEGA_CLASS names the program");
    let mut child = Command::new(name).stdin(Stdio::piped()).stdout(Stdio::piped()).spawn().expect("the program can be started");
    let mut input = child.stdin.take().unwrap();
    let mut output = child.stdout.take().unwrap();
    let reader = std::thread::spawn(move || {
        let mut text = String::new();
        std::io::Read::read_to_string(&mut output, &mut text).expect("the program prints text");
        text
    });
    for piece in pieces {
        if input.write_all(piece).and_then(|()| input.flush()).is_err() {
            break;
        }
    }
    drop(input);
    assert!(child.wait().expect("the program ends").success());
    reader.join().unwrap()
}

fn compare(stream: &[u8]) -> String {
    let text = printed(std::iter::once(stream));
    assert_eq!(text, report(stream));
    text
}

fn direct() -> Vec<u32> {
    vec![0x0100_0001, 0x0200_0000, 0x0300_0003, 0x0400_0000, 0x2400_0002]
}

fn wide_direct() -> Vec<u32> {
    [&[0x0500_0001], &direct()[1..]].concat()
}

/// The wish's own example, whole.
#[test]
fn example() {
    let totals: String = (0..24).map(|permission| format!("permission {permission} leaks 0 of 0\n")).collect();
    assert_eq!(compare(&[0; 8]), format!("0 811c9dc5 refused 1 at 0\naccepted 0 refused 1\n{totals}"));
    assert_eq!(compare(&[]), format!("accepted 0 refused 0\n{totals}"));
}

/// All samples of document 01 in one stream, as far as they fit.
#[test]
fn every_sample() {
    let fitting = samples().into_iter().filter(|sample| sample.words.len() <= MOST_SYSTEM_WORDS);
    let stream: Vec<u8> = fitting.flat_map(|sample| record(sample.rho, &sample.words)).collect();
    let text = compare(&stream);
    assert!(text.contains(" leak 000002\n") && text.contains(" refused 10 at 4\n") && text.contains("permission 23"));
}

/// Systems of both widths in one stream.
#[test]
fn either_width() {
    let systems = [wide_direct(), direct(), forty_one(), vec![0x0500_0041], vec![0x0500_0040], vec![0x0500_0000]];
    let text = compare(&systems.map(|words| record(0, &words)).concat());
    let said: Vec<&str> = text.lines().take(6).map(|line| line.splitn(3, ' ').nth(2).unwrap()).collect();
    assert_eq!(said, ["leak 000002", "leak 000002", "leak 000002", "refused 3 at 0", "refused 4 at 1", "leak 000000"]);
    assert!(text.contains("\naccepted 4 refused 2\n") && text.contains("\npermission 1 leaks 3 of 4\n"));
}

/// 58 wherever a stream ends inside a system; a stream that ends between two is whole.
#[test]
fn cut_at_every_byte() {
    let systems = [record(0, &direct()), record(0, &[]), record(1 << 24, &direct()), record(u32::MAX, &[]), record(0, &wide_direct())];
    let stream = systems.concat();
    let mut ends = vec![0];
    for system in &systems {
        ends.push(ends.last().unwrap() + system.len());
    }
    for length in 0..=stream.len() {
        let text = compare(&stream[..length]);
        let whole = ends.iter().position(|&end| end == length);
        let begun = ends.iter().filter(|&&end| end < length).count();
        match whole {
            Some(_) => assert!(text.ends_with(" of 0\n") || text.ends_with(" of 1\n") || text.ends_with(" of 2\n"), "{text}"),
            None => assert!(text.ends_with(&format!("refused 58 at {}\n", begun - 1)), "{text}"),
        }
    }
}

/// However the stream comes.
#[test]
fn any_pieces() {
    let mut random = Random(14);
    let stream: Vec<u8> = (0..30).flat_map(|_| record(random.permissions(3), &table_for(&mut random))).collect();
    let expected = report(&stream);
    for size in [1, 3, 4, 1031, 1032, 1033, 4096] {
        assert_eq!(printed(stream.chunks(size)), expected, "pieces of {size}");
    }
}

/// 10,000 systems pass, and one byte more is 61, before 58 and 59.
#[test]
fn most_systems() {
    let systems = vec![0; 8 * MOST_SYSTEMS];
    assert!(compare(&systems).contains("accepted 0 refused 10000\n"));
    for more in [&[0][..], &[0; 8], &[1, 1, 0, 0], &[1, 1, 0]] {
        assert!(compare(&[&systems, more].concat()).ends_with("9999 811c9dc5 refused 1 at 0\nrefused 61 at 10000\n"));
    }
}

/// A length of 256 passes; over that it is 59 as soon as the length word is there, whatever follows.
#[test]
fn lengths() {
    let mut random = Random(15);
    for names in WIDTHS {
        let most = exact_table(&mut random, names, MOST_SYSTEM_WORDS);
        assert!(compare(&record(0, &most)).starts_with("0 "));
    }
    assert!(compare(&record(0, &vec![0; 256])).contains(" refused 1 at 0\n"));
    assert_eq!(compare(&record(0, &vec![0; 257])), "refused 59 at 0\n");
    for length in [257_u32, 258, 65_536, 1 << 24, u32::MAX] {
        let stream = [&record(0, &direct())[..], &length.to_le_bytes()].concat();
        assert!(compare(&stream).ends_with("leak 000002\nrefused 59 at 1\n"));
        assert!(compare(&stream[..stream.len() - 1]).ends_with("leak 000002\nrefused 58 at 1\n"));
    }
    assert!(compare(&256_u32.to_le_bytes()).ends_with("refused 58 at 0\n"));
}

/// ρ's 20 comes after the table's numbers, and counts as refused.
#[test]
fn high_bits() {
    for rho in [1 << 24, 1 << 31, u32::MAX] {
        let text = compare(&[record(rho, &direct()), record(rho, &[]), record(0x00ff_ffff, &direct())].concat());
        let lines: Vec<&str> = text.lines().collect();
        assert!(lines[0].ends_with(" refused 20 at 0") && lines[1].ends_with(" refused 1 at 0") && lines[2].ends_with(" leak 000002"));
        assert_eq!(lines[3], "accepted 1 refused 2");
        assert_eq!(lines[5], "permission 1 leaks 1 of 1");
    }
}

/// A table of either width and at most 256 words of any sort, or damaged, or random words.
fn table_for(random: &mut Random) -> Vec<u32> {
    let names = *random.pick(&WIDTHS);
    let words = words(random, names);
    if words.len() <= MOST_SYSTEM_WORDS {
        words
    } else {
        table_for(random)
    }
}

#[test]
fn random_streams() {
    let rounds: u64 = std::env::var("PEER_ROUNDS").map_or(1, |times| times.parse().expect("PEER_ROUNDS is a number"));
    let mut random = Random(16);
    let (mut whole, mut broken) = (0, 0);
    for _ in 0..120 * rounds {
        let systems = random.below(40);
        let mut stream = Vec::new();
        for _ in 0..systems {
            let rho = if random.once_in(20) { 1 << (24 + random.below(8)) } else { random.permissions(4) };
            stream.extend(record(rho, &table_for(&mut random)));
        }
        match random.below(6) {
            0 => stream.truncate(random.below(stream.len() + 1)),
            1 => stream.extend(257_u32.to_le_bytes()),
            2 => stream.extend((0..1 + random.below(12)).map(|_| random.number() as u8).collect::<Vec<_>>()),
            _ => {}
        }
        let size = 1 + random.below(5000);
        let text = printed(stream.chunks(size));
        assert_eq!(text, report(&stream));
        if text.contains("\npermission 23 ") {
            whole += 1;
        } else {
            broken += 1;
        }
    }
    println!("{whole} whole streams, {broken} broken ones");
    assert!(whole > 20 && broken > 5);
}
