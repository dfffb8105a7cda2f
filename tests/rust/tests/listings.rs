//! The proved calls for listings, against the independent ones: answers and every byte of the output. PEER_ROUNDS makes the runs longer.
#![cfg(proved)]

use peer::generate::{damaged, random_words, table, Random};
use peer::inputs::inputs;
use peer::listing::{read, text, write, MOST_BYTES};
use peer::samples::samples;
use peer::table::{kind, Refusal, NARROW, WIDE};
use peer::terms::{block, exercise};
use peer::verdict::bytes_of;
use std::time::Instant;

extern "C" {
    /// As include/wiphosega.h declares them.
    fn wiphosega_listing_write(system: *const u8, system_bytes: usize, text: *mut u8, text_bytes: usize) -> u64;
    fn wiphosega_listing_read(text: *const u8, text_bytes: usize, system: *mut u8, system_bytes: usize) -> u64;
}

fn proved_write(system: &[u8], text: &mut [u8]) -> u64 {
    unsafe { wiphosega_listing_write(system.as_ptr(), system.len(), text.as_mut_ptr(), text.len()) }
}

fn proved_read(text: &[u8], system: &mut [u8]) -> u64 {
    unsafe { wiphosega_listing_read(text.as_ptr(), text.len(), system.as_mut_ptr(), system.len()) }
}

fn rounds(usual: u64) -> u64 {
    usual * std::env::var("PEER_ROUNDS").map_or(1, |times| times.parse().expect("PEER_ROUNDS is a number"))
}

fn number(refusal: Refusal) -> u64 {
    (1 << 32) + u64::from(refusal.number) * 65_536 + refusal.place as u64
}

/// Compares the answer and every byte of an output of `size` bytes.
fn compare(call: impl Fn(&mut [u8]) -> u64, expected: Result<Vec<u8>, Refusal>, size: usize) {
    let mut output = vec![0xa5; size];
    let answer = call(&mut output);
    match expected {
        Ok(bytes) => {
            assert_eq!(answer, bytes.len() as u64);
            assert!(output[..bytes.len()] == bytes[..] && output[bytes.len()..].iter().all(|&b| b == 0xa5));
        }
        Err(refusal) => {
            assert_eq!(answer, number(refusal), "{refusal:?}");
            assert!(output.iter().all(|&b| b == 0xa5));
        }
    }
}

fn compare_write(words: &[u32], size: usize) -> Result<Vec<u8>, Refusal> {
    let expected = write(words, size);
    compare(|output| proved_write(&bytes_of(words), output), expected.clone(), size);
    expected
}

fn compare_read(text: &[u8], size: usize) -> Result<Vec<u32>, Refusal> {
    let expected = read(text, size / 4);
    compare(|output| proved_read(text, output), expected.clone().map(|words| bytes_of(&words)), size);
    expected
}

#[test]
fn samples_and_their_rooms() {
    for sample in samples() {
        if let Ok(text) = compare_write(&sample.words, 70_000) {
            for size in [text.len(), text.len() + 1, text.len() - 1, 0] {
                let _ = compare_write(&sample.words, size);
            }
            let bytes = 4 * sample.words.len();
            for size in [bytes, bytes + 3, bytes + 4, bytes - 1, 0] {
                let _ = compare_read(&text, size);
            }
        }
    }
    let mut output = [0xa5; 100];
    for system in [&[0u8; 1][..], &[1; 2], &[0; 3], &[0; 4099]] {
        assert_eq!(proved_write(system, &mut output), (1 << 32) + 30 * 65_536);
    }
    assert_eq!(output, [0xa5; 100]);
}

/// A wide table is refused with 1 at 0, whatever else is wrong with it and however short the output is.
#[test]
fn wide_tables() {
    for words in [vec![0x0500_0000], vec![0x0500_0041], vec![0x0500_0001], vec![0x0500_0000; 1025], [&[0x0500_0001], &block(0, 3, 0, exercise(2))[..]].concat()] {
        for size in [0, 70_000] {
            assert_eq!(compare_write(&words, size), Err(Refusal { number: 1, place: 0 }));
        }
    }
}

#[test]
fn random_systems() {
    let mut random = Random(31);
    for round in 0..rounds(22_500) {
        let words = match round % 9 {
            0 => random_words(&mut random),
            1 => {
                let words = table(&mut random, NARROW);
                damaged(&mut random, words)
            }
            2 => table(&mut random, WIDE),
            _ => table(&mut random, NARROW),
        };
        if let Ok(text) = compare_write(&words, 70_000) {
            assert_eq!(compare_read(&text, 4096), Ok(words));
        }
    }
}

#[test]
fn damaged_texts() {
    let mut random = Random(32);
    let mut numbers = std::collections::BTreeMap::new();
    for _ in 0..rounds(60) {
        let words = table(&mut random, NARROW);
        let Ok(text) = write(&words, MOST_BYTES) else { continue };
        for place in 0..text.len() {
            for damage in 0..4 {
                let mut damaged = text.clone();
                match damage {
                    0 => damaged[place] ^= 1 << random.below(8),
                    1 => drop(damaged.remove(place)),
                    2 => damaged.insert(place, damaged[place]),
                    _ => damaged[place] = *random.pick(b" \n\r\t0-aAf9"),
                }
                if damaged.len() < 3000 {
                    let answer = compare_read(&damaged, 4096);
                    *numbers.entry(answer.map_or_else(|refusal| refusal.number, |_| 0)).or_insert(0) += 1;
                }
            }
        }
    }
    println!("{numbers:?}");
}

#[test]
fn short_texts() {
    let lines = ["", "\n", " ", "system 0", "system 0\n", "  system 0\n", "system 00\n", "system +0\n", "system -0\n", "System 0\n", "system 0\r\n"];
    for line in lines {
        let _ = compare_read(line.as_bytes(), 4096);
    }
    assert_eq!(compare_read(b"", 4096), Err(Refusal { number: 1, place: 0 }));
    assert_eq!(compare_read(b"system 0\n", 4096), Ok(vec![0x0100_0000]));
    // a wrong line before everything but the length, leading spaces behind the table, the room last
    assert_eq!(compare_read(b"  system 1\nx\n", 0), Err(Refusal { number: 40, place: 2 }));
    assert_eq!(compare_read(b"  system 1\n", 0), Err(Refusal { number: 4, place: 1 }));
    assert_eq!(compare_read(b"  system 0\n", 0), Err(Refusal { number: 40, place: 1 }));
    assert_eq!(compare_read(b"system 0\n", 3), Err(Refusal { number: 42, place: 0 }));
}

#[test]
fn more_lines_than_words() {
    for (first, expected) in [("system 0\n", 2), ("if\n", 1)] {
        for lines in [1025, 1026, 5000] {
            let mut text = first.as_bytes().to_vec();
            text.extend(b"if\n".repeat(lines - 1));
            assert_eq!(compare_read(&text, 4096), Err(Refusal { number: expected, place: 0 }));
            text.extend(b"x\n");
            assert_eq!(compare_read(&text, 4096), Err(Refusal { number: 40, place: lines + 1 }));
        }
    }
}

/// A table with a listing of this many bytes: combs of sequences to the depth 64, and numbers with as many digits as are wanted.
fn table_of(bytes: usize) -> Vec<u32> {
    let mut words = vec![0x0100_0000];
    let mut handlers = 0;
    while text(&words).len() + 11_000 < bytes {
        let mut block = vec![u32::from(kind::BLOCK) << 24 | handlers, u32::from(kind::PERMISSIONS) << 24, u32::from(kind::GUARD) << 24];
        for _ in 0..63 {
            block.extend([u32::from(kind::SEQUENCE) << 24, u32::from(kind::NUMBER) << 24]);
        }
        block.push(u32::from(kind::NUMBER) << 24);
        words.extend(block);
        handlers += 1;
        words[0] = 0x0100_0000 | handlers;
    }
    // one more block whose body is a comb of fitting depth, then digits
    let mut depth = 0;
    loop {
        let mut longer = words.clone();
        longer[0] = 0x0100_0000 | (handlers + 1);
        longer.extend([u32::from(kind::BLOCK) << 24 | handlers, u32::from(kind::PERMISSIONS) << 24, u32::from(kind::GUARD) << 24]);
        for _ in 0..depth {
            longer.extend([u32::from(kind::SEQUENCE) << 24, u32::from(kind::NUMBER) << 24]);
        }
        longer.push(u32::from(kind::NUMBER) << 24);
        let missing = bytes as isize - text(&longer).len() as isize;
        assert!(missing >= 0, "too long at depth {depth}");
        if missing <= 1000 {
            let mut missing = missing as usize;
            for word in longer.iter_mut().filter(|word| **word >> 24 == u32::from(kind::NUMBER)) {
                let digits = missing.min(6);
                *word |= 10u32.pow(digits as u32) * u32::from(digits > 0);
                missing -= digits;
            }
            return longer;
        }
        depth += 1;
    }
}

#[test]
fn the_longest_listing() {
    for bytes in [65_535, 65_536, 65_537] {
        let words = table_of(bytes);
        let made = text(&words);
        assert_eq!(made.len(), bytes);
        let written = compare_write(&words, 70_000);
        let back = compare_read(&made, 4096);
        if bytes > MOST_BYTES {
            assert_eq!(written, Err(Refusal { number: 41, place: 0 }));
            assert_eq!(back, Err(Refusal { number: 41, place: 0 }));
        } else {
            assert_eq!(written, Ok(made));
            assert_eq!(back, Ok(words));
        }
    }
}

/// The least of many times, in microseconds.
fn least(times: usize, mut call: impl FnMut()) -> u128 {
    let time = |call: &mut dyn FnMut()| {
        let start = Instant::now();
        call();
        start.elapsed().as_nanos()
    };
    (0..times).map(|_| time(&mut call)).min().unwrap() / 1000
}

#[test]
fn times() {
    let long = inputs().into_iter().filter(|input| input.words.len() >= 1000 && write(&input.words, MOST_BYTES).is_ok());
    for input in long.take(6) {
        let (system, made) = (bytes_of(&input.words), text(&input.words));
        let (mut output, mut words) = (vec![0; MOST_BYTES], vec![0; 4096]);
        let writing = least(200, || assert_eq!(proved_write(&system, &mut output), made.len() as u64));
        let reading = least(200, || assert_eq!(proved_read(&made, &mut words), system.len() as u64));
        println!("{}: {} lines, {} bytes: written in {writing} us, read in {reading} us", input.name, input.words.len(), made.len());
        assert!(writing < 1000 && reading < 1000);
    }
}
