//! The proved call for manifests against the independent reader. PEER_ROUNDS makes the runs longer.
#![cfg(proved)]

use peer::generate::Random;
use peer::manifest::answer;
use peer::manifest_inputs::{accepted, damaged, manifests, of_depth, of_length, random_damage, random_manifest, refused};
use std::collections::BTreeMap;

extern "C" {
    /// As include/wiphosega.h declares it.
    fn wiphosega_manifest(json: *const u8, json_bytes: usize) -> u64;
}

fn proved(json: &[u8]) -> u64 {
    unsafe { wiphosega_manifest(json.as_ptr(), json.len()) }
}

fn rounds(usual: u64) -> u64 {
    usual * std::env::var("PEER_ROUNDS").map_or(1, |times| times.parse().expect("PEER_ROUNDS is a number"))
}

/// The answer of both; bit 32 says whether it is a refusal, and its number follows.
fn compare(json: &[u8]) -> u64 {
    let answer = answer(json);
    assert_eq!(proved(json), answer, "{:?}", String::from_utf8_lossy(json));
    if answer >> 32 & 1 == 0 {
        0
    } else {
        answer >> 16 & 0xffff
    }
}

#[test]
fn written_answers() {
    for (text, expected) in manifests() {
        let number = match expected {
            Ok((version, set, others)) => u64::from(set) | u64::from(version) << 24 | u64::from(others) << 40,
            Err(number) => (1 << 32) + u64::from(number) * 65_536,
        };
        assert_eq!(proved(text.as_bytes()), number, "{text}");
        damaged(text.as_bytes(), |changed| {
            compare(changed);
        });
    }
    for text in accepted().into_iter().chain(refused()) {
        compare(&text);
        compare(&[b"{\"manifest_version\":2,\"a\":".as_slice(), &text, b"}"].concat());
    }
    for text in [of_length(16_384), of_length(16_385), of_depth(16), of_depth(17), Vec::new()] {
        compare(&text);
    }
}

#[test]
fn random_manifests() {
    let mut random = Random(43);
    let mut counts = BTreeMap::new();
    for _ in 0..rounds(10_000) {
        let text = random_manifest(&mut random);
        *counts.entry(compare(&text)).or_insert(0u64) += 1;
        *counts.entry(compare(&random_damage(&mut random, text))).or_insert(0u64) += 1;
    }
    println!("accepted (0) and refusals by number: {counts:?}");
    assert!([0, 43, 44, 45, 46].iter().all(|number| counts.get(number).is_some_and(|&count| count > 50)), "{counts:?}");
}
