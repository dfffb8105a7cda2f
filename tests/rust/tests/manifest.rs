//! The independent reading of texts and manifests on inputs whose answers were written down from RFC 8259 and document 02.

use peer::generate::Random;
use peer::manifest::{answer, parse, read, Manifest};
use peer::manifest_inputs::{accepted, damaged, manifests, nested, of_depth, of_length, random_damage, random_manifest, refused};
use std::collections::BTreeMap;

#[test]
fn texts() {
    for text in accepted() {
        assert!(parse(&text, 16).is_some(), "{:?}", String::from_utf8_lossy(&text));
    }
    for text in refused() {
        assert!(parse(&text, 16).is_none(), "{:?}", String::from_utf8_lossy(&text));
    }
    assert!(parse(&nested(16), 15).is_none());
    assert!(parse(b"7", 0).is_some() && parse(b"[]", 0).is_none());
}

#[test]
fn answers() {
    for (text, expected) in manifests() {
        let expected = expected.map(|(version, set, others)| Manifest { version, set, others });
        assert_eq!(read(text.as_bytes()), expected, "{text}");
    }
    assert_eq!(answer(b"{\"manifest_version\":3,\"permissions\":[\"x\"]}"), 3 << 24 | 1 << 40);
    assert_eq!(answer(b"{}"), (1 << 32) + 45 * 65_536);
}

#[test]
fn limits() {
    assert_eq!(read(&of_length(16_384)), Ok(Manifest { version: 2, set: 2, others: 0 }));
    assert_eq!(read(&of_length(16_385)), Err(43));
    assert_eq!(read(&of_depth(16)), Ok(Manifest { version: 2, set: 0, others: 0 }));
    assert_eq!(read(&of_depth(17)), Err(43));
}

/// Every damage is judged, and most of them are refused.
#[test]
fn damage() {
    let (mut all, mut kept) = (0, 0);
    for (text, _) in manifests() {
        damaged(text.as_bytes(), |changed| {
            all += 1;
            kept += read(changed).is_ok() as usize;
        });
    }
    assert!(all > 100_000 && kept * 2 < all, "{kept} of {all}");
}

/// Random manifests are judged in every way but 43, and their damaged forms in every way.
#[test]
fn random() {
    let mut random = Random(4);
    let (mut whole, mut broken) = (BTreeMap::new(), BTreeMap::new());
    for _ in 0..20_000 {
        let text = random_manifest(&mut random);
        *whole.entry(read(&text).err()).or_insert(0) += 1;
        *broken.entry(read(&random_damage(&mut random, text)).err()).or_insert(0) += 1;
    }
    assert_eq!(whole.keys().copied().collect::<Vec<_>>(), [None, Some(44), Some(45), Some(46)]);
    assert_eq!(broken.keys().copied().collect::<Vec<_>>(), [None, Some(43), Some(44), Some(45), Some(46)]);
}
