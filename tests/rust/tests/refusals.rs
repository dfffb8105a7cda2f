//! Each refusal with its place, their order, and what happens to the lent slices.

use peer::estimate::Layout;
use peer::samples::samples;
use peer::table::{accept, kind::*, names_of, read, NARROW, STANDING_BOUND, WIDE, WIDTHS};
use peer::terms::*;
use peer::verdict::{bytes_of, verdict, verdict_of_bytes};

fn refusal(words: &[u32]) -> Option<(u32, usize)> {
    read(words).err().map(|refusal| (refusal.number, refusal.place))
}

/// The layout of an estimate of this sample.
fn layout(words: &[u32]) -> Layout {
    let kind = words.first().map_or(SYSTEM, |first| (first >> 24) as u8);
    Layout::sized(names_of(kind).unwrap_or(NARROW), words.len())
}

/// One handler with this body, given as words.
fn body(words: &[u32]) -> Vec<u32> {
    system(&[block(0, 3, 0, words.to_vec())])
}

#[test]
fn words_of_blocks() {
    let direct = body(&exercise(2));
    assert_eq!(refusal(&direct), None);
    assert_eq!(refusal(&[word(2, 0)]), Some((1, 0)));
    assert_eq!(refusal(&[word(SYSTEM, 33); 1025]), Some((2, 0)));
    assert_eq!(refusal(&[word(WIDE_SYSTEM, 65); 1025]), Some((2, 0)));
    for (kind, most) in [(SYSTEM, 32), (WIDE_SYSTEM, 64)] {
        assert_eq!(refusal(&[word(kind, 0)]), None);
        assert_eq!(refusal(&[word(kind, most)]), Some((4, 1)));
        assert_eq!(refusal(&[word(kind, most + 1)]), Some((3, 0)));
        assert_eq!(refusal(&[word(kind, 0x80_0000)]), Some((3, 0)));
    }
    for kind in (0..=255).filter(|kind| ![SYSTEM, WIDE_SYSTEM].contains(kind)) {
        assert_eq!(refusal(&[word(kind, 0)]), Some((1, 0)));
    }
    for at in 1..4 {
        assert_eq!(refusal(&direct[..at]), Some((4, at)));
        for kind in [0, 1, 5, 16, 20, 36, 255].into_iter().chain((2..5).filter(|&kind| kind != at as u8 + 1)) {
            let mut words = direct.clone();
            words[at] = word(kind, 0);
            assert_eq!(refusal(&words), Some((4, at)));
        }
    }
    assert_eq!(refusal(&direct[..4]), Some((8, 4)));
    for names in WIDTHS {
        let named = |name| system_with(names, &[block(name, 3, 0, exercise(2))]);
        assert_eq!(refusal(&named(names - 1)), None);
        assert_eq!(refusal(&named(names)), Some((5, 1)));
    }
    assert_eq!(refusal(&[direct.clone(), vec![word(7, 0)]].concat()), Some((12, 5)));
}

#[test]
fn names_with_permissions_stand_once() {
    let three = |name, permissions, guard| {
        let first = block(0, 3, 0, exercise(2));
        let second = block(1, 3, 0, exercise(2));
        refusal(&system(&[first, second, block(name, permissions, guard, exercise(0))]))
    };
    assert_eq!(three(0, 2, 0), None);
    assert_eq!(three(2, 3, 0), None);
    assert_eq!(three(0, 3, 4), Some((6, 10)));
    assert_eq!(three(1, 3, 4), Some((6, 10)));
}

#[test]
fn words_of_terms() {
    for kind in (0..16).chain(37..=255) {
        assert_eq!(refusal(&body(&[word(kind, 1)])), Some((7, 4)));
    }
    // The largest argument of each kind, and the least beyond.
    for (kind, most) in [(CONSTANT, 3), (LITERAL, 22), (NAME, 31), (OPERATION, 2), (EMPTY, 0)] {
        let parts = vec![word(CONSTANT, 0); peer::table::arity(kind)];
        assert_eq!(refusal(&body(&[vec![word(kind, most)], parts].concat())), None);
        assert_eq!(refusal(&body(&[word(kind, most + 1)])), Some((9, 4)));
    }
    assert_eq!(refusal(&system_with(WIDE, &[block(0, 3, 0, name(63))])), None);
    assert_eq!(refusal(&system_with(WIDE, &[block(0, 3, 0, name(64))])), Some((9, 4)));
    for kind in (FUNCTION..=WHILE).chain(EMPTY..=ASSIGN) {
        assert_eq!(refusal(&body(&[word(kind, 1)])), Some((9, 4)));
        assert_eq!(refusal(&body(&[word(kind, 0x80_0000)])), Some((9, 4)));
    }
    for kind in [NUMBER, EXERCISE] {
        assert_eq!(refusal(&body(&[word(kind, 0xff_ffff)])), None);
    }
    assert_eq!(refusal(&body(&send(0xff_ffff, variable(0), variable(0)))), None);
    for kind in CONSTANT..=EXERCISE {
        let parts = vec![word(CONSTANT, 0); peer::table::arity(kind)];
        let whole = body(&[vec![word(kind, 0)], parts].concat());
        assert_eq!(refusal(&whole), None);
        for end in 4..whole.len() {
            assert_eq!(refusal(&whole[..end]), Some((8, end)));
        }
    }
}

#[test]
fn variables_have_binders() {
    for (term, unbound) in [
        (variable(0), None),
        (variable(1), Some((10, 4))),
        (variable(0xff_ffff), Some((10, 4))),
        (function(variable(1)), None),
        (function(variable(2)), Some((10, 5))),
        (bind(variable(0), variable(1)), None),
        (bind(variable(1), variable(0)), Some((10, 5))),
        (bind(variable(0), variable(2)), Some((10, 6))),
        (apply(function(variable(1)), variable(1)), Some((10, 7))),
    ] {
        assert_eq!(refusal(&body(&term)), unbound);
    }
    // A binder of one block is none of the next.
    let second = system(&[block(0, 1, 0, function(variable(1))), block(1, 1, 0, variable(1))]);
    assert_eq!(refusal(&second), Some((10, 9)));
}

#[test]
fn depth_over_64_after_all_else() {
    let nest = |end: u32| body(&[vec![word(READ, 0); 64], vec![end]].concat());
    assert_eq!(refusal(&nest(word(CONSTANT, 0))), Some((11, 68)));
    assert_eq!(refusal(&nest(word(40, 0))), Some((7, 68)));
    assert_eq!(refusal(&nest(word(CONSTANT, 4))), Some((9, 68)));
    assert_eq!(refusal(&nest(word(VARIABLE, 1))), Some((10, 68)));
    assert_eq!(refusal(&nest(word(READ, 0))), Some((11, 68)));
    assert_eq!(refusal(&nest(0)[..68]), Some((8, 68)));
}

#[test]
fn order_of_the_callers_refusals() {
    for names in WIDTHS {
        order_with(system_with(names, &[block(0, 3, 0, exercise(2))]));
    }
}

fn order_with(good: Vec<u32>) {
    let (estimate, work) = (layout(&good).total(), 4 * good.len());
    let number = |words: &[u32], rho, bound, estimate, work| accept(words, rho, bound, estimate, work).err().map(|r| (r.number, r.place));
    assert_eq!(number(&good, 0xff_ffff, 0xff_ffff, estimate, work), None);
    assert_eq!(number(&good, 0, STANDING_BOUND, estimate, work), None);
    assert_eq!(number(&good[..4], STANDING_BOUND, 1 << 24, 0, 0), Some((8, 4)));
    assert_eq!(number(&good, STANDING_BOUND, 0, 0, 0), Some((20, 0)));
    assert_eq!(number(&good, 1 << 24, STANDING_BOUND, 0, 0), Some((20, 0)));
    assert_eq!(number(&good, 0, STANDING_BOUND + 1, 0, 0), Some((20, 0)));
    assert_eq!(number(&good, 0, 0, estimate - 1, 0), Some((21, 0)));
    assert_eq!(number(&good, 0, 0, estimate, work - 1), Some((22, 0)));
}

#[test]
fn slices_of_words() {
    for sample in samples() {
        let Layout { size, row, .. } = layout(&sample.words);
        let (mut estimate, mut work) = (vec![0xa5a5_a5a5; 2 * size * row + size + 3], vec![0x5a5a_5a5a; 4 * size + 3]);
        let before = (estimate.clone(), work.clone());
        if verdict(&sample.words, sample.rho, sample.bound, &mut estimate, &mut work).is_err() {
            assert!((estimate, work) == before);
        } else {
            assert!(work[..4 * size].iter().all(|&word| word == 0));
            assert!(work[4 * size..].iter().all(|&word| word == 0x5a5a_5a5a));
            assert!(estimate[2 * size * row + size..].iter().all(|&word| word == 0xa5a5_a5a5));
        }
    }
}

#[test]
fn slices_of_bytes() {
    for sample in samples().into_iter().filter(|sample| sample.words.len() <= 256) {
        let size = sample.words.len();
        for odd in 0..4 {
            let (mut estimate, mut work) = (vec![0xa5; 4 * layout(&sample.words).total() + odd], vec![0x5a; 16 * size + odd]);
            let before = (estimate.clone(), work.clone());
            let answer = verdict_of_bytes(&bytes_of(&sample.words), sample.rho, sample.bound, &mut estimate, &mut work);
            if answer >> 32 != 0 {
                assert!((estimate, work) == before);
            } else {
                assert!(work[..16 * size].iter().all(|&byte| byte == 0));
                assert!(work[16 * size..].iter().all(|&byte| byte == 0x5a));
                assert!(estimate[estimate.len() - odd..].iter().all(|&byte| byte == 0xa5));
            }
        }
    }
}

#[test]
fn answers_of_the_c_interface() {
    let refused = |number: u64, place: u64| (1 << 32) + number * 65_536 + place;
    let ask = |system: &[u8], rho, bound| verdict_of_bytes(system, rho, bound, &mut [0; 30_000], &mut [0; 5_000]);
    assert_eq!(ask(&[0; 1025], 0, 0), refused(31, 0));
    assert_eq!(ask(&[0; 1023], 0, 0), refused(30, 0));
    assert_eq!(ask(&[0; 1024], 0, 0), refused(1, 0));
    assert_eq!(ask(&[], 0, 0), refused(1, 0));
    assert_eq!(ask(&[1], STANDING_BOUND, 0), refused(30, 0));
    let direct = bytes_of(&body(&exercise(2)));
    assert_eq!(ask(&direct[..16], 0, 0), refused(8, 4));
    assert_eq!(ask(&direct, 0, 0), 0x0100_0002);
    assert_eq!(ask(&direct, 0, 2), 2);
    assert_eq!(ask(&direct, 2, 2), 2);
    assert_eq!(ask(&direct, 2, STANDING_BOUND), 0x0100_0002);
    assert_eq!(verdict_of_bytes(&direct, 0, 0, &mut [0; 4 * 35 - 1], &mut [0; 80]), refused(21, 0));
    assert_eq!(verdict_of_bytes(&direct, 0, 0, &mut [0; 4 * 35], &mut [0; 79]), refused(22, 0));
    assert_eq!(verdict_of_bytes(&direct, 0, 0, &mut [0; 4 * 35], &mut [0; 80]), 0x0100_0002);
    let wide = bytes_of(&system_with(WIDE, &[block(0, 3, 0, exercise(2))]));
    assert_eq!(ask(&wide, 0, 0), 0x0100_0002);
    assert_eq!(verdict_of_bytes(&wide, 0, 0, &mut [0; 4 * 45 - 1], &mut [0; 80]), refused(21, 0));
    assert_eq!(verdict_of_bytes(&wide, 0, 0, &mut [0; 4 * 45], &mut [0; 79]), refused(22, 0));
    assert_eq!(verdict_of_bytes(&wide, 0, 0, &mut [0; 4 * 45], &mut [0; 80]), 0x0100_0002);
}
