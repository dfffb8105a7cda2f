//! Document 01's samples, starred or not, with what it says of them, and wide tables (document 02, wish 13); the facts are those with the senders' sets
//! (wish 8).

use crate::table::{kind::*, STANDING_BOUND, WIDE};
use crate::terms::*;

/// What the document says: the leak, and the facts where it gives them; or a refusal's number and place.
#[derive(Clone, Copy, Debug)]
pub enum Expected {
    Leak(u32, Option<u32>),
    Refused(u32, usize),
}
use Expected::*;

pub struct Sample {
    pub name: &'static str,
    pub words: Vec<u32>,
    pub rho: u32,
    pub bound: u32,
    pub expected: Expected,
}

fn hex(text: &str) -> Vec<u32> {
    text.split_whitespace().map(|word| u32::from_str_radix(word, 16).unwrap()).collect()
}

/// One function inside the other, to this depth.
fn nested(depth: usize) -> Term {
    [vec![word(FUNCTION, 0); depth - 1], constant(0)].concat()
}

/// A system of this many words: 30 handlers, the last one filled up.
fn large(size: usize) -> Vec<u32> {
    let bodies = |i: u32| if i < 29 { nested(30) } else { filled(size - 1 - 29 * 33 - 3) };
    system(&(0..30).map(|i| block(i, 1, 0, bodies(i))).collect::<Vec<_>>())
}

/// A term of this many words.
fn filled(size: usize) -> Term {
    match size {
        1 => constant(0),
        2 => nested(2),
        _ => [vec![word(SEQUENCE, 0)], constant(0), filled(size - 2)].concat(),
    }
}

const RELAY: &str = "01000002 02000000 03000008 04000000 23000000 13000001 14000000 02000001 03000002 04000008 24000002";

pub fn samples() -> Vec<Sample> {
    let mut samples = Vec::new();
    let mut add = |name, words, rho, expected| samples.push(Sample { name, words, rho, bound: 0, expected });
    let body = |text: &str| hex(&format!("01000001 02000000 03000003 04000000 {text}"));

    add("no handlers", hex("01000000"), 0, Leak(0, Some(0)));
    add("direct", body("24000002"), 0, Leak(2, Some(70)));
    let guarded = hex("01000001 02000000 03000003 04000004 24000002");
    add("direct with guard 4", guarded.clone(), 0, Leak(0, Some(0)));
    add("direct with guard 4 and rho 4", guarded, 4, Leak(2, None));
    add("exercise outside", body("24000004"), 0, Leak(0, Some(67)));
    add("if true", body("19000000 10000002 24000001 24000002"), 0, Leak(1, None));
    add("if message", body("19000000 14000000 24000001 24000002"), 0, Leak(3, None));
    add("applied function", body("16000000 15000000 24000001 10000000"), 0, Leak(1, Some(78)));
    add("function alone", body("15000000 24000001"), 0, Leak(0, Some(68)));
    add("unbound variable", body("14000001"), 0, Refused(10, 4));
    add("relay", hex(RELAY), 0, Leak(2, Some(207)));
    add("relay with required set 1", hex(&RELAY.replace("23000000", "23000001")), 0, Leak(0, None));
    let twins = RELAY.replace("01000002", "01000003").replace("23000000", "23000004") + " 02000001 03000004 04000008 24000004";
    add("twins", hex(&twins), 0, Leak(4, Some(207)));
    add("no words", vec![], 0, Refused(1, 0));
    add("32 handlers and no words", hex("01000020"), 0, Refused(4, 1));
    add("33 handlers", hex("01000021"), 0, Refused(3, 0));
    add("01000000 twice", hex("01000000 01000000"), 0, Refused(12, 1));
    add("depth 64", system(&[block(0, 3, 0, nested(64))]), 0, Leak(0, None));
    add("depth 65", system(&[block(0, 3, 0, nested(65))]), 0, Refused(11, 68));
    add("1,024 words", large(1024), 0, Leak(0, None));
    add("1,025 words", large(1025), 0, Refused(2, 0));
    for (name, words) in [("direct, the standing bound", body("24000002")), ("relay, the standing bound", hex(RELAY))] {
        samples.push(Sample { name, words, rho: 2, bound: STANDING_BOUND, expected: Leak(2, None) });
    }
    samples.extend(traps());
    samples.extend(wide());
    samples
}

/// 41 handlers of which each hands its message to the next; the first alone is open to the opponent, the last alone exercises.
pub fn forty_one() -> Vec<u32> {
    let body = |i: u32| if i == 40 { exercise(2) } else { send(0, name(i + 1), variable(0)) };
    system_with(WIDE, &(0..41).map(|i| block(i, 10, if i == 0 { 0 } else { 8 }, body(i))).collect::<Vec<_>>())
}

/// Wide tables, and narrow ones with what only a wide one may have.
fn wide() -> Vec<Sample> {
    let body = |text: &str| hex(&format!("05000001 02000000 03000003 04000000 {text}"));
    let large = |size| [vec![word(WIDE_SYSTEM, 30)], large(size)[1..].to_vec()].concat();
    let one = |name, body| system_with(WIDE, &[block(name, 3, 0, body)]);
    let choice = |x, y| one(0, branch(term(OPERATION, 2, [name(x), name(y)]), exercise(1), exercise(2)));
    let other_name = system_with(WIDE, &[block(0, 8, 0, send(0, variable(0), constant(1))), block(63, 2, 8, exercise(2))]);
    let full = system_with(WIDE, &(0..64).map(|i| block(i, 2, u32::from(i < 63), exercise(2))).collect::<Vec<_>>());
    [
        ("wide, no handlers", hex("05000000"), Leak(0, Some(0))),
        ("wide direct", body("24000002"), Leak(2, Some(102))),
        ("wide, exercise outside", body("24000004"), Leak(0, Some(99))),
        ("wide relay", hex(&RELAY.replacen("01", "05", 1)), Leak(2, Some(303))),
        ("wide, 64 handlers and no words", hex("05000040"), Refused(4, 1)),
        ("wide, 65 handlers", hex("05000041"), Refused(3, 0)),
        ("wide, a block of name 63", one(63, exercise(2)), Leak(2, Some(102))),
        ("wide, a block of name 64", one(64, exercise(2)), Refused(5, 1)),
        ("wide, name 63", body("1300003f"), Leak(0, Some(100))),
        ("wide, name 64", body("13000040"), Refused(9, 4)),
        ("narrow, name 31", system(&[block(0, 3, 0, name(31))]), Leak(0, Some(68))),
        ("narrow, name 32", system(&[block(0, 3, 0, name(32))]), Refused(9, 4)),
        ("narrow, a block of name 32", system(&[block(32, 3, 0, exercise(2))]), Refused(5, 1)),
        ("wide, 41 handlers", forty_one(), Leak(2, None)),
        ("wide, 64 handlers", full, Leak(2, None)),
        ("wide, 1,024 words", large(1024), Leak(0, None)),
        ("wide, 1,025 words", large(1025), Refused(2, 0)),
        ("wide, equal names over 31", choice(40, 40), Leak(1, None)),
        ("wide, different names over 31", choice(40, 41), Leak(2, None)),
        ("wide, a name over 31 and another below", choice(40, 8), Leak(2, None)),
        ("wide, the message may be name 63", other_name, Leak(2, None)),
    ]
    .map(|(name, words, expected)| Sample { name, words, rho: 0, bound: 0, expected })
    .into()
}

/// Tables on which an analyser that falls into one of the document's traps differs; relay and twins are two more.
fn traps() -> Vec<Sample> {
    let never_messaged = system(&[block(0, 1, 0, exercise(1)), block(1, 2, 8, exercise(2))]);
    let equal = term(OPERATION, 2, [variable(0), literal(5)]);
    let other_string = system(&[block(0, 3, 0, branch(equal, exercise(1), exercise(2)))]);
    let other_name = system(&[block(0, 8, 0, send(0, variable(0), constant(1))), block(1, 2, 8, exercise(2))]);
    let senders = system(&[block(0, 10, 0, send(0, name(1), variable(0))), block(1, 4, 8, exercise(2))]);
    [
        ("a handler never messaged", never_messaged, 1),
        ("the message may be another string than the table's", other_string, 3),
        ("the message may be a name that stands in no term", other_name, 2),
        ("the sender has what the receiver exercises", senders, 0),
    ]
    .map(|(name, words, leak)| Sample { name, words, rho: 0, bound: 0, expected: Leak(leak, None) })
    .into()
}
