//! Document 01's samples, its traps, wide tables and the program's lines.

use peer::estimate::Layout;
use peer::samples::{samples, Expected, Sample};
use peer::table::{NARROW, WIDE};
use peer::verdict::{bytes_of, program, slices, verdict};

fn sample(name: &str) -> Sample {
    samples().into_iter().find(|sample| sample.name == name).unwrap()
}

#[test]
fn samples_answer_as_the_document_says() {
    for sample in samples() {
        let (mut estimate, mut work) = slices();
        let result = verdict(&sample.words, sample.rho, sample.bound, &mut estimate, &mut work);
        match (result, sample.expected) {
            (Ok((_, verdict)), Expected::Leak(leak, facts)) => {
                assert_eq!(verdict.leak, leak, "{}", sample.name);
                assert_eq!(verdict.facts, facts.unwrap_or(verdict.facts), "{}", sample.name);
            }
            (Err(refusal), Expected::Refused(number, place)) => {
                assert_eq!((refusal.number, refusal.place), (number, place), "{}", sample.name);
            }
            (result, expected) => panic!("{}: {:?}, not {expected:?}", sample.name, result.map(|(_, verdict)| verdict)),
        }
    }
}

#[test]
fn sizes_of_the_large_samples() {
    assert_eq!(sample("1,024 words").words.len(), 1024);
    assert_eq!(sample("1,025 words").words.len(), 1025);
    for (names, size, total) in [(NARROW, 1, 7), (NARROW, 5, 35), (NARROW, 256, 5376), (WIDE, 1, 9), (WIDE, 5, 45), (WIDE, 256, 5888)] {
        assert_eq!(Layout::sized(names, size).total(), total);
    }
}

fn printed(rho: u32, bound: u32, words: &[u32]) -> String {
    program(&bytes_of(&[&[rho, bound], words].concat()))
}

#[test]
fn lines_of_the_program() {
    let relay = sample("relay").words;
    let handlers = "handler 0 name 0 entry yes live yes set 000002\nhandler 1 name 1 entry no live yes set 000002\n";
    let first = "leak 000002 bound 000000 verdict over first 1 facts 207\n";
    assert_eq!(printed(0, 0, &relay), format!("{first}{handlers}"));
    assert_eq!(printed(3, 0x8000_0000, &relay), format!("{first}{handlers}"));
    let first = "leak 000002 bound 000003 verdict within first - facts 207\n";
    assert_eq!(printed(3, 3, &relay), format!("{first}{handlers}"));
    let lines = "leak 000002 bound 000000 verdict over first 1 facts 70\nhandler 0 name 0 entry yes live yes set 000002\n";
    for rho in [0, 2] {
        assert_eq!(printed(rho, 0x8000_0000, &sample("direct").words), lines);
    }
    assert_eq!(printed(0, 0, &sample("unbound variable").words), "refused 10 at 4\n");
    assert_eq!(printed(0, 0, &[0x0100_0000]), "leak 000000 bound 000000 verdict within first - facts 0\n");
}

#[test]
fn refusals_of_the_program() {
    assert_eq!(program(&[]), "refused 30 at 0\n");
    assert_eq!(program(&[0; 4]), "refused 30 at 0\n");
    assert_eq!(program(&[0; 8]), "refused 1 at 0\n");
    assert_eq!(program(&[0; 9]), "refused 30 at 0\n");
    assert_eq!(program(&[0; 1031]), "refused 30 at 0\n");
    assert_eq!(program(&[0; 1032]), "refused 1 at 0\n");
    assert_eq!(program(&[0; 1033]), "refused 31 at 0\n");
    for (rho, bound) in [(0x8000_0000, 0), (0x8000_0000, 0x8000_0000), (0, 0x8000_0001)] {
        assert_eq!(printed(rho, bound, &[0x0100_0000]), "refused 20 at 0\n");
    }
    // A wide table, after 31 and 30 and before all else.
    let direct = sample("wide direct").words;
    assert_eq!(printed(0, 0, &direct), "refused 1 at 0\n");
    assert_eq!(printed(0x8000_0000, 0x8000_0001, &[0x0500_0000]), "refused 1 at 0\n");
    assert_eq!(program(&bytes_of(&[&[0, 0], &direct[..]].concat())[..27]), "refused 30 at 0\n");
    assert_eq!(program(&bytes_of(&[0x0500_0041; 258])), "refused 1 at 0\n");
    assert_eq!(program(&bytes_of(&[0x0500_0041; 259])), "refused 31 at 0\n");
}
