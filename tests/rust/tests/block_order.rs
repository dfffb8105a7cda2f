//! Block order must not matter (document 02, wish 11). What is compared: a system with the same blocks in another order, each through the same analyser, the
//! proved library or the independent implementation, and through the proved programs. Where the words of the one stand in the other is made here, from where the
//! independent reader finds the blocks: a word goes with its block, word 0 stays, and element n + i goes to n + π(i), n 64, or 96 of a wide table.
//! WIPHOSEGA_LISTINGS and WIPHOSEGA_BENCH name the programs; PEER_ROUNDS makes the runs longer.

use peer::estimate::{Layout, OPPONENT};
use peer::generate::{exact_table, sensible_table, Random};
use peer::samples::samples;
use peer::table::{read, STANDING_BOUND, WIDE, WIDTHS};
use peer::verdict::{bytes_of, verdict_of_bytes, words_of};
use std::collections::BTreeMap;

/// The call of include/wiphosega.h: system, rho, bound, estimate and work in, the answer out.
type Analyser = fn(&[u8], u32, u32, &mut [u8], &mut [u8]) -> u64;

fn rounds(usual: u64) -> u64 {
    usual * std::env::var("PEER_ROUNDS").map_or(1, |times| times.parse().expect("PEER_ROUNDS is a number"))
}

/// A system and one with the same blocks: block k of the other is block order[k] of this one.
struct Pair {
    words: Vec<u32>,
    other: Vec<u32>,
    order: Vec<usize>,
    /// π: word p of this one is word to[p] of the other.
    to: Vec<usize>,
    layout: Layout,
}

fn pair(words: &[u32], order: &[usize]) -> Pair {
    let table = read(words).expect("an accepted table");
    let end = |k: usize| table.blocks.get(k + 1).map_or(words.len(), |next| next.start);
    let (mut to, mut other) = (vec![0; words.len()], vec![words[0]]);
    for &k in order {
        for p in table.blocks[k].start..end(k) {
            to[p] = other.len();
            other.push(words[p]);
        }
    }
    assert_eq!(other.len(), words.len());
    Pair { words: words.to_vec(), other, order: order.to_vec(), to, layout: Layout::of(&table) }
}

impl Pair {
    /// The element of the other system that stands for this one.
    fn element(&self, x: usize) -> usize {
        let plain = self.layout.plain;
        if x < plain {
            x
        } else {
            plain + self.to[x - plain]
        }
    }

    /// The words of the estimate with each row at its word's place in the other system, and elements put for elements.
    fn renumbered(&self, estimate: &[u32], element: impl Fn(usize) -> usize) -> Vec<u32> {
        let Layout { size, row, .. } = self.layout;
        let mut result = vec![0; estimate.len()];
        for p in 0..size {
            for side in 0..2 {
                let (from, into) = ((2 * p + side) * row, (2 * self.to[p] + side) * row);
                for x in (0..32 * row).filter(|x| estimate[from + x / 32] >> (x % 32) & 1 != 0) {
                    let y = element(x);
                    result[into + y / 32] |= 1 << (y % 32);
                }
            }
            // P and the live flag
            result[2 * size * row + self.to[p]] = estimate[2 * size * row + p];
        }
        result
    }
}

/// For each block in turn whether the opponent may have sent to it, and the positions of the blocks that may have: what C of its first word holds.
fn senders(words: &[u32], estimate: &[u32]) -> Vec<(bool, Vec<usize>)> {
    let table = read(words).expect("an accepted table");
    let Layout { plain, row, .. } = Layout::of(&table);
    let has = |b: usize, x: usize| estimate[2 * b * row + x / 32] >> (x % 32) & 1 != 0;
    let from = |b: usize| (0..table.blocks.len()).filter(|&s| has(b, plain + table.blocks[s].start)).collect();
    table.blocks.iter().map(|block| (has(block.start, OPPONENT), from(block.start))).collect()
}

/// What came up in a run, so that a test can ask for enough of each.
#[derive(Default)]
struct Seen {
    /// Verdicts (0) and refusals by number.
    answers: BTreeMap<u64, u64>,
    leaking: u64,
    over: u64,
    sent_to: u64,
    /// Systems whose estimates differ though rows are moved, unless elements are renumbered too.
    elements_matter: u64,
}

/// The answer, and both slices after the call, which are filled before.
fn run(analyser: Analyser, words: &[u32], (rho, bound): (u32, u32), bytes: (usize, usize)) -> (u64, Vec<u8>, Vec<u8>) {
    let (mut estimate, mut work) = (vec![0xa5; bytes.0], vec![0x5a; bytes.1]);
    let answer = analyser(&bytes_of(words), rho, bound, &mut estimate, &mut work);
    (answer, estimate, work)
}

/// Both orders: the same answer, refused or not; the same facts; and every set the same once renumbered.
fn same(analyser: Analyser, pair: &Pair, sets: (u32, u32), bytes: (usize, usize), seen: &mut Seen) -> u64 {
    let (answer, estimate, work) = run(analyser, &pair.words, sets, bytes);
    let (other_answer, other_estimate, other_work) = run(analyser, &pair.other, sets, bytes);
    let about = || format!("{:08x?} in the order {:?}, rho and bound {sets:x?}, bytes {bytes:?}", pair.words, pair.order);
    assert_eq!(answer, other_answer, "{}", about());
    assert!(work == other_work, "work of {}", about());
    let refused = answer >> 32 != 0;
    *seen.answers.entry(if refused { answer >> 16 & 0xff } else { 0 }).or_default() += 1;
    if refused {
        assert!(estimate == vec![0xa5; bytes.0] && estimate == other_estimate, "refused: {}", about());
        return answer;
    }
    let all = 4 * pair.layout.total();
    assert!(estimate[all..] == other_estimate[all..], "behind the estimate of {}", about());
    let (estimate, other) = (words_of(&estimate[..all]), words_of(&other_estimate[..all]));
    let facts = |estimate: &[u32]| estimate.iter().map(|word| word.count_ones()).sum::<u32>();
    assert_eq!(facts(&estimate), facts(&other), "facts of {}", about());
    assert!(pair.renumbered(&estimate, |x| pair.element(x)) == other, "sets of {}", about());
    let (own, others) = (senders(&pair.words, &estimate), senders(&pair.other, &other));
    for (k, (opponent, from)) in others.iter().enumerate() {
        let mut from: Vec<usize> = from.iter().map(|&s| pair.order[s]).collect();
        from.sort_unstable();
        assert_eq!((*opponent, from), own[pair.order[k]], "senders of {}", about());
    }
    seen.leaking += u64::from(answer & 0xff_ffff != 0);
    seen.over += answer >> 24;
    seen.sent_to += own.iter().filter(|(_, from)| !from.is_empty()).count() as u64;
    seen.elements_matter += u64::from(pair.renumbered(&estimate, |x| x) != other);
    answer
}

/// A random accepted system of at least two blocks and at most this many words, with another order of its blocks.
fn random_pair(random: &mut Random, names: u32, most: usize) -> Pair {
    loop {
        let words = 10 + random.below(most - 9);
        let words =
            if random.once_in(3) { exact_table(random, names, words) } else { sensible_table(random, names, words, names as usize / 2) };
        let mut order: Vec<usize> = (0..read(&words).expect("an accepted table").blocks.len()).collect();
        match random.below(4) {
            // neighbours, all turned round, any
            0 if order.len() > 1 => {
                let k = random.below(order.len() - 1);
                order.swap(k, k + 1);
            }
            1 => order.reverse(),
            _ => (1..order.len()).for_each(|k| order.swap(k, random.below(k + 1))),
        }
        if (0..order.len()).any(|k| order[k] != k) {
            return pair(&words, &order);
        }
    }
}

/// Slices that are long enough for every system of 256 words.
fn long_enough() -> (usize, usize) {
    (4 * Layout::sized(WIDE, 256).total() + 3, 4 * 1024 + 1)
}

/// Sets with a stray bit now and then.
fn random_sets(random: &mut Random) -> (u32, u32) {
    let rho = if random.once_in(40) { 1 << (24 + random.below(8)) } else { random.permissions(4) };
    let bound = match random.below(8) {
        0 => STANDING_BOUND,
        1 => 1 << random.below(32),
        _ => random.permissions(8),
    };
    (rho, bound)
}

/// Random systems of either width in random orders: in long slices, and in slices that just fit or are too short by some bytes.
fn random_orders(analyser: Analyser, systems: u64) {
    let mut random = Random(1101);
    for names in WIDTHS {
        let mut seen = Seen::default();
        for _ in 0..systems {
            let (pair, sets) = (random_pair(&mut random, names, 256), random_sets(&mut random));
            same(analyser, &pair, sets, long_enough(), &mut seen);
            let mut near = |words: usize| (4 * words + 4).saturating_sub(random.below(9));
            let bytes = (near(pair.layout.total()), near(4 * pair.words.len()));
            same(analyser, &pair, sets, bytes, &mut seen);
        }
        let Seen { answers, leaking, over, sent_to, elements_matter } = &seen;
        println!("{names} names: verdicts (0) and refusals {answers:?}; {leaking} leak, {over} over, {sent_to} blocks sent to, {elements_matter} by elements");
        assert!([0, 20, 21, 22].iter().all(|number| answers[number] > systems / 50), "{answers:?}");
        assert!([leaking, over, sent_to, elements_matter].iter().all(|&&count| count > systems / 5));
    }
}

/// All orders of so many things.
fn orders(count: usize) -> Vec<Vec<usize>> {
    if count == 0 {
        return vec![vec![]];
    }
    let shorter = orders(count - 1);
    shorter.iter().flat_map(|order| (0..count).map(|at| [&order[..at], &[count - 1], &order[at..]].concat())).collect()
}

fn twins() -> Vec<u32> {
    samples().into_iter().find(|sample| sample.name == "twins").unwrap().words
}

/// Handler 0 sends to the second of the twins: what each order of the three gives, by hand.
fn orders_of_twins(analyser: Analyser) {
    let (own, mut wide) = (twins(), twins());
    wide[0] ^= (1 ^ 5) << 24;
    for order in orders(3) {
        let at = |block: usize| order.iter().position(|&k| k == block).unwrap();
        for words in [&own, &wide] {
            let pair = pair(words, &order);
            assert_eq!(same(analyser, &pair, (0, 4), long_enough(), &mut Seen::default()), 4);
            let (_, estimate, _) = run(analyser, &pair.other, (0, 4), long_enough());
            let estimate = words_of(&estimate)[..pair.layout.total()].to_vec();
            let sent_to = senders(&pair.other, &estimate);
            assert_eq!(sent_to[at(0)], (true, vec![]));
            assert_eq!(sent_to[at(1)], (false, vec![]));
            assert_eq!(sent_to[at(2)], (false, vec![at(0)]));
            let facts = estimate.iter().map(|word| word.count_ones()).sum::<u32>();
            assert_eq!(facts, if words == &own { 207 } else { 303 });
        }
    }
}

/// Every order of the samples that have up to four blocks, in slices of every length about the least.
fn orders_of_samples(analyser: Analyser) {
    let mut seen = Seen::default();
    for sample in samples().iter().filter(|sample| sample.words.len() <= 256) {
        let Ok(table) = read(&sample.words) else { continue };
        for order in orders(table.blocks.len().min(4)) {
            // further blocks stay behind these
            let order = [order, (4..table.blocks.len()).collect()].concat();
            let pair = pair(&sample.words, &order);
            let (estimate, work) = (4 * pair.layout.total(), 16 * pair.words.len());
            same(analyser, &pair, (sample.rho, sample.bound), long_enough(), &mut seen);
            for bytes in [(estimate, work), (estimate - 1, work), (estimate, work - 1), (0, 0)] {
                same(analyser, &pair, (sample.rho, sample.bound), bytes, &mut seen);
            }
        }
    }
    assert!([0, 21, 22].iter().all(|number| seen.answers[number] > 0), "{:?}", seen.answers);
}

#[test]
fn independent_implementation() {
    random_orders(verdict_of_bytes, rounds(400));
    orders_of_twins(verdict_of_bytes);
    orders_of_samples(verdict_of_bytes);
}

#[cfg(proved)]
mod proved {
    use super::*;
    use peer::listing::write;
    use peer::table::NARROW;
    use std::io::Write;
    use std::process::{Command, Stdio};

    extern "C" {
        /// As include/wiphosega.h declares it.
        fn wiphosega_verdict(
            system: *const u8,
            system_bytes: usize,
            rho: u32,
            bound: u32,
            estimate: *mut u8,
            estimate_bytes: usize,
            work: *mut u8,
            work_bytes: usize,
        ) -> u64;
    }

    /// The library's answer.
    fn library(system: &[u8], rho: u32, bound: u32, estimate: &mut [u8], work: &mut [u8]) -> u64 {
        unsafe {
            wiphosega_verdict(
                system.as_ptr(),
                system.len(),
                rho,
                bound,
                estimate.as_mut_ptr(),
                estimate.len(),
                work.as_mut_ptr(),
                work.len(),
            )
        }
    }

    #[test]
    fn through_the_library() {
        random_orders(library, rounds(4000));
    }

    #[test]
    fn twins_through_the_library() {
        orders_of_twins(library);
    }

    #[test]
    fn samples_through_the_library() {
        orders_of_samples(library);
    }

    fn printed(variable: &str, arguments: &[String], input: &[u8]) -> String {
        let name = std::env::var(variable).expect("the variable names the program");
        let mut child =
            Command::new(name).args(arguments).stdin(Stdio::piped()).stdout(Stdio::piped()).spawn().expect("the program can be started");
        let _ = child.stdin.take().unwrap().write_all(input);
        let output = child.wait_with_output().expect("the program ends");
        assert!(output.status.success());
        String::from_utf8(output.stdout).expect("text")
    }

    /// What `wiphosega leak` prints of a narrow system.
    fn leak(words: &[u32], (rho, bound): (u32, u32), ceiling: Option<u64>) -> String {
        let arguments = ["leak".to_string(), format!("{rho:x}"), format!("{bound:x}")];
        let ceiling = ceiling.map(|n| n.to_string());
        printed("WIPHOSEGA_LISTINGS", &[&arguments[..], ceiling.as_slice()].concat(), &write(words, 65_536).expect("a listing"))
    }

    /// A handler's line without its position, which is checked.
    fn apart_from_position(position: usize, line: &str) -> &str {
        line.strip_prefix(&format!("handler {position} ")).unwrap_or_else(|| panic!("{line} at {position}"))
    }

    /// The first line is the same, a refusal too; the line of a handler apart from its position goes with its block, so that both have the same lines.
    fn same_text(pair: &Pair, own: &str, other: &str) {
        let (own, other): (Vec<&str>, Vec<&str>) = (own.lines().collect(), other.lines().collect());
        assert_eq!(own[0], other[0], "{:08x?} in the order {:?}", pair.words, pair.order);
        assert_eq!(own.len(), other.len());
        for (k, line) in other[1..].iter().enumerate() {
            let from = pair.order[k];
            assert_eq!(
                apart_from_position(k, line),
                apart_from_position(from, own[1 + from]),
                "{:08x?} in the order {:?}",
                pair.words,
                pair.order
            );
        }
    }

    /// The number of facts at the end of the first line.
    fn facts(text: &str) -> u64 {
        text.lines().next().unwrap().rsplit(' ').next().unwrap().parse().expect("a number of facts")
    }

    /// Ceilings about the facts, where the answer changes, and far from them.
    fn ceilings(facts: u64) -> [u64; 6] {
        [0, facts / 2, facts.saturating_sub(1), facts, facts + 1, 1_000_000]
    }

    /// `wiphosega leak RHO BOUND CEILING`: both are refused or neither, and the lines are the same apart from positions.
    #[test]
    fn through_the_program() {
        let mut random = Random(1102);
        let (mut refused, mut printed, mut moved) = (0, 0, 0);
        for _ in 0..rounds(120) {
            let (pair, sets) = (random_pair(&mut random, NARROW, 300), (random.permissions(4), random.permissions(8)));
            let (own, other) = (leak(&pair.words, sets, None), leak(&pair.other, sets, None));
            same_text(&pair, &own, &other);
            moved += u64::from(own != other);
            for ceiling in ceilings(facts(&own)) {
                let text = leak(&pair.words, sets, Some(ceiling));
                same_text(&pair, &text, &leak(&pair.other, sets, Some(ceiling)));
                assert_eq!(text, if ceiling < facts(&own) { format!("refused 23 at {ceiling}\n") } else { own.clone() });
                *(if ceiling < facts(&own) { &mut refused } else { &mut printed }) += 1;
            }
        }
        println!("{refused} refused under a ceiling, {printed} printed; {moved} systems whose lines come in another order");
        assert!([refused, printed, moved].iter().all(|&count| count > rounds(60)), "{refused} {printed} {moved}");
    }

    /// The program `bench`, which takes either width and a ceiling: its whole text is the same.
    #[test]
    fn ceilings_of_either_width() {
        let mut random = Random(1103);
        let mut refused = 0;
        for round in 0..rounds(120) {
            let (pair, rho) = (random_pair(&mut random, WIDTHS[round as usize % 2], 500), random.permissions(4));
            let text = |words: &[u32], ceiling: u64| {
                printed("WIPHOSEGA_BENCH", &["1".to_string(), ceiling.to_string()], &bytes_of(&[&[rho, 0], words].concat()))
            };
            let most = facts(&text(&pair.words, 900_000_000));
            for ceiling in ceilings(most) {
                let own = text(&pair.words, ceiling);
                assert_eq!(own, text(&pair.other, ceiling), "{:08x?} in the order {:?}", pair.words, pair.order);
                assert_eq!(own.starts_with("refused 23"), ceiling < most);
                refused += u64::from(ceiling < most);
            }
        }
        assert!(refused > rounds(120), "{refused}");
    }

    /// The six orders of the twins as the program prints them. The order of reading goes with the blocks here: one may send to one other.
    #[test]
    fn twins_through_the_program() {
        let own = leak(&twins(), (0, 0), None);
        let lines = ["name 0 entry yes live yes set 000004", "name 1 entry no live no set 000000", "name 1 entry no live yes set 000004"];
        for order in orders(3) {
            let pair = pair(&twins(), &order);
            let text = leak(&pair.other, (0, 0), None);
            same_text(&pair, &own, &text);
            let handlers = (0..3).map(|k| format!("handler {k} {}\n", lines[order[k]])).collect::<String>();
            assert_eq!(text, format!("leak 000004 bound 000000 verdict over first 2 facts 207\n{handlers}"));
            for ceiling in [0, 206, 207] {
                same_text(&pair, &leak(&pair.words, (0, 0), Some(ceiling)), &leak(&pair.other, (0, 0), Some(ceiling)));
            }
            let at = |block: usize| order.iter().position(|&k| k == block).unwrap();
            let listing = write(&pair.other, 65_536).expect("a listing");
            let positions = printed("WIPHOSEGA_LISTINGS", &["order".to_string(), "0".to_string()], &listing);
            assert_eq!(positions, format!("order {} {}\n", at(0), at(2)));
        }
    }
}
