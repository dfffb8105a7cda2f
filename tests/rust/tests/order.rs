//! Message loops and an order of reading (document 02, wish 9): what `wiphosega order` prints, against all permutations and all loops of the blocks that the
//! independent implementation's estimate makes live. WIPHOSEGA_LISTINGS names the program; PEER_ROUNDS makes the runs longer.
#![cfg(proved)]

use peer::estimate::{made, Layout};
use peer::generate::{sensible_table, table, Random};
use peer::listing::write;
use peer::naive;
use peer::samples::samples;
use peer::table::{read, NARROW};
use peer::terms::*;
use std::io::Write;
use std::process::{Command, Stdio};

fn rounds(usual: u64) -> u64 {
    usual * std::env::var("PEER_ROUNDS").map_or(1, |times| times.parse().expect("PEER_ROUNDS is a number"))
}

fn printed(arguments: &[&str], input: &[u8]) -> String {
    let name = std::env::var("WIPHOSEGA_LISTINGS").expect("WIPHOSEGA_LISTINGS names the program");
    let mut child = Command::new(name).args(arguments).stdin(Stdio::piped()).stdout(Stdio::piped()).spawn().expect("the program can be started");
    let _ = child.stdin.take().unwrap().write_all(input);
    let output = child.wait_with_output().expect("the program ends");
    assert!(output.status.success());
    String::from_utf8(output.stdout).expect("text")
}

/// What the program prints for a system.
fn order(words: &[u32], rho: u32) -> String {
    printed(&["order", &format!("{rho:x}")], &write(words, 65_536).expect("a listing"))
}

/// The live positions, and for each position those that may send to it.
struct Relation {
    live: Vec<usize>,
    senders: Vec<Vec<usize>>,
}

fn relation(words: &[u32], rho: u32) -> Relation {
    let table = read(words).expect("an accepted table");
    let estimate = naive::solve(&table, rho);
    let (row, all) = (Layout::of(&table).row, table.blocks.len());
    let live = (0..all).filter(|&p| estimate[2 * table.size() * row + table.blocks[p].start] >> 24 & 1 != 0).collect();
    let has = |b: usize, x: usize| estimate[2 * b * row + x / 32] >> (x % 32) & 1 != 0;
    let senders = (0..all).map(|t| (0..all).filter(|&s| has(table.blocks[t].start, made(&table, table.blocks[s].start))).collect()).collect();
    Relation { live, senders }
}

/// All lists of different numbers of `from`, of so many, the first when compared in turn first.
fn lists(from: &[usize], size: usize) -> Vec<Vec<usize>> {
    if size == 0 {
        return vec![vec![]];
    }
    from.iter().flat_map(|&first| {
        let rest: Vec<usize> = from.iter().copied().filter(|&x| x != first).collect();
        lists(&rest, size - 1).into_iter().map(move |list| [vec![first], list].concat())
    }).collect()
}

impl Relation {
    fn follows_all(&self, order: &[usize]) -> bool {
        (0..order.len()).all(|i| self.senders[order[i]].iter().all(|s| !self.live.contains(s) || order[..i].contains(s)))
    }

    fn is_loop(&self, list: &[usize]) -> bool {
        list.iter().min() == list.first() && (0..list.len()).all(|i| self.senders[list[(i + 1) % list.len()]].contains(&list[i]))
    }

    /// The line, by trying all: where the lowest free position comes first each time, the order is the first of all when compared in turn.
    fn line(&self) -> String {
        let found = lists(&self.live, self.live.len()).into_iter().find(|list| self.follows_all(list));
        let loops = (1..=self.live.len()).find_map(|size| lists(&self.live, size).into_iter().find(|list| self.is_loop(list)));
        assert_eq!(found.is_some(), loops.is_none());
        let (word, positions) = found.map_or_else(|| ("loop", loops.unwrap()), |order| ("order", order));
        format!("{word}{}\n", positions.iter().map(|p| format!(" {p}")).collect::<String>())
    }
}

/// Permission 23 lets a sender into the blocks that the opponent may not enter.
const INNER: u32 = 1 << 23;

/// A system whose block s sends to the block t where bit 8 t + s is set; the opponent may enter those in `entered`.
fn system_of(blocks: usize, edges: u64, entered: u32) -> Vec<u32> {
    system(&(0..blocks).map(|s| {
        let sends: Vec<Term> = (0..blocks).filter(|t| edges >> (8 * t + s) & 1 != 0).map(|t| send(0, name(t as u32), constant(1))).collect();
        let body = if sends.is_empty() { constant(1) } else { sequence(&sends) };
        block(s as u32, INNER + 1, if entered >> s & 1 != 0 { 0 } else { INNER }, body)
    }).collect::<Vec<_>>())
}

fn same(words: &[u32], rho: u32) -> String {
    let expected = relation(words, rho).line();
    assert_eq!(order(words, rho), expected, "{words:08x?} rho {rho:x}");
    expected
}

/// Every relation between three blocks that are all live, and every one between two, whoever may be entered.
#[test]
fn all_relations_of_three() {
    for edges in 0..512u64 {
        same(&system_of(3, edges & 7 | (edges >> 3 & 7) << 8 | (edges >> 6) << 16, 7), 0);
    }
    for (edges, entered) in (0..16u64).flat_map(|edges| (0..4).map(move |entered| (edges, entered))) {
        same(&system_of(2, edges & 3 | (edges >> 2) << 8, entered), 0);
    }
}

/// Up to seven blocks, some of them not live; few sends, so that there are orders too.
#[test]
fn random_relations() {
    let mut random = Random(91);
    let mut counts = [0; 4];
    for round in 0..rounds(600) {
        let blocks = 1 + random.below(7);
        let mut edges = 0u64;
        if round % 3 == 0 {
            // a ring through all, in a random order
            let ring = random.pick(&lists(&(0..blocks).collect::<Vec<_>>(), blocks)).clone();
            edges = (0..blocks).fold(0, |edges, i| edges | 1 << (8 * ring[(i + 1) % blocks] + ring[i]));
        }
        for _ in 0..random.below(if round % 3 == 0 { 3 } else { blocks * 2 + 1 }) {
            let (s, t) = (random.below(blocks), random.below(blocks));
            // more often from lower to higher, so that loops do not always come early
            let (s, t) = if round % 2 == 0 && s > t { (t, s) } else { (s, t) };
            if s != t || random.once_in(8) {
                edges |= 1 << (8 * t + s);
            }
        }
        let words = system_of(blocks, edges, random.number() as u32);
        let line = same(&words, 0);
        let positions = line.split(' ').count() - 1;
        counts[0] += u32::from(line.starts_with("order") && positions > 2);
        counts[1] += u32::from(line.starts_with("loop") && positions == 1);
        counts[2] += u32::from(line.starts_with("loop") && positions > 2);
        counts[3] += u32::from(relation(&words, 0).live.len() < blocks);
    }
    println!("{} orders of three or more, {} self-senders, {} loops of three or more, {} systems with blocks that are not live", counts[0], counts[1], counts[2], counts[3]);
    assert!(counts.iter().all(|&count| count > 20), "{counts:?}");
}

/// Tables of all kinds of terms.
#[test]
fn random_tables() {
    let mut random = Random(92);
    let mut counts = [0; 2];
    for round in 0..rounds(200) {
        let words = if round % 3 == 0 { table(&mut random, NARROW) } else { sensible_table(&mut random, NARROW, 120, 7) };
        let rho = random.permissions(4);
        if write(&words, 65_536).is_ok() && relation(&words, rho).live.len() <= 7 {
            counts[usize::from(same(&words, rho).starts_with("loop"))] += 1;
        }
    }
    assert!(counts.iter().all(|&count| count > 10), "{counts:?}");
}

#[test]
fn relations_by_hand() {
    let edge = |s: usize, t: usize| 1u64 << (8 * t + s);
    // 0 to 2 to 1; the same where 2 is not entered, and lives by 0; and where 0 is not, so that 2 does not live
    assert_eq!(order(&system_of(3, edge(0, 2) | edge(2, 1), 7), 0), "order 0 2 1\n");
    assert_eq!(order(&system_of(3, edge(0, 2) | edge(2, 1), 3), 0), "order 0 2 1\n");
    assert_eq!(order(&system_of(3, edge(0, 2) | edge(2, 1), 2), 0), "order 1\n");
    // nobody lives; the opponent's set lets all in
    assert_eq!(order(&system_of(3, edge(0, 2) | edge(2, 0), 0), 0), "order\n");
    assert_eq!(order(&system_of(3, edge(0, 2) | edge(2, 0), 0), INNER), "loop 0 2\n");
    assert_eq!(order(&[0x0100_0000], 0), "order\n");
    // a self-sender is a loop of one, though there is a lower loop of two
    assert_eq!(order(&system_of(3, edge(0, 1) | edge(1, 0) | edge(2, 2), 7), 0), "loop 2\n");
    // two loops of one length; the same start, and the lower next
    assert_eq!(order(&system_of(4, edge(0, 3) | edge(3, 0) | edge(1, 2) | edge(2, 1), 15), 0), "loop 0 3\n");
    assert_eq!(order(&system_of(4, edge(0, 3) | edge(3, 1) | edge(1, 0) | edge(0, 2) | edge(2, 1), 15), 0), "loop 0 2 1\n");
    // the lowest free position first: 1 is free once 2 is placed, and comes before 3
    assert_eq!(order(&system_of(4, edge(2, 1), 15), 0), "order 0 2 1 3\n");
}

/// 32 blocks in a ring, either way round, and in a chain from the last to the first.
#[test]
fn thirty_two_blocks() {
    let ring = |next: &dyn Fn(u32) -> u32| system(&(0..32).map(|s| block(s, 1, 0, send(0, name(next(s)), constant(1)))).collect::<Vec<_>>());
    let list = |positions: &mut dyn Iterator<Item = u32>| positions.map(|p| format!(" {p}")).collect::<String>();
    assert_eq!(order(&ring(&|s| (s + 1) % 32), 0), format!("loop{}\n", list(&mut (0..32))));
    assert_eq!(order(&ring(&|s| (s + 31) % 32), 0), format!("loop 0{}\n", list(&mut (1..32).rev())));
    let chain = system(&(0..32).map(|s| block(s, 1, 0, if s == 0 { constant(1) } else { send(0, name(s - 1), constant(1)) })).collect::<Vec<_>>());
    assert_eq!(order(&chain, 0), format!("order{}\n", list(&mut (0..32).rev())));
}

#[test]
fn samples_and_refusals() {
    for sample in samples() {
        if write(&sample.words, 65_536).is_ok() && read(&sample.words).is_ok_and(|table| table.blocks.len() <= 7) && sample.rho < 1 << 24 {
            same(&sample.words, sample.rho);
        }
    }
    let relay = include_bytes!("../../../examples/relay.listing");
    assert_eq!(printed(&["order", "0"], relay), "order 0 1\n");
    assert_eq!(printed(&["order", "0"], b"system 1\n"), "refused 4 at 1\n");
    assert_eq!(printed(&["order", "0"], b"system x\n"), "refused 40 at 1\n");
    assert_eq!(printed(&["order", "1000000"], relay), "refused 20 at 0\n");
    assert_eq!(printed(&["order"], relay), printed(&[], b""));
    assert_eq!(printed(&["order", "x"], relay), printed(&[], b""));
}
