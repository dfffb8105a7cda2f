//! Who may have sent (document 02, wish 8): C of a block holds 64+s, or 96+s in a wide table, for each block s with a live send that delivers to it, and 7
//! where its guard lets the opponent in. PEER_ROUNDS makes the runs longer.

use peer::check::broken;
use peer::estimate::{leak, made, Layout, OPPONENT};
use peer::generate::{event, sensible_table, table, Random};
use peer::machine::{Event, World};
use peer::naive;
use peer::samples::{forty_one, samples};
use peer::table::{kind::*, read, within, Table, WIDTHS};
use peer::terms::*;

fn rounds(usual: u64) -> u64 {
    usual * std::env::var("PEER_ROUNDS").map_or(1, |times| times.parse().expect("PEER_ROUNDS is a number"))
}

/// The elements of C(i).
fn values(table: &Table, estimate: &[u32], i: usize) -> Vec<usize> {
    let row = Layout::of(table).row;
    (0..32 * row).filter(|x| estimate[2 * i * row + x / 32] >> (x % 32) & 1 != 0).collect()
}

/// C of each block of this system, in order.
fn senders(words: &[u32], rho: u32) -> Vec<Vec<usize>> {
    let table = read(words).expect("an accepted table");
    let estimate = naive::solve(&table, rho);
    table.blocks.iter().map(|block| values(&table, &estimate, block.start)).collect()
}

fn sample(name: &str) -> Vec<u32> {
    samples().into_iter().find(|sample| sample.name == name).unwrap().words
}

#[test]
fn sets_of_the_samples() {
    assert_eq!(senders(&sample("direct"), 0), [vec![7]]);
    assert_eq!(senders(&sample("direct with guard 4"), 0), [vec![]]);
    assert_eq!(senders(&sample("direct with guard 4"), 4), [vec![7]]);
    assert_eq!(senders(&sample("relay"), 0), [vec![7], vec![65]]);
    assert_eq!(senders(&sample("relay with required set 1"), 0), [vec![7], vec![]]);
    assert_eq!(senders(&sample("relay"), 8), [vec![7], vec![7, 65]]);
    assert_eq!(senders(&sample("twins"), 0), [vec![7], vec![], vec![65]]);
    assert_eq!(senders(&sample("wide relay"), 0), [vec![7], vec![97]]);
    let chain = senders(&forty_one(), 0);
    assert!((1..41).all(|i| chain[i] == [96 + 1 + 6 * (i - 1)]), "{chain:?}");
}

/// A system of a sender with the body and a receiver with name 1, permission 1 and guard 3; what stands in the receiver's set.
fn received(sender: u32, body: Term) -> Vec<usize> {
    senders(&system(&[block(0, 8, sender, body), block(1, 2, 8, exercise(2))]), 0).remove(1)
}

#[test]
fn what_a_sender_is() {
    assert_eq!(received(0, send(0, name(1), variable(0))), [65]);
    // by a name in the message
    assert_eq!(received(0, send(0, variable(0), constant(1))), [65]);
    // another name, a set that the receiver lacks, a send that is not live, a block that is not live
    assert_eq!(received(0, send(0, name(2), variable(0))), []);
    assert_eq!(received(0, send(1, name(1), variable(0))), []);
    assert_eq!(received(0, function(send(0, name(1), variable(0)))), []);
    assert_eq!(received(0, branch(constant(2), constant(1), send(0, name(1), variable(0)))), []);
    assert_eq!(received(4, send(0, name(1), variable(0))), []);
    // a message that is a function or a cell, and one that has another value too
    assert_eq!(received(0, send(0, name(1), function(constant(1)))), []);
    assert_eq!(received(0, send(0, name(1), cell(constant(1)))), []);
    assert_eq!(received(0, send(0, name(1), branch(variable(0), cell(constant(1)), constant(1)))), [65]);
    assert_eq!(received(0, send(0, name(1), empty())), [65]);
    // a message that never comes to be
    assert_eq!(received(0, send(0, name(1), apply(constant(1), constant(1)))), []);
    // a sender whose permissions lack the guard
    assert_eq!(senders(&system(&[block(0, 4, 0, send(0, name(1), variable(0))), block(1, 2, 8, exercise(2))]), 0)[1], []);
    // one that sends to itself, twice
    let own = sequence(&[send(0, name(0), constant(1)), send(0, name(0), constant(2))]);
    assert_eq!(senders(&system(&[block(0, 1, 0, own)]), 0), [vec![7, 65]]);
}

/// A sender's element that is missing is named at the receiver, 7 too; in C of a block an element past all 64 that names no block is stray.
#[test]
fn the_checker_names_the_receiver() {
    let words = sample("relay");
    let table = read(&words).unwrap();
    let row = Layout::of(&table).row;
    let flipped = |i: usize, x: usize| {
        let mut estimate = naive::solve(&table, 0);
        estimate[2 * i * row + x / 32] ^= 1 << (x % 32);
        broken(&table, 0, &estimate)
    };
    assert_eq!(flipped(7, 65), Some(7));
    assert_eq!(flipped(1, 7), Some(1));
    // more than is asked, and not stray: another plain element, another block
    assert_eq!(flipped(7, 7), None);
    assert_eq!(flipped(7, 71), None);
    // stray: the send's own word; a block in C of what is no block, or in B of a block
    assert_eq!(flipped(7, 68), Some(0));
    assert_eq!(flipped(4, 65), Some(0));
}

/// The estimate with C of every block taken out.
fn without_blocks(table: &Table, mut estimate: Vec<u32>) -> Vec<u32> {
    let row = Layout::of(table).row;
    for block in &table.blocks {
        estimate[2 * block.start * row..][..row].fill(0);
    }
    estimate
}

/// Every B, P and flag, and C of what is no block, is the same with the senders' rules and without them; so is the leak. What stands in C of a block is 7,
/// where the guard lets the opponent in, and blocks with a send.
#[test]
fn nothing_else_changes() {
    let mut random = Random(81);
    let (mut sending, mut several) = (0, 0);
    for round in 0..rounds(6000) {
        let names = WIDTHS[round as usize % 2];
        let words = if round % 3 == 0 { table(&mut random, names) } else { sensible_table(&mut random, names, 120, 8) };
        let (table, rho) = (read(&words).expect("a valid table"), random.permissions(4));
        let (with, without) = (naive::solve(&table, rho), naive::without_senders(&table, rho));
        assert!(without_blocks(&table, with.clone()) == without, "{words:08x?} rho {rho:x}");
        assert_eq!(leak(&table, rho, &with), leak(&table, rho, &without));
        for block in &table.blocks {
            let set = values(&table, &with, block.start);
            assert_eq!(set.contains(&OPPONENT), within(block.guard, rho));
            let blocks: Vec<usize> = set.into_iter().filter(|&x| x != OPPONENT).collect();
            let sends = |s: usize| (0..table.size()).any(|p| table.kind(p) == SEND && table.home(p) == s);
            let first = made(&table, 0);
            assert!(blocks.iter().all(|x| *x >= first && table.kind(x - first) == BLOCK && sends(x - first)));
            sending += u64::from(!blocks.is_empty());
            several += u64::from(blocks.len() > 1);
        }
    }
    println!("{sending} blocks with senders, {several} with more than one");
    assert!(sending > 500 && several > 100, "{sending} {several}");
}

/// Whatever starts in a run of the machine is started by somebody who stands in the set: the opponent, or the block of the sending instance.
#[test]
fn runs_start_by_those_in_the_sets() {
    let mut random = Random(82);
    let (mut by_opponent, mut by_send) = (0, 0);
    for round in 0..rounds(2000) {
        let words = sensible_table(&mut random, WIDTHS[round as usize % 2], 120, 8);
        let (table, rho) = (read(&words).expect("a valid table"), random.permissions(4));
        let sets = senders(&words, rho);
        let mut world = World::empty();
        for _ in 0..300 {
            let (next, before) = (event(&mut random, &table, &world), world.instances.len());
            world.act(&table, rho, &next);
            if world.instances.len() > before {
                let sender = match next {
                    Event::Start { .. } => OPPONENT,
                    Event::Step { instance, .. } => made(&table, world.instances[instance].home),
                };
                let to = table.blocks.iter().position(|block| block.start == world.instances[before].home).expect("an instance of a block");
                assert!(sets[to].contains(&sender), "{words:08x?} rho {rho:x}: {sender} to handler {to}");
                *(if sender == OPPONENT { &mut by_opponent } else { &mut by_send }) += 1;
            }
        }
    }
    println!("{by_opponent} starts by the opponent, {by_send} by a send");
    assert!(by_opponent > 1000 && by_send > 300, "{by_opponent} {by_send}");
}
