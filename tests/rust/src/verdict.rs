//! The verdict over word slices, its C interface over bytes, and the program's lines.

use crate::estimate::{facts, leak, Layout, LIVE, PERMISSIONS_MASK};
use crate::solve::solve;
use crate::table::{accept, read_narrow, refused, within, Refusal, Table, MOST_WORDS, STANDING_BOUND, WIDE};
use std::fmt::Write;

#[derive(Clone, Copy, Debug, PartialEq, Eq)]
pub struct Verdict {
    pub leak: u32,
    /// The bound used.
    pub bound: u32,
    pub facts: u32,
}

impl Verdict {
    /// The lowest permission of the leak outside the bound.
    pub fn first_outside(&self) -> Option<u32> {
        let outside = self.leak & !self.bound;
        (outside != 0).then(|| outside.trailing_zeros())
    }
}

/// Solves the system: the estimate goes to the first words of its slice, the first 4W words of work become zero.
pub fn analyse(words: &[u32], rho: u32, bound: u32, estimate: &mut [u32], work: &mut [u32]) -> Result<Table, Refusal> {
    let table = accept(words, rho, bound, estimate.len(), work.len())?;
    solve(&table, rho, estimate);
    work[..4 * words.len()].fill(0);
    Ok(table)
}

pub fn verdict(words: &[u32], rho: u32, bound: u32, estimate: &mut [u32], work: &mut [u32]) -> Result<(Table, Verdict), Refusal> {
    let table = analyse(words, rho, bound, estimate, work)?;
    let bound = if bound == STANDING_BOUND { 0 } else { bound };
    let verdict = Verdict { leak: leak(&table, rho, estimate), bound, facts: facts(&table, estimate) };
    Ok((table, verdict))
}

pub fn words_of(bytes: &[u8]) -> Vec<u32> {
    bytes.chunks_exact(4).map(|four| u32::from_le_bytes(four.try_into().unwrap())).collect()
}

pub fn bytes_of(words: &[u32]) -> Vec<u8> {
    words.iter().flat_map(|word| word.to_le_bytes()).collect()
}

/// The 64-bit answer of the C interface.
pub fn answer(result: &Result<Verdict, Refusal>) -> u64 {
    match result {
        Ok(verdict) => u64::from(verdict.leak) + (u64::from(verdict.first_outside().is_some()) << 24),
        Err(refusal) => (1 << 32) + u64::from(refusal.number) * 65_536 + refusal.place as u64,
    }
}

/// The C interface: words are little-endian, odd bytes at the ends of the two lent slices stay.
pub fn verdict_of_bytes(system: &[u8], rho: u32, bound: u32, estimate: &mut [u8], work: &mut [u8]) -> u64 {
    if system.len() > 1024 {
        return answer(&refused(31, 0));
    }
    if system.len() % 4 != 0 {
        return answer(&refused(30, 0));
    }
    let (mut estimate_words, mut work_words) = (words_of(estimate), words_of(work));
    let result = verdict(&words_of(system), rho, bound, &mut estimate_words, &mut work_words);
    estimate[..4 * estimate_words.len()].copy_from_slice(&bytes_of(&estimate_words));
    work[..4 * work_words.len()].copy_from_slice(&bytes_of(&work_words));
    answer(&result.map(|(_, verdict)| verdict))
}

/// Standard input as the program reads it: ρ, bound and at most this many system words.
pub fn input(bytes: &[u8], most: usize) -> Result<(u32, u32, Vec<u32>), Refusal> {
    if bytes.len() > 8 + 4 * most {
        return refused(31, 0);
    }
    if bytes.len() < 8 || bytes.len() % 4 != 0 {
        return refused(30, 0);
    }
    let words = words_of(bytes);
    Ok((words[0], words[1], words[2..].to_vec()))
}

/// Slices long enough for every accepted table.
pub fn slices() -> (Vec<u32>, Vec<u32>) {
    (vec![0; Layout::sized(WIDE, MOST_WORDS).total()], vec![0; 4 * MOST_WORDS])
}

pub fn refusal_line(refusal: &Refusal) -> String {
    format!("refused {} at {}\n", refusal.number, refusal.place)
}

fn lines(rho: u32, table: &Table, verdict: &Verdict, estimate: &[u32]) -> String {
    let Verdict { leak, bound, facts } = verdict;
    let (word, first) = match verdict.first_outside() {
        Some(first) => ("over", first.to_string()),
        None => ("within", "-".to_string()),
    };
    let mut text = format!("leak {leak:06x} bound {bound:06x} verdict {word} first {first} facts {facts}\n");
    let yes_or_no = |holds| if holds { "yes" } else { "no" };
    let flags = &estimate[Layout::of(table).rows()..];
    for (position, block) in table.blocks.iter().enumerate() {
        let (entry, flag) = (yes_or_no(within(block.guard, rho)), flags[block.start]);
        let (name, live, set) = (block.name, yes_or_no(flag & LIVE != 0), flag & PERMISSIONS_MASK);
        writeln!(text, "handler {position} name {name} entry {entry} live {live} set {set:06x}").unwrap();
    }
    text
}

/// What the program prints for this standard input; its table is a narrow one.
pub fn program(bytes: &[u8]) -> String {
    let run = || {
        let (rho, bound, words) = input(bytes, 256)?;
        read_narrow(&words)?;
        let (mut estimate, mut work) = slices();
        let (table, verdict) = verdict(&words, rho, bound, &mut estimate, &mut work)?;
        Ok(lines(rho, &table, &verdict, &estimate))
    };
    run().unwrap_or_else(|refusal| refusal_line(&refusal))
}
