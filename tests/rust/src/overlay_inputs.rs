//! Pairs of tables, one to lay over the other, for the tests.

use crate::generate::{damaged, exact_table, overlay_of, table, Random};
use crate::table::{kind::FUNCTION, read, Block, Table, NARROW};
use crate::terms::*;

/// *relay* of document 01, and a table to lay over it.
pub fn relay() -> (Vec<u32>, Vec<u32>) {
    let base = system(&[block(0, 8, 0, send(0, name(1), variable(0))), block(1, 2, 8, exercise(2))]);
    let overlay = system(&[block(1, 4, 8, exercise(4)), block(1, 2, 0, empty())]);
    (base, overlay)
}

/// A table of these handlers with these sizes of blocks.
pub fn sized(blocks: &[(u32, usize)]) -> Vec<u32> {
    let body = |words: usize| [vec![word(FUNCTION, 0); words - 4], constant(0)].concat();
    system(&blocks.iter().map(|&(name, words)| block(name, 1, 0, body(words))).collect::<Vec<_>>())
}

/// A table of the handlers from a name up to another, all of one size.
pub fn handlers(from: u32, to: u32, words: usize) -> Vec<u32> {
    sized(&(from..to).map(|name| (name, words)).collect::<Vec<_>>())
}

/// The name and the permissions of each handler.
pub fn keys(table: &Table) -> Vec<(u32, u32)> {
    table.blocks.iter().map(|&Block { name, permissions, .. }| (name, permissions)).collect()
}

/// A base and an overlay; some are damaged.
pub fn pair(random: &mut Random) -> (Vec<u32>, Vec<u32>) {
    let words = 1 + random.below(1024);
    let mut base = if random.once_in(2) { table(random, NARROW) } else { exact_table(random, NARROW, words) };
    let read = read(&base).expect("a valid table");
    let mut overlay = if random.once_in(5) { table(random, NARROW) } else { overlay_of(random, &read) };
    if random.once_in(10) {
        base = damaged(random, base);
    }
    if random.once_in(10) {
        overlay = damaged(random, overlay);
    }
    (base, overlay)
}
