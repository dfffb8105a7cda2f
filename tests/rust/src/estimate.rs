//! The estimate: elements, layout, and what is read from it.

use crate::table::{kind::*, within, Table};

pub const UNDEFINED: usize = 0;
pub const UNIT: usize = 1;
pub const TRUE: usize = 2;
pub const FALSE: usize = 3;
pub const NEGATIVE: usize = 4;
pub const ZERO: usize = 5;
pub const POSITIVE: usize = 6;
pub const OPPONENT: usize = 7;
pub const OTHER_STRING: usize = 8;
pub const FIRST_LITERAL: usize = 9;
pub const FIRST_NAME: usize = 32;
/// The flag of a live word, beside its permissions.
pub const LIVE: u32 = 1 << 24;
pub const PERMISSIONS_MASK: u32 = LIVE - 1;

/// How many elements are plain, which no word makes: "all 64" of a narrow table.
pub fn plain(names: u32) -> usize {
    FIRST_NAME + names as usize
}

/// The element of what word i makes.
pub fn made(table: &Table, i: usize) -> usize {
    plain(table.names) + i
}

pub fn makes_record(kind: u8) -> bool {
    kind == EMPTY || kind == SET
}

pub fn sign(number: i128) -> usize {
    match number.signum() {
        -1 => NEGATIVE,
        0 => ZERO,
        _ => POSITIVE,
    }
}

/// The element of a constant, number, literal or name at word p.
pub fn element(table: &Table, p: usize) -> usize {
    let argument = table.argument(p) as usize;
    match table.kind(p) {
        CONSTANT => argument,
        NUMBER => sign(table.number(p).into()),
        LITERAL => FIRST_LITERAL + argument,
        NAME => FIRST_NAME + argument,
        _ => panic!("word {p} has no element of its own"),
    }
}

/// C(i) is row 2i, B(i) row 2i + 1, each of `row` words; then a word for each P(i) with its flag.
#[derive(Clone, Copy)]
pub struct Layout {
    pub size: usize,
    /// The number of plain elements, which come first in a row.
    pub plain: usize,
    pub row: usize,
}

impl Layout {
    pub fn of(table: &Table) -> Layout {
        Layout::sized(table.names, table.size())
    }

    /// That of a table with so many names and words.
    pub fn sized(names: u32, size: usize) -> Layout {
        let plain = plain(names);
        Layout { size, plain, row: (plain + size + 31) / 32 }
    }

    /// Where the words of P and the flags start.
    pub fn rows(&self) -> usize {
        2 * self.size * self.row
    }

    pub fn total(&self) -> usize {
        self.rows() + self.size
    }
}

/// The union of P(b) over the blocks with a guard within ρ.
pub fn leak(table: &Table, rho: u32, estimate: &[u32]) -> u32 {
    let permissions = &estimate[Layout::of(table).rows()..];
    let entries = table.blocks.iter().filter(|block| within(block.guard, rho));
    entries.fold(0, |leak, block| leak | permissions[block.start]) & PERMISSIONS_MASK
}

/// The set bits of the estimate.
pub fn facts(table: &Table, estimate: &[u32]) -> u32 {
    estimate[..Layout::of(table).total()].iter().map(|word| word.count_ones()).sum()
}
