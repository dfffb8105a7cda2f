//! Does an estimate obey every rule? Written apart from both solvers, as statements about single elements.

use crate::estimate::*;
use crate::naive::pair;
use crate::table::{kind::*, within, Table};

struct Checker<'a> {
    table: &'a Table,
    rho: u32,
    layout: Layout,
    estimate: &'a [u32],
}

impl Checker<'_> {
    fn bit(&self, row: usize, x: usize) -> bool {
        self.estimate[row * self.layout.row + x / 32] >> (x % 32) & 1 != 0
    }

    fn c(&self, i: usize, x: usize) -> bool {
        self.bit(2 * i, x)
    }

    fn b(&self, i: usize, x: usize) -> bool {
        self.bit(2 * i + 1, x)
    }

    fn p(&self, i: usize) -> u32 {
        self.estimate[self.layout.rows() + i] & PERMISSIONS_MASK
    }

    fn live(&self, i: usize) -> bool {
        self.estimate[self.layout.rows() + i] & LIVE != 0
    }

    fn plain(&self) -> std::ops::Range<usize> {
        0..self.layout.plain
    }

    fn elements(&self) -> std::ops::Range<usize> {
        0..self.layout.plain + self.layout.size
    }

    /// For every element: if the first holds of it, so does the second.
    fn sub(&self, set: impl Fn(usize) -> bool, other: impl Fn(usize) -> bool) -> bool {
        self.elements().all(|x| !set(x) || other(x))
    }

    /// For every word of these kinds with its element in C(p).
    fn each(&self, p: usize, kinds: &[u8], holds: impl Fn(usize) -> bool) -> bool {
        (0..self.layout.size).all(|q| !(kinds.contains(&self.table.kind(q)) && self.c(p, made(self.table, q))) || holds(q))
    }

    fn live_parts(&self, p: usize) -> bool {
        let table = self.table;
        let live_with_it = |k| match table.kind(p) {
            FUNCTION => false,
            IF | WHILE => k == 0,
            _ => true,
        };
        table.parts(p).enumerate().all(|(k, part)| !live_with_it(k) || self.live(part))
            && (table.kind(p) == FUNCTION || table.parts(p).all(|part| within(self.p(part), self.p(p))))
    }

    fn rule(&self, p: usize) -> bool {
        let table = self.table;
        let argument = table.argument(p);
        let part = |k| table.part(p, k);
        let records = [EMPTY, SET];
        let string = || (OTHER_STRING..FIRST_NAME).any(|x| self.c(part(1), x));
        match table.kind(p) {
            CONSTANT | NUMBER | LITERAL | NAME => self.c(p, element(table, p)),
            VARIABLE => self.sub(|x| self.b(table.binder(p), x), |x| self.c(p, x)),
            FUNCTION | EMPTY => self.c(p, made(table, p)),
            CELL => self.c(p, made(table, p)) && self.sub(|x| self.c(part(0), x), |x| self.b(p, x)),
            APPLY => self.each(part(0), &[FUNCTION], |f| {
                self.live(f + 1)
                    && self.sub(|x| self.c(part(1), x), |x| self.b(f, x))
                    && self.sub(|x| self.c(f + 1, x), |x| self.c(p, x))
                    && within(self.p(f + 1), self.p(p))
            }),
            LET => self.sub(|x| self.c(part(0), x), |x| self.b(p, x)) && self.sub(|x| self.c(part(1), x), |x| self.c(p, x)),
            SEQUENCE => self.sub(|x| self.c(part(1), x), |x| self.c(p, x)),
            IF => {
                (!self.c(part(0), TRUE) || self.live(part(1)))
                    && (!self.c(part(0), FALSE) || self.live(part(2)))
                    && self.sub(|x| self.c(part(1), x) || self.c(part(2), x), |x| self.c(p, x))
            }
            WHILE => (!self.c(part(0), TRUE) || self.live(part(1))) && (!self.c(part(0), FALSE) || self.c(p, UNDEFINED)),
            OPERATION => self.plain().filter(|&x| self.c(part(0), x)).all(|x| {
                let mut seconds = self.plain().filter(|&y| self.c(part(1), y));
                seconds.all(|y| pair(argument, x, y).into_iter().all(|z| self.c(p, z)))
            }),
            GET => {
                !string()
                    || self.each(part(0), &records, |q| self.c(p, UNDEFINED) && self.sub(|x| self.b(q, x), |x| self.c(p, x)))
                        && (!self.c(part(0), OPPONENT) || self.plain().all(|x| self.c(p, x)))
            }
            SET => {
                let made_anew = self.c(p, made(table, p)) && self.sub(|x| self.c(part(2), x), |x| self.b(p, x));
                !string()
                    || self.each(part(0), &records, |q| made_anew && self.sub(|x| self.b(q, x), |x| self.b(p, x)))
                        && (!self.c(part(0), OPPONENT) || made_anew && self.plain().all(|x| self.b(p, x)))
            }
            DELETE => {
                !string() || self.each(part(0), &records, |q| self.c(p, made(table, q))) && (!self.c(part(0), OPPONENT) || self.c(p, OPPONENT))
            }
            READ => self.each(part(0), &[CELL], |q| self.sub(|x| self.b(q, x), |x| self.c(p, x))),
            ASSIGN => self.each(part(0), &[CELL], |q| self.sub(|x| self.c(part(1), x), |x| self.c(p, x) && self.b(q, x))),
            SEND => self.c(p, UNIT) && self.send(p),
            EXERCISE => !within(argument, table.permissions(p)) || within(argument, self.p(p)) && self.c(p, UNIT),
            _ => true,
        }
    }

    /// Is x in the message of the send at p, and no function or cell?
    fn sent(&self, p: usize, x: usize) -> bool {
        let forbidden = x >= self.layout.plain && matches!(self.table.kind(x - self.layout.plain), FUNCTION | CELL);
        self.c(self.table.part(p, 1), x) && !forbidden
    }

    /// By the send rule: does the send at p, if it is live, deliver to the block at b?
    fn delivers(&self, p: usize, b: usize) -> bool {
        let table = self.table;
        let [name, permissions, guard] = [0, 1, 2].map(|k| table.argument(b + k));
        self.elements().any(|x| self.sent(p, x))
            && self.c(table.part(p, 0), FIRST_NAME + name as usize)
            && within(table.argument(p), permissions)
            && within(guard, table.permissions(p))
    }

    fn send(&self, p: usize) -> bool {
        self.table.blocks.iter().all(|h| {
            !self.delivers(p, h.start)
                || self.live(h.start) && self.sub(|x| self.sent(p, x), |x| self.b(h.start, x)) && within(self.p(h.start), self.p(p))
        })
    }

    fn entry(&self, b: usize) -> bool {
        !within(self.table.argument(b + 2), self.rho) || self.live(b) && self.plain().all(|x| self.b(b, x)) && self.c(b, OPPONENT)
    }

    /// Each block with a live send that delivers to b stands in C(b).
    fn senders(&self, b: usize) -> bool {
        let sends = (0..self.layout.size).filter(|&p| self.table.kind(p) == SEND && self.live(p));
        sends.into_iter().all(|p| !self.delivers(p, b) || self.c(b, made(self.table, self.table.home(p))))
    }

    /// May the element stand in this row? Past the plain ones it is a block in C of a block, and else what some word makes.
    fn stands(&self, row: usize, x: usize) -> bool {
        let of_block = row % 2 == 0 && self.table.kind(row / 2) == BLOCK;
        let named = |kind| if of_block { kind == BLOCK } else { matches!(kind, FUNCTION | EMPTY | SET | CELL) };
        self.plain().contains(&x) || self.elements().contains(&x) && named(self.table.kind(x - self.layout.plain))
    }

    /// Does every set bit of word k of the estimate stand for an element, a permission or a flag?
    fn clean(&self, k: usize) -> bool {
        let (word, row) = (self.estimate[k], self.layout.row);
        if k < self.layout.rows() {
            (0..32).all(|d| word >> d & 1 == 0 || self.stands(k / row, 32 * (k % row) + d))
        } else {
            within(word, LIVE | PERMISSIONS_MASK)
        }
    }
}

/// The first word of the estimate with a stray bit, if any.
pub fn first_stray(table: &Table, estimate: &[u32]) -> Option<usize> {
    let checker = Checker { table, rho: 0, layout: Layout::of(table), estimate };
    (0..estimate.len()).find(|&k| !checker.clean(k))
}

/// The lowest word with a broken rule, if any; a stray bit is the table's word 0.
pub fn broken(table: &Table, rho: u32, estimate: &[u32]) -> Option<usize> {
    let checker = Checker { table, rho, layout: Layout::of(table), estimate };
    if first_stray(table, estimate).is_some() {
        return Some(0);
    }
    (0..table.size()).find(|&p| {
        let block = table.kind(p) != BLOCK || checker.entry(p) && checker.senders(p);
        !block || checker.live(p) && !(checker.live_parts(p) && checker.rule(p))
    })
}
