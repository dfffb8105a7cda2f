//! The least estimate as directly as it can be said: apply every rule at every word until nothing changes.

use crate::estimate::*;
use crate::table::{kind::*, within, Block, Table};

type Set = Vec<u64>;

fn has(set: &Set, x: usize) -> bool {
    set[x / 64] >> (x % 64) & 1 != 0
}

fn put(set: &mut Set, x: usize) {
    set[x / 64] |= 1 << (x % 64);
}

fn put_all(set: &mut Set, other: &Set) {
    set.iter_mut().zip(other).for_each(|(word, other)| *word |= other);
}

#[derive(Clone, PartialEq)]
struct Sets {
    c: Vec<Set>,
    b: Vec<Set>,
    p: Vec<u32>,
    live: Vec<bool>,
}

/// What an operation gives for a pair of plain elements.
pub fn pair(operation: u32, x: usize, y: usize) -> Vec<usize> {
    let numbers = (NEGATIVE..=POSITIVE).contains(&x) && (NEGATIVE..=POSITIVE).contains(&y);
    let comparable = |x| x != OPPONENT;
    match operation {
        0 if numbers && (x == y || y == ZERO) => vec![x],
        0 if numbers && x == ZERO => vec![y],
        0 if numbers => vec![NEGATIVE, ZERO, POSITIVE],
        1 if numbers && x == y && x != ZERO => vec![TRUE, FALSE],
        1 if numbers => vec![if x < y { TRUE } else { FALSE }],
        2 if comparable(x) && comparable(y) => match x {
            _ if x != y => vec![FALSE],
            NEGATIVE | POSITIVE | OTHER_STRING => vec![TRUE, FALSE],
            _ => vec![TRUE],
        },
        _ => vec![],
    }
}

struct Naive<'a> {
    table: &'a Table,
    rho: u32,
    /// Do the senders' rules apply too?
    senders: bool,
    e: Sets,
}

impl Naive<'_> {
    /// The words i of kinds that `wanted` accepts with what i makes in C(p).
    fn made_in(&self, p: usize, wanted: impl Fn(u8) -> bool) -> Vec<usize> {
        (0..self.table.size()).filter(|&i| wanted(self.table.kind(i)) && has(&self.e.c[p], made(self.table, i))).collect()
    }

    fn plain(&self) -> std::ops::Range<usize> {
        0..plain(self.table.names)
    }

    fn put_c(&mut self, p: usize, x: usize) {
        put(&mut self.e.c[p], x);
    }

    fn c_in_c(&mut self, i: usize, p: usize) {
        let set = self.e.c[i].clone();
        put_all(&mut self.e.c[p], &set);
    }

    fn c_in_b(&mut self, i: usize, p: usize) {
        put_all(&mut self.e.b[p], &self.e.c[i]);
    }

    fn b_in_c(&mut self, i: usize, p: usize) {
        put_all(&mut self.e.c[p], &self.e.b[i]);
    }

    fn b_in_b(&mut self, i: usize, p: usize) {
        let set = self.e.b[i].clone();
        put_all(&mut self.e.b[p], &set);
    }

    fn p_in_p(&mut self, i: usize, p: usize) {
        self.e.p[p] |= self.e.p[i];
    }

    fn entry(&mut self, b: usize) {
        if within(self.table.argument(b + 2), self.rho) {
            self.e.live[b] = true;
            self.plain().for_each(|x| put(&mut self.e.b[b], x));
            if self.senders {
                self.put_c(b, OPPONENT);
            }
        }
    }

    /// Who may have sent to the block at b, live or not.
    fn senders_rule(&mut self, b: usize) {
        let table = self.table;
        let block = *table.blocks.iter().find(|block| block.start == b).expect("a block starts here");
        for p in (0..table.size()).filter(|&p| table.kind(p) == SEND) {
            if self.e.live[p] && self.message(p).iter().any(|&word| word != 0) && self.may_start(p, &block) {
                self.put_c(b, made(table, table.home(p)));
            }
        }
    }

    fn rule(&mut self, p: usize) {
        let table = self.table;
        let kind = table.kind(p);
        for (k, part) in table.parts(p).enumerate() {
            if !(kind == FUNCTION || kind == IF && k > 0 || kind == WHILE && k > 0) {
                self.e.live[part] = true;
            }
            if kind != FUNCTION {
                self.p_in_p(part, p);
            }
        }
        let part = |k| table.part(p, k);
        match kind {
            CONSTANT | NUMBER | LITERAL | NAME => self.put_c(p, element(table, p)),
            VARIABLE => self.b_in_c(table.binder(p), p),
            FUNCTION | EMPTY => self.put_c(p, made(table, p)),
            CELL => {
                self.put_c(p, made(table, p));
                self.c_in_b(part(0), p);
            }
            APPLY => {
                for f in self.made_in(part(0), |kind| kind == FUNCTION) {
                    self.e.live[f + 1] = true;
                    self.c_in_b(part(1), f);
                    self.c_in_c(f + 1, p);
                    self.p_in_p(f + 1, p);
                }
            }
            LET => {
                self.c_in_b(part(0), p);
                self.c_in_c(part(1), p);
            }
            SEQUENCE => self.c_in_c(part(1), p),
            IF => {
                self.e.live[part(1)] |= has(&self.e.c[part(0)], TRUE);
                self.e.live[part(2)] |= has(&self.e.c[part(0)], FALSE);
                self.c_in_c(part(1), p);
                self.c_in_c(part(2), p);
            }
            WHILE => {
                self.e.live[part(1)] |= has(&self.e.c[part(0)], TRUE);
                if has(&self.e.c[part(0)], FALSE) {
                    self.put_c(p, UNDEFINED);
                }
            }
            OPERATION => {
                let (first, second) = (self.e.c[part(0)].clone(), self.e.c[part(1)].clone());
                for x in self.plain().filter(|&x| has(&first, x)) {
                    for y in self.plain().filter(|&y| has(&second, y)) {
                        pair(table.argument(p), x, y).into_iter().for_each(|z| self.put_c(p, z));
                    }
                }
            }
            GET | SET | DELETE if (OTHER_STRING..FIRST_NAME).any(|x| has(&self.e.c[part(1)], x)) => self.record_rule(p),
            READ => {
                for q in self.made_in(part(0), |kind| kind == CELL) {
                    self.b_in_c(q, p);
                }
            }
            ASSIGN => {
                for q in self.made_in(part(0), |kind| kind == CELL) {
                    self.c_in_c(part(1), p);
                    self.c_in_b(part(1), q);
                }
            }
            SEND => self.send_rule(p),
            EXERCISE => {
                if within(table.argument(p), table.permissions(p)) {
                    self.e.p[p] |= table.argument(p);
                    self.put_c(p, UNIT);
                }
            }
            _ => {}
        }
    }

    fn record_rule(&mut self, p: usize) {
        let first = self.table.part(p, 0);
        let records = self.made_in(first, makes_record);
        let opponent = has(&self.e.c[first], OPPONENT);
        match self.table.kind(p) {
            GET => {
                for q in records {
                    self.b_in_c(q, p);
                    self.put_c(p, UNDEFINED);
                }
                if opponent {
                    self.plain().for_each(|x| self.put_c(p, x));
                }
            }
            SET if opponent || !records.is_empty() => {
                self.put_c(p, made(self.table, p));
                self.c_in_b(self.table.part(p, 2), p);
                for q in records {
                    self.b_in_b(q, p);
                }
                if opponent {
                    self.plain().for_each(|x| put(&mut self.e.b[p], x));
                }
            }
            DELETE => {
                for q in records {
                    self.put_c(p, made(self.table, q));
                }
                if opponent {
                    self.put_c(p, OPPONENT);
                }
            }
            _ => {}
        }
    }

    /// C(message) of the send at p, less functions and cells.
    fn message(&self, p: usize) -> Set {
        let message = self.table.part(p, 1);
        let mut m = self.e.c[message].clone();
        for i in self.made_in(message, |kind| kind == FUNCTION || kind == CELL) {
            let x = made(self.table, i);
            m[x / 64] &= !(1 << (x % 64));
        }
        m
    }

    /// Could the machine start the block for a name in C(target), the message aside?
    fn may_start(&self, p: usize, block: &Block) -> bool {
        let named = has(&self.e.c[self.table.part(p, 0)], FIRST_NAME + block.name as usize);
        named && block.admits(self.table.argument(p), self.table.permissions(p))
    }

    fn send_rule(&mut self, p: usize) {
        let table = self.table;
        self.put_c(p, UNIT);
        let m = self.message(p);
        if m.iter().all(|&word| word == 0) {
            return;
        }
        for block in &table.blocks {
            if self.may_start(p, block) {
                self.e.live[block.start] = true;
                put_all(&mut self.e.b[block.start], &m);
                self.p_in_p(block.start, p);
            }
        }
    }
}

/// The least estimate in document 01's layout.
pub fn solve(table: &Table, rho: u32) -> Vec<u32> {
    solve_by(table, rho, true)
}

/// The least estimate by document 01's rules alone, where C of a block is empty.
pub fn without_senders(table: &Table, rho: u32) -> Vec<u32> {
    solve_by(table, rho, false)
}

fn solve_by(table: &Table, rho: u32, senders: bool) -> Vec<u32> {
    let size = table.size();
    let Layout { row, .. } = Layout::of(table);
    let empty = vec![vec![0; row.div_ceil(2)]; size];
    let e = Sets { c: empty.clone(), b: empty, p: vec![0; size], live: vec![false; size] };
    let mut naive = Naive { table, rho, senders, e };
    loop {
        let before = naive.e.clone();
        for p in 0..size {
            if table.kind(p) == BLOCK {
                naive.entry(p);
                if senders {
                    naive.senders_rule(p);
                }
            }
            if naive.e.live[p] {
                naive.rule(p);
            }
        }
        if naive.e == before {
            break;
        }
    }
    let e = naive.e;
    let words = |set: &Set| (0..row).map(|k| (set[k / 2] >> (32 * (k % 2))) as u32).collect::<Vec<_>>();
    let mut estimate: Vec<u32> = e.c.iter().zip(&e.b).flat_map(|(c, b)| [words(c), words(b)].concat()).collect();
    estimate.extend(e.p.iter().zip(&e.live).map(|(p, &live)| p | if live { LIVE } else { 0 }));
    estimate
}
