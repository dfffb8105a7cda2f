//! The least estimate by a worklist over rows of bits.
//!
//! A row that grows waits for its turn, and is then handed to those alone that read it. Turns follow the machine's order
//! (a part before its word, a let's first part before its variables), so that what has no loop is done in one round.
//! No set of values depends on a set of permissions: those are solved last, over the links found for the values.

use crate::estimate::*;
use crate::table::{kind::*, within, Table, MOST_WORDS, WIDE};

const STRINGS: u32 = 0xffff_ff00;
const NONE: u32 = u32::MAX;
const MOST_ROW: usize = (FIRST_NAME + WIDE as usize + MOST_WORDS) / 32;

/// The signs of sums, one row for each sign of the first number; bit 0 negative, bit 1 zero, bit 2 positive.
const ADD: [[u32; 3]; 3] = [[1, 1, 7], [1, 2, 4], [7, 4, 4]];
/// The truths of comparisons likewise; bit 0 true, bit 1 false.
const LESS: [[u32; 3]; 3] = [[3, 1, 1], [2, 2, 1], [2, 2, 3]];

fn c(i: usize) -> usize {
    2 * i
}

fn b(i: usize) -> usize {
    2 * i + 1
}

/// The result of an operation on plain elements.
fn operate(operation: u32, x: u128, y: u128) -> u32 {
    let signs = |table: &[[u32; 3]; 3]| {
        let mut result = 0;
        for i in (0..3).filter(|i| x >> (NEGATIVE + i) & 1 != 0) {
            for j in (0..3).filter(|j| y >> (NEGATIVE + j) & 1 != 0) {
                result |= table[i][j];
            }
        }
        result
    };
    match operation {
        0 => signs(&ADD) << NEGATIVE,
        1 => signs(&LESS) << TRUE,
        _ => {
            let (x, y) = (x & !(1 << OPPONENT), y & !(1 << OPPONENT));
            if x == 0 || y == 0 {
                return 0;
            }
            let same = x & y;
            let many = 1 << NEGATIVE | 1 << POSITIVE | 1 << OTHER_STRING;
            let different = x != y || !x.is_power_of_two() || same & many != 0;
            u32::from(same != 0) << TRUE | u32::from(different) << FALSE
        }
    }
}

/// The set bits of a word.
fn bits(mut word: u32) -> impl Iterator<Item = usize> {
    std::iter::from_fn(move || {
        let bit = word.trailing_zeros();
        word &= word.wrapping_sub(1);
        (bit < 32).then_some(bit as usize)
    })
}

/// Which made elements a word follows.
#[derive(Clone, Copy)]
enum Made {
    Functions,
    Records,
    Cells,
}

struct Solver<'a> {
    table: &'a Table,
    /// The number of plain elements, a multiple of 32.
    plain: usize,
    row: usize,
    /// C(i) is row 2i, B(i) row 2i + 1.
    rows: &'a mut [u32],
    flags: &'a mut [u32],
    /// Rows of the functions, the records and the cells of the table.
    made: [Vec<u32>; 3],
    /// Row p: the made elements, or the blocks, that word p already follows.
    followed: Vec<u32>,
    /// The words that follow what word i makes, or the sends that start block i: the head of a list in `links`.
    users: Vec<u32>,
    links: Vec<(u16, u32)>,
    /// The variables of binder i, and of each variable the next one.
    variables: Vec<u32>,
    next_variable: Vec<u32>,
    turn_of: Vec<u16>,
    row_at: Vec<u16>,
    /// The rows that wait, by their turns.
    waiting: Vec<u64>,
}

impl<'a> Solver<'a> {
    fn new(table: &'a Table, estimate: &'a mut [u32]) -> Self {
        let Layout { size, plain, row } = Layout::of(table);
        estimate.fill(0);
        let (rows, flags) = estimate.split_at_mut(2 * size * row);
        let mut solver = Solver {
            table,
            plain,
            row,
            rows,
            flags,
            made: [vec![0; row], vec![0; row], vec![0; row]],
            followed: vec![0; size * row],
            users: vec![NONE; size],
            links: Vec::new(),
            variables: vec![NONE; size],
            next_variable: vec![NONE; size],
            turn_of: vec![0; 2 * size],
            row_at: Vec::with_capacity(2 * size),
            waiting: vec![0; size / 32 + 1],
        };
        for (p, node) in table.nodes.iter().enumerate() {
            let made = match node.kind {
                FUNCTION => Made::Functions,
                EMPTY | SET => Made::Records,
                CELL => Made::Cells,
                VARIABLE => {
                    let binder = table.binder(p);
                    solver.next_variable[p] = solver.variables[binder];
                    solver.variables[binder] = p as u32;
                    continue;
                }
                _ => continue,
            };
            solver.made[made as usize][(plain + p) / 32] |= 1 << (p % 32);
        }
        for block in &table.blocks {
            solver.number(block.start);
        }
        solver
    }

    /// Gives turns to the rows of the term or block at p.
    fn number(&mut self, p: usize) {
        let kind = self.table.kind(p);
        if kind == FUNCTION || kind == BLOCK {
            self.give_turn(b(p));
        }
        for (k, part) in self.table.parts(p).enumerate() {
            if kind == LET && k == 1 {
                self.give_turn(b(p));
            }
            self.number(part);
        }
        if makes_record(kind) || kind == CELL {
            self.give_turn(b(p));
        }
        self.give_turn(c(p));
    }

    fn give_turn(&mut self, row: usize) {
        self.turn_of[row] = self.row_at.len() as u16;
        self.row_at.push(row as u16);
    }

    fn wait(&mut self, row: usize) {
        let turn = usize::from(self.turn_of[row]);
        self.waiting[turn / 64] |= 1 << (turn % 64);
    }

    /// Takes the next row that waits, going round from this turn on.
    fn next(&mut self, turn: usize) -> Option<usize> {
        let words = self.waiting.len();
        for k in 0..=words {
            let at = (turn / 64 + k) % words;
            let ahead = if k == 0 { self.waiting[at] & u64::MAX << (turn % 64) } else { self.waiting[at] };
            if ahead != 0 {
                let bit = ahead.trailing_zeros() as usize;
                self.waiting[at] &= !(1 << bit);
                return Some(64 * at + bit);
            }
        }
        None
    }

    fn values(&self, i: usize) -> &[u32] {
        &self.rows[c(i) * self.row..][..self.row]
    }

    /// The plain elements of C(i).
    fn plain(&self, i: usize) -> u128 {
        self.values(i)[..self.plain / 32].iter().rev().fold(0, |elements, &word| elements << 32 | u128::from(word))
    }

    fn has(&self, i: usize, element: usize) -> bool {
        self.values(i)[element / 32] >> (element % 32) & 1 != 0
    }

    fn put(&mut self, row: usize, element: usize) {
        let word = &mut self.rows[row * self.row + element / 32];
        if *word >> (element % 32) & 1 == 0 {
            *word |= 1 << (element % 32);
            self.wait(row);
        }
    }

    /// Puts some of elements 0 to 31.
    fn put_low(&mut self, row: usize, elements: u32) {
        let word = &mut self.rows[row * self.row];
        if !within(elements, *word) {
            *word |= elements;
            self.wait(row);
        }
    }

    /// Puts all plain elements.
    fn put_plain(&mut self, row: usize) {
        let words = &mut self.rows[row * self.row..][..self.plain / 32];
        if words.iter().any(|&word| word != u32::MAX) {
            words.fill(u32::MAX);
            self.wait(row);
        }
    }

    /// Puts the elements of one row that `keep` keeps in another.
    fn flow_kept(&mut self, from: usize, to: usize, keep: impl Fn(usize, u32) -> u32) {
        if from == to {
            return;
        }
        let row = self.row;
        let (low, high) = self.rows.split_at_mut(from.max(to) * row);
        let (source, target) =
            if from < to { (&low[from * row..][..row], &mut high[..row]) } else { (&high[..row], &mut low[to * row..][..row]) };
        let added = target.iter().zip(source).enumerate().fold(0, |added, (k, (target, &source))| added | keep(k, source) & !target);
        if added != 0 {
            target.iter_mut().zip(source).enumerate().for_each(|(k, (target, &source))| *target |= keep(k, source));
            self.wait(to);
        }
    }

    fn flow(&mut self, from: usize, to: usize) {
        self.flow_kept(from, to, |_, word| word);
    }

    /// As flow, where the reader is new: a row that waits comes to all its readers at its turn.
    fn catch_up(&mut self, from: usize, to: usize) {
        let turn = usize::from(self.turn_of[from]);
        if self.waiting[turn / 64] >> (turn % 64) & 1 == 0 {
            self.flow(from, to);
        }
    }

    fn link(&mut self, i: usize, user: usize) {
        self.links.push((user as u16, self.users[i]));
        self.users[i] = self.links.len() as u32 - 1;
    }

    fn each_user(&mut self, i: usize, mut act: impl FnMut(&mut Self, usize)) {
        let mut at = self.users[i];
        while at != NONE {
            let (user, next) = self.links[at as usize];
            act(self, user.into());
            at = next;
        }
    }

    /// Makes word p live, and with it the parts that are live with it.
    fn wake(&mut self, p: usize) {
        if self.flags[p] & LIVE != 0 {
            return;
        }
        self.flags[p] |= LIVE;
        let table = self.table;
        match table.kind(p) {
            CONSTANT | NUMBER | LITERAL | NAME => self.put(c(p), element(table, p)),
            VARIABLE => self.catch_up(b(table.binder(p)), c(p)),
            FUNCTION | EMPTY => self.put(c(p), made(table, p)),
            CELL => {
                self.put(c(p), made(table, p));
                self.wake(p + 1);
            }
            IF | WHILE => self.wake(p + 1),
            EXERCISE => {
                let set = table.argument(p);
                if within(set, table.permissions(p)) {
                    self.put(c(p), UNIT);
                    self.flags[p] |= set;
                }
            }
            kind => {
                if kind == SEND {
                    self.put(c(p), UNIT);
                }
                table.parts(p).for_each(|part| self.wake(part));
            }
        }
    }

    /// Word p follows the made elements in C(p + 1) that it did not follow before.
    fn follow(&mut self, p: usize, made: Made) {
        let mut fresh = [0; MOST_ROW];
        let followed = &mut self.followed[p * self.row..][..self.row];
        let values = &self.rows[c(p + 1) * self.row..][..self.row];
        for (((fresh, followed), values), made) in fresh.iter_mut().zip(followed).zip(values).zip(&self.made[made as usize]) {
            *fresh = values & made & !*followed;
            *followed |= *fresh;
        }
        for (k, word) in fresh.into_iter().enumerate() {
            for bit in bits(word) {
                self.follow_one(p, 32 * k + bit - self.plain);
            }
        }
    }

    fn follow_one(&mut self, p: usize, q: usize) {
        let table = self.table;
        if table.kind(p) != ASSIGN {
            self.link(q, p);
        }
        match table.kind(p) {
            APPLY => {
                self.wake(q + 1);
                self.catch_up(c(table.part(p, 1)), b(q));
                self.catch_up(c(q + 1), c(p));
            }
            GET => {
                self.put(c(p), UNDEFINED);
                self.catch_up(b(q), c(p));
            }
            SET => self.catch_up(b(q), b(p)),
            READ => self.catch_up(b(q), c(p)),
            _ => {
                self.catch_up(c(table.part(p, 1)), c(p));
                self.catch_up(c(table.part(p, 1)), b(q));
            }
        }
    }

    /// C(second) of word p, an apply or an assign, goes to B of all it follows.
    fn hand_over(&mut self, p: usize) {
        let second = self.table.part(p, 1);
        for k in self.plain / 32..self.row {
            for bit in bits(self.followed[p * self.row + k]) {
                self.flow(c(second), b(32 * k + bit - self.plain));
            }
        }
    }

    /// C(i) has grown: the rule of the word it is a part of.
    fn values_grew(&mut self, i: usize) {
        let table = self.table;
        let p = table.parent(i);
        let first = i == p + 1;
        match table.kind(p) {
            FUNCTION => self.each_user(p, |solver, user| solver.flow(c(i), c(user))),
            APPLY if first => self.follow(p, Made::Functions),
            APPLY => self.hand_over(p),
            LET if first => self.flow(c(i), b(p)),
            SEQUENCE if first => {}
            LET | SEQUENCE => self.flow(c(i), c(p)),
            IF if first => {
                for (truth, k) in [(TRUE, 1), (FALSE, 2)] {
                    if self.has(i, truth) {
                        self.wake(table.part(p, k));
                    }
                }
            }
            IF => self.flow(c(i), c(p)),
            WHILE if first => {
                if self.has(i, TRUE) {
                    self.wake(table.part(p, 1));
                }
                if self.has(i, FALSE) {
                    self.put(c(p), UNDEFINED);
                }
            }
            OPERATION => {
                let result = operate(table.argument(p), self.plain(p + 1), self.plain(table.part(p, 1)));
                self.put_low(c(p), result);
            }
            GET | SET | DELETE => self.on_record(p),
            CELL => self.flow(c(i), b(p)),
            READ => self.follow(p, Made::Cells),
            ASSIGN if first => self.follow(p, Made::Cells),
            ASSIGN => {
                if self.followed[p * self.row..][..self.row].iter().any(|&word| word != 0) {
                    self.flow(c(i), c(p));
                    self.hand_over(p);
                }
            }
            SEND => self.deliver(p),
            _ => {}
        }
    }

    /// Get, set or delete at word p.
    fn on_record(&mut self, p: usize) {
        let table = self.table;
        if self.values(table.part(p, 1))[0] & STRINGS == 0 {
            return;
        }
        let opponent = self.has(p + 1, OPPONENT);
        match table.kind(p) {
            GET => {
                if opponent {
                    self.put_plain(c(p));
                }
                self.follow(p, Made::Records);
            }
            SET => {
                let records = &self.made[Made::Records as usize];
                if opponent || self.values(p + 1).iter().zip(records).any(|(word, records)| word & records != 0) {
                    self.put(c(p), made(table, p));
                    self.flow(c(table.part(p, 2)), b(p));
                    if opponent {
                        self.put_plain(b(p));
                    }
                    self.follow(p, Made::Records);
                }
            }
            _ => {
                let records = std::mem::take(&mut self.made[Made::Records as usize]);
                self.flow_kept(c(p + 1), c(p), |k, word| word & (records[k] | if k == 0 { 1 << OPPONENT } else { 0 }));
                self.made[Made::Records as usize] = records;
            }
        }
    }

    /// The send at word p.
    fn deliver(&mut self, p: usize) {
        let table = self.table;
        let message = table.part(p, 1);
        let [functions, cells] = [Made::Functions, Made::Cells].map(|made| std::mem::take(&mut self.made[made as usize]));
        let keep = |k: usize, word: u32| word & !(functions[k] | cells[k]);
        if self.values(message).iter().enumerate().any(|(k, word)| keep(k, *word) != 0) {
            let names = self.plain(p + 1) >> FIRST_NAME;
            for block in &table.blocks {
                if names >> block.name & 1 != 0 && block.admits(table.argument(p), table.permissions(p)) {
                    let followed = &mut self.followed[p * self.row + made(table, block.start) / 32];
                    let bit = 1 << (block.start % 32);
                    if *followed & bit == 0 {
                        *followed |= bit;
                        self.link(block.start, p);
                        self.wake(block.start);
                        self.note_sender(block.start, made(table, table.home(p)));
                    }
                    self.flow_kept(c(message), b(block.start), keep);
                }
            }
        }
        self.made[Made::Functions as usize] = functions;
        self.made[Made::Cells as usize] = cells;
    }

    /// C(b) of a block says who may have sent to it. Nothing reads it, so it does not wait.
    fn note_sender(&mut self, b: usize, element: usize) {
        self.rows[c(b) * self.row + element / 32] |= 1 << (element % 32);
    }

    /// B(i) has grown: the live variables of a binder, the followers of a record or cell.
    fn held_grew(&mut self, i: usize) {
        let table = self.table;
        if matches!(table.kind(i), BLOCK | FUNCTION | LET) {
            let mut variable = self.variables[i];
            while variable != NONE {
                let p = variable as usize;
                if self.flags[p] & LIVE != 0 {
                    self.flow(b(i), c(p));
                }
                variable = self.next_variable[p];
            }
        } else {
            self.each_user(i, |solver, user| {
                let to = if table.kind(user) == SET { b(user) } else { c(user) };
                solver.flow(b(i), to);
            });
        }
    }

    fn enter(&mut self, rho: u32) {
        let table = self.table;
        for block in table.blocks.iter().filter(|block| within(block.guard, rho)) {
            self.put_plain(b(block.start));
            self.wake(block.start);
            self.note_sender(block.start, OPPONENT);
        }
    }

    fn solve_values(&mut self) {
        let mut turn = 0;
        while let Some(next) = self.next(turn) {
            let row = usize::from(self.row_at[next]);
            if row % 2 == 0 {
                self.values_grew(row / 2);
            } else {
                self.held_grew(row / 2);
            }
            turn = next + 1;
        }
    }

    fn allow(&mut self, set: u32, p: usize) {
        if !within(set, self.flags[p]) {
            self.flags[p] |= set;
            self.wait(c(p));
        }
    }

    fn solve_permissions(&mut self) {
        let table = self.table;
        for p in (0..table.size()).filter(|&p| table.kind(p) == EXERCISE) {
            if self.flags[p] & PERMISSIONS_MASK != 0 {
                self.wait(c(p));
            }
        }
        let mut turn = 0;
        while let Some(next) = self.next(turn) {
            let p = usize::from(self.row_at[next]) / 2;
            let set = self.flags[p] & PERMISSIONS_MASK;
            let parent = table.parent(p);
            if table.kind(p) == BLOCK {
                self.each_user(p, |solver, user| solver.allow(set, user));
            } else if table.kind(parent) == FUNCTION {
                self.each_user(parent, |solver, user| solver.allow(set, user));
            } else {
                self.allow(set, parent);
            }
            turn = next + 1;
        }
    }
}

/// Writes the least estimate to the first 2WR + W words.
pub fn solve(table: &Table, rho: u32, estimate: &mut [u32]) {
    let mut solver = Solver::new(table, &mut estimate[..Layout::of(table).total()]);
    solver.enter(rho);
    solver.solve_values();
    solver.solve_permissions();
}
