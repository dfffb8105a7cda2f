//! Random tables, calls, data and events, each from a fixed seed.

use crate::estimate::Layout;
use crate::machine::{Event, Value, World};
use crate::table::{arguments, arity, kind::*, names_of, Table, LITERALS, MOST_DEPTH, MOST_WORDS, NARROW, STANDING_BOUND};
use crate::terms::{block, system, system_with, word, Term};
use crate::verdict::bytes_of;

/// A small generator of pseudo-random numbers (splitmix64).
pub struct Random(pub u64);

impl Random {
    pub fn number(&mut self) -> u64 {
        self.0 = self.0.wrapping_add(0x9e37_79b9_7f4a_7c15);
        let mut x = self.0;
        x = (x ^ x >> 30).wrapping_mul(0xbf58_476d_1ce4_e5b9);
        x = (x ^ x >> 27).wrapping_mul(0x94d0_49bb_1331_11eb);
        x ^ x >> 31
    }

    pub fn below(&mut self, limit: usize) -> usize {
        (self.number() % limit as u64) as usize
    }

    /// True once in this many times.
    pub fn once_in(&mut self, times: usize) -> bool {
        self.below(times) == 0
    }

    pub fn pick<'a, T>(&mut self, from: &'a [T]) -> &'a T {
        &from[self.below(from.len())]
    }

    /// A set of few of the lowest permissions, seldom of the highest.
    pub fn permissions(&mut self, most: usize) -> u32 {
        (0..self.below(most + 1)).fold(0, |set, _| set | 1 << if self.once_in(20) { 23 } else { self.below(6) })
    }
}

/// A name and permissions for each of some handlers, no two alike, where there are so many names.
fn keys(random: &mut Random, names: u32, handlers: usize) -> Vec<(u32, u32)> {
    let names = 1 + random.below(names as usize);
    let mut keys: Vec<(u32, u32)> = Vec::new();
    while keys.len() < handlers {
        let permissions = if random.once_in(4) { random.number() as u32 >> 8 } else { random.permissions(10) };
        let key = (random.below(names) as u32, permissions);
        if !keys.contains(&key) {
            keys.push(key);
        }
    }
    keys
}

/// An argument within the range of this kind, where there are so many names and `scope` binders stand around it.
fn argument(random: &mut Random, names: u32, kind: u8, scope: usize) -> u32 {
    match kind {
        VARIABLE => random.below(scope) as u32,
        NUMBER => *random.pick(&[0, 1, 5, 0xff_ffff, 0x80_0000, 0x7f_ffff]),
        SEND => random.permissions(1),
        EXERCISE => random.permissions(2),
        _ => random.below(arguments(kind, names) as usize) as u32,
    }
}

/// The most words that fit in a term at this depth, as far as it matters.
fn room(depth: usize) -> usize {
    (depth..=MOST_DEPTH).fold(0, |words, _| (3 * words + 1).min(MOST_WORDS))
}

/// What an exact term goes by: how many names there are, and whether it is lean, which nests deeply.
#[derive(Clone, Copy)]
struct Shape {
    names: u32,
    lean: bool,
}

/// A term of exactly this many words, its kinds chosen without regard to sense.
fn exact_term(random: &mut Random, shape: Shape, words: usize, depth: usize, scope: usize, out: &mut Term) {
    assert!((1..=room(depth)).contains(&words));
    let kind = loop {
        let kind = CONSTANT + random.below((EXERCISE - CONSTANT + 1) as usize) as u8;
        let parts = arity(kind);
        if if words == 1 { parts == 0 } else { parts > 0 && parts < words && words - 1 <= parts * room(depth + 1) } {
            break kind;
        }
    };
    out.push(word(kind, argument(random, shape.names, kind, scope)));
    let parts = arity(kind);
    let mut left = words - 1;
    for k in 0..parts {
        let after = parts - 1 - k;
        let least = left.saturating_sub(after * room(depth + 1)).max(1);
        let most = (left - after).min(room(depth + 1));
        let size = match after {
            0 => left,
            _ if shape.lean => {
                if random.once_in(2) {
                    least
                } else {
                    most
                }
            }
            _ => least + random.below(most - least + 1),
        };
        let binds = kind == FUNCTION || kind == LET && k == 1;
        exact_term(random, shape, size, depth + 1, scope + usize::from(binds), out);
        left -= size;
    }
}

/// A valid table with so many names of exactly this many words (2, 3 and 4 cannot be: 1 then), without regard to sense.
pub fn exact_table(random: &mut Random, names: u32, words: usize) -> Vec<u32> {
    if words < 5 {
        return system_with(names, &[]);
    }
    let handlers = 1 + random.below(((words - 1) / 4).min(names as usize));
    let mut left = words - 1 - 4 * handlers;
    let shape = Shape { names, lean: random.once_in(2) };
    let mut blocks = Vec::new();
    for (k, (name, permissions)) in keys(random, names, handlers).into_iter().enumerate() {
        let more = if k + 1 == handlers { left } else { random.below(left + 1) };
        left -= more;
        let mut body = Vec::new();
        exact_term(random, shape, 1 + more, 1, 1, &mut body);
        blocks.push(block(name, permissions, random.permissions(1), body));
    }
    system_with(names, &blocks)
}

/// A table to lay over this one: some of its keys, in another order and with other bodies, and some new ones.
pub fn overlay_of(random: &mut Random, base: &Table) -> Vec<u32> {
    let mut chosen: Vec<(u32, u32)> = Vec::new();
    let handlers = random.below(NARROW as usize + 1).min(random.below(40));
    for key in keys(random, NARROW, handlers) {
        let block = (!base.blocks.is_empty() && random.once_in(2)).then(|| random.pick(&base.blocks));
        let key = block.map_or(key, |block| (block.name, block.permissions));
        if !chosen.contains(&key) {
            chosen.push(key);
        }
    }
    let most = 1 + random.below(40);
    let mut blocks = Vec::new();
    for (name, permissions) in chosen {
        let mut body = Vec::new();
        let words = 1 + random.below(most).min(27);
        exact_term(random, Shape { names: NARROW, lean: false }, words, 1, 1, &mut body);
        blocks.push(block(name, permissions, random.permissions(1), body));
    }
    system(&blocks)
}

/// What a term is meant to give.
#[derive(Clone, Copy, PartialEq)]
enum Sort {
    Any,
    Truth,
    Number,
    Text,
    Name,
    Function,
    Record,
    Cell,
}

/// Writes terms that mostly make sense, so that the machine gets far in them.
struct Author<'a> {
    random: &'a mut Random,
    /// The sorts of the binders, the innermost last.
    scope: Vec<Sort>,
    /// The permissions of the present block.
    permissions: u32,
    /// How many names there may be, and those of the blocks.
    most_names: u32,
    names: Vec<u32>,
    out: Term,
}

impl Author<'_> {
    fn push(&mut self, kind: u8, argument: u32) {
        self.out.push(word(kind, argument));
    }

    /// A binder of this sort, if there is one; at times any binder.
    fn variable(&mut self, sort: Sort) -> Option<u32> {
        let any = sort == Sort::Any || self.random.once_in(20);
        let indices: Vec<usize> = (0..self.scope.len()).filter(|&i| any || self.scope[self.scope.len() - 1 - i] == sort).collect();
        (!indices.is_empty()).then(|| *self.random.pick(&indices) as u32)
    }

    fn leaf(&mut self, sort: Sort) {
        if !self.random.once_in(3) {
            if let Some(index) = self.variable(sort) {
                return self.push(VARIABLE, index);
            }
        }
        match sort {
            Sort::Any if self.random.once_in(2) => self.exercise(),
            Sort::Any => {
                let kind = *self.random.pick(&[CONSTANT, NUMBER, LITERAL, NAME, VARIABLE, EMPTY]);
                let argument = argument(self.random, self.most_names, kind, self.scope.len());
                self.push(kind, argument);
            }
            Sort::Truth => {
                let truth = 2 + self.random.below(2) as u32;
                self.push(CONSTANT, truth);
            }
            Sort::Number => {
                let argument = argument(self.random, self.most_names, NUMBER, 0);
                self.push(NUMBER, argument);
            }
            Sort::Text => {
                let literal = self.random.below(3) as u32;
                self.push(LITERAL, literal);
            }
            Sort::Name => {
                let name = *self.random.pick(&self.names);
                self.push(NAME, name);
            }
            Sort::Function => {
                self.push(FUNCTION, 0);
                self.exercise();
            }
            Sort::Record => self.push(EMPTY, 0),
            Sort::Cell => {
                self.push(CELL, 0);
                self.push(CONSTANT, 1);
            }
        }
    }

    /// Mostly a set that the block has.
    fn exercise(&mut self) {
        let set = 1 << self.random.below(6) | self.random.permissions(1);
        let set = if self.random.once_in(6) { set } else { set & self.permissions };
        self.push(EXERCISE, set);
    }

    fn sort(&mut self) -> Sort {
        use Sort::*;
        *self.random.pick(&[Any, Truth, Number, Text, Name, Function, Function, Record, Record, Cell, Cell])
    }

    fn parts<const N: usize>(&mut self, kind: u8, argument: u32, budget: usize, depth: usize, sorts: [Sort; N]) {
        self.push(kind, argument);
        for sort in sorts {
            self.term(sort, (budget - 1) / N, depth + 1);
        }
    }

    /// The body of a block, of about this many words: lets and statements, one after the other.
    fn body(&mut self, words: usize) {
        let mut depth = 1;
        while self.out.len() + 12 < words && depth < 40 {
            let left = words - self.out.len();
            let size = 4 + self.random.below(left / 4 + 8).min(left - 8);
            depth += 1;
            if self.random.once_in(2) {
                let sort = self.sort();
                self.push(LET, 0);
                self.term(sort, size, depth);
                self.scope.push(sort);
            } else {
                self.push(SEQUENCE, 0);
                self.term(Sort::Any, size, depth);
            }
        }
        self.term(Sort::Any, words.saturating_sub(self.out.len()), depth);
    }

    /// A term of this sort, of about this many words. Some are of another sort than they should.
    fn term(&mut self, sort: Sort, budget: usize, depth: usize) {
        // A function and a cell take one level more as leaves.
        if budget < 3 || depth >= MOST_DEPTH - 1 {
            return self.leaf(sort);
        }
        if self.random.once_in(25) {
            let sort = self.sort();
            return self.term(sort, budget, depth);
        }
        match self.random.below(10) {
            0 | 1 => {
                let first = self.sort();
                let size = 1 + self.random.below(budget / 2);
                self.push(LET, 0);
                self.term(first, size, depth + 1);
                self.scope.push(first);
                self.term(sort, budget - 1 - size, depth + 1);
                self.scope.pop();
            }
            2 | 3 => {
                let size = 1 + self.random.below(budget / 2);
                self.push(SEQUENCE, 0);
                self.term(Sort::Any, size, depth + 1);
                self.term(sort, budget - 1 - size, depth + 1);
            }
            4 => self.parts(IF, 0, budget, depth, [Sort::Truth, sort, sort]),
            5 => self.apply(sort, budget, depth),
            _ => self.own(sort, budget, depth),
        }
    }

    /// An apply of a function in place or of any other.
    fn apply(&mut self, sort: Sort, budget: usize, depth: usize) {
        let argument = self.sort();
        self.push(APPLY, 0);
        if self.random.once_in(2) {
            self.push(FUNCTION, 0);
            self.scope.push(argument);
            self.term(sort, (budget - 1) / 2, depth + 2);
            self.scope.pop();
        } else {
            self.term(Sort::Function, (budget - 1) / 2, depth + 1);
        }
        self.term(argument, (budget - 1) / 2, depth + 1);
    }

    /// A term of a kind that gives this sort.
    fn own(&mut self, sort: Sort, budget: usize, depth: usize) {
        use Sort::*;
        match sort {
            Any => match self.random.below(10) {
                0..=2 => {
                    let required = self.random.permissions(1);
                    let message = if self.random.once_in(2) { Record } else { self.sort() };
                    self.parts(SEND, required, budget, depth, [Name, message]);
                }
                3 | 4 => self.exercise(),
                5 => self.parts(GET, 0, budget, depth, [Record, Text]),
                6 => self.parts(READ, 0, budget, depth, [Cell]),
                7 => {
                    let value = self.sort();
                    self.parts(ASSIGN, 0, budget, depth, [Cell, value]);
                }
                8 => self.parts(WHILE, 0, budget, depth, [Truth, Any]),
                _ => self.apply(Any, budget, depth),
            },
            Truth if self.random.once_in(2) => self.parts(OPERATION, 1, budget, depth, [Number, Number]),
            Truth => {
                let compared = *self.random.pick(&[Any, Truth, Number, Text, Name]);
                self.parts(OPERATION, 2, budget, depth, [compared, compared]);
            }
            Number => self.parts(OPERATION, 0, budget, depth, [Number, Number]),
            Text | Name => self.leaf(sort),
            Function => {
                let argument = self.sort();
                self.push(FUNCTION, 0);
                self.scope.push(argument);
                self.term(Any, budget - 1, depth + 1);
                self.scope.pop();
            }
            Record if self.random.once_in(4) => self.parts(DELETE, 0, budget, depth, [Record, Text]),
            Record => {
                let value = self.sort();
                self.parts(SET, 0, budget, depth, [Record, Text, value]);
            }
            Cell => {
                let value = self.sort();
                self.parts(CELL, 0, budget, depth, [value]);
            }
        }
    }
}

/// A valid table with so many names of at most about this many words (never over 1,024) that mostly makes sense.
pub fn sensible_table(random: &mut Random, names: u32, words: usize, most_handlers: usize) -> Vec<u32> {
    // A block has at least eight words, or four of a wide table, so that 256 words can have over 32 handlers.
    let handlers = (1 + random.below(most_handlers)).min((words * names as usize / 256).max(1));
    let keys = keys(random, names, handlers);
    let used: Vec<u32> = keys.iter().map(|key| key.0).collect();
    let each = words / handlers;
    let mut blocks = Vec::new();
    let mut size = 1;
    for (name, permissions) in keys {
        let guard = if random.once_in(2) { 0 } else { random.permissions(2) };
        let message = *random.pick(&[Sort::Any, Sort::Record, Sort::Record, Sort::Record, Sort::Truth, Sort::Text, Sort::Name]);
        let mut author =
            Author { random: &mut *random, scope: vec![message], permissions, most_names: names, names: used.clone(), out: vec![] };
        author.body(each.saturating_sub(3));
        let made = block(name, permissions, guard, author.out);
        if size + made.len() <= words {
            size += made.len();
            blocks.push(made);
        }
    }
    system_with(names, &blocks)
}

/// A valid table with so many names of any sort, of 1 to 1,024 words, mostly small ones.
pub fn table(random: &mut Random, names: u32) -> Vec<u32> {
    let most = *random.pick(&[8, 32, 32, 100, 100, 256, 256, MOST_WORDS]);
    let words = 1 + random.below(most);
    if random.once_in(3) {
        exact_table(random, names, words)
    } else {
        sensible_table(random, names, words, names as usize)
    }
}

/// The wide table with other names in place of those that a narrow one cannot have; two of its handlers may now be alike.
pub fn lowered(words: &[u32]) -> Vec<u32> {
    let high = |word: u32| matches!((word >> 24) as u8, BLOCK | NAME) && word & 0xff_ffff >= NARROW;
    words.iter().map(|&word| if high(word) { word - NARROW } else { word }).collect()
}

/// The table with some damage, which may leave it valid.
pub fn damaged(random: &mut Random, mut words: Vec<u32>) -> Vec<u32> {
    for _ in 0..1 + random.below(2) {
        let at = random.below(words.len().max(1));
        match random.below(9) {
            _ if words.is_empty() => words.push(any_word(random)),
            0 => words[at] = any_word(random),
            1 => words[at] ^= 1 << random.below(32),
            2 => words.truncate(at),
            3 => words.extend((0..1 + random.below(5)).map(|_| random.number() as u32).collect::<Vec<_>>()),
            4 => {
                let other = random.below(words.len());
                words.swap(at, other);
            }
            5 => words.insert(at, any_word(random)),
            6 => {
                let blocks: Vec<usize> = (0..words.len() - 1).filter(|&i| words[i] >> 24 == u32::from(BLOCK)).collect();
                if let [first, .., last] = blocks[..] {
                    words.copy_within(first..first + 2, last);
                }
            }
            // Another number of handlers, or the other width.
            7 => words[0] = first_word(random, 70),
            _ => words[0] ^= word(SYSTEM ^ WIDE_SYSTEM, 0),
        }
    }
    words
}

/// The first word of a table of either width with fewer handlers than this.
fn first_word(random: &mut Random, handlers: usize) -> u32 {
    word(*random.pick(&[SYSTEM, WIDE_SYSTEM]), random.below(handlers) as u32)
}

/// A word that often has a kind of document 01.
pub fn any_word(random: &mut Random) -> u32 {
    let kind = random.below(40) as u8;
    match random.below(3) {
        0 => random.number() as u32,
        1 => word(kind, random.below(70) as u32),
        _ => word(kind, 0),
    }
}

/// Any words, the first mostly as it should be.
pub fn random_words(random: &mut Random) -> Vec<u32> {
    let mut words: Vec<u32> = (0..random.below(40)).map(|_| any_word(random)).collect();
    if !words.is_empty() && !random.once_in(4) {
        words[0] = first_word(random, 3);
    }
    words
}

/// A call of the C interface.
#[derive(Clone)]
pub struct Call {
    pub system: Vec<u8>,
    pub rho: u32,
    pub bound: u32,
    pub estimate: Vec<u8>,
    pub work: Vec<u8>,
}

/// A table with so many names of any sort, or a damaged one, or any words.
pub fn words(random: &mut Random, names: u32) -> Vec<u32> {
    match random.below(6) {
        0 => random_words(random),
        1 | 2 => {
            let words = table(random, names);
            damaged(random, words)
        }
        _ => table(random, names),
    }
}

/// The words of an estimate for these words, as a table of the width that the first one says.
fn estimate_words(words: &[u32]) -> usize {
    let kind = words.first().map_or(0, |first| (first >> 24) as u8);
    Layout::sized(names_of(kind).unwrap_or(NARROW), words.len()).total()
}

/// A call on a table with so many names of any sort, with slices that may be short and sets that may be malformed.
pub fn call(random: &mut Random, names: u32) -> Call {
    let words = words(random, names);
    let mut system = bytes_of(&words);
    if random.once_in(30) {
        system.push(random.number() as u8);
    }
    let rho = if random.once_in(30) { 1 << (24 + random.below(8)) } else { random.permissions(4) };
    let bound = match random.below(8) {
        0 => STANDING_BOUND,
        1 => 1 << random.below(32),
        _ => random.permissions(8),
    };
    let mut slice = |words: usize| {
        let bytes = if random.once_in(20) { random.below(4 * words + 1) } else { 4 * words + random.below(11) };
        (0..bytes).map(|_| random.number() as u8).collect()
    };
    let estimate = slice(estimate_words(&words));
    let work = slice(4 * words.len());
    Call { system, rho, bound, estimate, work }
}

/// An opponent's datum, where there are so many names.
pub fn datum(random: &mut Random, names: u32, depth: usize) -> Value {
    match random.below(if depth > 3 { 6 } else { 9 }) {
        0 => random.pick(&[Value::Undefined, Value::Unit]).clone(),
        1 => Value::Truth(random.once_in(2)),
        2 => Value::Number(random.below(7) as i128 - 3),
        3 => Value::Number(i128::from(random.number() as i64 >> 20)),
        4 => {
            let most = *random.pick(&[3, LITERALS as usize + 5]);
            Value::Text(random.below(most) as u32)
        }
        5 => Value::Name(random.below(names as usize) as u32),
        _ => {
            let fields = (0..random.below(4)).map(|_| (*random.pick(&[0, 1, 2, 40]), datum(random, names, depth + 1))).collect();
            Value::record(None, fields)
        }
    }
}

/// An event, mostly one that changes something.
pub fn event(random: &mut Random, table: &Table, world: &World) -> Event {
    let (handlers, instances) = (table.blocks.len(), world.instances.len());
    let running: Vec<usize> = (0..instances).filter(|&i| world.instances[i].running()).collect();
    if random.once_in(8 + 4 * instances) || running.is_empty() && !random.once_in(4) {
        return Event::Start { handler: random.below(handlers + 1), datum: datum(random, table.names, 0) };
    }
    let instance = if running.is_empty() || random.once_in(20) { random.below(instances + 1) } else { *random.pick(&running) };
    let sending = world.instances.get(instance).and_then(|instance| instance.sending(table));
    let choice = match sending {
        Some((_, Value::Name(name), _)) if !random.once_in(4) => {
            let named: Vec<usize> = (0..handlers).filter(|&h| table.blocks[h].name == *name).collect();
            (!named.is_empty()).then(|| *random.pick(&named))
        }
        _ => random.once_in(4).then(|| random.below(handlers + 1)),
    };
    Event::Step { instance, choice }
}
