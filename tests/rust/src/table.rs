//! The reading of a table: the refusals with their places, and what stands where in an accepted one.

/// The kinds of words, by document 01's numbers.
pub mod kind {
    pub const SYSTEM: u8 = 1;
    pub const BLOCK: u8 = 2;
    pub const PERMISSIONS: u8 = 3;
    pub const GUARD: u8 = 4;
    /// In place of kind 1: a wide table.
    pub const WIDE_SYSTEM: u8 = 5;
    pub const CONSTANT: u8 = 16;
    pub const NUMBER: u8 = 17;
    pub const LITERAL: u8 = 18;
    pub const NAME: u8 = 19;
    pub const VARIABLE: u8 = 20;
    pub const FUNCTION: u8 = 21;
    pub const APPLY: u8 = 22;
    pub const LET: u8 = 23;
    pub const SEQUENCE: u8 = 24;
    pub const IF: u8 = 25;
    pub const WHILE: u8 = 26;
    pub const OPERATION: u8 = 27;
    pub const EMPTY: u8 = 28;
    pub const GET: u8 = 29;
    pub const SET: u8 = 30;
    pub const DELETE: u8 = 31;
    pub const CELL: u8 = 32;
    pub const READ: u8 = 33;
    pub const ASSIGN: u8 = 34;
    pub const SEND: u8 = 35;
    pub const EXERCISE: u8 = 36;
}
use kind::*;

pub const MOST_WORDS: usize = 1024;
pub const MOST_DEPTH: usize = 64;
/// How many names a narrow table may have, and a wide one; each may have as many handlers.
pub const NARROW: u32 = 32;
pub const WIDE: u32 = 64;
pub const WIDTHS: [u32; 2] = [NARROW, WIDE];
pub const LITERALS: u32 = 23;
/// As a bound: the empty set.
pub const STANDING_BOUND: u32 = 0x8000_0000;

#[derive(Clone, Copy, Debug, PartialEq, Eq)]
pub struct Refusal {
    pub number: u32,
    pub place: usize,
}

pub fn refused<T>(number: u32, place: usize) -> Result<T, Refusal> {
    Err(Refusal { number, place })
}

/// How many names a table may have that starts with a word of this kind.
pub fn names_of(kind: u8) -> Option<u32> {
    match kind {
        SYSTEM => Some(NARROW),
        WIDE_SYSTEM => Some(WIDE),
        _ => None,
    }
}

/// The kind of word 0 of a table that may have so many names.
pub fn system_kind(names: u32) -> u8 {
    if names == WIDE {
        WIDE_SYSTEM
    } else {
        SYSTEM
    }
}

/// How many parts a term of this kind has.
pub fn arity(kind: u8) -> usize {
    match kind {
        FUNCTION | CELL | READ => 1,
        APPLY | LET | SEQUENCE | WHILE | OPERATION | GET | DELETE | ASSIGN | SEND => 2,
        IF | SET => 3,
        _ => 0,
    }
}

/// The arguments of this kind are those below this number, in a table with so many names (a variable's have a rule of their own).
pub fn arguments(kind: u8, names: u32) -> u32 {
    match kind {
        CONSTANT => 4,
        LITERAL => LITERALS,
        NAME => names,
        OPERATION => 3,
        NUMBER | VARIABLE | SEND | EXERCISE => 1 << 24,
        _ => 1,
    }
}

/// Is every member of the first set in the second?
pub fn within(set: u32, other: u32) -> bool {
    set & !other == 0
}

/// One word of an accepted table. `parts`, `parent`, `home` and `binder` are positions of words; a block's part is its body.
#[derive(Clone, Copy, Debug)]
pub struct Node {
    pub kind: u8,
    pub argument: u32,
    parts: [u16; 3],
    parent: u16,
    home: u16,
    binder: u16,
}

#[derive(Clone, Copy, Debug)]
pub struct Block {
    pub start: usize,
    pub name: u32,
    pub permissions: u32,
    pub guard: u32,
}

impl Block {
    /// May a send that requires this set, by an instance with these permissions, start this handler, the name aside?
    pub fn admits(&self, required: u32, sender: u32) -> bool {
        within(required, self.permissions) && within(self.guard, sender)
    }
}

pub struct Table {
    /// The number of names it may have, by word 0.
    pub names: u32,
    pub nodes: Vec<Node>,
    pub blocks: Vec<Block>,
}

impl Table {
    pub fn size(&self) -> usize {
        self.nodes.len()
    }

    pub fn kind(&self, p: usize) -> u8 {
        self.nodes[p].kind
    }

    pub fn argument(&self, p: usize) -> u32 {
        self.nodes[p].argument
    }

    /// Part k of word p, from 0.
    pub fn part(&self, p: usize, k: usize) -> usize {
        self.nodes[p].parts[k].into()
    }

    /// All parts of word p, a block's body too.
    pub fn parts(&self, p: usize) -> impl Iterator<Item = usize> + '_ {
        let node = &self.nodes[p];
        let count = if node.kind == BLOCK { 1 } else { arity(node.kind) };
        node.parts[..count].iter().map(|&i| i.into())
    }

    pub fn parent(&self, p: usize) -> usize {
        self.nodes[p].parent.into()
    }

    pub fn binder(&self, p: usize) -> usize {
        self.nodes[p].binder.into()
    }

    /// The first word of the block in which word p stands.
    pub fn home(&self, p: usize) -> usize {
        self.nodes[p].home.into()
    }

    /// The permissions of the block in which word p stands.
    pub fn permissions(&self, p: usize) -> u32 {
        self.argument(self.home(p) + 1)
    }

    /// The value of the whole number at word p.
    pub fn number(&self, p: usize) -> i32 {
        ((self.argument(p) << 8) as i32) >> 8
    }
}

struct Reader<'a> {
    words: &'a [u32],
    names: u32,
    nodes: Vec<Node>,
    blocks: Vec<Block>,
    /// The binders around the present word, the innermost last.
    scope: Vec<u16>,
}

impl Reader<'_> {
    /// The kind and argument of the next word; `missing` refuses where there is none.
    fn peek(&self, missing: u32) -> Result<(u8, u32), Refusal> {
        match self.words.get(self.nodes.len()) {
            Some(word) => Ok(((word >> 24) as u8, word & 0xff_ffff)),
            None => refused(missing, self.words.len()),
        }
    }

    /// Takes the next word, without parts as yet, and answers its position.
    fn take(&mut self, kind: u8, argument: u32, parent: usize, home: usize) -> usize {
        let p = self.nodes.len();
        self.nodes.push(Node { kind, argument, parts: [0; 3], parent: parent as u16, home: home as u16, binder: 0 });
        p
    }

    /// A word of a block: of this kind, with an argument that `fault` does not refuse.
    fn block_word(&mut self, wanted: u8, home: usize, fault: impl Fn(&Self, u32) -> Option<u32>) -> Result<u32, Refusal> {
        let (kind, argument) = self.peek(4)?;
        if kind != wanted {
            return refused(4, self.nodes.len());
        }
        if let Some(number) = fault(self, argument) {
            return refused(number, self.nodes.len());
        }
        self.take(kind, argument, home, home);
        Ok(argument)
    }

    fn block(&mut self) -> Result<(), Refusal> {
        let start = self.nodes.len();
        let name = self.block_word(BLOCK, start, |reader, name| (name >= reader.names).then_some(5))?;
        let permissions = self.block_word(PERMISSIONS, start, |reader, permissions| {
            reader.blocks.iter().any(|b| b.name == name && b.permissions == permissions).then_some(6)
        })?;
        let guard = self.block_word(GUARD, start, |_, _| None)?;
        self.blocks.push(Block { start, name, permissions, guard });
        self.scope.push(start as u16);
        self.nodes[start].parts[0] = self.term(start, start, 1)? as u16;
        self.scope.pop();
        Ok(())
    }

    /// Reads the term that starts at the next word and answers its position.
    fn term(&mut self, parent: usize, home: usize, depth: usize) -> Result<usize, Refusal> {
        let (kind, argument) = self.peek(8)?;
        let p = self.nodes.len();
        if !(CONSTANT..=EXERCISE).contains(&kind) {
            return refused(7, p);
        }
        if argument >= arguments(kind, self.names) {
            return refused(9, p);
        }
        if kind == VARIABLE && argument as usize >= self.scope.len() {
            return refused(10, p);
        }
        if depth > MOST_DEPTH {
            return refused(11, p);
        }
        self.take(kind, argument, parent, home);
        if kind == VARIABLE {
            self.nodes[p].binder = self.scope[self.scope.len() - 1 - argument as usize];
        }
        for k in 0..arity(kind) {
            let binds = kind == FUNCTION || kind == LET && k == 1;
            if binds {
                self.scope.push(p as u16);
            }
            self.nodes[p].parts[k] = self.term(p, home, depth + 1)? as u16;
            if binds {
                self.scope.pop();
            }
        }
        Ok(p)
    }
}

/// Refusals 1 to 12.
pub fn read(words: &[u32]) -> Result<Table, Refusal> {
    let first = words.first().copied().unwrap_or(0);
    let kind = (first >> 24) as u8;
    let Some(names) = names_of(kind) else {
        return refused(1, 0);
    };
    if words.len() > MOST_WORDS {
        return refused(2, 0);
    }
    let handlers = first & 0xff_ffff;
    if handlers > names {
        return refused(3, 0);
    }
    let mut reader = Reader { words, names, nodes: Vec::with_capacity(words.len()), blocks: Vec::new(), scope: Vec::new() };
    reader.take(kind, handlers, 0, 0);
    for _ in 0..handlers {
        reader.block()?;
    }
    if reader.nodes.len() < words.len() {
        return refused(12, reader.nodes.len());
    }
    Ok(Table { names, nodes: reader.nodes, blocks: reader.blocks })
}

/// As read, for what takes narrow tables only.
pub fn read_narrow(words: &[u32]) -> Result<Table, Refusal> {
    match words.first() {
        Some(first) if first >> 24 == u32::from(WIDE_SYSTEM) => refused(1, 0),
        _ => read(words),
    }
}

/// Refusals 1 to 12, 20, 21 and 22, in this order: the lengths are those of the two lent slices, in words.
pub fn accept(words: &[u32], rho: u32, bound: u32, estimate: usize, work: usize) -> Result<Table, Refusal> {
    let table = read(words)?;
    if rho >> 24 != 0 || bound >> 24 != 0 && bound != STANDING_BOUND {
        return refused(20, 0);
    }
    if estimate < crate::estimate::Layout::of(&table).total() {
        return refused(21, 0);
    }
    if work < 4 * words.len() {
        return refused(22, 0);
    }
    Ok(table)
}
