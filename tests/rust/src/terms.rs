//! Tables built from terms.

use crate::table::{kind::*, system_kind, NARROW};

pub type Term = Vec<u32>;

pub fn word(kind: u8, argument: u32) -> u32 {
    u32::from(kind) << 24 | argument
}

pub fn term<const N: usize>(kind: u8, argument: u32, parts: [Term; N]) -> Term {
    std::iter::once(word(kind, argument)).chain(parts.into_iter().flatten()).collect()
}

pub fn constant(which: u32) -> Term {
    term(CONSTANT, which, [])
}

pub fn literal(which: u32) -> Term {
    term(LITERAL, which, [])
}

pub fn name(which: u32) -> Term {
    term(NAME, which, [])
}

pub fn variable(index: usize) -> Term {
    term(VARIABLE, index as u32, [])
}

pub fn function(body: Term) -> Term {
    term(FUNCTION, 0, [body])
}

pub fn apply(function: Term, argument: Term) -> Term {
    term(APPLY, 0, [function, argument])
}

pub fn bind(first: Term, second: Term) -> Term {
    term(LET, 0, [first, second])
}

pub fn branch(condition: Term, yes: Term, no: Term) -> Term {
    term(IF, 0, [condition, yes, no])
}

pub fn empty() -> Term {
    term(EMPTY, 0, [])
}

pub fn get(record: Term, field: Term) -> Term {
    term(GET, 0, [record, field])
}

pub fn set(record: Term, field: Term, value: Term) -> Term {
    term(SET, 0, [record, field, value])
}

pub fn cell(value: Term) -> Term {
    term(CELL, 0, [value])
}

pub fn content(cell: Term) -> Term {
    term(READ, 0, [cell])
}

pub fn assign(cell: Term, value: Term) -> Term {
    term(ASSIGN, 0, [cell, value])
}

pub fn send(required: u32, target: Term, message: Term) -> Term {
    term(SEND, required, [target, message])
}

pub fn exercise(set: u32) -> Term {
    term(EXERCISE, set, [])
}

/// These terms in order, nested as little as can be.
pub fn sequence(terms: &[Term]) -> Term {
    match terms {
        [] => constant(1),
        [one] => one.clone(),
        _ => {
            let (first, second) = terms.split_at(terms.len() / 2);
            term(SEQUENCE, 0, [sequence(first), sequence(second)])
        }
    }
}

pub fn block(name: u32, permissions: u32, guard: u32, body: Term) -> Term {
    [vec![word(BLOCK, name), word(PERMISSIONS, permissions), word(GUARD, guard)], body].concat()
}

/// A narrow table.
pub fn system(blocks: &[Term]) -> Vec<u32> {
    system_with(NARROW, blocks)
}

/// A table that may have so many names.
pub fn system_with(names: u32, blocks: &[Term]) -> Vec<u32> {
    [vec![word(system_kind(names), blocks.len() as u32)], blocks.concat()].concat()
}
