//! A table laid over another: the look-up of a block in the two, and the joined table (document 02, wish 5).

use crate::table::{kind::SYSTEM, read_narrow, refused, Refusal, Table, MOST_WORDS, NARROW};
use crate::terms::word;
use std::ops::Range;

#[derive(Clone, Copy, Debug, PartialEq, Eq)]
pub enum Side {
    Base,
    Overlay,
}

/// Both tables: the base's refusals, then the overlay's with 100 added.
fn tables(base: &[u32], overlay: &[u32]) -> Result<(Table, Table), Refusal> {
    let base = read_narrow(base)?;
    let overlay = read_narrow(overlay).map_err(|refusal| Refusal { number: 100 + refusal.number, ..refusal })?;
    Ok((base, overlay))
}

/// The words of the block at this position: up to the next block, or to the end.
fn span(table: &Table, position: usize) -> Range<usize> {
    let end = table.blocks.get(position + 1).map_or(table.size(), |next| next.start);
    table.blocks[position].start..end
}

/// The words of the block with this name and these permissions.
fn span_of(table: &Table, name: u32, permissions: u32) -> Option<Range<usize>> {
    let position = table.blocks.iter().position(|block| (block.name, block.permissions) == (name, permissions))?;
    Some(span(table, position))
}

/// Where the block is: the base's and the overlay's refusals, then 47.
pub fn find(base: &[u32], overlay: &[u32], name: u32, permissions: u32) -> Result<(Side, Range<usize>), Refusal> {
    let (base, overlay) = tables(base, overlay)?;
    if let Some(span) = span_of(&overlay, name, permissions) {
        return Ok((Side::Overlay, span));
    }
    match span_of(&base, name, permissions) {
        Some(span) => Ok((Side::Base, span)),
        None => refused(47, 0),
    }
}

/// Its words; none where it is refused.
pub fn lookup<'a>(base: &'a [u32], overlay: &'a [u32], name: u32, permissions: u32) -> &'a [u32] {
    match find(base, overlay, name, permissions) {
        Ok((Side::Base, span)) => &base[span],
        Ok((Side::Overlay, span)) => &overlay[span],
        Err(_) => &[],
    }
}

/// Writes the joined table and answers its length: the tables' refusals, then 48, 49 and 50.
pub fn join(base: &[u32], overlay: &[u32], out: &mut [u32]) -> Result<usize, Refusal> {
    let (under, over) = tables(base, overlay)?;
    let mut blocks: Vec<&[u32]> = Vec::new();
    for (position, block) in under.blocks.iter().enumerate() {
        blocks.push(match span_of(&over, block.name, block.permissions) {
            Some(span) => &overlay[span],
            None => &base[span(&under, position)],
        });
    }
    for (position, block) in over.blocks.iter().enumerate() {
        if span_of(&under, block.name, block.permissions).is_none() {
            blocks.push(&overlay[span(&over, position)]);
        }
    }
    let words = [vec![word(SYSTEM, blocks.len() as u32)], blocks.concat()].concat();
    if blocks.len() > NARROW as usize {
        return refused(48, 0);
    }
    if words.len() > MOST_WORDS {
        return refused(49, 0);
    }
    if words.len() > out.len() {
        return refused(50, 0);
    }
    out[..words.len()].copy_from_slice(&words);
    Ok(words.len())
}
