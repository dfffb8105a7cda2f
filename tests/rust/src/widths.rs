//! The converters between narrow and wide tables (document 02, wish 13): only word 0's kind changes.

use crate::table::{kind::*, names_of, read, refused, system_kind, Refusal, Table, NARROW, WIDE};
use crate::terms::word;

/// The table, if word 0 says this width: another kind or no word is 1, then come the table's refusals.
fn of_width(words: &[u32], names: u32) -> Result<Table, Refusal> {
    let width = words.first().and_then(|first| names_of((first >> 24) as u8));
    if width != Some(names) {
        return refused(1, 0);
    }
    read(words)
}

/// Writes the words with another kind of word 0, and answers how many they are: 57 where the output is too short.
fn convert(words: &[u32], names: u32, out: &mut [u32]) -> Result<usize, Refusal> {
    if out.len() < words.len() {
        return refused(57, 0);
    }
    out[..words.len()].copy_from_slice(words);
    out[0] = word(system_kind(names), words[0] & 0xff_ffff);
    Ok(words.len())
}

/// Writes the wide table of a narrow one.
pub fn widen(words: &[u32], out: &mut [u32]) -> Result<usize, Refusal> {
    of_width(words, NARROW)?;
    convert(words, WIDE, out)
}

/// Writes the narrow table of a wide one: 55 for too many handlers, then 56 at the first word with a name that is too large.
pub fn narrow(words: &[u32], out: &mut [u32]) -> Result<usize, Refusal> {
    let table = of_width(words, WIDE)?;
    if table.blocks.len() > NARROW as usize {
        return refused(55, 0);
    }
    let names = |p: &usize| matches!(table.kind(*p), BLOCK | NAME) && table.argument(*p) >= NARROW;
    if let Some(p) = (0..table.size()).find(names) {
        return refused(56, p);
    }
    convert(words, NARROW, out)
}

/// The wide table of a narrow one, or the narrow table of a wide one.
pub fn other_width(words: &[u32]) -> Result<Vec<u32>, Refusal> {
    let mut out = vec![0; words.len()];
    match words.first() {
        Some(first) if first >> 24 == u32::from(WIDE_SYSTEM) => narrow(words, &mut out)?,
        _ => widen(words, &mut out)?,
    };
    Ok(out)
}
