//! The report on a class of systems (document 02, wish 14), written from its text alone.

use crate::estimate::Layout;
use crate::table::{STANDING_BOUND, WIDE};
use crate::verdict::{refusal_line, verdict, words_of};
use std::fmt::Write;

pub const MOST_SYSTEMS: usize = 10_000;
pub const MOST_SYSTEM_WORDS: usize = 256;

/// FNV-1a, 32 bits.
pub fn fingerprint(bytes: &[u8]) -> u32 {
    bytes.iter().fold(0x811c_9dc5, |hash, &byte| (hash ^ u32::from(byte)).wrapping_mul(0x0100_0193))
}

/// A system of the stream: its length, ρ, and its words.
pub fn record(rho: u32, words: &[u32]) -> Vec<u8> {
    [&[words.len() as u32, rho], words].concat().iter().flat_map(|word| word.to_le_bytes()).collect()
}

/// The first system of a stream and what follows it, or the number of the fault.
fn first(stream: &[u8]) -> Result<(u32, &[u8], &[u8]), u32> {
    let (length, rest) = stream.split_first_chunk::<4>().ok_or(58_u32)?;
    let length = u32::from_le_bytes(*length) as usize;
    if length > MOST_SYSTEM_WORDS {
        return Err(59);
    }
    let (rho, rest) = rest.split_first_chunk::<4>().ok_or(58_u32)?;
    let (system, rest) = rest.split_at_checked(4 * length).ok_or(58_u32)?;
    Ok((u32::from_le_bytes(*rho), system, rest))
}

/// What is printed for this stream.
pub fn report(mut stream: &[u8]) -> String {
    let mut text = String::new();
    let (mut position, mut accepted) = (0, 0);
    let mut leaks = [0; 24];
    let (mut estimate, mut work) = (vec![0; Layout::sized(WIDE, MOST_SYSTEM_WORDS).total()], vec![0; 4 * MOST_SYSTEM_WORDS]);
    while !stream.is_empty() {
        let system = if position == MOST_SYSTEMS { Err(61) } else { first(stream) };
        let (rho, system, rest) = match system {
            Ok(system) => system,
            Err(number) => {
                writeln!(text, "refused {number} at {position}").unwrap();
                return text;
            }
        };
        write!(text, "{position} {:08x} ", fingerprint(system)).unwrap();
        match verdict(&words_of(system), rho, STANDING_BOUND, &mut estimate, &mut work) {
            Ok((_, verdict)) => {
                accepted += 1;
                for (permission, count) in leaks.iter_mut().enumerate() {
                    *count += verdict.leak >> permission & 1;
                }
                writeln!(text, "leak {:06x}", verdict.leak).unwrap();
            }
            Err(refusal) => text += &refusal_line(&refusal),
        }
        position += 1;
        stream = rest;
    }
    writeln!(text, "accepted {accepted} refused {}", position - accepted).unwrap();
    for (permission, count) in leaks.iter().enumerate() {
        writeln!(text, "permission {permission} leaks {count} of {accepted}").unwrap();
    }
    text
}
