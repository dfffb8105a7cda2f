//! The check of an estimate from elsewhere (document 02, wish 12): the leak read from it, or the refusal.

use crate::check::{broken, first_stray};
use crate::estimate::{leak, Layout};
use crate::table::{read, refused, Refusal};
use crate::verdict::words_of;

pub fn audit(words: &[u32], rho: u32, estimate: &[u32]) -> Result<u32, Refusal> {
    let table = read(words)?;
    if rho >> 24 != 0 {
        return refused(20, 0);
    }
    if estimate.len() != Layout::of(&table).total() {
        return refused(52, 0);
    }
    if let Some(k) = first_stray(&table, estimate) {
        return refused(53, k);
    }
    match broken(&table, rho, estimate) {
        Some(p) => refused(54, p),
        None => Ok(leak(&table, rho, estimate)),
    }
}

/// The C interface: bytes that are no whole words are those of no estimate.
pub fn audit_of_bytes(system: &[u8], rho: u32, estimate: &[u8]) -> u64 {
    let result = if system.len() > 1024 {
        refused(31, 0)
    } else if system.len() % 4 != 0 {
        refused(30, 0)
    } else if estimate.len() % 4 != 0 {
        audit(&words_of(system), rho, &[])
    } else {
        audit(&words_of(system), rho, &words_of(estimate))
    };
    match result {
        Ok(leak) => u64::from(leak),
        Err(refusal) => (1 << 32) + u64::from(refusal.number) * 65_536 + refusal.place as u64,
    }
}
