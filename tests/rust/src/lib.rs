//! An independent implementation of documents 01 and 02, written from their text alone.
//!
//! `cargo test --release --offline` runs all tests; PEER_ROUNDS=20 before it makes the random ones 20 times as long.

pub mod audit;
pub mod check;
pub mod class;
pub mod estimate;
pub mod generate;
pub mod inputs;
pub mod listing;
pub mod machine;
pub mod manifest;
pub mod manifest_inputs;
pub mod naive;
pub mod overlay;
pub mod overlay_inputs;
pub mod samples;
pub mod solve;
pub mod table;
pub mod terms;
pub mod verdict;
pub mod widths;
