//! What the tests share.
#![allow(dead_code)]

pub mod edits;
pub mod model;
pub mod notation;
pub mod plain;
pub mod plain_sheet;
pub mod rooms;
pub mod sheets;
pub mod targets;

/// The seed and number of cases of a run: a test's own, or those of the
/// environment (`SECOND_SEED`, `SECOND_TIMES` for so many times the cases).
pub fn run(seed: u64, cases: u64) -> (u64, u64) {
    let number = |name| std::env::var(name).ok().and_then(|text| text.parse::<u64>().ok());
    (number("SECOND_SEED").unwrap_or(seed), cases * number("SECOND_TIMES").unwrap_or(1))
}
