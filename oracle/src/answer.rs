//! The expected answer of every query, and who gives it.

use crate::paper::{self, manual};
use crate::record::{Answer, Query};
use crate::rust;

#[derive(Clone, Copy, Eq, PartialEq)]
pub enum By {
    Rust,
    /// Document 01 or 02: the Rust has no answer to give, or another one that docs/DIFFERENCES.md lists.
    Paper,
    /// The Rust with the AHB at 1, and the table of the maker's manuals: AHB codes for which document 02 goes by these (D9).
    Manual,
}

/// Whether the listed differences are left out of the comparison. They always are, but in the test of the comparison itself.
#[derive(Clone, Copy)]
pub struct Excluding {
    pub listed: bool,
}

pub fn answer(q: &Query, excluding: Excluding) -> (Answer, By) {
    if let Some(a) = paper::alone(q) {
        return (a, By::Paper);
    }
    let paper = paper::listed(q).map(|a| (a, By::Paper));
    match paper.or_else(|| manual::answer(q).map(|a| (a, By::Manual))) {
        Some(other) if excluding.listed => other,
        _ => (rust::answer(q), By::Rust),
    }
}
