//! Refusals as a list of numbers with their conditions.

use super::field::{Block, ZERO};

/// The smallest number whose condition holds, 0 if none does. The list's order is of no account.
pub fn smallest(list: &[(u32, bool)]) -> u32 {
    list.iter().filter(|(_, applies)| *applies).map(|(number, _)| *number).min().unwrap_or(0)
}

/// Whether n is a multiple of m; of 0 only 0 is.
pub fn is_multiple(n: u32, m: u32) -> bool {
    n.checked_rem(m).unwrap_or(n) == 0
}

/// An answer and the block that goes with it: 16 zero bytes with a refusal.
#[derive(Clone, Copy, PartialEq, Eq, Debug)]
pub struct Returned {
    pub answer: u32,
    pub block: Block,
}

impl Returned {
    pub fn new(answer: u32, block: impl FnOnce() -> Block) -> Returned {
        Returned { answer, block: if answer == 0 { block() } else { ZERO } }
    }
}
