//! The calls that are measured: each by the archives, by the reference and, where there are some, by older archives.

use crate::streams::{Block, Input};
use crate::{cutting, settling, viewing};

pub struct Call {
    pub name: &'static str,
    /// By whom, the archives first.
    pub passes: &'static [(&'static str, Pass)],
    /// How many calls a pass makes for an input.
    pub count: fn(&Input) -> usize,
    /// Stops where the answers for an input differ.
    pub compare: fn(&Input),
    /// How many blocks are timed, and how many lines a block has.
    pub blocks: u64,
    pub lines_of_block: usize,
    pub unit: Unit,
}

/// Makes the calls for all inputs of a block.
pub type Pass = fn(&Block);

/// A unit of time: its name, and its nanoseconds.
pub type Unit = (&'static str, f64);
pub const MICROSECONDS: Unit = ("us", 1000.0);
pub const NANOSECONDS: Unit = ("ns", 1.0);

pub const CALLS: [&Call; 8] = [
    &cutting::CUT,
    &settling::SETTLE,
    &settling::UPLIFT,
    &settling::LINE_PART,
    &viewing::STEP,
    &viewing::LINE,
    &viewing::DAY_BY_LINE,
    &viewing::DAY_BY_STEP,
];

impl Call {
    pub fn pass(&self, by: &str) -> Option<Pass> {
        let found = self.passes.iter().find(|(name, _)| *name == by);
        found.map(|(_, pass)| *pass)
    }
}
