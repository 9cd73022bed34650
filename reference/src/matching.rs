//! Rises and falls of the constrained on quantity and their matches (01 "Matching", FD 8.3).

use crate::layout::{BySchedule, SCHEDULES};

/// Pairs of an earlier schedule r and a later one s.
pub const PAIRS: usize = 10;

/// Place of m(r, s) among the ten matches, r < s, schedules from 0:
/// m(1,2) m(1,3) m(2,3) m(1,4) m(2,4) m(3,4) m(1,5) m(2,5) m(3,5) m(4,5).
pub const fn pair(r: usize, s: usize) -> usize {
    s * (s - 1) / 2 + r
}

/// Rises U, falls D and matches m of one step.
#[derive(Clone, Default)]
pub struct Matching {
    pub rises: BySchedule<u32>,
    pub falls: BySchedule<u32>,
    pub matches: [u32; PAIRS],
}

impl Matching {
    pub fn new(constrained_on: &BySchedule<u32>) -> Matching {
        let before = |s: usize| if s == 0 { 0 } else { constrained_on[s - 1] };
        let rises = std::array::from_fn(|s| constrained_on[s].saturating_sub(before(s)));
        let falls = std::array::from_fn(|s| before(s).saturating_sub(constrained_on[s]));
        Matching {
            rises,
            falls,
            matches: matches(&rises, &falls),
        }
    }
}

/// Each fall takes from the rises still open, the latest first.
fn matches(rises: &BySchedule<u32>, falls: &BySchedule<u32>) -> [u32; PAIRS] {
    let mut open = *rises;
    let mut matches = [0; PAIRS];
    for s in 1..SCHEDULES {
        let mut left = falls[s];
        for r in (0..s).rev() {
            let matched = left.min(open[r]);
            matches[pair(r, s)] = matched;
            left -= matched;
            open[r] -= matched;
        }
    }
    matches
}
