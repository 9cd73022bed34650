//! Hard days: lines of both sides with as many steps as can be, 56 or 55, drawn without regard to what a market does.

use reference::generate::{line_with_steps, valid_day, with_rows_in_force};
use reference::layout::*;

pub fn day(seed: u64, lines: usize, clawback: bool) -> Vec<u8> {
    let mut day = valid_day(seed)[..day_length(0)].to_vec();
    for k in 0..lines {
        let line_seed = seed * MOST_LINES as u64 + k as u64;
        let mut line = line_with_steps(line_seed, MOST_STEPS - k % 2);
        put_word(&mut line, PARTICIPANT, k as u32);
        day.extend(line);
    }
    put_header(&mut day, Layout::Old, lines, 0);
    put_word(market_mut(&mut day), CLAWBACK, clawback.into());
    day
}

/// The same day in the layout with ad hoc records, of which it has the most: the rows in force are those of the old one.
pub fn ad_hoc_day(seed: u64, lines: usize, clawback: bool) -> Vec<u8> {
    let old = day(seed, lines, clawback);
    with_rows_in_force(&old, MOST_RECORDS as usize, seed)
}
