//! Rows of totals for uplift by schedule (02 F-1): each tells some wrong reading apart, or has a product at an edge.

use super::uplift::day_with_totals;
use crate::layout::BySchedule;

/// 2^32.
const P: i64 = 1 << 32;
/// 2^31.
const H: i64 = 1 << 31;
/// A factor of 2^64 + 1, and the other.
const FERMAT: [i64; 2] = [274_177, 67_280_421_310_721];

/// Five totals each; the first is never below 0.
pub const UPLIFT_ROWS: [BySchedule<i64>; 62] = [
    // K8 and K9 of document 01.
    [5, -2, 4, -3, 0],
    [5, -8, 4, 0, 0],
    // Nothing, and one group of five.
    [0, 0, 0, 0, 0],
    [1, 2, 3, 4, 5],
    [0, -1, -2, -3, -4],
    // Changes of sign.
    [3, -3, 3, -3, 3],
    [2, -3, 2, -3, 2],
    [0, 2, -1, 2, -1],
    [9, -1, 9, -1, 9],
    // Units left over: 3, 2, 1 and none, of positive totals, then of negative ones.
    [1, 1, 1, 1, -1],
    [1, 1, 1, 1, -2],
    [1, 1, 1, 1, -3],
    [1, 1, 1, 1, -4],
    [1, 1, 1, 1, -5],
    [1, -1, -1, -1, -1],
    [2, -1, -1, -1, -1],
    [3, -1, -1, -1, -1],
    [4, -1, -1, -1, -1],
    [5, -1, -1, -1, -1],
    // A greater remainder than the earliest one.
    [5, 4, -6, 0, 0],
    [4, 5, -6, 0, 0],
    [6, 3, 0, 1, -5],
    [1, -2, -3, -4, 0],
    [1, -4, -3, -2, 0],
    // Schedules without a remainder among others with one.
    [3, 1, 2, -4, 0],
    [1, 3, 2, -4, 0],
    [1, 2, 3, -4, 0],
    [4, -3, -1, -2, 0],
    [4, -1, -3, -2, 0],
    [4, -1, -2, -3, 0],
    [70, 10, 20, 40, -20],
    [10, 70, 20, 40, -20],
    [20, -70, -10, -20, -40],
    // Totals of 0 between groups, before and behind them.
    [7, 0, 5, -3, 0],
    [4, 0, 0, 4, -3],
    [30, 40, 0, 20, -30],
    [3, 0, 3, 0, -4],
    [10, 5, 0, 5, -8],
    [10, 4, 0, 5, -8],
    [1, -2, 0, -3, 0],
    [0, 5, 0, -2, -2],
    [0, 0, 5, 3, -4],
    [3, 0, -2, -2, 0],
    [3, 0, -2, 0, -2],
    [5, 5, 0, -7, 0],
    [8, -9, 0, -4, -4],
    [1, -3, 0, 2, -1],
    [1, -2, -2, 0, 5],
    // A schedule whose share is one above its exact fraction's whole part though that is 0.
    [1, 1_000, -1, 0, 0],
    [1_000, 1, -1_000, 0, 0],
    // Products of 2^63, around 2^64 and of 2^65 less 2^32.
    [H, H, H, -H, 0],
    [H, H, H, -H - 1, 0],
    [P, P, -P, 0, 0],
    [P, P, -P - 1, 0, 0],
    [P, P, -P + 1, 0, 0],
    [P, P, -1, 0, 0],
    [P - 1, 7, -5, 0, 0],
    [P, 7, -7, 0, 0],
    [FERMAT[0], FERMAT[1], -FERMAT[0], 0, 0],
    [P, -P, -P, 0, 0],
    [P + 1, -P, -P, -7, 0],
    [H, -H, -H, -H, 0],
];

/// A day with each of the rows as its totals.
pub fn uplift_row_days() -> Vec<Vec<u8>> {
    let seeds = 0..;
    let rows = UPLIFT_ROWS.iter().zip(seeds);
    rows.map(|(row, seed)| day_with_totals(row, seed)).collect()
}
