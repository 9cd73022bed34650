//! The line of FD Tables 1 to 8, with the readings of 01 "Figures to check against".

use crate::layout::*;

type Bid = (&'static [u32], &'static [u32]);

const RESCHEDULE_2: Bid = (&[17, 34, 51, 68], &[22_000, 27_000, 32_000, 37_000]);
/// FD Table 1; schedules 4 and 5 are like its 2nd reschedule.
const BIDS: [Bid; 5] = [
    (
        &[15, 30, 45, 60, 75],
        &[20_000, 25_000, 30_000, 35_000, 40_000],
    ),
    (&[16, 32, 48, 64], &[21_000, 26_000, 31_000, 36_000]),
    RESCHEDULE_2,
    RESCHEDULE_2,
    RESCHEDULE_2,
];
/// FD Table 4, its rows one after another.
const PRICING: [u32; 15] = [1, 2, 3, 4, 5, 6, 7, 8, 9, 10, 11, 12, 13, 14, 15];
/// FD Table 6 totals; the last row is that of FD Table 7.
const OPERATING: [[u32; 5]; 5] = [
    [15, 0, 0, 0, 0],
    [40, 0, 0, 0, 0],
    [55, 0, 0, 0, 0],
    [44, 0, 0, 0, 0],
    [10, 10, 10, 10, 10],
];
/// FD Table 7.
const ACTUALS: [u32; 5] = [8, 9, 10, 11, 12];

/// The line's words in the order of 01 "Units and the day file": participant 7, point 3, accredited injection, hedge
/// 37.
pub fn line() -> Vec<u8> {
    let mut words = vec![7, 3, 0, 1, 37];
    for (breaks, prices) in BIDS {
        words.push(breaks.len() as u32);
        for row in [breaks, prices] {
            words.extend(row);
            words.resize(words.len() + 11 - row.len(), 0);
        }
    }
    words.extend(PRICING);
    words.extend(OPERATING.as_flattened());
    words.extend(ACTUALS);
    words.into_iter().flat_map(u32::to_le_bytes).collect()
}

/// A day of that one line with a market table of zeros.
pub fn day() -> Vec<u8> {
    let mut day = vec![0; day_length(0)];
    put_header(&mut day, Layout::Old, 1, 0);
    day.extend(line());
    day
}
