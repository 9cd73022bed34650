//! Damaged days whose shares would not be 0 (02 F-1), each with its number; 0 is the passing side of a limit.

use super::ad_hoc::{record, row_of, with_records, RecordWords};
use super::day_faults::{DAY_FAULTS, HEADER_FAULTS};
use super::line_faults::LINE_FAULTS;
use super::random::Random;
use super::uplift::day_with_totals;
use super::*;

/// A change of ad hoc records, and the number that it leads to.
type RecordFault = (u32, fn(&mut Vec<RecordWords>));

const RECORD_FAULTS: [RecordFault; 7] = [
    (0, |_| {}),
    (0, |records| records.clear()),
    (19, |records| {
        records.resize(MOST_RECORDS as usize + 1, records[0])
    }),
    (20, |records| records[4][RECORD_LINE] = u32::MAX),
    (20, |records| records[4][RECORD_SCHEDULE] = 0),
    (20, |records| records[0][RECORD_SCHEDULE] = 6),
    (21, |records| records[4] = records[0]),
];

/// The last fault of the header makes a day of 65,537 bytes and is left out.
const OF_HEADER: usize = HEADER_FAULTS.len() - 1;
const OF_OLD: usize = OF_HEADER + DAY_FAULTS.len() + LINE_FAULTS.len();

/// How many kinds of damaged day there are.
pub fn uplift_fault_kinds() -> usize {
    OF_OLD + RECORD_FAULTS.len()
}

pub fn uplift_fault_day(seed: u64) -> Vec<u8> {
    uplift_fault_day_and_number(seed).0
}

/// A damaged day and its number. Seeds in a row go through all the faults.
pub fn uplift_fault_day_and_number(seed: u64) -> (Vec<u8>, u32) {
    const ROWS: [BySchedule<i64>; 2] = [[70, 10, 20, 40, -20], [5, 3, -90, -20, 70]];
    let random = &mut Random::new(seed);
    let mut day = day_with_totals(&random.pick(&ROWS), seed);
    let kind = (seed % uplift_fault_kinds() as u64) as usize;
    match kind.checked_sub(OF_OLD) {
        None => {
            let left_out = usize::from(kind >= OF_HEADER);
            let number = damage_day(&mut day, random, kind + left_out);
            (day, number)
        }
        Some(kind) => {
            let (number, apply) = RECORD_FAULTS[kind];
            let own = |s| record(0, s, 1, row_of(line_mut(&mut day, 0), s));
            let mut records = (0..SCHEDULES).map(own).collect();
            apply(&mut records);
            (with_records(&day, &records), number)
        }
    }
}
