//! Tests of the reference implementation. Expected figures are those of documents 01 and 02 and the functional design.

mod ad_hoc;
mod excess;
mod figures;
mod kept;
mod laws;
mod laws_open_rises;
mod laws_uplift;
mod programs;
mod pulled;
mod reach;
mod reach_ad_hoc;
mod reach_excess;
mod reach_open_rises;
mod reach_pulled;
mod reach_sets;
mod reach_sides;
mod reach_uplift;
mod refusals;
mod second;
mod second_uplift;
mod sets;
mod uplift;
mod worked;

use reference::generate::{
    ad_hoc_day, excess_day, over_delivery_day, pulled_day, set_day, uplift_day, valid_day,
};
use reference::layout::{book_length, day_length};
use reference::refusal::{cut_number, day_number, settle_number, view_number};
use reference::settle::settle;

/// What the settling program prints for K10.
const K10_REPORT: &str = "day 1
7 3 INJ 2 0 20000000 0 -10000000 0
total 0 20000000 0 -10000000 0
adjusted 0 10000000 0 0 0
";

/// What the step program prints for K10's line and its first step. Worked out by hand from 01's definitions.
const K10_FIRST_STEP: &str = "line 0 7 3 INJ 2
step 0 1000 1000 1000
1 20000 0 1000 1000 0 1000 0 0 0 0 0
2 20000 0 1000 1000 0 1000 0 0 0 0 0
3 20000 0 1000 1000 0 1000 0 0 0 0 0
4 20000 0 1000 1000 0 1000 0 0 0 0 0
5 20000 0 1000 1000 0 1000 0 0 0 0 0
matches 0 0 0 0 0 0 0 0 0 0
";

/// Generated days whose lines are accredited in all schedules or in none.
fn valid_days() -> impl Iterator<Item = Vec<u8>> {
    (0..300).map(valid_day)
}

/// The same days with accreditation by schedule.
fn set_days() -> impl Iterator<Item = Vec<u8>> {
    (0..300).map(set_day)
}

/// Days with bids pulled in a reschedule.
fn pulled_days() -> impl Iterator<Item = Vec<u8>> {
    (0..300).map(pulled_day)
}

/// Days with totals above M, in part with accreditation by schedule or pulled bids, every second with more delivered
/// than scheduled.
fn excess_days() -> impl Iterator<Item = Vec<u8>> {
    (0..300).map(|seed| match seed % 2 {
        0 => excess_day(seed),
        _ => over_delivery_day(seed),
    })
}

/// Days of all these kinds with ad hoc records.
fn ad_hoc_days() -> impl Iterator<Item = Vec<u8>> {
    (0..300).map(ad_hoc_day)
}

/// Days with drawn totals, for uplift by schedule.
fn uplift_days() -> impl Iterator<Item = Vec<u8>> {
    (0..300).map(uplift_day)
}

/// Generated days that every law, and the second computation, is tried on.
fn law_days() -> impl Iterator<Item = Vec<u8>> {
    valid_days()
        .chain(set_days())
        .chain(pulled_days())
        .chain(excess_days())
        .chain(ad_hoc_days())
        .chain(uplift_days())
}

fn line_count(day: &[u8]) -> usize {
    u32::from_le_bytes(day[..4].try_into().unwrap()) as usize
}

/// The book of a day without fault.
fn book_of(day: &[u8]) -> Vec<u8> {
    let mut book = vec![0; book_length(line_count(day))];
    assert_eq!(settle(day, &mut book), 0);
    book
}

/// The number of a day of one line, and those of settling, view and cutter.
fn numbers(day: &[u8]) -> [u32; 4] {
    [
        day_number(day),
        settle_number(day, 152),
        view_number(day, 0, 0),
        cut_number(&day[day_length(0)..]),
    ]
}
