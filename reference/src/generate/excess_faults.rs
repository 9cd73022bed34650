//! Totals at M + 1,000 and beyond (02 F-2), each with the number that it leads to; 0 is the passing side of the limit.

use super::excess::exceed_some;
use super::faults::{Fault, Faults};
use super::line_faults::*;
use super::pulled_faults::{at_former, at_lowered, first_bid_alone};
use super::random::Random;
use super::sets::first_line_twice;
use crate::k10::k10_of;
use crate::layout::*;

/// The kinds of total.
const KINDS: [Entries; 2] = [PRICING, OPERATING];

const FAULTS: Faults = Faults {
    of_line: OF_LINE,
    of_day: OF_DAY,
    of_line_alone: OF_LINE_ALONE,
    further: None,
    change: exceed_some,
};

/// Of a line whose totals are at most M.
const OF_LINE: &[LineFault] = &[
    // A total of some kind and schedule.
    (0, |line, random| put_above(line, random, 1)),
    (0, |line, random| put_above(line, random, 999)),
    (0, |line, random| put_above(line, random, 1000)),
    (12, |line, random| put_above(line, random, 1001)),
    (12, |line, random| put_above(line, random, 1 << 31)),
    (12, |line, random| put_some_wrapping(line, random, LITTLE)),
    (12, |line, random| put_some_wrapping(line, random, NOTHING)),
    // M at the quantity limit, which entries then pass.
    (0, |line, random| {
        raise_most(line, QUANTITY_LIMIT);
        put_above(line, random, 1000);
    }),
    (12, |line, random| {
        raise_most(line, QUANTITY_LIMIT);
        put_above(line, random, 1001);
    }),
    // All ten totals.
    (0, |line, _| put_all_above(line, 1000)),
    (12, |line, random| {
        put_all_above(line, 1000);
        put_above(line, random, 1001);
    }),
    (12, |line, _| put_all_above(line, 1001)),
    // M where the bid with the greatest break is pulled, and where bids 2 to 5 are.
    (0, |line, random| at_lowered(line, random, PRICING, 1000)),
    (12, |line, random| at_lowered(line, random, PRICING, 1001)),
    (12, |line, random| at_former(line, random, PRICING, 1000)),
    (0, |line, random| at_lowered(line, random, OPERATING, 1000)),
    (12, |line, random| at_lowered(line, random, OPERATING, 1001)),
    (12, |line, random| at_former(line, random, OPERATING, 1000)),
    (0, |line, random| {
        first_bid_alone(line, 700);
        put_above(line, random, 1000);
    }),
    (12, |line, random| {
        first_bid_alone(line, 700);
        put_above(line, random, 1001);
    }),
    // Limits that stay where a total exceeds M.
    (8, |line, random| {
        put_above(line, random, 1000);
        raise_most(line, QUANTITY_LIMIT + 1);
    }),
    (11, |line, random| {
        put_above(line, random, 1000);
        put_word(line, HEDGE, most(line) + 1);
    }),
    (0, |line, _| put_actual_at_limit(line, 0)),
    (13, |line, _| put_actual_at_limit(line, 1)),
    (13, |line, _| put_actual_at_limit(line, 1000)),
    // Two faults: the first in the table's order counts.
    (6, |line, random| {
        put_above(line, random, 1001);
        put_word(line, SIDE, 2);
    }),
    (10, |line, random| {
        put_above(line, random, 1001);
        put_word(line, count_place(4), 0);
    }),
    (11, |line, random| {
        put_above(line, random, 1001);
        put_word(line, HEDGE, u32::MAX);
    }),
    (12, |line, random| {
        put_above(line, random, 1001);
        put_word(line, actual_place(0), u32::MAX);
    }),
];

const OF_DAY: &[Fault] = &[
    (14, |day| {
        first_line_twice(day);
        put_all_above(line_mut(day, 1), 1000);
    }),
    (12, |day| {
        first_line_twice(day);
        put_all_above(line_mut(day, 1), 1001);
    }),
    (6, |day| {
        put_all_above(line_mut(day, 0), 1000);
        put_word(line_mut(day, 1), SIDE, 2);
    }),
    (12, |day| {
        put_all_above(line_mut(day, 0), 1001);
        put_word(line_mut(day, 1), SIDE, 2);
    }),
];

const OF_LINE_ALONE: &[Fault] = &[
    (18, |line| {
        put_all_above(line, 1000);
        line.truncate(LINE_BYTES - 1);
    }),
    (18, |line| {
        put_all_above(line, 1001);
        line.push(0);
    }),
];

fn put_above(line: &mut [u8], random: &mut Random, above: u32) {
    let entries = random.pick(&KINDS);
    let s = random.place(SCHEDULES);
    put_total(line, entries, s, most(line) + above);
}

fn put_all_above(line: &mut [u8], above: u32) {
    let most = most(line);
    for entries in KINDS {
        (0..SCHEDULES).for_each(|s| put_total(line, entries, s, most + above));
    }
}

/// Makes M this one, which is no less, by the first bid.
fn raise_most(line: &mut [u8], most: u32) {
    let last = word(line, count_place(0)) as usize - 1;
    put_word(line, break_place(0, last), most);
}

/// An operating total of schedule 5 in one entry, 1,000 above the quantity limit, and the actual there.
fn put_actual_at_limit(line: &mut [u8], above: u32) {
    let s = SCHEDULES - 1;
    raise_most(line, QUANTITY_LIMIT);
    clear_total(line, OPERATING, s);
    put_word(line, operating_place(s, 2), QUANTITY_LIMIT + 1000);
    put_word(line, actual_place(2), QUANTITY_LIMIT + above);
}

/// A sum above 32 bits, given how many words may be large. In 32 bits 4 is left of it, or 0.
type Beyond = fn(u64) -> u64;
const LITTLE: Beyond = |_| (1 << 32) + 4;
const NOTHING: Beyond = |words| (words - 1).max(1) << 32;

fn put_some_wrapping(line: &mut [u8], random: &mut Random, total: Beyond) {
    let entries = random.pick(&KINDS);
    put_wrapping(line, entries, random.place(SCHEDULES), total);
}

/// Makes a schedule's total a sum above 32 bits of five words that aren't 0. Other totals of the kind are small: the
/// entries that they share are 2, and their own 0. `total` is given the number of entries that are the schedule's own.
fn put_wrapping(line: &mut [u8], entries: Entries, s: usize, total: Beyond) {
    (0..SCHEDULES).for_each(|s| clear_total(line, entries, s));
    let is_other = |place: &usize| (0..SCHEDULES).any(|r| r != s && entries(r).contains(place));
    let (shared, own): (Vec<usize>, Vec<usize>) = entries(s).iter().partition(|p| is_other(p));
    shared.iter().for_each(|&place| put_word(line, place, 2));
    let count = own.len() as u64;
    let sum = total(count) - 2 * shared.len() as u64;
    for (k, &place) in own.iter().enumerate() {
        let part = sum / count + u64::from((k as u64) < sum % count);
        put_word(line, place, part as u32);
    }
}

/// How many kinds of damaged day there are, and of damaged line.
pub fn excess_fault_kinds() -> [usize; 2] {
    FAULTS.kinds()
}

pub fn excess_fault_day(seed: u64) -> Vec<u8> {
    FAULTS.day(seed).0
}

/// A day with a total at the limit of refusal 12, and its number. Seeds in a row go through all the faults.
pub fn excess_fault_day_and_number(seed: u64) -> (Vec<u8>, u32) {
    FAULTS.day(seed)
}

pub fn excess_fault_line(seed: u64) -> Vec<u8> {
    FAULTS.line(seed).0
}

/// A line likewise, and the cutter's number for it.
pub fn excess_fault_line_and_number(seed: u64) -> (Vec<u8>, u32) {
    FAULTS.line(seed)
}

/// The day of K10 with its line of this side, with M as 3000 and then as the quantity limit: pricing, then operating
/// totals, of schedule 1, .. 5 alone, at M + 1, M + 999, M + 1,000 and M + 1,001, and two sums above 32 bits; then sums
/// above 32 bits in all schedules.
pub fn excess_k10_days(side: Side) -> Vec<Vec<u8>> {
    let mut days = Vec::new();
    for most in [3000, QUANTITY_LIMIT] {
        let day = k10_with_most(side, most);
        let schedules = |&entries| (0..SCHEDULES).map(move |s| (entries, s));
        for (entries, s) in KINDS.iter().flat_map(schedules) {
            let above = [1, 999, 1000, 1001];
            days.extend(above.map(|above| with_total(&day, entries, s, most + above)));
            days.extend([LITTLE, NOTHING].map(|total| with_wrapping(&day, entries, s, total)));
        }
    }
    days.extend(KINDS.map(|entries| k10_wrapping_in_all(side, entries)));
    days
}

/// The lines of those days.
pub fn excess_k10_lines(side: Side) -> Vec<Vec<u8>> {
    let mut days = excess_k10_days(side);
    days.iter_mut()
        .for_each(|day| drop(day.drain(..day_length(0))));
    days
}

/// K10's day with this M, and in the last interval an actual at its limit.
fn k10_with_most(side: Side, most: u32) -> Vec<u8> {
    let mut day = k10_of(side);
    let line = line_mut(&mut day, 0);
    put_word(line, break_place(2, 1), most);
    put_word(line, actual_place(SCHEDULES - 1), QUANTITY_LIMIT);
    day
}

/// A total above the quantity limit is in the last entry as a whole, which then passes that limit.
fn with_total(day: &[u8], entries: Entries, s: usize, total: u32) -> Vec<u8> {
    let mut day = day.to_vec();
    let line = line_mut(&mut day, 0);
    if total > QUANTITY_LIMIT {
        clear_total(line, entries, s);
    }
    put_total(line, entries, s, total);
    day
}

fn with_wrapping(day: &[u8], entries: Entries, s: usize, total: Beyond) -> Vec<u8> {
    let mut day = day.to_vec();
    put_wrapping(line_mut(&mut day, 0), entries, s, total);
    day
}

/// Each of the five totals is 2^32 + 4.
fn k10_wrapping_in_all(side: Side, entries: Entries) -> Vec<u8> {
    let mut day = k10_of(side);
    let places = (0..SCHEDULES).flat_map(entries);
    places.for_each(|place| put_word(line_mut(&mut day, 0), place, 858_993_460));
    day
}
