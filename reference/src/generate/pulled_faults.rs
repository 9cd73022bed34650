//! Damage to days and lines with pulled bids (02 F-6), each with the number it leads to; 0 is the passing side of a
//! limit.

use super::draw::put_bid;
use super::faults::{Fault, Faults};
use super::line_faults::*;
use super::pulled::{pull_bids, pull_some};
use super::random::Random;
use super::sets::first_line_twice;
use crate::k10::k10;
use crate::layout::*;

const FAULTS: Faults = Faults {
    of_line: OF_LINE,
    of_day: OF_DAY,
    of_line_alone: OF_LINE_ALONE,
    further: Some((SLOTS, put_slot)),
    change: pull_some,
};

/// Of a line in which no bid is pulled.
const OF_LINE: &[LineFault] = &[
    // 0 in schedule 1: alone, its slots kept, and beside pulled bids.
    (7, |line, _| pull(line, 0)),
    (7, |line, _| put_word(line, count_place(0), 0)),
    (7, |line, random| {
        pull(line, 0);
        pull_later(line, random);
    }),
    (7, |line, _| (0..SCHEDULES).for_each(|bid| pull(line, bid))),
    // Counts after schedule 1.
    (0, |line, random| pull_bids(line, &[1, 2, 3, 4], random)),
    (0, |line, random| {
        pull_bids(line, &[2], random);
        put_fresh_bid(line, random, 4, BID_SLOTS);
    }),
    (7, |line, random| put_later_count(line, random, 12)),
    (7, |line, random| put_later_count(line, random, u32::MAX)),
    (7, |line, random| {
        pull(line, 2);
        put_word(line, count_place(random.pick(&[1, 3, 4])), 12);
    }),
    // A pulled bid with a slot that isn't 0; 8 and 9 ask nothing of it.
    (10, |line, random| put_later_count(line, random, 0)),
    (10, |line, random| {
        let bid = pull_later(line, random);
        put_word(line, break_place(bid, 0), u32::MAX);
    }),
    (10, |line, random| {
        let bid = pull_later(line, random);
        put_word(line, break_place(bid, 10), QUANTITY_LIMIT + 1);
    }),
    (10, |line, random| {
        let bid = pull_later(line, random);
        put_word(line, price_place(bid, 0), u32::MAX);
    }),
    (10, |line, random| {
        let bid = pull_later(line, random);
        put_word(line, price_place(bid, 10), PRICE_LIMIT + 1);
    }),
    // A fault in a bid after a pulled one.
    (8, |line, _| {
        pull(line, 1);
        put_word(line, break_place(3, 0), 0);
    }),
    (9, |line, _| {
        pull(line, 2);
        put_word(line, price_place(3, 0), PRICE_LIMIT + 1);
    }),
    (10, |line, _| {
        pull(line, 3);
        put_bid(line, 4, &[5], &[7, 7]);
    }),
    // Hedge and M where the bid with the greatest break is pulled.
    (0, |line, random| {
        let lowered = lower_most(line, random, Side::Injection);
        put_word(line, HEDGE, lowered.most);
    }),
    (11, |line, random| {
        let lowered = lower_most(line, random, Side::Injection);
        put_word(line, HEDGE, lowered.most + 1);
    }),
    (11, |line, random| {
        let lowered = lower_most(line, random, Side::Injection);
        put_word(line, HEDGE, lowered.former);
    }),
    (11, |line, random| {
        lower_most(line, random, Side::Withdrawal);
        put_word(line, HEDGE, 1);
    }),
    // Totals and M likewise. Those up to M + 1,000 were a fault before 02 F-2.
    (0, |line, random| at_lowered(line, random, OPERATING, 0)),
    (0, |line, random| at_lowered(line, random, OPERATING, 1)),
    (0, |line, random| at_former(line, random, OPERATING, 0)),
    (0, |line, random| at_lowered(line, random, PRICING, 0)),
    (0, |line, random| at_lowered(line, random, PRICING, 1)),
    (0, |line, random| at_former(line, random, PRICING, 0)),
    // M where bids 2 to 5 are pulled.
    (0, |line, _| {
        first_bid_alone(line, 700);
        put_word(line, operating_place(4, 4), 700);
    }),
    (0, |line, _| {
        first_bid_alone(line, 700);
        put_word(line, operating_place(4, 4), 701);
    }),
    (11, |line, _| {
        first_bid_alone(line, 700);
        put_word(line, SIDE, Side::Injection as u32);
        put_word(line, HEDGE, 701);
    }),
    // Two faults in one line: the first in the table's order counts, bid by bid.
    (6, |line, random| {
        put_later_count(line, random, 0);
        put_word(line, SIDE, 2);
    }),
    (7, |line, _| {
        put_word(line, count_place(0), 0);
        put_word(line, break_place(1, 0), 0);
    }),
    (7, |line, _| {
        put_word(line, count_place(1), 12);
        put_word(line, count_place(2), 0);
    }),
    (8, |line, _| {
        put_word(line, break_place(1, 0), 0);
        put_word(line, count_place(2), 0);
    }),
    (10, |line, _| {
        put_word(line, count_place(1), 0);
        put_word(line, count_place(2), 12);
    }),
    (10, |line, _| {
        put_word(line, count_place(3), 0);
        put_word(line, break_place(4, 0), 0);
    }),
    (10, |line, _| {
        put_word(line, count_place(4), 0);
        put_word(line, HEDGE, u32::MAX);
    }),
    (11, |line, random| {
        at_former(line, random, OPERATING, 1000);
        put_word(line, HEDGE, u32::MAX);
    }),
    (13, |line, random| {
        pull_bids(line, &[1, 3], random);
        put_word(line, actual_place(2), QUANTITY_LIMIT + 1);
    }),
];

const OF_DAY: &[Fault] = &[
    (14, |day| {
        first_line_twice(day);
        first_bid_alone(line_mut(day, 1), 9);
    }),
    (10, |day| {
        first_line_twice(day);
        pull(line_mut(day, 1), 4);
        put_word(line_mut(day, 1), price_place(4, 0), 1);
    }),
    (7, |day| {
        pull(line_mut(day, 0), 0);
        put_word(line_mut(day, 1), SIDE, 2);
    }),
];

const OF_LINE_ALONE: &[Fault] = &[(18, |line| {
    first_bid_alone(line, 9);
    line.truncate(LINE_BYTES - 1);
})];

/// Slots of a bid, its breaks and its prices.
const SLOTS: usize = 2 * BID_SLOTS;

/// Some bid after the first.
fn later(random: &mut Random) -> usize {
    1 + random.place(SCHEDULES - 1)
}

fn pull_later(line: &mut [u8], random: &mut Random) -> usize {
    let bid = later(random);
    pull(line, bid);
    bid
}

fn put_later_count(line: &mut [u8], random: &mut Random, count: u32) {
    put_word(line, count_place(later(random)), count);
}

/// M, and what it was before a bid was pulled: at most 1,000 more.
struct Lowered {
    most: u32,
    former: u32,
}

/// Gives the line a side and other bids, of which the one with the greatest break is pulled. There is no hedge, and all
/// totals are 0.
fn lower_most(line: &mut [u8], random: &mut Random, side: Side) -> Lowered {
    let most = random.range(2, 1000);
    let lowered = Lowered {
        most,
        former: most + random.range(1, 1000),
    };
    clear(line);
    put_word(line, SIDE, side as u32);
    (0..SCHEDULES).for_each(|bid| put_bid(line, bid, &[most / 2, most], &[5, 5]));
    let bid = later(random);
    put_bid(line, bid, &[lowered.former], &[5]);
    pull(line, bid);
    lowered
}

/// One bid, the first, with this break; no hedge, all totals 0.
pub fn first_bid_alone(line: &mut [u8], most: u32) {
    clear(line);
    put_bid(line, 0, &[most], &[5]);
    (1..SCHEDULES).for_each(|bid| pull(line, bid));
}

/// No hedge, and all pricing, operating and actual quantities 0.
fn clear(line: &mut [u8]) {
    put_word(line, HEDGE, 0);
    let places = pricing_place(0, 0)..LINE_BYTES / 4;
    places.for_each(|place| put_word(line, place, 0));
}

/// A total of the lowered M and `above`.
pub fn at_lowered(line: &mut [u8], random: &mut Random, entries: Entries, above: u32) {
    put_lowered(line, random, entries, |lowered| lowered.most + above);
}

/// A total of M as it was before, and `above`.
pub fn at_former(line: &mut [u8], random: &mut Random, entries: Entries, above: u32) {
    put_lowered(line, random, entries, |lowered| lowered.former + above);
}

/// A total of some schedule, of a line of either side whose M was lowered.
fn put_lowered(
    line: &mut [u8],
    random: &mut Random,
    entries: Entries,
    total: impl Fn(Lowered) -> u32,
) {
    let side = random.side();
    let lowered = lower_most(line, random, side);
    put_total(line, entries, random.place(SCHEDULES), total(lowered));
}

/// Puts 1 into a slot of a pulled bid.
fn put_slot(line: &mut [u8], random: &mut Random, slot: usize) -> u32 {
    let bid = pull_later(line, random);
    put_word(line, count_place(bid) + 1 + slot, 1);
    10
}

/// How many kinds of damaged day there are, and of damaged line.
pub fn pulled_fault_kinds() -> [usize; 2] {
    FAULTS.kinds()
}

pub fn pulled_fault_day(seed: u64) -> Vec<u8> {
    FAULTS.day(seed).0
}

/// A day with a line at a limit that pulled bids have, and its number. Seeds in a row go through all the faults.
pub fn pulled_fault_day_and_number(seed: u64) -> (Vec<u8>, u32) {
    FAULTS.day(seed)
}

pub fn pulled_fault_line(seed: u64) -> Vec<u8> {
    FAULTS.line(seed).0
}

/// A line likewise, and the cutter's number for it.
pub fn pulled_fault_line_and_number(seed: u64) -> (Vec<u8>, u32) {
    FAULTS.line(seed)
}

/// The day of K10 with each set of bids pulled, bit s for schedule s from 0, then with one slot of a pulled bid as 1:
/// the 22 slots of schedule 2, of 3, of 4 and of 5.
pub fn pulled_k10_days() -> Vec<Vec<u8>> {
    let sets = (0..32).map(k10_pulled);
    let slots = (1..SCHEDULES).flat_map(|bid| (0..SLOTS).map(move |slot| k10_with_slot(bid, slot)));
    sets.chain(slots).collect()
}

pub fn k10_pulled(set: u32) -> Vec<u8> {
    let mut day = k10();
    let pulled = (0..SCHEDULES).filter(|bid| set >> bid & 1 == 1);
    pulled.for_each(|bid| pull(line_mut(&mut day, 0), bid));
    day
}

fn k10_with_slot(bid: usize, slot: usize) -> Vec<u8> {
    let mut day = k10_pulled(1 << bid);
    put_word(line_mut(&mut day, 0), count_place(bid) + 1 + slot, 1);
    day
}
