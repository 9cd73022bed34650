//! Damage to one line, each with the number it leads to; 0 is the passing side of a limit.

use super::draw::{draw_line, draw_prices, put_bid, rising_quantities, Scale};
use super::random::Random;
use crate::layout::*;

pub type LineFault = (u32, fn(&mut [u8], &mut Random));

pub const LINE_FAULTS: &[LineFault] = &[
    // Side and accreditation.
    (6, |line, _| put_word(line, SIDE, 2)),
    (6, |line, _| put_word(line, SIDE, u32::MAX)),
    (6, |line, _| put_word(line, ACCREDITATION, 2)),
    (6, |line, _| put_word(line, ACCREDITATION, u32::MAX)),
    (0, |line, _| put_word(line, ACCREDITATION, 0)),
    (0, |line, _| put_word(line, ACCREDITATION, 1)),
    // Bid count; for 0 see `damage_line`.
    (7, |line, random| put_count(line, random, 0)),
    (7, |line, random| {
        put_count(line, random, BID_SLOTS as u32 + 1)
    }),
    (7, |line, random| put_count(line, random, u32::MAX)),
    (0, |line, random| {
        fresh_bid(line, random, 1);
    }),
    (0, |line, random| {
        fresh_bid(line, random, BID_SLOTS);
    }),
    // Breaks.
    (8, |line, random| put_break(line, random, 0, 0)),
    (8, |line, random| put_break(line, random, 1, 0)),
    (8, |line, random| {
        put_break(line, random, 2, QUANTITY_LIMIT + 1)
    }),
    (8, |line, random| put_break(line, random, 2, u32::MAX)),
    (0, |line, random| put_break(line, random, 2, QUANTITY_LIMIT)),
    (8, equal_breaks),
    (8, falling_breaks),
    // Prices.
    (9, |line, random| {
        put_greatest_price(line, random, PRICE_LIMIT + 1)
    }),
    (9, |line, random| put_greatest_price(line, random, u32::MAX)),
    (0, |line, random| {
        put_greatest_price(line, random, PRICE_LIMIT)
    }),
    (9, |line, random| put_three_prices(line, random, [5, 4, 6])),
    (9, |line, random| put_three_prices(line, random, [4, 5, 4])),
    (9, |line, random| put_three_prices(line, random, [1, 1, 0])),
    (0, |line, random| put_three_prices(line, random, [5, 5, 5])),
    (0, |line, random| put_three_prices(line, random, [0, 0, 1])),
    // Unused slots.
    (10, |line, random| {
        put_unused(line, random, break_place, 3, 1)
    }),
    (10, |line, random| {
        put_unused(line, random, break_place, BID_SLOTS - 1, 1)
    }),
    (10, |line, random| {
        put_unused(line, random, break_place, BID_SLOTS - 1, u32::MAX)
    }),
    (10, |line, random| {
        put_unused(line, random, price_place, 3, 1)
    }),
    (10, |line, random| {
        put_unused(line, random, price_place, BID_SLOTS - 1, 1)
    }),
    (10, |line, random| {
        put_unused(line, random, price_place, BID_SLOTS - 1, u32::MAX)
    }),
    // The count taken down leaves a slot that is now unused.
    (10, |line, random| {
        let bid = fresh_bid(line, random, 3);
        put_word(line, count_place(bid), 2);
    }),
    // Hedge.
    (0, |line, random| {
        put_hedge(line, random, Side::Injection, |most| most)
    }),
    (11, |line, random| {
        put_hedge(line, random, Side::Injection, |most| most + 1)
    }),
    (11, |line, random| {
        put_hedge(line, random, Side::Injection, |_| u32::MAX)
    }),
    (0, |line, random| {
        put_hedge(line, random, Side::Injection, |_| 0)
    }),
    (0, |line, random| {
        put_hedge(line, random, Side::Injection, |_| 1)
    }),
    (0, |line, random| {
        put_hedge(line, random, Side::Withdrawal, |_| 0)
    }),
    (11, |line, random| {
        put_hedge(line, random, Side::Withdrawal, |_| 1)
    }),
    (11, |line, random| {
        put_hedge(line, random, Side::Withdrawal, |most| most)
    }),
    // Totals; the last of each group add up to 2^32 or more. M + 1 was a fault before 02 F-2.
    (0, |line, random| {
        put_operating(line, random, |most| [0, most, 0, 0, 0])
    }),
    (0, |line, random| {
        put_operating(line, random, |most| [0, most, 0, 0, 1])
    }),
    (12, |line, random| {
        put_operating(line, random, |_| [u32::MAX, 1, 0, 0, 0])
    }),
    (12, |line, random| {
        put_operating(line, random, |_| [u32::MAX; SCHEDULES])
    }),
    (12, |line, random| {
        put_operating(line, random, |_| [1 << 31, 0, 0, 0, 1 << 31])
    }),
    (0, |line, random| put_pricing(line, random, 0)),
    (0, |line, random| put_pricing(line, random, 1)),
    (12, |line, _| {
        (0..2).for_each(|i| put_word(line, pricing_place(0, 3 + i), 1 << 31))
    }),
    (12, |line, _| put_word(line, pricing_place(4, 4), u32::MAX)),
    // Actuals.
    (0, |line, random| put_actual(line, random, QUANTITY_LIMIT)),
    (13, |line, random| {
        put_actual(line, random, QUANTITY_LIMIT + 1)
    }),
    (13, |line, random| put_actual(line, random, u32::MAX)),
    // Two faults in one line: the first in the table's order counts, bid by bid.
    (6, |line, random| {
        put_count(line, random, 0);
        put_word(line, SIDE, 2);
    }),
    (7, |line, random| {
        let bid = fresh_bid(line, random, 3);
        put_word(line, break_place(bid, 0), 0);
        put_word(line, count_place(bid), 12);
    }),
    (8, |line, random| {
        let bid = fresh_bid(line, random, 3);
        put_word(line, price_place(bid, 0), u32::MAX);
        put_word(line, break_place(bid, 2), u32::MAX);
    }),
    (9, |line, random| {
        let bid = fresh_bid(line, random, 3);
        put_word(line, break_place(bid, 3), 1);
        put_word(line, price_place(bid, 2), u32::MAX);
    }),
    (10, |line, _| {
        put_bid(line, 2, &[5, 6], &[7, 7, 7]);
        pull(line, 3); // no fault (02 F-6)
    }),
    (9, |line, _| {
        put_bid(line, 0, &[5, 6], &[u32::MAX, u32::MAX]);
        put_bid(line, 4, &[6, 5], &[7, 7]);
    }),
    (10, |line, _| {
        put_bid(line, 4, &[5], &[7, 7]);
        put_word(line, HEDGE, u32::MAX);
    }),
    (11, |line, _| {
        put_word(line, HEDGE, u32::MAX);
        put_word(line, operating_place(0, 0), u32::MAX);
    }),
    (12, |line, _| {
        put_word(line, operating_place(4, 4), u32::MAX);
        put_word(line, actual_place(0), u32::MAX);
    }),
];

/// Puts a fault into a line and answers its number.
pub fn damage_line(line: &mut [u8], random: &mut Random, kind: usize) -> u32 {
    let (number, apply) = LINE_FAULTS[kind];
    apply(line, random);
    // A count of 0 is proper after the first bid (02 F-6), but leaves all slots unused.
    let is_0 = |bid| word(line, count_place(bid)) == 0;
    match number {
        7 if (1..SCHEDULES).any(is_0) => 10,
        number => number,
    }
}

/// Pulls a bid: its count and all its slots are 0.
pub fn pull(line: &mut [u8], bid: usize) {
    put_bid(line, bid, &[], &[]);
}

fn side(line: &[u8]) -> Side {
    Side::of_word(word(line, SIDE))
}

pub fn most(line: &[u8]) -> u32 {
    Line::new(line).map_or(0, Line::greatest_break)
}

/// A fresh bid of so many steps in the place of one of the five.
fn fresh_bid(line: &mut [u8], random: &mut Random, count: usize) -> usize {
    let bid = random.place(SCHEDULES);
    put_fresh_bid(line, random, bid, count);
    bid
}

/// Its last break is M or 11, so no other row fails.
pub fn put_fresh_bid(line: &mut [u8], random: &mut Random, bid: usize, count: usize) {
    let top = most(line).max(BID_SLOTS as u32);
    let mut breaks = rising_quantities(random, count - 1, top - 1);
    breaks.truncate(count - 1);
    breaks.push(top);
    let prices = draw_prices(random, side(line), count, PRICE_LIMIT);
    put_bid(line, bid, &breaks, &prices);
}

fn put_count(line: &mut [u8], random: &mut Random, count: u32) {
    put_word(line, count_place(random.place(SCHEDULES)), count);
}

fn put_break(line: &mut [u8], random: &mut Random, slot: usize, value: u32) {
    let bid = fresh_bid(line, random, 3);
    put_word(line, break_place(bid, slot), value);
}

fn equal_breaks(line: &mut [u8], random: &mut Random) {
    let bid = fresh_bid(line, random, BID_SLOTS);
    let slot = random.place(BID_SLOTS - 1);
    let value = word(line, break_place(bid, slot));
    put_word(line, break_place(bid, slot + 1), value);
}

fn falling_breaks(line: &mut [u8], random: &mut Random) {
    let bid = fresh_bid(line, random, 3);
    let value = word(line, break_place(bid, 1));
    put_word(line, break_place(bid, 2), value - 1);
}

/// The last price of an injection, the first of a withdrawal.
fn put_greatest_price(line: &mut [u8], random: &mut Random, value: u32) {
    let bid = fresh_bid(line, random, 3);
    let slot = match side(line) {
        Side::Injection => 2,
        Side::Withdrawal => 0,
    };
    put_word(line, price_place(bid, slot), value);
}

/// Prices of an injection; those of a withdrawal are the same from the last to the first.
fn put_three_prices(line: &mut [u8], random: &mut Random, mut prices: [u32; 3]) {
    let bid = fresh_bid(line, random, 3);
    if side(line) == Side::Withdrawal {
        prices.reverse();
    }
    for (slot, price) in prices.into_iter().enumerate() {
        put_word(line, price_place(bid, slot), price);
    }
}

type Place = fn(usize, usize) -> usize;

fn put_unused(line: &mut [u8], random: &mut Random, place: Place, slot: usize, value: u32) {
    let bid = fresh_bid(line, random, 3);
    put_word(line, place(bid, slot), value);
}

/// Turns the line into another one of the given side with the hedge that `hedge` makes of M.
fn put_hedge(line: &mut [u8], random: &mut Random, side: Side, hedge: fn(u32) -> u32) {
    let scale = Scale::draw(random);
    let steps = random.range(1, 50) as usize;
    let fresh = draw_line(random, scale, side, steps);
    line[4 * SIDE..].copy_from_slice(&fresh[4 * SIDE..]);
    let hedge = hedge(most(line));
    put_word(line, HEDGE, hedge);
}

fn put_operating(line: &mut [u8], random: &mut Random, row: fn(u32) -> BySchedule<u32>) {
    let s = random.place(SCHEDULES);
    for (i, value) in row(most(line)).into_iter().enumerate() {
        put_word(line, operating_place(s, i), value);
    }
}

/// Makes one pricing total M + `above`.
fn put_pricing(line: &mut [u8], random: &mut Random, above: u32) {
    let s = random.place(SCHEDULES);
    put_total(line, PRICING, s, most(line) + above);
}

/// The places of the five entries that a schedule's total adds up.
pub type Entries = fn(usize) -> BySchedule<usize>;
pub const PRICING: Entries = |s| std::array::from_fn(|i| pricing_place(s.min(i), i));
pub const OPERATING: Entries = |s| std::array::from_fn(|i| operating_place(s, i));

/// Makes the entries of a schedule's total 0.
pub fn clear_total(line: &mut [u8], entries: Entries, s: usize) {
    let places = entries(s).into_iter();
    places.for_each(|place| put_word(line, place, 0));
}

/// Makes a schedule's total this one by its last entry, which is in no other total.
pub fn put_total(line: &mut [u8], entries: Entries, s: usize, total: u32) {
    let [others @ .., last] = entries(s);
    let others: u32 = others.iter().map(|&place| word(line, place)).sum();
    put_word(line, last, total - others);
}

fn put_actual(line: &mut [u8], random: &mut Random, value: u32) {
    put_word(line, actual_place(random.place(SCHEDULES)), value);
}
