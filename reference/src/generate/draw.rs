//! Lines and days without fault.

use super::random::Random;
use crate::layout::*;
use std::collections::BTreeSet;

/// The greatest quantity, price and step count of a line or a day. The quantity has room for 56 steps.
#[derive(Clone, Copy)]
pub struct Scale {
    pub quantity: u32,
    pub price: u32,
    pub steps: usize,
}

impl Scale {
    pub fn draw(random: &mut Random) -> Scale {
        Scale {
            quantity: random.pick(&[60, 100, 3_000, 5_000_000, QUANTITY_LIMIT]),
            price: random.pick(&[12, 1_000, 300_000, PRICE_LIMIT]),
            steps: MOST_STEPS,
        }
    }
}

pub fn draw_day(random: &mut Random, lines: u32, scale: Scale) -> Vec<u8> {
    let mut day = vec![0; day_length(0)];
    put_header(&mut day, Layout::Old, 0, 0);
    draw_market(market_mut(&mut day), random, scale);
    for _ in 0..lines {
        append_line(&mut day, random, scale);
    }
    day
}

fn draw_market(table: &mut [u8], random: &mut Random, scale: Scale) {
    let middle = random.range(scale.price / 4, scale.price / 4 * 3);
    let marked = random.one_in(3);
    for s in 0..SCHEDULES {
        let price = match random.below(8) {
            0 => 0,
            1 => scale.price,
            2..5 => random.range(0, scale.price),
            _ => middle,
        };
        put_word(table, MARKET_PRICE + s, price);
        put_word(table, CAP_MARK + s, u32::from(marked && random.one_in(2)));
    }
    put_word(table, PRICE_CAP, random.range(0, scale.price));
    put_word(table, CLAWBACK, u32::from(!random.one_in(5)));
}

/// Adds a line with a key of its own to a day of the old layout, and the header that says so.
pub fn append_line(day: &mut Vec<u8>, random: &mut Random, scale: Scale) {
    let side = random.side();
    let steps = match random.below(8) {
        0 => MOST_STEPS,
        1..4 => random.range(1, MOST_STEPS as u32) as usize,
        _ => random.range(1, 8) as usize,
    };
    let mut line = draw_line(random, scale, side, steps.min(scale.steps));
    let lines = Day::new(day).line_count();
    let keys: BTreeSet<[u32; 3]> = Day::new(day).lines().map(Line::key).collect();
    while Line::new(&line).is_some_and(|line| keys.contains(&line.key())) {
        draw_key(&mut line, random);
    }
    day.extend(line);
    put_header(day, Layout::Old, lines + 1, 0);
}

fn draw_key(line: &mut [u8], random: &mut Random) {
    for place in [PARTICIPANT, POINT] {
        let value = match random.below(16) {
            0 => u32::MAX,
            _ => random.range(0, 12),
        };
        put_word(line, place, value);
    }
}

/// A line with so many steps, 1 to 56; a withdrawal has at most 55.
pub fn draw_line(random: &mut Random, scale: Scale, side: Side, steps: usize) -> Vec<u8> {
    let mut line = vec![0; LINE_BYTES];
    draw_key(&mut line, random);
    put_word(&mut line, SIDE, side as u32);
    put_word(&mut line, ACCREDITATION, u32::from(!random.one_in(8)));
    let (hedge, ends) = draw_ends(random, scale, side, steps);
    put_word(&mut line, HEDGE, hedge);
    for (bid, breaks) in breaks_of_bids(random, &ends).iter().enumerate() {
        let prices = draw_prices(random, side, breaks.len(), scale.price);
        put_bid(&mut line, bid, breaks, &prices);
    }
    draw_quantities(&mut line, random);
    line
}

/// The hedge and the ends that go to the bids. The hedge is none, one of those ends or an end of its own.
fn draw_ends(random: &mut Random, scale: Scale, side: Side, steps: usize) -> (u32, Vec<u32>) {
    let most = (MOST_STEPS - 1).min(steps);
    if side == Side::Withdrawal {
        return (0, rising_quantities(random, most, scale.quantity));
    }
    let mut ends = rising_quantities(random, steps, scale.quantity);
    if steps > most || steps > 1 && random.one_in(4) {
        let own = random.place(steps - 1);
        return (ends.remove(own), ends);
    }
    let hedge = if random.one_in(3) {
        random.pick(&ends)
    } else {
        0
    };
    (hedge, ends)
}

/// So many different quantities from 1 to `most`, rising; the last is `most` half of the time.
pub fn rising_quantities(random: &mut Random, count: usize, most: u32) -> Vec<u32> {
    let mut ends = BTreeSet::new();
    if random.one_in(2) {
        ends.insert(most);
    }
    while ends.len() < count {
        ends.insert(random.range(1, most));
    }
    ends.into_iter().collect()
}

/// Breaks for the five bids, each end in at least one of them.
fn breaks_of_bids(random: &mut Random, ends: &[u32]) -> BySchedule<Vec<u32>> {
    let mut order = ends.to_vec();
    random.shuffle(&mut order);
    let mut bids: BySchedule<Vec<u32>> = Default::default();
    for (k, &end) in order.iter().enumerate() {
        bids[k % SCHEDULES].push(end);
    }
    let extra = random.pick(&[0, 1, 4, 40]);
    let last = ends.iter().max().filter(|_| random.one_in(2));
    for bid in &mut bids {
        let first = if bid.is_empty() { 1 } else { 0 };
        let picks = (0..first + extra).map(|_| random.pick(ends));
        let wanted: Vec<u32> = last.copied().into_iter().chain(picks).collect();
        for end in wanted {
            if bid.len() < BID_SLOTS && !bid.contains(&end) {
                bid.push(end);
            }
        }
        bid.sort_unstable();
    }
    bids
}

/// Prices in the side's order.
pub fn draw_prices(random: &mut Random, side: Side, count: usize, most: u32) -> Vec<u32> {
    let (low, high) = match random.below(8) {
        0 => (most, most),
        1 => (0, 0),
        2..4 => (most / 2, most / 2 + 2),
        _ => (0, most),
    };
    let mut prices: Vec<u32> = (0..count).map(|_| random.range(low, high)).collect();
    prices.sort_unstable();
    if side == Side::Withdrawal {
        prices.reverse();
    }
    prices
}

/// Writes a whole bid, its unused slots as 0.
pub fn put_bid(line: &mut [u8], bid: usize, breaks: &[u32], prices: &[u32]) {
    put_word(line, count_place(bid), breaks.len() as u32);
    for slot in 0..BID_SLOTS {
        put_word(
            line,
            break_place(bid, slot),
            *breaks.get(slot).unwrap_or(&0),
        );
        put_word(
            line,
            price_place(bid, slot),
            *prices.get(slot).unwrap_or(&0),
        );
    }
}

/// Pricing and operating quantities with totals of at most M, and actuals.
pub fn draw_quantities(line: &mut [u8], random: &mut Random) {
    let most = Line::new(line).map_or(0, Line::greatest_break);
    let pricing_most = random.pick(&[0, most / 4, most / 2, most]);
    let mut passed = 0;
    let mut total = random.range(0, most);
    for s in 0..SCHEDULES {
        let pricing = random.range(0, pricing_most.saturating_sub(passed));
        for (k, part) in split(random, pricing, SCHEDULES - s)
            .into_iter()
            .enumerate()
        {
            put_word(line, pricing_place(s, s + k), part);
        }
        passed += word(line, pricing_place(s, s));
        total = match random.below(8) {
            0 => 0,
            1 => most,
            2..4 => total,
            _ => random.range(0, most),
        };
        draw_operating(line, random, s, total);
    }
    let as_scheduled = random.one_in(2);
    for i in 0..SCHEDULES {
        let scheduled = word(line, operating_place(SCHEDULES - 1, i));
        let actual = if as_scheduled {
            scheduled
        } else {
            draw_actual(random, scheduled)
        };
        put_word(line, actual_place(i), actual);
    }
}

/// Operating quantities of a schedule that add up to the total.
pub fn draw_operating(line: &mut [u8], random: &mut Random, s: usize, total: u32) {
    for (i, part) in split(random, total, SCHEDULES).into_iter().enumerate() {
        put_word(line, operating_place(s, i), part);
    }
}

fn draw_actual(random: &mut Random, scheduled: u32) -> u32 {
    match random.below(6) {
        0 => 0,
        1 => scheduled,
        2 => random.range(scheduled, QUANTITY_LIMIT),
        3 => QUANTITY_LIMIT,
        _ => random.range(0, scheduled),
    }
}

/// Parts that add up to the total.
fn split(random: &mut Random, total: u32, parts: usize) -> Vec<u32> {
    let mut left = total;
    let mut split = Vec::new();
    for _ in 1..parts {
        let part = if random.one_in(3) {
            0
        } else {
            random.range(0, left)
        };
        left -= part;
        split.push(part);
    }
    split.push(left);
    split
}
