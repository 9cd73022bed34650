//! Days and lines without fault in which bids are pulled in a reschedule (02 F-6).

use super::draw::{draw_operating, draw_quantities};
use super::line_faults::{most, pull, put_fresh_bid};
use super::random::Random;
use super::sets::{draw_accreditation, put_accreditation, put_sets};
use super::{line, small_day, valid_day};
use crate::layout::*;

/// The valid day of the same seed with bids pulled, half of the days with accreditation by schedule.
pub fn pulled_day(seed: u64) -> Vec<u8> {
    with_pulled(valid_day(seed), seed)
}

/// The small day likewise.
pub fn small_pulled_day(seed: u64) -> Vec<u8> {
    with_pulled(small_day(seed), seed)
}

/// The line likewise.
pub fn pulled_line(seed: u64) -> Vec<u8> {
    let mut line = line(seed);
    let random = &mut Random::new(!seed);
    if random.one_in(2) {
        put_accreditation(&mut line, draw_accreditation(random));
    }
    let pulled = draw_pulled(random);
    pull_bids(&mut line, &pulled, random);
    line
}

fn with_pulled(mut day: Vec<u8>, seed: u64) -> Vec<u8> {
    let random = &mut Random::new(!seed);
    if random.one_in(2) {
        put_sets(&mut day, random);
    }
    for k in 0..Day::new(&day).line_count() {
        pull_some(line_mut(&mut day, k), random);
    }
    if random.one_in(2) {
        cap_a_pulled_bid(&mut day, random);
    }
    day
}

/// Three lines of four get pulled bids.
pub fn pull_some(line: &mut [u8], random: &mut Random) {
    if !random.one_in(4) {
        let pulled = draw_pulled(random);
        pull_bids(line, &pulled, random);
    }
}

/// One of the 15 sets of bids after the first, rising.
fn draw_pulled(random: &mut Random) -> Vec<usize> {
    let set = random.range(1, 15);
    let is_in = |bid: &usize| set >> (bid - 1) & 1 == 1;
    (1..SCHEDULES).filter(is_in).collect()
}

/// Pulls the bids, and draws hedge and quantities that fit the M of those left.
pub fn pull_bids(line: &mut [u8], pulled: &[usize], random: &mut Random) {
    draw_source(line, pulled[0] - 1, random);
    pulled.iter().for_each(|&bid| pull(line, bid));
    if word(line, SIDE) == Side::Injection as u32 {
        draw_hedge(line, random);
    }
    draw_quantities(line, random);
    if random.one_in(2) {
        draw_fall(line, pulled[0], random);
    }
}

/// Sometimes a bid of 1 or of 11 steps for the pulled one behind it to take its last price from.
fn draw_source(line: &mut [u8], bid: usize, random: &mut Random) {
    match random.below(8) {
        0 => put_fresh_bid(line, random, bid, BID_SLOTS),
        1 => put_fresh_bid(line, random, bid, 1),
        _ => {}
    }
}

/// None, M, the last break of some bid, anything up to M, or the hedge as it was where that fits.
fn draw_hedge(line: &mut [u8], random: &mut Random) {
    let most = most(line);
    let bid = random.place(SCHEDULES);
    let last = match word(line, count_place(bid)) {
        0 => most,
        count => word(line, break_place(bid, count as usize - 1)),
    };
    let any = random.range(1, most);
    let old = word(line, HEDGE).min(most);
    put_word(line, HEDGE, random.pick(&[0, most, last, any, old, old]));
}

/// Operating totals that rise before the first pulled bid and fall with it; nothing priced, all delivered.
fn draw_fall(line: &mut [u8], pulled: usize, random: &mut Random) {
    let most = most(line);
    clear_pricing(line);
    for s in 0..SCHEDULES {
        let total = match s {
            _ if s + 1 < pulled => random.range(0, most),
            _ if s < pulled => random.range(most / 2, most),
            _ if s == pulled => random.range(0, most / 2),
            _ => random.range(0, most),
        };
        draw_operating(line, random, s, total);
    }
    (0..SCHEDULES).for_each(|i| put_word(line, actual_place(i), QUANTITY_LIMIT));
}

/// Nothing is priced.
pub fn clear_pricing(line: &mut [u8]) {
    let places = pricing_place(0, 0)..operating_place(0, 0);
    places.for_each(|place| put_word(line, place, 0));
}

/// A cap mark on the schedule of a pulled bid, and APC around the price that it takes over.
fn cap_a_pulled_bid(day: &mut [u8], random: &mut Random) {
    let mut pulled = Vec::new();
    for line in Day::new(day).lines() {
        let of_line = (0..SCHEDULES).filter(|&bid| line.is_pulled(bid));
        pulled.extend(of_line.map(|s| (s, line.last_price(s))));
    }
    if !pulled.is_empty() {
        let (s, price) = random.pick(&pulled);
        let caps = [price / 2, price.saturating_sub(1), price, price + 1];
        put_word(market_mut(day), CAP_MARK + s, 1);
        put_word(
            market_mut(day),
            PRICE_CAP,
            random.pick(&caps).min(PRICE_LIMIT),
        );
    }
}
