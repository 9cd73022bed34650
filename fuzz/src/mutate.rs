//! Mutations of a day file: some that mostly keep it without fault, so that settling goes on to the payments, and some of any kind.

use crate::random::Random;
use crate::records::{self, layout, line_at, record_room};
use reference::layout::*;
use reference::quantities::{operating_totals, pricing_totals};

/// Changes a day. Half of the days get only changes that mostly keep them accepted.
pub fn mutate(day: &mut Vec<u8>, random: &mut Random) {
    let (keeping, any) = match random.below(20) {
        0..11 => (1 + random.below(8), 0),
        11..18 => (random.below(4), 1),
        _ => (0, 1 + random.below(6)),
    };
    for _ in 0..keeping {
        change_keeping(day, random);
    }
    for _ in 0..any {
        change_any(day, random);
    }
    if any > 0 && !random.one_in(4) {
        repair_header(day, random);
    }
}

/// Header words that fit the length, so that a change of length gets past the header.
fn repair_header(day: &mut Vec<u8>, random: &mut Random) {
    let (layout, lines) = (layout(day), lines(day));
    let records = record_room(day) as u32;
    if lines > 0 && random.one_in(2) {
        day.truncate(layout.length(lines, records) as usize);
    }
    if day.len() >= layout.market() {
        put_header(day, layout, lines, records);
    }
}

/// Whole lines that the day's bytes have room for; with records behind them no more than the header says.
pub fn lines(day: &[u8]) -> usize {
    let room = day.len().saturating_sub(line_at(day, 0)) / LINE_BYTES;
    match layout(day) {
        Layout::Old => room,
        Layout::AdHoc => room.min(word(day, LINE_COUNT) as usize),
    }
}

/// How many of a bid's slots to take as used, at least 1.
fn used(line: &[u8], bid: usize) -> usize {
    (word(line, count_place(bid)) as usize).clamp(1, BID_SLOTS)
}

pub fn greatest_break(line: &[u8]) -> u32 {
    let last = |bid| word(line, break_place(bid, used(line, bid) - 1));
    (0..SCHEDULES).map(last).fold(0, u32::max)
}

fn is_pulled(line: &[u8], bid: usize) -> bool {
    word(line, count_place(bid)) == 0
}

/// Some bid, the first in the place of a pulled one.
fn some_bid(line: &[u8], random: &mut Random) -> usize {
    let bid = random.below(SCHEDULES);
    match is_pulled(line, bid) {
        true => 0,
        false => bid,
    }
}

fn some_price(line: &[u8], random: &mut Random) -> u32 {
    let bid = some_bid(line, random);
    word(line, price_place(bid, random.below(used(line, bid))))
}

fn some_break(line: &[u8], random: &mut Random) -> u32 {
    let bid = some_bid(line, random);
    word(line, break_place(bid, random.below(used(line, bid))))
}

/// The value, one less or one more.
pub fn near(value: u32, random: &mut Random) -> u32 {
    match random.below(4) {
        0 => value.saturating_sub(1),
        1 => value.saturating_add(1),
        _ => value,
    }
}

fn change_keeping(day: &mut Vec<u8>, random: &mut Random) {
    let n = lines(day);
    if n == 0 {
        return change_any(day, random);
    }
    match random.below(24) {
        0 => change_market(day, n, random),
        1 => change_lines(day, n, random),
        2 => scatter(day, random),
        3 if random.one_in(2) => records::change_layout(day, random),
        4..9 if layout(day) == Layout::AdHoc => records::change_keeping(day, random),
        _ => {
            let k = random.below(n);
            change_line(line_mut(day, k), random);
        }
    }
}

/// Constrained on quantities that rise and fall from schedule to schedule, at prices that are paid, with clawback: what T is shared for.
/// Nearly all of the day's steps take part, on both sides.
pub fn scatter(day: &mut Vec<u8>, random: &mut Random) {
    scatter_lines(day, random);
    if layout(day) == Layout::AdHoc {
        records::move_to_records(day, random);
    }
}

fn scatter_lines(day: &mut [u8], random: &mut Random) {
    let table = market_mut(day);
    put_word(table, CLAWBACK, 1);
    let market = random.pick(&[0, 0, PRICE_LIMIT / 4, PRICE_LIMIT / 2, PRICE_LIMIT]);
    for s in 0..SCHEDULES {
        put_word(table, CAP_MARK + s, u32::from(random.one_in(8)));
        let price = near(market, random).min(PRICE_LIMIT);
        put_word(table, MARKET_PRICE + s, price);
    }
    let by_schedule = random.one_in(2);
    let pulled = random.one_in(3);
    for k in 0..lines(day) {
        let line = line_mut(day, k);
        if pulled && random.one_in(2) {
            pull_bid(line, random);
        }
        let set = random.range(EMPTY_SET, FULL_SET);
        put_word(line, ACCREDITATION, if by_schedule { set } else { 1 });
        let most = greatest_break(line);
        let exact = random.one_in(2);
        for s in 0..SCHEDULES {
            if !random.one_in(4) {
                (s..SCHEDULES).for_each(|i| put_word(line, pricing_place(s, i), 0));
            }
            let total = quantity(line, most, random);
            let first = random.range(0, total);
            let start = random.below(SCHEDULES - 1);
            (0..SCHEDULES).for_each(|i| put_word(line, operating_place(s, i), 0));
            put_word(line, operating_place(s, start), first);
            put_word(line, operating_place(s, start + 1), total - first);
        }
        for i in 0..SCHEDULES {
            let last = word(line, operating_place(SCHEDULES - 1, i));
            let some = random.range(0, last);
            let actual = if exact { QUANTITY_LIMIT } else { some };
            put_word(line, actual_place(i), actual);
        }
    }
}

fn change_market(day: &mut [u8], n: usize, random: &mut Random) {
    let k = random.below(n);
    let price = some_price(line_mut(day, k), random);
    let price = near(price, random).min(PRICE_LIMIT);
    let table = market_mut(day);
    match random.below(8) {
        0 => put_word(table, PRICE_CAP, price),
        1 => flip(table, CAP_MARK + random.below(SCHEDULES)),
        2 => flip(table, CLAWBACK),
        3 => (0..SCHEDULES).for_each(|s| put_word(table, MARKET_PRICE + s, price)),
        _ => put_word(table, MARKET_PRICE + random.below(SCHEDULES), price),
    }
}

fn flip(bytes: &mut [u8], place: usize) {
    put_word(bytes, place, u32::from(word(bytes, place) == 0));
}

fn change_lines(day: &mut Vec<u8>, n: usize, random: &mut Random) {
    let (k, other) = (random.below(n), random.below(n));
    match random.below(3) {
        0 => {
            let line = line_mut(day, k).to_vec();
            let (from, to) = (line_at(day, other), line_at(day, k));
            day.copy_within(from..from + LINE_BYTES, to);
            line_mut(day, other).copy_from_slice(&line);
        }
        1 if n < 5 => {
            let mut line = line_mut(day, k).to_vec();
            put_word(&mut line, PARTICIPANT, random.next() as u32);
            insert_lines(day, n, &line);
        }
        _ if n > 1 => take_line_out(day, n, k),
        _ => {}
    }
}

/// Adds whole lines behind the n there, before the records.
fn insert_lines(day: &mut Vec<u8>, n: usize, lines: &[u8]) {
    let (layout, records) = (layout(day), record_room(day) as u32);
    let behind = day.split_off(layout.line(n));
    day.extend(lines);
    day.extend(&behind[..RECORD_BYTES * records as usize]);
    put_header(day, layout, n + lines.len() / LINE_BYTES, records);
}

/// Takes line k out of n, and the records for it.
fn take_line_out(day: &mut Vec<u8>, n: usize, k: usize) {
    let layout = layout(day);
    let mut records = records::records(day);
    records::take_line_out(&mut records, k);
    day.truncate(layout.line(n));
    day.drain(layout.line(k)..layout.line(k + 1));
    put_header(day, layout, n - 1, 0);
    if layout == Layout::AdHoc {
        records::put_records(day, &records);
    }
}

fn change_line(line: &mut [u8], random: &mut Random) {
    let bid = random.below(SCHEDULES);
    let most = greatest_break(line);
    match random.below(23) {
        0 => change_accreditation(line, random),
        1 => {
            let value = random.range(0, 12);
            let place = random.pick(&[PARTICIPANT, POINT]);
            put_word(line, place, value);
        }
        2 => turn_side(line),
        3 | 4 if word(line, SIDE) == 0 => {
            let value = some_break(line, random);
            let value = near(value, random).min(most);
            let value = random.pick(&[value, value, value, 0, most]);
            put_word(line, HEDGE, value);
        }
        5 | 6 => change_break(line, some_bid(line, random), random),
        7 | 8 => change_price(line, some_bid(line, random), random),
        9 => copy_bid(line, random.below(SCHEDULES), bid),
        10 => lengthen_bid(line, some_bid(line, random), random),
        11 => shorten_bid(line, some_bid(line, random)),
        12 => {
            let (a, b) = (random.below(SCHEDULES), random.below(SCHEDULES));
            let (from, to) = (operating_place(bid, a), operating_place(bid, b));
            let amount = random.range(0, word(line, from));
            put_word(line, from, word(line, from) - amount);
            put_word(line, to, word(line, to).saturating_add(amount));
        }
        13 => {
            let from = operating_place(random.below(SCHEDULES), 0);
            line.copy_within(
                4 * from..4 * (from + SCHEDULES),
                4 * operating_place(bid, 0),
            );
        }
        14 | 15 => {
            let total = quantity(line, most, random);
            (0..SCHEDULES).for_each(|i| put_word(line, operating_place(bid, i), 0));
            put_word(line, operating_place(bid, random.below(SCHEDULES)), total);
        }
        16 | 17 => {
            let i = random.below(SCHEDULES);
            let last = word(line, operating_place(SCHEDULES - 1, i));
            let value = near(last, random).min(QUANTITY_LIMIT);
            let some = random.range(0, last);
            let value = random.pick(&[value, value, some, 0, QUANTITY_LIMIT]);
            put_word(line, actual_place(i), value);
        }
        18 => {
            let value = quantity(line, most, random);
            for row in 0..SCHEDULES {
                (row..SCHEDULES).for_each(|i| put_word(line, pricing_place(row, i), 0));
            }
            put_word(line, pricing_place(bid, SCHEDULES - 1), value);
        }
        19 => pull_bid(line, random),
        20 | 21 => put_bid_back(line, random),
        _ => {
            let i = random.range(bid as u32, SCHEDULES as u32 - 1) as usize;
            let value = random.range(0, word(line, pricing_place(bid, i)));
            put_word(line, pricing_place(bid, i), value);
        }
    }
}

/// 0, 1, any set of schedules, or the set there with one schedule more or less.
fn change_accreditation(line: &mut [u8], random: &mut Random) {
    let set = word(line, ACCREDITATION).clamp(EMPTY_SET, FULL_SET);
    let turned = set ^ 1 << random.below(SCHEDULES);
    let any = random.range(EMPTY_SET, FULL_SET);
    put_word(line, ACCREDITATION, random.pick(&[0, 1, turned, any]));
}

/// A total of at most M, often at a break, or one above M that is accepted.
pub fn quantity(line: &[u8], most: u32, random: &mut Random) -> u32 {
    let at_break = some_break(line, random);
    let some = random.range(0, most);
    let near_break = near(at_break, random).min(most);
    let excess = random.range(1, EXCESS_LIMIT);
    let above = most.saturating_add(random.pick(&[1, excess, EXCESS_LIMIT]));
    random.pick(&[near_break, near_break, some, some, most, above, 0])
}

/// The other side, with prices in its order and no hedge.
fn turn_side(line: &mut [u8]) {
    flip(line, SIDE);
    put_word(line, HEDGE, 0);
    for bid in 0..SCHEDULES {
        let n = used(line, bid);
        for slot in 0..n / 2 {
            swap(line, price_place(bid, slot), price_place(bid, n - 1 - slot));
        }
    }
}

fn swap(bytes: &mut [u8], a: usize, b: usize) {
    let (x, y) = (word(bytes, a), word(bytes, b));
    put_word(bytes, a, y);
    put_word(bytes, b, x);
}

/// A break between its neighbours, or at one of them plus or minus one.
fn change_break(line: &mut [u8], bid: usize, random: &mut Random) {
    let n = used(line, bid);
    let slot = random.below(n);
    let low = match slot {
        0 => 1,
        _ => word(line, break_place(bid, slot - 1)).saturating_add(1),
    };
    let high = match slot + 1 < n {
        true => word(line, break_place(bid, slot + 1)).saturating_sub(1),
        false => QUANTITY_LIMIT,
    };
    let other = some_break(line, random);
    let other = near(other, random).clamp(low.min(high), high);
    let some = random.range(low, high);
    let value = random.pick(&[low, high.max(low), other, other, some]);
    put_word(line, break_place(bid, slot), value);
}

/// A price between its neighbours.
fn change_price(line: &mut [u8], bid: usize, random: &mut Random) {
    let n = used(line, bid);
    let slot = random.below(n);
    let withdrawal = word(line, SIDE) == 1;
    let before = slot.checked_sub(1).map(|k| word(line, price_place(bid, k)));
    let after = (slot + 1 < n).then(|| word(line, price_place(bid, slot + 1)));
    let (low, high) = if withdrawal {
        (after, before)
    } else {
        (before, after)
    };
    let (low, high) = (low.unwrap_or(0), high.unwrap_or(PRICE_LIMIT));
    let other = some_price(line, random).clamp(low.min(high), high);
    let some = random.range(low, high);
    let value = random.pick(&[low, high, other, other, some]);
    put_word(line, price_place(bid, slot), value);
}

fn lengthen_bid(line: &mut [u8], bid: usize, random: &mut Random) {
    let n = used(line, bid);
    if n == BID_SLOTS {
        return;
    }
    let end = word(line, break_place(bid, n - 1));
    let price = word(line, price_place(bid, n - 1));
    let step = random.pick(&[1, 1, 2, 100, 50_000]);
    let price = match word(line, SIDE) {
        0 => price.saturating_add(random.range(0, 9)),
        _ => price.saturating_sub(random.range(0, 9)),
    };
    put_word(line, break_place(bid, n), end.saturating_add(step));
    put_word(line, price_place(bid, n), price);
    put_word(line, count_place(bid), n as u32 + 1);
}

fn shorten_bid(line: &mut [u8], bid: usize) {
    let n = used(line, bid);
    if n > 1 {
        put_word(line, break_place(bid, n - 1), 0);
        put_word(line, price_place(bid, n - 1), 0);
        put_word(line, count_place(bid), n as u32 - 1);
    }
}

fn copy_bid(line: &mut [u8], from: usize, to: usize) {
    let bytes = 4 * count_place(from)..4 * count_place(from + 1);
    line.copy_within(bytes, 4 * count_place(to));
}

/// Pulls a bid after the first. Sometimes one of its slots stays, or hedge and totals as they were.
fn pull_bid(line: &mut [u8], random: &mut Random) {
    let bid = 1 + random.below(SCHEDULES - 1);
    let slot = count_place(bid) + 1 + random.below(2 * BID_SLOTS);
    let kept = word(line, slot);
    line[4 * count_place(bid)..4 * count_place(bid + 1)].fill(0);
    match random.below(16) {
        0 => put_word(line, slot, kept),
        1 => {}
        _ => fit_to_most(line),
    }
}

/// Takes a hedge above M, and totals that M is too low for, down to M.
fn fit_to_most(line: &mut [u8]) {
    let most = greatest_break(line);
    put_word(line, HEDGE, word(line, HEDGE).min(most));
    let totals = |of: fn(Line) -> BySchedule<u64>| Line::new(line).map_or([0; SCHEDULES], of);
    let (pricing, operating) = (totals(pricing_totals), totals(operating_totals));
    let is_above = |total: u64| total > u64::from(most) + u64::from(EXCESS_LIMIT);
    for s in (0..SCHEDULES).filter(|&s| is_above(operating[s])) {
        (0..SCHEDULES).for_each(|i| put_word(line, operating_place(s, i), 0));
        put_word(line, operating_place(s, s), most);
    }
    if pricing.into_iter().any(is_above) {
        (pricing_place(0, 0)..operating_place(0, 0)).for_each(|place| put_word(line, place, 0));
    }
}

/// Puts a pulled bid back, with the steps of another, one more or one fewer.
fn put_bid_back(line: &mut [u8], random: &mut Random) {
    let bid = random.below(SCHEDULES);
    if !is_pulled(line, bid) {
        return;
    }
    copy_bid(line, some_bid(line, random), bid);
    match random.below(3) {
        0 => lengthen_bid(line, bid, random),
        1 => shorten_bid(line, bid),
        _ => {}
    }
}

fn some_value(random: &mut Random) -> u32 {
    let any = random.next() as u32;
    let some = random.range(0, 100_000);
    random.pick(&[
        0,
        1,
        2,
        11,
        12,
        31,
        32,
        63,
        64,
        65,
        PRICE_LIMIT - 1,
        PRICE_LIMIT,
        PRICE_LIMIT + 1,
        QUANTITY_LIMIT - 1,
        QUANTITY_LIMIT,
        QUANTITY_LIMIT + 1,
        QUANTITY_LIMIT + EXCESS_LIMIT,
        QUANTITY_LIMIT + EXCESS_LIMIT + 1,
        1 << 31,
        u32::MAX - 1,
        u32::MAX,
        any,
        some,
    ])
}

fn change_any(day: &mut Vec<u8>, random: &mut Random) {
    let words = day.len() / 4;
    let n = lines(day);
    match random.below(16) {
        0 => day.truncate(random.below(day.len() + 1)),
        1 => {
            let length = day.len() + random.pick(&[1, 2, 3, 4, 8, 659, LINE_BYTES, 661]);
            let fill = random.pick(&[0, 1, 0xff]);
            day.resize(length, fill);
        }
        2 => {
            let length = day
                .len()
                .saturating_sub(random.pick(&[1, 2, 3, 4, 8, LINE_BYTES]));
            day.truncate(length);
        }
        _ if words == 0 => day.resize(day_length(1), random.next() as u8),
        3 => put_word(day, random.below(words.min(18)), some_value(random)),
        4 | 5 => put_word(day, random.below(words), some_value(random)),
        6 | 7 => {
            let bit = random.below(8 * day.len());
            day[bit / 8] ^= 1 << (bit % 8);
        }
        8 => {
            let value = word(day, random.below(words));
            put_word(day, random.below(words), value);
        }
        9 => swap(day, random.below(words), random.below(words)),
        10 => {
            let place = random.below(words);
            let value = word(day, place).wrapping_add(random.pick(&[1, u32::MAX]));
            put_word(day, place, value);
        }
        11 if n > 1 => {
            let (k, other) = (random.below(n), random.below(n));
            let part = random.pick(&[12, LINE_BYTES]);
            let (from, to) = (line_at(day, k), line_at(day, other));
            day.copy_within(from..from + part, to);
        }
        12 if n > 0 && n < 64 && random.one_in(32) => add_lines(day, n, random),
        12 | 13 if n > 0 && layout(day) == Layout::AdHoc => records::cross_limit(day, random),
        _ if n > 0 => {
            let k = random.below(n);
            cross_limit(line_mut(day, k), random);
        }
        _ => put_word(day, random.below(words), some_value(random)),
    }
}

/// Copies of a line up to 63, 64 or 65 of them.
fn add_lines(day: &mut Vec<u8>, n: usize, random: &mut Random) {
    let wanted = random.pick(&[63, MOST_LINES, MOST_LINES, MOST_LINES + 1]);
    let mut line = line_mut(day, random.below(n)).to_vec();
    let mut lines = Vec::new();
    for k in n..wanted {
        put_word(&mut line, PARTICIPANT, 1_000_000 + k as u32);
        lines.extend(&line);
    }
    insert_lines(day, n, &lines);
}

/// A limit of a line, or one beyond it.
fn cross_limit(line: &mut [u8], random: &mut Random) {
    let bid = random.below(SCHEDULES);
    let n = used(line, bid);
    let most = greatest_break(line);
    let beyond = random.pick(&[0, 1, 1]);
    match random.below(11) {
        0 if random.one_in(2) => put_word(line, SIDE, 1 + beyond),
        0 => {
            let value = random.pick(&[1, 2, 31, 32, 63, 64, 0x8000_0021]);
            put_word(line, ACCREDITATION, value);
        }
        1 => put_word(line, count_place(bid), random.pick(&[0, 11 + beyond])),
        2 => put_word(line, break_place(bid, n - 1), QUANTITY_LIMIT + beyond),
        3 => put_word(line, break_place(bid, 0), 1 - beyond),
        4 => {
            let slot = if word(line, SIDE) == 0 { n - 1 } else { 0 };
            put_word(line, price_place(bid, slot), PRICE_LIMIT + beyond);
        }
        5 if n < BID_SLOTS => {
            let first = if is_pulled(line, bid) { 0 } else { n };
            let slot = first + random.below(BID_SLOTS - first);
            let place = random.pick(&[break_place(bid, slot), price_place(bid, slot)]);
            put_word(line, place, beyond);
        }
        6 => put_word(line, HEDGE, most.saturating_add(beyond)),
        7..10 => cross_total(line, random),
        _ => put_word(line, actual_place(bid), QUANTITY_LIMIT + beyond),
    }
}

/// A total at a limit of refusal 12, by an operating row of one entry or by the last entry of a pricing row, or one
/// above 32 bits.
fn cross_total(line: &mut [u8], random: &mut Random) {
    let s = random.below(SCHEDULES);
    let excess = random.pick(&[0, 1, EXCESS_LIMIT - 1, EXCESS_LIMIT, EXCESS_LIMIT + 1]);
    let total = greatest_break(line).saturating_add(excess);
    match random.below(3) {
        0 => {
            (0..SCHEDULES).for_each(|i| put_word(line, operating_place(s, i), 0));
            put_word(line, operating_place(s, random.below(SCHEDULES)), total);
        }
        1 => {
            let sum = (0..SCHEDULES - 1).fold(0u32, |sum, i| {
                sum.saturating_add(word(line, pricing_place(s.min(i), i)))
            });
            put_word(
                line,
                pricing_place(s, SCHEDULES - 1),
                total.saturating_sub(sum),
            );
        }
        _ => put_wrapping(line, s, random),
    }
}

/// Turns the highest bit of two words of one total, which is the same afterwards in 32 bits. The pricing words are in
/// no other total.
fn put_wrapping(line: &mut [u8], s: usize, random: &mut Random) {
    let row = s.min(2);
    let places = random.pick(&[
        [operating_place(s, 0), operating_place(s, 4)],
        [pricing_place(row, 3), pricing_place(row, 4)],
    ]);
    for place in places {
        put_word(line, place, word(line, place) ^ 1 << 31);
    }
}
