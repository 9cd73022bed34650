//! Days with given totals, for uplift by schedule (02 F-1).

use super::draw::{draw_operating, put_bid};
use super::random::Random;
use super::sets::put_accreditation;
use crate::layout::*;

/// A day without fault whose totals are drawn: runs of one sign, zeros between them, sizes from 1 to above 2^53.
pub fn uplift_day(seed: u64) -> Vec<u8> {
    day_with_totals(&uplift_totals(seed), seed)
}

/// The totals of that day.
pub fn uplift_totals(seed: u64) -> BySchedule<i64> {
    draw_totals(&mut Random::new(!seed))
}

fn draw_totals(random: &mut Random) -> BySchedule<i64> {
    let near = |power: u32| move |random: &mut Random| (1 << power) - 8 + random.below(17);
    let size: DrawSize = match random.below(16) {
        0 => &|_| 1,
        1..6 => &|random| 1 + random.below(3),
        6..9 => &|random| 1 + random.below(6),
        9 => &|random| 1 + random.below(1_000),
        10 => &|random| 1 + random.below(1_000_000_000),
        11 => &near(31),
        12 | 13 => &near(32),
        14 => &|random| 1 + random.below(MOST_PAYMENT),
        _ => &near(53),
    };
    match random.below(8) {
        0 => draw_signs(random, size, |_, sign| if sign > 0 { -1 } else { 1 }),
        1..5 => draw_group(random, size),
        _ => draw_signs(random, size, |random, sign| match random.one_in(2) {
            true => random.pick(&[-1, -1, 0, 1, 1]),
            false => sign,
        }),
    }
}

type DrawSize<'a> = &'a dyn Fn(&mut Random) -> u64;

/// Totals of such sizes, the sign of each drawn from the one before it.
fn draw_signs(
    random: &mut Random,
    size: DrawSize,
    next: fn(&mut Random, i64) -> i64,
) -> BySchedule<i64> {
    let mut sign = random.pick(&[0, 1, 1, 1]);
    std::array::from_fn(|s| {
        if s > 0 {
            sign = next(random, sign);
        }
        sign * size(random) as i64
    })
}

/// Two to four totals of one sign, some of them with a total of 0 between them, and one of the other sign that takes a
/// part off: behind those above 0, in schedule 1 before those below 0.
fn draw_group(random: &mut Random, size: DrawSize) -> BySchedule<i64> {
    let count = 2 + random.place(3);
    let mut group: Vec<i64> = (0..count).map(|_| size(random) as i64).collect();
    if count > 2 && random.one_in(3) {
        group[1 + random.place(count - 2)] = 0;
    }
    let sum: i64 = group.iter().sum();
    let taken = 1 + random.below(sum as u64 - 1) as i64;
    let zeros = random.place(SCHEDULES - count);
    let mut totals = [0; SCHEDULES];
    if random.one_in(2) {
        totals[zeros..][..count].copy_from_slice(&group);
        totals[zeros + count] = -taken;
    } else {
        totals[0] = taken;
        let below = totals[1 + zeros..].iter_mut().zip(group);
        below.for_each(|(total, size)| *total = -size);
    }
    totals
}

/// The greatest payment of a line in one schedule.
const MOST_PAYMENT: u64 = QUANTITY_LIMIT as u64 * PRICE_LIMIT as u64;

/// Of a day that is built: market price, the same in all schedules, and clawback.
struct Terms {
    market: u32,
    clawback: bool,
}

impl Terms {
    /// The greatest rate of a line of this side.
    fn most_rate(&self, side: Side) -> u32 {
        match side {
            Side::Injection => PRICE_LIMIT - self.market,
            Side::Withdrawal => self.market,
        }
    }

    /// The price that gives a rate.
    fn price(&self, side: Side, rate: u32) -> u32 {
        match side {
            Side::Injection => self.market + rate,
            Side::Withdrawal => self.market - rate,
        }
    }

    fn draw_side(&self, random: &mut Random) -> Side {
        match self.market {
            0 => Side::Injection,
            PRICE_LIMIT => Side::Withdrawal,
            _ => random.side(),
        }
    }
}

/// A day without fault and with these totals: the first is at least 0, and all are small enough for 64 lines.
pub fn day_with_totals(totals: &BySchedule<i64>, seed: u64) -> Vec<u8> {
    let random = &mut Random::new(seed);
    let is_large = totals.iter().any(|t| t.unsigned_abs() > MOST_PAYMENT / 2);
    let terms = Terms {
        market: match is_large {
            true => random.pick(&[0, PRICE_LIMIT]),
            false => PRICE_LIMIT / 2,
        },
        clawback: random.one_in(2),
    };
    let mut lines = Vec::new();
    for (s, &total) in totals.iter().enumerate() {
        if total == 0 && s > 0 && random.one_in(2) {
            let payment = 1 + random.below(1_000_000) as i64;
            pay(&mut lines, s, payment, &terms, random);
            pay(&mut lines, s, -payment, &terms, random);
        }
        pay(&mut lines, s, total, &terms, random);
    }
    while lines.len() < 2 {
        let side = terms.draw_side(random);
        lines.push(line_of(side, 0, true, (1, 0), &terms, random));
    }
    random.shuffle(&mut lines);
    day_of(&terms, &lines)
}

/// Adds lines whose payments in schedule s (from 0) add up to `payment`, and that have none in the others.
fn pay(lines: &mut Vec<Vec<u8>>, s: usize, payment: i64, terms: &Terms, random: &mut Random) {
    let mut left = payment.unsigned_abs();
    let mut at_once = random.one_in(4);
    while left > 0 {
        let side = terms.draw_side(random);
        let most_rate = u64::from(terms.most_rate(side));
        let part = left.min(u64::from(QUANTITY_LIMIT) * most_rate);
        let least_rate = part.div_ceil(QUANTITY_LIMIT.into());
        let rate = match at_once && part <= most_rate {
            true => part,
            false => least_rate + random.below(most_rate.min(part) - least_rate + 1),
        };
        at_once = true;
        let change = ((part / rate) as u32, rate as u32);
        lines.push(line_of(side, s, payment > 0, change, terms, random));
        left -= part - part % rate;
    }
}

/// A line whose quantity rises or falls in schedule s at a rate and is paid or charged there alone: it is accredited in
/// that schedule only or, without clawback, its rates in the others are 0.
fn line_of(
    side: Side,
    s: usize,
    rises: bool,
    (quantity, rate): (u32, u32),
    terms: &Terms,
    random: &mut Random,
) -> Vec<u8> {
    let by_set = terms.clawback || random.one_in(2);
    let rate_in = |schedule| if by_set || schedule == s { rate } else { 0 };
    let first = random.place(s.max(1));
    // A fall in s has its rise in an earlier schedule.
    let is_on = |schedule| match rises {
        true => schedule >= s,
        false => schedule >= first && schedule < s,
    };
    let operating = std::array::from_fn(|schedule| match is_on(schedule) {
        true => quantity,
        false => 0,
    });
    let prices = std::array::from_fn(|schedule| terms.price(side, rate_in(schedule)));
    let accreditation = if by_set { EMPTY_SET + (1 << s) } else { 1 };
    one_step(side, accreditation, operating, prices, random)
}

/// A line of one step with all of its operating quantities constrained on: nothing is priced, all is delivered.
fn one_step(
    side: Side,
    accreditation: u32,
    operating: BySchedule<u32>,
    prices: BySchedule<u32>,
    random: &mut Random,
) -> Vec<u8> {
    let mut line = vec![0; LINE_BYTES];
    let most = operating.iter().fold(1, |most, &total| total.max(most));
    put_word(&mut line, SIDE, side as u32);
    put_accreditation(&mut line, accreditation);
    for s in 0..SCHEDULES {
        put_bid(&mut line, s, &[most], &[prices[s]]);
        draw_operating(&mut line, random, s, operating[s]);
        put_word(&mut line, actual_place(s), QUANTITY_LIMIT);
    }
    line
}

/// The lines' participants are 1, 2 and so on.
fn day_of(terms: &Terms, lines: &[Vec<u8>]) -> Vec<u8> {
    let mut day = vec![0; day_length(0)];
    put_header(&mut day, Layout::Old, 0, 0);
    let table = market_mut(&mut day);
    (0..SCHEDULES).for_each(|s| put_word(table, MARKET_PRICE + s, terms.market));
    put_word(table, CLAWBACK, terms.clawback.into());
    for (k, line) in lines.iter().enumerate() {
        day.extend(line);
        put_word(&mut day[day_length(k)..], PARTICIPANT, k as u32 + 1);
    }
    put_header(&mut day, Layout::Old, lines.len(), 0);
    day
}

/// What the last line of a day at the limits does: its operating totals, and its rates.
type LastLine = (BySchedule<u32>, BySchedule<u32>);

/// What 63 lines at the quantity limit do: in which schedules they are constrained on, and in which they are at the
/// greatest rate. In the others their rate is 0 or, where they aren't accredited, no payment is made.
struct AtLimits {
    on: BySchedule<bool>,
    paid: BySchedule<bool>,
    last: LastLine,
}

const Q: u32 = QUANTITY_LIMIT;
const R: u32 = PRICE_LIMIT;

/// T and F are whether a schedule is meant.
const T: bool = true;
const F: bool = false;

const AT_LIMITS: [AtLimits; 9] = [
    // X, -X, X, -X, X with X = 64 Q R.
    AtLimits {
        on: [T, F, T, F, T],
        paid: [T; 5],
        last: ([Q, 0, Q, 0, Q], [R; 5]),
    },
    // One group of five: its sum is near 3 X, so a product needs 116 bits.
    AtLimits {
        on: [T, F, T, F, T],
        paid: [T, F, T, F, T],
        last: ([Q - 2, Q - 1, Q - 1, Q, Q], [R, 1, 0, 1, 0]),
    },
    // Groups of three and four near 2 X with little, and with nearly all, taken off.
    AtLimits {
        on: [T, F, T, T, T],
        paid: [T, F, T, F, F],
        last: ([10, 11, 11, 4, 4], [0, 1, 0, 1, 0]),
    },
    AtLimits {
        on: [T, F, T, T, T],
        paid: [T, F, T, F, F],
        last: ([Q - 9, Q - 8, Q - 8, Q, 3], [0, 1, 0, 1, R - 1]),
    },
    AtLimits {
        on: [T, F, T, F, F],
        paid: [T, F, T, T, F],
        last: ([1, 2, 2, 2, 2], [7, 1, 0, 0, 0]),
    },
    AtLimits {
        on: [T, T, F, F, F],
        paid: [T, F, T, F, F],
        last: ([0, 1, 1, 1, 1], [0, 1, 0, 0, 0]),
    },
    // Groups of negative totals near 2 X, whole and with a little taken off.
    AtLimits {
        on: [T, F, T, F, F],
        paid: [F, T, F, T, F],
        last: ([7, 7, 6, 6, 5], [1; 5]),
    },
    AtLimits {
        on: [T, F, T, F, F],
        paid: [F, T, F, T, F],
        last: ([7, 7, 6, 6, 5], [0, 0, 1, 1, 1]),
    },
    AtLimits {
        on: [T, F, T, F, F],
        paid: [F, T, F, T, F],
        last: ([Q, Q, 11, 11, 0], [R, 0, 3, 0, R]),
    },
];

/// Days of 64 lines at the limits of quantity and price, of injections, then of withdrawals.
pub fn uplift_limit_days() -> Vec<Vec<u8>> {
    let sides = [(Side::Injection, 0), (Side::Withdrawal, PRICE_LIMIT)];
    let of = |(side, market)| AT_LIMITS.iter().map(move |at| at_limits(side, market, at));
    sides.into_iter().flat_map(of).collect()
}

fn at_limits(side: Side, market: u32, at: &AtLimits) -> Vec<u8> {
    let terms = Terms {
        market,
        clawback: false,
    };
    let random = &mut Random::new(0);
    let mut line = |(operating, rates): LastLine| {
        let prices = rates.map(|rate: u32| terms.price(side, rate));
        one_step(side, 1, operating, prices, random)
    };
    let [on, paid] = [(at.on, Q), (at.paid, R)].map(|(is, most)| is.map(|is| u32::from(is) * most));
    let mut lines = vec![line((on, paid)); MOST_LINES - 1];
    lines.push(line(at.last));
    day_of(&terms, &lines)
}
