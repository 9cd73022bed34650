//! Days as a market has them.
//!
//! - Market prices: the first is $8 to $14 per GJ, each later one within 5 % of the one before. No schedule is capped.
//! - Lines: three in five are injections, nine in ten are accredited. One in six injections has a hedge: what schedule 1 prices.
//! - Bids: 5 to 10 steps of 50 to 2,000 GJ. Prices are $4 to $21, within half of the first market price; in one of two lines the first step is at
//!   $0 (withdrawal: $800). Four in five lines have the same breaks in all five schedules; one in four of these has other prices from some schedule
//!   on. One in five lines has another bid, breaks and prices, from some schedule on, half of them a third one in schedule 5. No bid is pulled.
//! - Pricing: what the bid offers at the market price or better, in one of four lines less a part of the last such step; a fifth in each interval.
//! - Operating: seven in eight lines are scheduled as priced. One in eight is constrained: from some schedule on it has 50 to 2,000 GJ more (two in
//!   three) or less than priced.
//! - Actuals: half of the lines deliver what schedule 5 says, the others up to 3 % more or less in each interval.

use reference::generate::random::Random;
use reference::layout::*;

/// One GJ in MJ.
const GJ: u32 = 1_000;
/// $800 and the administered price cap of $40 per GJ, in $0.0001.
const HIGHEST_PRICE: u32 = 8_000_000;
const CAP: u32 = 400_000;

#[derive(Clone)]
struct Bid {
    breaks: Vec<u32>,
    prices: Vec<u32>,
}

pub fn day(seed: u64, lines: usize, clawback: bool) -> Vec<u8> {
    let random = &mut Random::new(seed ^ 1 << 40);
    let mut day = vec![0; day_length(lines)];
    put_header(&mut day, Layout::Old, lines, 0);
    let table = market_mut(&mut day);
    let prices = draw_market_prices(random);
    put_words(table, &prices);
    put_word(table, PRICE_CAP, CAP);
    put_word(table, CLAWBACK, clawback.into());
    for k in 0..lines {
        let line = line_mut(&mut day, k);
        put_word(line, PARTICIPANT, k as u32 / 4);
        put_word(line, POINT, k as u32 % 4);
        draw_line(line, &prices, random);
    }
    day
}

fn draw_market_prices(random: &mut Random) -> BySchedule<u32> {
    let mut price = random.range(80_000, 140_000);
    std::array::from_fn(|_| {
        let next = price / 100 * random.range(95, 105);
        std::mem::replace(&mut price, next)
    })
}

fn draw_line(line: &mut [u8], prices: &BySchedule<u32>, random: &mut Random) {
    let side = match random.below(5) {
        0..3 => Side::Injection,
        _ => Side::Withdrawal,
    };
    put_word(line, SIDE, side as u32);
    put_word(line, ACCREDITATION, u32::from(!random.one_in(10)));
    let bids = draw_bids(side, prices[0], random);
    (0..SCHEDULES).for_each(|s| put_bid(line, s, &bids[s]));
    let left = match random.one_in(4) {
        true => random.range(1, 99),
        false => 0,
    };
    let pricing = std::array::from_fn(|s| offered(side, &bids[s], prices[s], left));
    let most = Line::new(line).unwrap().greatest_break();
    let operating = draw_operating(&pricing, most, random);
    put_rows(line, &pricing, &operating);
    put_actuals(line, &operating, random);
    if side == Side::Injection && random.one_in(6) {
        put_word(line, HEDGE, pricing[0]);
    }
}

/// The bids of the five schedules.
fn draw_bids(side: Side, market_price: u32, random: &mut Random) -> [Bid; SCHEDULES] {
    let last = SCHEDULES - 1;
    let mut bid = draw_bid(side, market_price, random);
    let from = random.range(1, last as u32) as usize;
    let (other_bid, third_bid) = (random.one_in(5), random.one_in(2));
    let other_prices = !other_bid && random.one_in(4);
    std::array::from_fn(|s| {
        if other_bid && (s == from || third_bid && s == last) {
            bid = draw_bid(side, market_price, random);
        } else if other_prices && s == from {
            bid.prices = draw_prices(side, market_price, bid.breaks.len(), random);
        }
        bid.clone()
    })
}

fn draw_bid(side: Side, market_price: u32, random: &mut Random) -> Bid {
    let steps = random.range(5, 10) as usize;
    let mut end = 0;
    let breaks = std::iter::repeat_with(|| {
        end += GJ * random.range(50, 2_000);
        end
    });
    Bid {
        breaks: breaks.take(steps).collect(),
        prices: draw_prices(side, market_price, steps, random),
    }
}

fn draw_prices(side: Side, market_price: u32, steps: usize, random: &mut Random) -> Vec<u32> {
    let drawn = (0..steps).map(|_| market_price / 200 * random.range(100, 300));
    let mut prices: Vec<u32> = drawn.collect();
    prices.sort_unstable();
    let first = match side {
        Side::Injection => 0,
        Side::Withdrawal => {
            prices.reverse();
            HIGHEST_PRICE
        }
    };
    if random.one_in(2) {
        prices[0] = first;
    }
    prices
}

fn put_bid(line: &mut [u8], s: usize, bid: &Bid) {
    put_word(line, count_place(s), bid.breaks.len() as u32);
    for slot in 0..bid.breaks.len() {
        put_word(line, break_place(s, slot), bid.breaks[slot]);
        put_word(line, price_place(s, slot), bid.prices[slot]);
    }
}

/// What the bid offers at the market price or better, less so many hundredths of its last such step.
fn offered(side: Side, bid: &Bid, market_price: u32, left: u32) -> u32 {
    let is_offered = |price: u32| match side {
        Side::Injection => price <= market_price,
        Side::Withdrawal => price >= market_price,
    };
    let steps = bid.prices.iter().take_while(|&&price| is_offered(price));
    match steps.count() {
        0 => 0,
        1 => bid.breaks[0] - bid.breaks[0] / 100 * left,
        n => bid.breaks[n - 1] - (bid.breaks[n - 1] - bid.breaks[n - 2]) / 100 * left,
    }
}

/// The operating quantity of each schedule: the pricing one, or from some schedule on more or less.
fn draw_operating(pricing: &BySchedule<u32>, most: u32, random: &mut Random) -> BySchedule<u32> {
    let mut operating = *pricing;
    if random.one_in(8) {
        let (from, less) = (random.place(SCHEDULES), random.one_in(3));
        let quantity = GJ * random.range(50, 2_000);
        for total in &mut operating[from..] {
            *total = match less {
                true => total.saturating_sub(quantity),
                false => (*total + quantity).min(most),
            };
        }
    }
    operating
}

/// An interval's part of a quantity.
fn part(quantity: u32, interval: usize) -> u32 {
    let fifth = quantity / SCHEDULES as u32;
    match interval {
        0 => quantity - (SCHEDULES as u32 - 1) * fifth,
        _ => fifth,
    }
}

/// Pricing and operating rows. An interval before a schedule keeps what the schedule of then gave it.
fn put_rows(line: &mut [u8], pricing: &BySchedule<u32>, operating: &BySchedule<u32>) {
    for s in 0..SCHEDULES {
        (s..SCHEDULES).for_each(|i| put_word(line, pricing_place(s, i), part(pricing[s], i)));
        let of_interval = |i: usize| part(operating[s.min(i)], i);
        (0..SCHEDULES).for_each(|i| put_word(line, operating_place(s, i), of_interval(i)));
    }
}

fn put_actuals(line: &mut [u8], operating: &BySchedule<u32>, random: &mut Random) {
    let exact = random.one_in(2);
    for (i, &quantity) in operating.iter().enumerate() {
        let per_cent = match exact {
            true => 100,
            false => random.range(97, 103),
        };
        let delivered = u64::from(part(quantity, i)) * u64::from(per_cent) / 100;
        put_word(line, actual_place(i), delivered as u32);
    }
}

#[cfg(test)]
mod tests {
    use super::*;
    use reference::cut::Steps;
    use reference::refusal::day_number;

    /// How many of a hundred.
    fn share(lines: &[Line], is: impl Fn(Line) -> bool) -> usize {
        100 * lines.iter().filter(|&&line| is(line)).count() / lines.len()
    }

    fn breaks_are_equal(line: Line) -> bool {
        let breaks = |s: usize| (0..line.count(s)).map(move |slot| line.break_point(s, slot));
        (1..SCHEDULES).all(|s| breaks(s).eq(breaks(0)))
    }

    fn is_scheduled_as_priced(line: Line) -> bool {
        let pricing = |s: usize, i: usize| line.word(pricing_place(s.min(i), i));
        let is = |s: usize| (0..SCHEDULES).all(|i| line.operating(s, i) == pricing(s, i));
        (0..SCHEDULES).all(is)
    }

    fn delivers_exactly(line: Line) -> bool {
        let operating = |i| line.operating(SCHEDULES - 1, i);
        (0..SCHEDULES).all(|i| line.word(actual_place(i)) == operating(i))
    }

    /// The days are accepted and have the shares that the module's head names.
    #[test]
    fn shares_are_as_said() {
        let days: Vec<Vec<u8>> = (0..100).map(|seed| day(seed, MOST_LINES, true)).collect();
        assert!(days.iter().all(|day| day_number(day) == 0));
        let days: Vec<Day> = days.iter().map(|day| Day::new(day)).collect();
        let lines: Vec<Line> = days.iter().flat_map(Day::lines).collect();
        let has_steps = |line: Line| (0..SCHEDULES).all(|s| (5..=10).contains(&line.count(s)));
        assert_eq!(share(&lines, has_steps), 100);
        let steps: usize = lines.iter().map(|&line| Steps::new(line).count()).sum();
        assert!((94..=98).contains(&(10 * steps / lines.len())));
        let is_near = |share: usize, said: usize| share.abs_diff(said) <= 3;
        assert!(is_near(share(&lines, breaks_are_equal), 80));
        assert!(is_near(share(&lines, is_scheduled_as_priced), 87));
        // A line without quantities delivers them.
        assert!(is_near(share(&lines, delivers_exactly), 52));
        let is_injection = |line: Line| line.side() == Side::Injection;
        assert!(is_near(share(&lines, is_injection), 60));
        assert!(is_near(share(&lines, |line| line.accredited(0)), 90));
        let has_hedge = |line: Line| line.word(HEDGE) > 0;
        assert!(is_near(share(&lines, has_hedge), 10));
    }

    /// Lines are paid and pay back: a hundred days have totals of both signs.
    #[test]
    fn some_payments_are_made() {
        let mut book = [0; book_length(MOST_LINES)];
        let mut totals = Vec::new();
        for seed in 0..100 {
            let number = reference::settle::settle(&day(seed, MOST_LINES, true), &mut book);
            assert_eq!(number, 0);
            totals.extend(book_totals(&book));
        }
        assert!(totals.iter().any(|&total| total > 0) && totals.iter().any(|&total| total < 0));
    }
}
