//! Days and lines without fault whose pricing and operating totals exceed M (02 F-2).

use super::draw::draw_operating;
use super::line_faults::{most, put_total, PRICING};
use super::pulled::clear_pricing;
use super::random::Random;
use super::*;

/// Draws a day or a line from a seed.
type Draw = fn(u64) -> Vec<u8>;

/// The day of the same seed as `valid`, `sets` or `pulled` with totals above M.
pub fn excess_day(seed: u64) -> Vec<u8> {
    with_excess([valid_day, set_day, pulled_day], seed)
}

/// The small day likewise.
pub fn small_excess_day(seed: u64) -> Vec<u8> {
    with_excess([small_day, small_set_day, small_pulled_day], seed)
}

/// The line likewise.
pub fn excess_line(seed: u64) -> Vec<u8> {
    let (mut line, mut random) = one_of([line, set_line, pulled_line], seed);
    draw_excess(&mut line, &mut random);
    line
}

fn with_excess(days: [Draw; 3], seed: u64) -> Vec<u8> {
    let (mut day, mut random) = one_of(days, seed);
    for k in 0..Day::new(&day).line_count() {
        exceed_some(line_mut(&mut day, k), &mut random);
    }
    day
}

/// What one of them draws, and numbers of another seed.
fn one_of(kinds: [Draw; 3], seed: u64) -> (Vec<u8>, Random) {
    let mut random = Random::new(seed ^ 1 << 32);
    (random.pick(&kinds)(seed), random)
}

/// Three lines of four get totals above M.
pub fn exceed_some(line: &mut [u8], random: &mut Random) {
    if !random.one_in(4) {
        draw_excess(line, random);
    }
}

/// Totals above M of one kind or of both, in some schedules, and actuals. Where no pricing total exceeds M, half of the
/// lines have nothing priced.
fn draw_excess(line: &mut [u8], random: &mut Random) {
    let kinds = [(true, true), (true, false), (false, true), (false, true)];
    let (pricing, operating) = random.pick(&kinds);
    if !pricing && random.one_in(2) {
        clear_pricing(line);
    }
    let most = most(line);
    for s in 0..SCHEDULES {
        if pricing && random.one_in(2) {
            put_total(line, PRICING, s, most + draw_above(random));
        }
        if operating && random.one_in(2) {
            let total = most + draw_above(random);
            draw_row(line, random, s, total);
        }
    }
    draw_actuals(line, random);
}

/// From 1 to 1,000, often an end of this range.
fn draw_above(random: &mut Random) -> u32 {
    let any = random.range(1, EXCESS_LIMIT);
    random.pick(&[1, EXCESS_LIMIT - 1, EXCESS_LIMIT, any])
}

/// The operating quantities of a schedule; of three rows one has its total in one entry.
fn draw_row(line: &mut [u8], random: &mut Random, s: usize, total: u32) {
    if !random.one_in(3) {
        return draw_operating(line, random, s, total);
    }
    let only = random.place(SCHEDULES);
    for i in 0..SCHEDULES {
        put_word(
            line,
            operating_place(s, i),
            if i == only { total } else { 0 },
        );
    }
}

/// As scheduled in schedule 5, or less in one interval by an amount of the excess's size or by any.
fn draw_actuals(line: &mut [u8], random: &mut Random) {
    let short = random.place(SCHEDULES);
    for i in 0..SCHEDULES {
        let scheduled = word(line, operating_place(SCHEDULES - 1, i)).min(QUANTITY_LIMIT);
        let (above, any) = (draw_above(random), random.range(0, scheduled));
        let less = random.pick(&[0, 0, above, above, any]);
        let less = if i == short { less } else { 0 };
        put_word(line, actual_place(i), scheduled.saturating_sub(less));
    }
}

/// The excess day of the same seed with more delivered in some intervals than scheduled.
pub fn over_delivery_day(seed: u64) -> Vec<u8> {
    with_over_delivery(excess_day(seed), seed)
}

/// The small day likewise.
pub fn small_over_delivery_day(seed: u64) -> Vec<u8> {
    with_over_delivery(small_excess_day(seed), seed)
}

fn with_over_delivery(mut day: Vec<u8>, seed: u64) -> Vec<u8> {
    let random = &mut Random::new(seed ^ 1 << 33);
    for k in 0..Day::new(&day).line_count() {
        draw_over_delivery(line_mut(&mut day, k), random);
    }
    day
}

/// In some intervals more than scheduled in schedule 5, by an amount of the excess's size, by any or up to the limit.
fn draw_over_delivery(line: &mut [u8], random: &mut Random) {
    for i in 0..SCHEDULES {
        let scheduled = word(line, operating_place(SCHEDULES - 1, i)).min(QUANTITY_LIMIT);
        let above = (scheduled + draw_above(random)).min(QUANTITY_LIMIT);
        let any = random.range(scheduled, QUANTITY_LIMIT);
        let actual = random.pick(&[above, any, QUANTITY_LIMIT]);
        if random.one_in(2) {
            put_word(line, actual_place(i), actual);
        }
    }
}
