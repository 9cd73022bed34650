//! Damage to a day, each with the number it leads to; 0 is the passing side of a limit.

use super::damage_day;
use super::draw::{append_line, draw_day, draw_line, Scale};
use super::line_faults::LINE_FAULTS;
use super::random::Random;
use crate::layout::*;

pub type DayFault = (u32, fn(&mut Vec<u8>, &mut Random));

/// Of the header of the old layout.
pub const HEADER_FAULTS: &[DayFault] = &[
    (1, |day, _| day.clear()),
    (1, |day, _| day.truncate(1)),
    (1, |day, _| day.truncate(LEAST_DAY - 1)),
    (3, |day, _| day.truncate(LEAST_DAY)),
    (2, |day, _| put_word(day, 0, 0)),
    (2, |day, _| put_word(day, 0, u32::MAX)),
    (2, |day, _| {
        day.truncate(LEAST_DAY);
        put_word(day, 0, 0);
        put_word(day, 3, LEAST_DAY as u32);
    }),
    (0, |day, random| extend(day, random, MOST_LINES)),
    (2, |day, random| extend(day, random, MOST_LINES + 1)),
    (3, |day, _| change(day, 0, |n| n - 1)),
    (3, |day, random| {
        day.truncate(day_length(2));
        put_header(day, Layout::Old, 2, 0);
        extend(day, random, 2);
        put_word(day, 0, 3);
    }),
    (3, |day, _| put_word(day, 1, 0)),
    (3, |day, _| change(day, 1, |offset| offset + 4)),
    (3, |day, _| change(day, 2, |offset| offset - 4)),
    (3, |day, _| put_word(day, 2, u32::MAX)),
    (3, |day, _| change(day, 3, |length| length - 1)),
    (3, |day, _| change(day, 3, |length| length + 1)),
    (3, |day, _| day.truncate(day.len() - 1)),
    (3, |day, _| day.push(0)),
    (3, |day, _| day.resize(65_537, 0)),
];

/// Of what stands behind it.
pub const DAY_FAULTS: &[DayFault] = &[
    // Market.
    (0, |day, random| {
        put_word(
            market_mut(day),
            MARKET_PRICE + random.place(SCHEDULES),
            PRICE_LIMIT,
        )
    }),
    (4, |day, random| {
        put_word(
            market_mut(day),
            MARKET_PRICE + random.place(SCHEDULES),
            PRICE_LIMIT + 1,
        )
    }),
    (4, |day, random| {
        put_word(
            market_mut(day),
            MARKET_PRICE + random.place(SCHEDULES),
            u32::MAX,
        )
    }),
    (0, |day, _| {
        put_word(market_mut(day), PRICE_CAP, PRICE_LIMIT)
    }),
    (4, |day, _| {
        put_word(market_mut(day), PRICE_CAP, PRICE_LIMIT + 1)
    }),
    (4, |day, _| put_word(market_mut(day), PRICE_CAP, u32::MAX)),
    (0, |day, random| {
        put_word(market_mut(day), CAP_MARK + random.place(SCHEDULES), 1)
    }),
    (5, |day, random| {
        put_word(market_mut(day), CAP_MARK + random.place(SCHEDULES), 2)
    }),
    (5, |day, random| {
        put_word(
            market_mut(day),
            CAP_MARK + random.place(SCHEDULES),
            u32::MAX,
        )
    }),
    (0, |day, _| put_word(market_mut(day), CLAWBACK, 1)),
    (5, |day, _| put_word(market_mut(day), CLAWBACK, 2)),
    (5, |day, _| put_word(market_mut(day), CLAWBACK, u32::MAX)),
    // Keys.
    (14, |day, random| same_line(day, random)),
    (14, |day, random| {
        same_point(day, random, |side| side);
    }),
    (0, |day, random| {
        same_point(day, random, opposite);
    }),
    (0, |day, random| key_but_one_word(day, random, PARTICIPANT)),
    (0, |day, random| key_but_one_word(day, random, POINT)),
    // Two faults: the first in the table's order counts, line by line.
    (3, |day, _| {
        day.push(0);
        put_word(market_mut(day), MARKET_PRICE, u32::MAX);
    }),
    (4, |day, _| {
        put_word(market_mut(day), CAP_MARK, 2);
        put_word(market_mut(day), PRICE_CAP, u32::MAX);
    }),
    (5, |day, _| {
        put_word(market_mut(day), CLAWBACK, 2);
        put_word(line_mut(day, 0), SIDE, 2);
    }),
    (13, |day, _| {
        put_word(line_mut(day, 0), actual_place(4), u32::MAX);
        put_word(line_mut(day, 1), SIDE, 2);
    }),
    (13, |day, random| {
        same_line(day, random);
        let last = line_count(day) - 1;
        put_word(line_mut(day, last), actual_place(4), u32::MAX);
    }),
];

fn line_count(day: &[u8]) -> usize {
    Day::new(day).line_count()
}

fn change(day: &mut [u8], place: usize, to: fn(u32) -> u32) {
    let value = to(word(day, place));
    put_word(day, place, value);
}

/// Adds lines up to so many, with a header that says so.
fn extend(day: &mut Vec<u8>, random: &mut Random, lines: usize) {
    let scale = Scale::draw(random);
    while line_count(day) < lines {
        append_line(day, random, scale);
    }
    put_header(day, Layout::Old, lines, 0);
}

/// Gives some line a participant that no other has.
pub fn line_with_own_key(day: &mut [u8], random: &mut Random) -> usize {
    let used: Vec<u32> = Day::new(day)
        .lines()
        .map(|line| line.word(PARTICIPANT))
        .collect();
    let free = (1_000_000..).find(|participant| !used.contains(participant));
    let k = random.place(used.len());
    put_word(line_mut(day, k), PARTICIPANT, free.unwrap_or(0));
    k
}

/// A day of 2 to 4 lines with a fault behind its header, and its number. Seeds in a row go through all the faults.
pub fn damaged_behind_header(seed: u64) -> (Vec<u8>, u32) {
    let random = &mut Random::new(seed);
    let (mut day, _) = day_to_damage(seed, |_, _| {});
    let kinds = DAY_FAULTS.len() + LINE_FAULTS.len();
    let kind = (seed % kinds as u64) as usize;
    let number = damage_day(&mut day, random, HEADER_FAULTS.len() + kind);
    (day, number)
}

/// A day of 2 to 4 lines, and where the line begins that is to be damaged. It has a key of its own; `change` was made
/// to the others.
pub fn day_to_damage(seed: u64, change: fn(&mut [u8], &mut Random)) -> (Vec<u8>, usize) {
    let random = &mut Random::new(seed);
    let lines = random.range(2, 4);
    let scale = Scale::draw(random);
    let mut day = draw_day(random, lines, scale);
    let damaged = line_with_own_key(&mut day, random);
    for k in (0..lines as usize).filter(|&k| k != damaged) {
        change(line_mut(&mut day, k), random);
    }
    (day, day_length(damaged))
}

/// A line with its own key and another one beside it.
fn two_lines(day: &mut [u8], random: &mut Random) -> (usize, usize) {
    let k = line_with_own_key(day, random);
    let n = line_count(day);
    (k, (k + 1 + random.place(n - 1)) % n)
}

/// Copies words of line `from` over the same words of line `to`.
fn copy_words(day: &mut [u8], from: usize, to: usize, places: std::ops::Range<usize>) {
    let layout = Layout::named(day);
    let start = layout.line(from);
    let bytes = start + 4 * places.start..start + 4 * places.end;
    day.copy_within(bytes, layout.line(to) + 4 * places.start);
}

fn same_line(day: &mut [u8], random: &mut Random) {
    let (k, other) = two_lines(day, random);
    copy_words(day, k, other, 0..LINE_BYTES / 4);
}

/// Two lines with the same participant and point. The second is drawn afresh, of the side `side` makes of the first's.
fn same_point(day: &mut [u8], random: &mut Random, side: fn(Side) -> Side) -> (usize, usize) {
    let (k, other) = two_lines(day, random);
    let side = side(Day::new(day).line(k).side());
    let scale = Scale::draw(random);
    let fresh = draw_line(random, scale, side, 20);
    line_mut(day, other).copy_from_slice(&fresh);
    copy_words(day, k, other, PARTICIPANT..SIDE);
    (k, other)
}

fn opposite(side: Side) -> Side {
    match side {
        Side::Injection => Side::Withdrawal,
        Side::Withdrawal => Side::Injection,
    }
}

/// Two lines whose keys differ in the word at `place` only.
fn key_but_one_word(day: &mut [u8], random: &mut Random, place: usize) {
    let (k, other) = same_point(day, random, |side| side);
    let value = word(line_mut(day, k), place);
    put_word(line_mut(day, other), place, value ^ 0x8000_0000);
}
