//! Days and lines with accreditation by schedule (02 F-7), without fault and on both sides of refusal 6's limits.

use super::draw::{draw_day, Scale};
use super::random::Random;
use super::{line, small_day, valid_day};
use crate::k10::k10;
use crate::layout::*;

/// The valid day of the same seed with another accreditation of each line, most often a set of schedules.
pub fn set_day(seed: u64) -> Vec<u8> {
    with_sets(valid_day(seed), seed)
}

/// The small day likewise.
pub fn small_set_day(seed: u64) -> Vec<u8> {
    with_sets(small_day(seed), seed)
}

/// The line likewise.
pub fn set_line(seed: u64) -> Vec<u8> {
    let mut line = line(seed);
    put_accreditation(&mut line, draw_accreditation(&mut Random::new(!seed)));
    line
}

fn with_sets(mut day: Vec<u8>, seed: u64) -> Vec<u8> {
    put_sets(&mut day, &mut Random::new(!seed));
    day
}

pub fn put_sets(day: &mut [u8], random: &mut Random) {
    for k in 0..Day::new(day).line_count() {
        put_accreditation(line_mut(day, k), draw_accreditation(random));
    }
}

pub fn put_accreditation(line: &mut [u8], word: u32) {
    put_word(line, ACCREDITATION, word);
}

/// A set of 0 to 5 schedules; of four lines one has 0 or 1.
pub fn draw_accreditation(random: &mut Random) -> u32 {
    match random.below(8) {
        0 => 0,
        1 => 1,
        _ => EMPTY_SET + draw_set(random),
    }
}

fn draw_set(random: &mut Random) -> u32 {
    let mut schedules = [0, 1, 2, 3, 4];
    random.shuffle(&mut schedules);
    let size = random.place(SCHEDULES + 1);
    schedules[..size].iter().map(|s| 1 << s).sum()
}

/// Accreditation words and the number that each leads to.
const WORDS: [(u32, u32); 11] = [
    (0, 0),
    (1, 0),
    (2, 6),
    (3, 6),
    (16, 6),
    (31, 6),
    (EMPTY_SET, 0),
    (FULL_SET, 0),
    (64, 6),
    (0x8000_0021, 6), // 33 but for the highest bit
    (u32::MAX, 6),
];

/// Accreditation beside another fault: the first in the table's order counts, line by line.
type TwoFaults = (u32, fn(&mut Vec<u8>));

/// Of a day of at least 2 lines.
const TWO_FAULTS_OF_DAY: [TwoFaults; 6] = [
    (5, |day| {
        put_word(market_mut(day), CLAWBACK, 2);
        put_accreditation(line_mut(day, 0), 31);
    }),
    (6, |day| {
        put_accreditation(line_mut(day, 0), 64);
        put_word(line_mut(day, 0), count_place(0), 0);
    }),
    (6, |day| {
        put_accreditation(line_mut(day, 0), 2);
        put_word(line_mut(day, 1), count_place(0), 0);
    }),
    (13, |day| {
        put_word(line_mut(day, 0), actual_place(4), u32::MAX);
        put_accreditation(line_mut(day, 1), 31);
    }),
    (14, |day| {
        first_line_twice(day);
        put_accreditation(line_mut(day, 0), EMPTY_SET + 1);
        put_accreditation(line_mut(day, 1), FULL_SET - 1);
    }),
    (6, |day| {
        first_line_twice(day);
        put_accreditation(line_mut(day, 1), 64);
    }),
];

/// Of a line, as the cutter meets them.
const TWO_FAULTS_OF_LINE: [TwoFaults; 2] = [
    (6, |line| {
        put_accreditation(line, 31);
        put_word(line, count_place(0), 0);
    }),
    (18, |line| {
        put_accreditation(line, 64);
        line.truncate(LINE_BYTES - 1);
    }),
];

pub fn first_line_twice(day: &mut [u8]) {
    day.copy_within(day_length(0)..day_length(1), day_length(1));
}

pub fn set_fault_day(seed: u64) -> Vec<u8> {
    set_fault_day_and_number(seed).0
}

/// A day with an accreditation at a limit of refusal 6, and its number, 0 on the passing side.
/// Seeds in a row go through all the words, then through days with two faults.
pub fn set_fault_day_and_number(seed: u64) -> (Vec<u8>, u32) {
    let mut random = Random::new(seed);
    let lines = random.range(2, 4);
    let scale = Scale::draw(&mut random);
    let mut day = draw_day(&mut random, lines, scale);
    put_sets(&mut day, &mut random);
    let start = day_length(random.place(lines as usize));
    let number = damage(&mut day, start, seed, &TWO_FAULTS_OF_DAY);
    (day, number)
}

pub fn set_fault_line(seed: u64) -> Vec<u8> {
    set_fault_line_and_number(seed).0
}

/// A line likewise, and the cutter's number for it.
pub fn set_fault_line_and_number(seed: u64) -> (Vec<u8>, u32) {
    let mut line = line(seed);
    let number = damage(&mut line, 0, seed, &TWO_FAULTS_OF_LINE);
    (line, number)
}

/// Puts one of the words into the line at `start`, or two faults, and answers the number.
fn damage(bytes: &mut Vec<u8>, start: usize, seed: u64, faults: &[TwoFaults]) -> u32 {
    let kind = (seed % (WORDS.len() + faults.len()) as u64) as usize;
    if let Some(&(word, number)) = WORDS.get(kind) {
        put_accreditation(&mut bytes[start..], word);
        return number;
    }
    let (number, apply) = faults[kind - WORDS.len()];
    apply(bytes);
    number
}

/// The day of K10 with each accreditation from 0 to 66, with 33 and one bit above 32, and with the greatest word.
pub fn accreditation_days() -> Vec<Vec<u8>> {
    let above = (6..32).map(|bit| (1 << bit) + 33);
    let words = (0..=66).chain(above).chain([u32::MAX]);
    words.map(k10_with).collect()
}

fn k10_with(accreditation: u32) -> Vec<u8> {
    let mut day = k10();
    put_accreditation(line_mut(&mut day, 0), accreditation);
    day
}
