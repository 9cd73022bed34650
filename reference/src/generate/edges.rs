//! Days at the edges of the format: every short length, words of the greatest value, one line too many.

use crate::k10::k10;
use crate::layout::*;

/// The greatest length of which every length up to it is tried.
const MOST_LENGTH: usize = 800;

/// The edge days, in the order of their pack.
pub fn edge_days() -> Vec<Vec<u8>> {
    let mut days = Vec::new();
    for length in 0..=MOST_LENGTH {
        days.push(vec![0; length]);
        days.push(with_length(length));
    }
    for length in [1, 60, LEAST_DAY, day_length(1), day_length(2)] {
        days.push(vec![0xff; length]);
    }
    for place in 0..day_length(1) / 4 {
        days.push(with_greatest_word(place));
    }
    days.push(with_lines(MOST_LINES + 1));
    days
}

/// The day of K10 cut off, or with zeros behind it.
fn with_length(length: usize) -> Vec<u8> {
    let mut day = k10();
    day.resize(length, 0);
    day
}

/// The day of K10 with one word of 0xFFFFFFFF.
fn with_greatest_word(place: usize) -> Vec<u8> {
    let mut day = k10();
    put_word(&mut day, place, u32::MAX);
    day
}

/// The line of K10 so many times, with different participants, and a header that says so.
pub fn with_lines(lines: usize) -> Vec<u8> {
    let mut day = k10();
    let mut line = day.split_off(day_length(0));
    for participant in 0..lines {
        put_word(&mut line, PARTICIPANT, participant as u32);
        day.extend(&line);
    }
    put_header(&mut day, Layout::Old, lines, 0);
    day
}
