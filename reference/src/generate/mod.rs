//! Days and lines drawn from a seed, without fault or damaged. One seed always gives the same bytes.

mod ad_hoc;
mod ad_hoc_faults;
mod ad_hoc_k10;
mod day_faults;
mod draw;
mod edges;
mod excess;
mod excess_faults;
mod faults;
mod line_faults;
mod pulled;
mod pulled_faults;
pub mod random;
mod sets;
mod uplift;
mod uplift_faults;
mod uplift_rows;

use crate::layout::*;
pub use ad_hoc::{
    ad_hoc_damaged_day, ad_hoc_damaged_day_and_number, ad_hoc_day, ad_hoc_day_and_old, ad_hoc_line,
    append_records, record, row_of, small_ad_hoc_day, with_records, with_rows_in_force,
    RecordWords, RowWords,
};
pub use ad_hoc_faults::{ad_hoc_fault_day, ad_hoc_fault_day_and_number, ad_hoc_fault_kinds};
pub use ad_hoc_k10::{ad_hoc_k10_days, ad_hoc_length_days, ad_hoc_long_days};
use day_faults::{line_with_own_key, DAY_FAULTS, HEADER_FAULTS};
use draw::{draw_day, draw_line, Scale};
pub use edges::edge_days;
pub use excess::{
    excess_day, excess_line, over_delivery_day, small_excess_day, small_over_delivery_day,
};
pub use excess_faults::{
    excess_fault_day, excess_fault_day_and_number, excess_fault_kinds, excess_fault_line,
    excess_fault_line_and_number, excess_k10_days, excess_k10_lines,
};
use line_faults::{damage_line, LINE_FAULTS};
pub use pulled::{pulled_day, pulled_line, small_pulled_day};
pub use pulled_faults::{
    k10_pulled, pulled_fault_day, pulled_fault_day_and_number, pulled_fault_kinds,
    pulled_fault_line, pulled_fault_line_and_number, pulled_k10_days,
};
use random::Random;
pub use sets::{
    accreditation_days, set_day, set_fault_day, set_fault_day_and_number, set_fault_line,
    set_fault_line_and_number, set_line, small_set_day,
};
pub use uplift::{day_with_totals, uplift_day, uplift_limit_days, uplift_totals};
pub use uplift_faults::{uplift_fault_day, uplift_fault_day_and_number, uplift_fault_kinds};
pub use uplift_rows::{uplift_row_days, UPLIFT_ROWS};

/// A day without fault: 1 to 64 lines.
pub fn valid_day(seed: u64) -> Vec<u8> {
    let mut random = Random::new(seed);
    let lines = match random.below(8) {
        0 => 1,
        1 => MOST_LINES as u32,
        2 => random.range(1, MOST_LINES as u32),
        _ => random.range(2, 8),
    };
    let scale = Scale::draw(&mut random);
    draw_day(&mut random, lines, scale)
}

/// A day without fault and with few steps, so that the text of all of them is short.
pub fn small_day(seed: u64) -> Vec<u8> {
    let mut random = Random::new(seed);
    let (lines, steps) = match random.below(16) {
        0 => (random.range(20, 24), 4),
        1 => (1, MOST_STEPS),
        _ => (random.range(1, 4), 8),
    };
    let scale = Scale {
        steps,
        ..Scale::draw(&mut random)
    };
    draw_day(&mut random, lines, scale)
}

/// A line without fault, of either side and 1 to 56 steps.
pub fn line(seed: u64) -> Vec<u8> {
    let steps = Random::new(seed).range(1, MOST_STEPS as u32);
    line_with_steps(seed, steps as usize)
}

/// A line without fault and with so many steps, 1 to 56. With 56 it is an injection.
pub fn line_with_steps(seed: u64, steps: usize) -> Vec<u8> {
    let mut random = Random::new(seed);
    let scale = Scale::draw(&mut random);
    let side = match steps {
        MOST_STEPS => Side::Injection,
        _ => random.side(),
    };
    draw_line(&mut random, scale, side, steps)
}

pub fn damaged_day(seed: u64) -> Vec<u8> {
    damaged_day_and_number(seed).0
}

/// A damaged day and, where it is known beforehand, its number. The number is 0 for a value
/// on the passing side of a limit. Seeds in a row go through all the faults.
pub fn damaged_day_and_number(seed: u64) -> (Vec<u8>, Option<u32>) {
    let mut random = Random::new(seed);
    let lines = match random.below(16) {
        0 => MOST_LINES as u32,
        _ => random.range(2, 6),
    };
    let scale = Scale::draw(&mut random);
    let mut day = draw_day(&mut random, lines, scale);
    let of_whole = HEADER_FAULTS.len() + DAY_FAULTS.len();
    let kinds = of_whole + LINE_FAULTS.len();
    let kind = (seed % kinds as u64) as usize;
    let number = match random.below(8) {
        0 => {
            damage_day(&mut day, &mut random, kind);
            replace_some_word(&mut day, &mut random);
            None
        }
        1 => {
            let line_fault = of_whole + random.place(LINE_FAULTS.len());
            damage_day(&mut day, &mut random, line_fault);
            damage_day(&mut day, &mut random, kind % of_whole);
            None
        }
        _ => Some(damage_day(&mut day, &mut random, kind)),
    };
    (day, number)
}

/// Puts a fault into a day and answers its number. Kinds count through the header's faults, the day's, then the lines'.
fn damage_day(day: &mut Vec<u8>, random: &mut Random, kind: usize) -> u32 {
    let of_whole = [HEADER_FAULTS, DAY_FAULTS].concat();
    if let Some((number, apply)) = of_whole.get(kind) {
        apply(day, random);
        return *number;
    }
    let k = line_with_own_key(day, random);
    damage_line(line_mut(day, k), random, kind - of_whole.len())
}

fn replace_some_word(bytes: &mut [u8], random: &mut Random) {
    let words = bytes.len() / 4;
    if words > 0 {
        let any = random.range(0, u32::MAX);
        let value = random.pick(&[
            0,
            1,
            2,
            3,
            11,
            12,
            PRICE_LIMIT + 1,
            QUANTITY_LIMIT + 1,
            u32::MAX,
            any,
        ]);
        put_word(bytes, random.place(words), value);
    }
}

pub fn damaged_line(seed: u64) -> Vec<u8> {
    damaged_line_and_number(seed).0
}

/// A damaged line and the cutter's number for it, as for a damaged day.
pub fn damaged_line_and_number(seed: u64) -> (Vec<u8>, u32) {
    const LENGTHS: [usize; 5] = [0, 1, LINE_BYTES - 4, LINE_BYTES - 1, LINE_BYTES + 1];
    let mut line = line(seed);
    let kind = (seed % (LENGTHS.len() + LINE_FAULTS.len()) as u64) as usize;
    match LENGTHS.get(kind) {
        Some(&length) => {
            line.resize(length, 0);
            (line, 18)
        }
        None => {
            let number = damage_line(&mut line, &mut Random::new(!seed), kind - LENGTHS.len());
            (line, number)
        }
    }
}
