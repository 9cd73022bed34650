//! Days and lines with one fault of a table, and its number; 0 is the passing side of a limit.

use super::day_faults::day_to_damage;
use super::line;
use super::line_faults::LineFault;
use super::random::Random;
use crate::layout::*;

/// A fault of a whole day or, as the cutter meets it, of a line's bytes.
pub type Fault = (u32, fn(&mut Vec<u8>));

/// How many faults there are, and what puts one of them into a line and answers its number.
pub type Further = (usize, fn(&mut [u8], &mut Random, usize) -> u32);

/// Faults in their order: those of a line, those of a whole day or line, then further ones of a line.
pub struct Faults {
    pub of_line: &'static [LineFault],
    /// Of a day of at least 2 lines.
    pub of_day: &'static [Fault],
    /// Of a line alone, as the cutter meets it.
    pub of_line_alone: &'static [Fault],
    pub further: Option<Further>,
    /// What is done to the other lines of a day.
    pub change: fn(&mut [u8], &mut Random),
}

impl Faults {
    /// How many kinds of damaged day there are, and of damaged line.
    pub fn kinds(&self) -> [usize; 2] {
        [self.of_day, self.of_line_alone].map(|of_whole| self.kinds_with(of_whole))
    }

    fn kinds_with(&self, of_whole: &[Fault]) -> usize {
        let further = self.further.map_or(0, |(count, _)| count);
        self.of_line.len() + of_whole.len() + further
    }

    /// A day of 2 to 4 lines and its number. Seeds in a row go through all the faults.
    pub fn day(&self, seed: u64) -> (Vec<u8>, u32) {
        let (mut day, start) = day_to_damage(seed, self.change);
        let number = self.damage(&mut day, start, seed, self.of_day);
        (day, number)
    }

    /// A line likewise, and the cutter's number for it.
    pub fn line(&self, seed: u64) -> (Vec<u8>, u32) {
        let mut line = line(seed);
        let number = self.damage(&mut line, 0, seed, self.of_line_alone);
        (line, number)
    }

    /// Puts a fault into the line at `start`, or into the whole, and answers its number.
    fn damage(&self, bytes: &mut Vec<u8>, start: usize, seed: u64, of_whole: &[Fault]) -> u32 {
        let random = &mut Random::new(!seed);
        let kind = (seed % self.kinds_with(of_whole) as u64) as usize;
        let line = &mut bytes[start..][..LINE_BYTES];
        if let Some((number, apply)) = self.of_line.get(kind) {
            apply(line, random);
            return *number;
        }
        let kind = kind - self.of_line.len();
        match self.further {
            Some((_, put)) if kind >= of_whole.len() => put(line, random, kind - of_whole.len()),
            _ => {
                let (number, apply) = of_whole[kind];
                apply(bytes);
                number
            }
        }
    }
}
