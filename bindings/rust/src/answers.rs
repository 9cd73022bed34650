//! The answers of the step view and the cutter (document 01, "Totals and book", "Steps and prices").

use crate::refusal::{accepted, Refusal};
use crate::{raw, MATCHES, MOST_STEPS, SCHEDULES};

/// What no step takes of a line's operating total, pricing total and effective actual, since it is above the greatest break of the line's bids
/// (document 02, F-2). In MJ, at most `MOST_EXCESS`. It is never constrained on and never paid. Arrays are by schedule.
#[repr(C)]
#[derive(Clone, Copy, Debug, Default, PartialEq, Eq)]
pub struct Excess {
    pub operating: [u32; SCHEDULES],
    pub pricing: [u32; SCHEDULES],
    pub actual: u32,
}

/// The figures of one step; arrays are by schedule.
#[derive(Clone, Debug, Default, PartialEq, Eq)]
pub struct View {
    /// The upper end and the width, in MJ.
    pub end: u32,
    pub width: u32,
    /// A, the effective actual.
    pub actual: u32,
    /// Capped, in $0.0001 per GJ.
    pub price: [u32; SCHEDULES],
    /// 1 where the bid has no price for the step, or was pulled.
    pub flag: [u32; SCHEDULES],
    /// O.
    pub operating: [u32; SCHEDULES],
    /// E.
    pub pricing: [u32; SCHEDULES],
    pub agino: [u32; SCHEDULES],
    pub msiq: [u32; SCHEDULES],
    /// C.
    pub constrained: [u32; SCHEDULES],
    /// `matched(r, s)` at `match_place(r, s)`.
    pub matches: [u32; MATCHES],
    /// Payments, in $0.0000001.
    pub initial: [i64; SCHEDULES],
    pub revised: [i64; SCHEDULES],
    pub modified: [i64; SCHEDULES],
    pub finals: [i64; SCHEDULES],
    /// Of the line, so the same for each of its steps.
    pub excess: Excess,
}

impl TryFrom<raw::View> for View {
    type Error = Refusal;

    /// The answer without its number, or the refusal of this number.
    ///
    /// # Panics
    ///
    /// Where the number is none of the table, which no archive of this version answers.
    fn try_from(answer: raw::View) -> Result<View, Refusal> {
        let raw::View {
            initial,
            revised,
            modified,
            finals,
            number,
            end,
            width,
            actual,
            price,
            flag,
            operating,
            pricing,
            agino,
            msiq,
            constrained,
            matches,
            excess,
        } = answer;
        accepted(number)?;
        Ok(View {
            end,
            width,
            actual,
            price,
            flag,
            operating,
            pricing,
            agino,
            msiq,
            constrained,
            matches,
            initial,
            revised,
            modified,
            finals,
            excess,
        })
    }
}

impl View {
    /// How much of the fall in schedule s is matched with the rise in r, schedules counted from 0, r below s: document 01's m(r + 1, s + 1).
    pub fn matched(&self, r: usize, s: usize) -> u32 {
        assert!(
            r < s && s < SCHEDULES,
            "r and s are schedules counted from 0, r below s"
        );
        self.matches[match_place(r, s)]
    }
}

/// The place of `View::matched(r, s)` among the matches, with r below s, schedules counted from 0.
pub const fn match_place(r: usize, s: usize) -> usize {
    s * (s - 1) / 2 + r
}

/// The steps of one line. Places past the count are 0.
#[derive(Clone, Debug, PartialEq, Eq)]
pub struct Cut {
    pub count: u32,
    /// Upper ends in MJ, rising.
    pub ends: [u32; MOST_STEPS],
    /// Uncapped prices by schedule and step.
    pub prices: [[u32; MOST_STEPS]; SCHEDULES],
    /// By schedule: bit k is 1 where the bid has no price for step k, or was pulled.
    pub flags: [u64; SCHEDULES],
    /// By schedule: how many flags are 1.
    pub missing: [u32; SCHEDULES],
}

impl TryFrom<raw::Cut> for Cut {
    type Error = Refusal;

    /// The answer without its number and the reserved word, or the refusal of this number. It panics where a view's does.
    fn try_from(answer: raw::Cut) -> Result<Cut, Refusal> {
        let raw::Cut {
            flags,
            number,
            count,
            missing,
            ends,
            prices,
            reserved: _,
        } = answer;
        accepted(number)?;
        Ok(Cut {
            count,
            ends,
            prices,
            flags,
            missing,
        })
    }
}

impl Default for Cut {
    fn default() -> Cut {
        Cut {
            count: 0,
            ends: [0; MOST_STEPS],
            prices: [[0; MOST_STEPS]; SCHEDULES],
            flags: [0; SCHEDULES],
            missing: [0; SCHEDULES],
        }
    }
}

impl Cut {
    /// The upper ends of the line's steps.
    pub fn ends(&self) -> &[u32] {
        &self.ends[..self.count as usize]
    }

    /// Whether the bid of a schedule has no price for a step, both counted from 0.
    pub fn flag(&self, schedule: usize, step: usize) -> bool {
        step < MOST_STEPS && self.flags[schedule] >> step & 1 == 1
    }

    /// Whether the bid of a schedule, counted from 0, was pulled (document 02, F-6): its count is 0. Every step is then flagged and has the last
    /// price of the nearest earlier bid that wasn't pulled. A bid with steps has a price for the line's first step.
    pub fn is_pulled(&self, schedule: usize) -> bool {
        self.flag(schedule, 0)
    }
}
