//! An accepted day's figures as the proved archive answers them: its book, its uplift and the view of every step.

use crate::ad_hoc::{self, InForce, Record};
use crate::input::{read_day, Input};
use crate::layout::*;
use crate::outcome::{Problem, Result};
use crate::refusals::explain_day;
use mewikofu::{Accreditation, Book, BookLine, Excess, Refusal, View};
use rayon::prelude::*;
use std::ffi::OsStr;

/// The market table.
pub struct Market {
    pub prices: BySchedule<u32>,
    pub marks: BySchedule<bool>,
    pub cap: u32,
    pub clawback: bool,
}

pub struct Line {
    /// As the book has it.
    pub entry: BookLine,
    pub accreditation: Accreditation,
    pub hedge: u32,
    /// The operating rows of ad hoc records that are in force.
    pub ad_hoc: InForce,
    /// The line's bytes with the operating rows in force. The cutter takes them also where it refuses the line's own rows.
    pub bytes: Vec<u8>,
    /// What the steps' O, E and A are allocated from.
    pub totals: Totals,
    pub steps: Vec<View>,
}

/// A line's pricing and operating totals by schedule, and its effective actual.
#[derive(Clone, Copy, Debug, PartialEq, Eq)]
pub struct Totals {
    pub pricing: BySchedule<u64>,
    pub operating: BySchedule<u64>,
    pub actual: u64,
}

impl Totals {
    /// Of a line with the operating rows in force. Words have no limit of their own, so they are added up in 64 bits.
    pub fn new(line: &[u8]) -> Totals {
        let value = |place| u64::from(word(line, place));
        let each = |total: &dyn Fn(usize, usize) -> u64| {
            std::array::from_fn(|s| (0..SCHEDULES).map(|i| total(s, i)).sum())
        };
        let last = SCHEDULES - 1;
        Totals {
            pricing: each(&|s, i| value(pricing_place(s.min(i), i))),
            operating: each(&|s, i| value(operating_place(s, i))),
            actual: (0..SCHEDULES)
                .map(|i| value(operating_place(last, i)).min(value(actual_place(i))))
                .sum(),
        }
    }
}

impl Line {
    /// In schedule s, from 0.
    pub fn is_accredited(&self, s: usize) -> bool {
        self.accreditation.holds_in(s)
    }

    /// Whether the bid of schedule s, from 0, was pulled. A bid with steps has a price for the line's first step.
    pub fn is_pulled(&self, s: usize) -> bool {
        self.steps.first().is_some_and(|step| step.flag[s] == 1)
    }

    /// The schedules, from 1, whose bids were pulled.
    pub fn pulled(&self) -> Vec<usize> {
        (1..=SCHEDULES).filter(|s| self.is_pulled(s - 1)).collect()
    }

    /// M. A hedge is at most M, so the last step ends there.
    pub fn greatest_break(&self) -> u32 {
        self.steps.last().map_or(0, |step| step.end)
    }

    /// What no step takes of the totals. The views of all steps have it.
    pub fn excess(&self) -> Excess {
        let first = self.steps.first();
        first.map_or(Excess::default(), |step| step.excess)
    }

    pub fn is_hedged(&self, step: &View) -> bool {
        step.end <= self.hedge
    }

    /// In schedule s, from 0.
    pub fn is_paid(&self, step: &View, s: usize) -> bool {
        self.is_accredited(s) && !self.is_hedged(step)
    }
}

pub struct Figures {
    pub market: Market,
    pub book: Book,
    /// In units of $0.0000001.
    pub uplift: BySchedule<i64>,
    pub lines: Vec<Line>,
}

/// The figures of a file, or its refusal in words.
pub fn read(file: &OsStr) -> Result<(Input, Figures)> {
    let input = read_day(file)?;
    match Figures::new(&input.bytes) {
        Ok(figures) => Ok((input, figures)),
        Err(refusal) => Err(refused(&input, refusal)),
    }
}

/// A refused day: its number and where its first fault is.
pub fn refused(input: &Input, refusal: Refusal) -> Problem {
    match explain_day(input, refusal) {
        Ok(explained) => Problem::refused(format!("{}: {}", input.name, explained.first())),
        Err(problem) => problem,
    }
}

impl Figures {
    pub fn new(day: &[u8]) -> std::result::Result<Figures, Refusal> {
        let book = mewikofu::settle(day)?;
        let layout = Layout::named(day);
        let table = layout.market(day);
        let market = Market {
            prices: std::array::from_fn(|s| word(table, MARKET_PRICE + s)),
            marks: std::array::from_fn(|s| word(table, CAP_MARK + s) == 1),
            cap: word(table, PRICE_CAP),
            clawback: word(table, CLAWBACK) == 1,
        };
        let records = ad_hoc::records(day, &layout);
        let entries: Vec<BookLine> = book.lines().collect();
        let lines: std::result::Result<_, Refusal> = entries
            .into_par_iter()
            .enumerate()
            .map(|(k, entry)| line(day, &records, k, entry))
            .collect();
        Ok(Figures {
            market,
            uplift: mewikofu::uplift(day)?,
            book,
            lines: lines?,
        })
    }
}

fn line(
    day: &[u8],
    records: &[Record],
    k: usize,
    entry: BookLine,
) -> std::result::Result<Line, Refusal> {
    let part = mewikofu::line_part(day, k)?;
    let ad_hoc = ad_hoc::in_force(records, part, k);
    let bytes = ad_hoc::with_rows(part, &ad_hoc);
    let accreditation = Accreditation::of_word(word(part, ACCREDITATION));
    Ok(Line {
        // An accepted line has a proper word.
        accreditation: accreditation.ok_or(Refusal::SideOrAccreditation)?,
        hedge: word(part, HEDGE),
        totals: Totals::new(&bytes),
        ad_hoc,
        bytes,
        entry,
        steps: mewikofu::line_views(day, k)?,
    })
}
