//! `explain`: why a payment is what it is. The figures are the proved views'; the arithmetic between them is worked out again here and compared, so that what is
//! explained is what was settled.

mod reason;
mod sentences;
mod totals;
mod uplift;
mod words;

use crate::arguments::Options;
use crate::figures::Figures;
use crate::layout::SCHEDULES;
use crate::outcome::{Problem, Result, Status};
use crate::output::{put_json, Format, Table};
use crate::uplift::Uplift;
use crate::values::counted;
pub use reason::{rate, Pool, Pools, Reason, Rule};
use serde_json::json;
use std::io::Write;

pub fn run(options: &Options, out: &mut dyn Write) -> Result<Status> {
    let (input, day) = crate::figures::read(&options.files[0])?;
    let wanted = Wanted {
        line: options.line,
        step: options.step,
        schedule: options.schedule.map(|s| s - 1),
    };
    if let Some(k) = wanted.line {
        let line = day
            .lines
            .get(k)
            .ok_or_else(|| crate::cut::no_line(&input, k))?;
        let steps = line.steps.len();
        if let Some(j) = wanted.step.filter(|&j| j >= steps) {
            let (name, steps) = (&input.name, counted(steps, "step"));
            return Err(Problem::refused(format!(
                "{name}: refused 17: line {k} has no step {j}: it has {steps}, counted from 0"
            )));
        }
    }
    let explained = Explained::new(&day).map_err(|why| not_settled(&input.name, &why))?;
    match options.format {
        Format::Text => out.write_all(words::text(&input.name, &explained, &wanted).as_bytes())?,
        Format::Csv => {
            let mut table = Table::new(out, &reason::columns(options.unit))?;
            for reason in explained.reasons.iter().filter(|reason| wanted.has(reason)) {
                table.row(&reason.row(&input.name, options.unit))?;
            }
            table.finish()?;
        }
        Format::Json => {
            let reasons: Vec<_> = explained
                .reasons
                .iter()
                .filter(|reason| wanted.has(reason))
                .map(Reason::json)
                .collect();
            let value = json!({
                "file": input.name, "quantity_unit": "MJ", "price_unit": "$0.0001/GJ", "money_unit": "$0.0000001",
                "clawback": day.market.clawback, "payments": reasons,
            });
            put_json(out, &value, true)?;
        }
    }
    Ok(Status::Accepted)
}

fn not_settled(name: &str, why: &str) -> Problem {
    Problem::failed(format!(
        "{name}: the explanation isn't what was settled, so none is given: {why}"
    ))
}

/// What is asked for; schedules from 0.
pub struct Wanted {
    pub line: Option<usize>,
    pub step: Option<usize>,
    pub schedule: Option<usize>,
}

impl Wanted {
    fn has(&self, reason: &Reason) -> bool {
        let is = |wanted: Option<usize>, own| wanted.is_none_or(|wanted| wanted == own);
        is(self.line, reason.line) && is(self.step, reason.step) && is(self.schedule, reason.s)
    }
}

/// The reasons of a whole day, in the order of lines, steps and schedules.
pub struct Explained<'a> {
    pub day: &'a Figures,
    pub reasons: Vec<Reason<'a>>,
    pub uplift: Uplift,
}

impl<'a> Explained<'a> {
    /// Or what doesn't fit together.
    pub fn new(day: &'a Figures) -> std::result::Result<Explained<'a>, String> {
        let pools = Pools::new(day);
        let mut reasons = Vec::new();
        for (k, line) in day.lines.iter().enumerate() {
            let cut = mewikofu::cut(&line.bytes).map_err(|refusal| refusal.to_string())?;
            let mut sums = [0_i64; SCHEDULES];
            for j in 0..line.steps.len() {
                for (s, sum) in sums.iter_mut().enumerate() {
                    let reason = Reason::new(day, &cut, &pools, k, j, s)?;
                    *sum += reason.paid;
                    reasons.push(reason);
                }
            }
            if sums != line.entry.payments {
                return Err(format!(
                    "line {k}: the steps' payments add up to {sums:?} units, and the book has {:?}",
                    line.entry.payments
                ));
            }
        }
        totals::check(day)?;
        let uplift = Uplift::new(&day.book, day.uplift)?;
        Ok(Explained {
            day,
            reasons,
            uplift,
        })
    }
}
