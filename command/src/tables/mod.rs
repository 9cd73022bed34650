//! Days as tables for spreadsheets and as JSON, there and back. Each shown day is made again and compared before it is written.

pub mod json;
pub mod sheet;

use crate::input::Input;
use crate::layout::*;
use crate::outcome::Problem;

/// The layout of a day that can be said as lines and ad hoc records: the header's own counts and length.
fn layout(day: &[u8]) -> Option<Layout> {
    if day.len() < LEAST_BYTES {
        return None;
    }
    let layout = Layout::named(day);
    let lines = (1..=MOST_LINES).contains(&layout.lines);
    let records = layout.record_count() <= MOST_AD_HOC;
    (lines && records && day.len() == layout.length()).then_some(layout)
}

fn lines<'a>(day: &'a [u8], layout: &'a Layout) -> impl Iterator<Item = &'a [u8]> {
    (0..layout.lines).map(|k| layout.line(day, k))
}

fn not_said(input: &Input) -> Problem {
    let why = match mewikofu::settle(&input.bytes) {
        Err(refusal) => format!(" (refused {}: {})", refusal.number(), refusal.words()),
        Ok(_) => String::new(),
    };
    Problem::refused(format!("{}: only an accepted day can be said so{why}; `show` without --csv and --json prints what the file has", input.name))
}
