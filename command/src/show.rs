//! A day file as text, from which `make` makes the same bytes.

use crate::arguments::Options;
use crate::form::{Field, Kind, Section, MOST_TEXT_LINES, MOST_TEXT_RECORDS, NONE};
use crate::input::read_day;
use crate::layout::*;
use crate::outcome::{each, Problem, Result, Status};
use crate::output::{Format, Unit};
use crate::tables;
use crate::values::{counted, listed_steps, write_bid, write_value};
use std::fmt::Write as _;
use std::io::Write;

const ABOUT: &str = "# Quantities are in MJ.";

pub fn run(options: &Options, out: &mut dyn Write) -> Result<Status> {
    match options.format {
        Format::Csv => return tables::sheet::show(options, out),
        Format::Json => return tables::json::show(options, out),
        Format::Text => {}
    }
    each(&options.files, |file| {
        let input = read_day(file)?;
        let shown = match input.more {
            true => Err(wrong_shape(&format!(
                "more than {} bytes",
                input.bytes.len() - 1
            ))),
            false => show(&input.bytes, options.unit),
        };
        let text = shown.map_err(|why| Problem::refused(format!("{}: {why}", input.name)))?;
        if options.files.len() > 1 {
            writeln!(out, "# == {} ==", input.name)?;
        }
        Ok(out.write_all(text.as_bytes())?)
    })
}

/// The text of a file, or why it has none.
pub fn show(day: &[u8], unit: Unit) -> std::result::Result<String, String> {
    let layout = layout_of_shape(day)?;
    let mut text = about(&layout, day.len(), unit);
    let header = words(&day[..layout.market_at()]);
    if header.iter().copied().map(u64::from).ne(layout.header()) {
        text.push_str("\n# Not the header of such a file.\n");
        put_section(&mut text, Section::Header, &header, unit);
    }
    text.push('\n');
    put_section(&mut text, Section::Market, &words(layout.market(day)), unit);
    for k in 0..layout.lines {
        text.push_str(&format!("\n# Line {k}\n"));
        put_section(&mut text, Section::Line, &words(layout.line(day, k)), unit);
    }
    for j in 0..layout.record_count() {
        let record = words(layout.record(day, j));
        text.push_str(&format!("\n# Ad hoc record {j}\n"));
        put_section(&mut text, Section::AdHoc, &record, unit);
    }
    if layout.records == Some(0) {
        let heading = Section::AdHoc.heading();
        text.push_str("\n# In the layout with ad hoc records, without one.\n");
        text.push_str(&format!("{heading}\nline = {NONE}\n"));
    }
    Ok(text)
}

/// The first rows, which are comments.
fn about(layout: &Layout, bytes: usize, unit: Unit) -> String {
    let prices = match unit {
        Unit::Units => "Prices are in units of $0.0001 per GJ.",
        Unit::Dollars => "Prices are in dollars per GJ.",
    };
    let lines = counted(layout.lines, "line");
    let size = match layout.records {
        None => lines,
        Some(records) => format!("{lines} and {}", counted(records, "ad hoc record")),
    };
    format!("# A day of {size}, {bytes} bytes.\n{ABOUT} {prices}\n")
}

fn words(bytes: &[u8]) -> Vec<u32> {
    (0..bytes.len() / 4)
        .map(|place| word(bytes, place))
        .collect()
}

/// The layout of a file, if it has a shape that the form can say: first the one that its market offset names.
fn layout_of_shape(day: &[u8]) -> std::result::Result<Layout, String> {
    let fits = |layout: &Layout| {
        let records = layout.record_count();
        layout.length() == day.len()
            && layout.lines <= MOST_TEXT_LINES
            && records <= MOST_TEXT_RECORDS
    };
    let mut shapes = shapes(day);
    let found = shapes.find(fits);
    found.ok_or_else(|| wrong_shape(&counted(day.len(), "byte")))
}

/// What a file's length can be made of, by its header's counts where these are right, else by one of them.
fn shapes(day: &[u8]) -> impl Iterator<Item = Layout> {
    let old = Layout {
        lines: day.len().saturating_sub(LEAST_BYTES) / LINE_BYTES,
        records: None,
    };
    if day.len() < LEAST_BYTES {
        return vec![old].into_iter();
    }
    let [lines, count] = [0, 4].map(|place| word(day, place) as usize);
    let named = Layout {
        lines,
        records: Some(count),
    };
    let beyond = |start: usize, size: usize| day.len().saturating_sub(start) / size;
    let by_lines = Layout {
        records: Some(beyond(named.record_at(0), AD_HOC_BYTES)),
        ..named
    };
    let by_count = Layout {
        lines: beyond(named.line_at(0) + AD_HOC_BYTES * count, LINE_BYTES),
        ..named
    };
    match Layout::named(day).records {
        None => vec![old, named, by_lines, by_count].into_iter(),
        Some(_) => vec![named, old, by_lines, by_count].into_iter(),
    }
}

fn wrong_shape(size: &str) -> String {
    let lines = format!("{LINE_BYTES} for each of at most {MOST_TEXT_LINES} lines");
    let records = format!("{AD_HOC_BYTES} for each of at most {MOST_TEXT_RECORDS} ad hoc records");
    format!("a file of {size} can't be shown: its bytes must be 64 and {lines}, or 72, {lines} and {records}")
}

fn put_section(text: &mut String, section: Section, words: &[u32], unit: Unit) {
    text.push_str(section.heading());
    text.push('\n');
    let fields = section.fields();
    // A header of four words has not all.
    let fields = fields.iter().filter(|field| field.place < words.len());
    let rows: Vec<Row> = fields.map(|f| Row::new(f, words, unit)).collect();
    for row in rows.iter().filter(|row| row.shown) {
        let same = rows.iter().filter(|other| other.name == row.name);
        let width = same.map(Row::widest).max().unwrap_or(0);
        let values = row.aligned(width);
        // Writing to a String doesn't fail.
        let _ = writeln!(text, "{} = {values}", row.key);
    }
}

/// One key's row of values.
struct Row {
    name: &'static str,
    key: String,
    values: Vec<String>,
    /// Values of the same key's first row that this one doesn't have: intervals before s of pricing row s.
    before: usize,
    shown: bool,
}

impl Row {
    fn new(field: &Field, words: &[u32], unit: Unit) -> Row {
        let own = &words[field.place..][..field.words];
        let values = match field.kind {
            Kind::Bid => vec![write_bid(own, unit)],
            kind => own.iter().map(|&w| write_value(kind, w, unit)).collect(),
        };
        let before = match (field.name, field.schedule) {
            ("pricing", Some(schedule)) => schedule - 1,
            _ => 0,
        };
        Row {
            name: field.name,
            key: field.key(),
            values,
            before,
            shown: field.name != "count" || count_differs(&words[field.place..]),
        }
    }

    fn widest(&self) -> usize {
        self.values.iter().map(String::len).max().unwrap_or(0)
    }

    /// The values, so wide that a table's columns stand under one another.
    fn aligned(&self, width: usize) -> String {
        match &self.values[..] {
            [value] if self.before == 0 => value.clone(),
            values => {
                let cells = values.iter().map(|value| format!("{value:>width$}"));
                let cells: Vec<String> = cells.collect();
                " ".repeat(self.before * (width + 1)) + &cells.join(" ")
            }
        }
    }
}

/// Whether a bid's count isn't that of the steps it is shown with.
fn count_differs(bid: &[u32]) -> bool {
    bid[0] as usize != listed_steps(bid)
}
