//! `settle`: a day's report as the proved program prints it, its book, or one row for each of many days.

use crate::arguments::Options;
use crate::days::{print, Answer};
use crate::layout::{BySchedule, SCHEDULES};
use crate::many;
use crate::outcome::{Result, Status};
use crate::output::{numbered, Table, Unit};
use mewikofu::{Book, BookLine, Side};
use serde_json::{json, Value};
use std::fmt::{Display, Write as _};
use std::io::Write;

pub fn run(options: &Options, out: &mut dyn Write) -> Result<Status> {
    print(&many::settle(options)?, options, out)
}

impl Answer for Book {
    const AMOUNTS: &'static [&'static str] = &["total", "adjusted"];

    fn line_count(&self) -> usize {
        Book::line_count(self)
    }

    fn amounts(&self) -> Vec<BySchedule<i64>> {
        vec![self.totals(), self.adjusted()]
    }

    fn text(&self, _: Unit) -> String {
        report(self)
    }

    fn columns(unit: Unit) -> Vec<String> {
        book_columns(unit)
    }

    /// One row for each line, then the day's totals.
    fn put_rows(&self, table: &mut Table, name: &str, unit: Unit) -> Result<()> {
        let lines: Vec<BookLine> = self.lines().collect();
        put_book_rows(table, name, &lines, [self.totals(), self.adjusted()], unit)
    }

    fn json(&self, name: &str) -> Value {
        let lines: Vec<BookLine> = self.lines().collect();
        book_json(name, &lines, [self.totals(), self.adjusted()])
    }
}

/// What the program `settle` prints of a book.
pub fn report(book: &Book) -> String {
    let mut text = format!("day {}\n", book.line_count());
    for line in book.lines() {
        let BookLine {
            participant,
            point,
            steps,
            ..
        } = line;
        let heading = format!("{participant} {point} {} {steps}", side_word(line.side));
        put(&mut text, &heading, &line.payments);
    }
    put(&mut text, "total", &book.totals());
    put(&mut text, "adjusted", &book.adjusted());
    text
}

/// A heading, values with a space before each, and a line feed.
pub fn put<T: Display>(text: &mut String, heading: &str, values: &[T]) {
    text.push_str(heading);
    for value in values {
        // Writing to a String doesn't fail.
        let _ = write!(text, " {value}");
    }
    text.push('\n');
}

pub fn side_word(side: Side) -> &'static str {
    match side {
        Side::Injection => "INJ",
        Side::Withdrawal => "WDR",
    }
}

pub fn book_columns(unit: Unit) -> Vec<String> {
    let first = [
        "file",
        "row",
        "line",
        "participant",
        "point",
        "side",
        "steps",
    ]
    .map(String::from);
    let payments = numbered("schedule", SCHEDULES, &format!("_{}", unit.name()));
    [first.to_vec(), payments].concat()
}

/// The lines, then totals and adjusted totals.
pub fn put_book_rows(
    table: &mut Table,
    name: &str,
    lines: &[BookLine],
    totals: [[i64; SCHEDULES]; 2],
    unit: Unit,
) -> Result<()> {
    let amounts = |values: &[i64; SCHEDULES]| values.map(|value| unit.money(value)).to_vec();
    for (k, line) in lines.iter().enumerate() {
        let BookLine {
            participant,
            point,
            steps,
            ..
        } = line;
        let side = side_word(line.side);
        let first = [
            name.to_string(),
            "line".into(),
            k.to_string(),
            participant.to_string(),
            point.to_string(),
            side.into(),
            steps.to_string(),
        ];
        table.row(&[first.to_vec(), amounts(&line.payments)].concat())?;
    }
    for (row, values) in ["total", "adjusted"].iter().zip(&totals) {
        let mut first = vec![name.to_string(), row.to_string()];
        first.resize(7, String::new());
        table.row(&[first, amounts(values)].concat())?;
    }
    Ok(())
}

/// Money in units of $0.0000001.
pub fn book_json(
    name: &str,
    lines: &[BookLine],
    [totals, adjusted]: [[i64; SCHEDULES]; 2],
) -> Value {
    let lines: Vec<Value> = lines
        .iter()
        .map(|line| {
            json!({
                "participant": line.participant,
                "point": line.point,
                "side": side_word(line.side),
                "steps": line.steps,
                "payments": line.payments,
            })
        })
        .collect();
    json!({ "file": name, "money_unit": "$0.0000001", "lines": lines, "totals": totals, "adjusted": adjusted })
}
