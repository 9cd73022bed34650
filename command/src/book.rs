//! A book for a reader (01 "Totals and book").

use crate::arguments::Options;
use crate::input::read_part;
use crate::layout::*;
use crate::outcome::{each, Problem, Result, Status};
use crate::output::{put_json, Format, Table, Unit};
use crate::settle::{book_columns, book_json, put_book_rows};
use crate::values::counted;
use mewikofu::{BookLine, Side};
use std::fmt::Write as _;
use std::io::Write;

pub fn run(options: &Options, out: &mut dyn Write) -> Result<Status> {
    let alone = options.files.len() == 1;
    if options.format == Format::Csv {
        let mut table = Table::new(out, &book_columns(options.unit))?;
        let status = each(&options.files, |file| {
            let (name, book) = read_book(file)?;
            let (lines, totals) = parts(&book);
            put_book_rows(&mut table, &name, &lines, totals, options.unit)
        })?;
        table.finish()?;
        return Ok(status);
    }
    each(&options.files, |file| {
        let (name, book) = read_book(file)?;
        if options.format == Format::Json {
            let (lines, totals) = parts(&book);
            return put_json(out, &book_json(&name, &lines, totals), alone);
        }
        if !alone {
            writeln!(out, "== {name} ==")?;
        }
        let text = show_book(&book, options.unit).map_err(Problem::refused)?;
        Ok(out.write_all(text.as_bytes())?)
    })
}

/// A file that holds a book.
fn read_book(file: &std::ffi::OsStr) -> Result<(String, Vec<u8>)> {
    let input = read_part(file)?;
    match lines_of_book(&input.bytes) {
        Ok(_) => Ok((input.name, input.bytes)),
        Err(why) => Err(Problem::refused(format!("{}: {why}", input.name))),
    }
}

/// The lines, and totals with adjusted totals.
fn parts(book: &[u8]) -> (Vec<BookLine>, [BySchedule<i64>; 2]) {
    let five = |bytes: &[u8], offset: usize, apart: usize| {
        std::array::from_fn(|s| signed(bytes, offset + apart * s))
    };
    let line = |k: usize| {
        let part = &book[book_bytes(k)..][..BOOK_LINE_BYTES];
        BookLine {
            participant: word(part, 0),
            point: word(part, 1),
            side: if word(part, 2) == 0 {
                Side::Injection
            } else {
                Side::Withdrawal
            },
            steps: word(part, 3),
            payments: five(part, 16, 8),
        }
    };
    let lines = (0..word(book, 0) as usize).map(line).collect();
    (
        lines,
        [
            five(book, BOOK_TOTALS_OFFSET, 16),
            five(book, BOOK_TOTALS_OFFSET + 8, 16),
        ],
    )
}

/// Five amounts under a heading.
struct Row {
    heading: String,
    amounts: BySchedule<String>,
}

/// The text of a book, or why the bytes are none. Bytes beyond the book are left out.
pub fn show_book(book: &[u8], unit: Unit) -> std::result::Result<String, String> {
    let lines = lines_of_book(book)?;
    let money = match unit {
        Unit::Dollars => "dollars",
        Unit::Units => "units of $0.0000001",
    };
    let mut text = format!("Book of {}, money in {money}\n", counted(lines, "line"));
    let _ = writeln!(text, "Header: {}\n", header_words(book));
    let totals = |heading: &str, offset| row(heading.to_string(), book, offset, 16, unit);
    let mut rows = vec![
        totals("total t", BOOK_TOTALS_OFFSET),
        totals("adjusted a", BOOK_TOTALS_OFFSET + 8),
    ];
    rows.extend((0..lines).map(|k| line_row(book, k, unit)));
    put_rows(&mut text, &rows);
    Ok(text)
}

fn header_words(book: &[u8]) -> String {
    let [lines, totals, first, length] = [0, 1, 2, 3].map(|place| word(book, place));
    format!("lines {lines}, totals at {totals}, lines at {first}, length {length}")
}

/// The line count of bytes that hold a book.
fn lines_of_book(book: &[u8]) -> std::result::Result<usize, String> {
    let bytes = counted(book.len(), "byte");
    if book.len() < BOOK_LINES_OFFSET {
        return Err(format!(
            "{bytes} are no book, which has {BOOK_LINES_OFFSET} or more"
        ));
    }
    let lines = word(book, 0) as usize;
    if !(1..=MOST_LINES).contains(&lines) {
        return Err(format!("no book: its line count is {lines}, not 1 to 64"));
    }
    let length = book_bytes(lines);
    let expected = [lines, BOOK_TOTALS_OFFSET, BOOK_LINES_OFFSET, length];
    let given = [0, 1, 2, 3].map(|place| word(book, place) as usize);
    if given != expected {
        return Err(format!(
            "no book: its header is {given:?}, where {expected:?} is due"
        ));
    }
    if book.len() < length {
        return Err(format!(
            "{bytes} are too few for the book, which has {length}"
        ));
    }
    Ok(lines)
}

fn line_row(book: &[u8], k: usize, unit: Unit) -> Row {
    let part = &book[book_bytes(k)..][..BOOK_LINE_BYTES];
    let [participant, point, side, steps] = [0, 1, 2, 3].map(|place| word(part, place));
    let side = side_name(side);
    let steps = counted(steps as usize, "step");
    let heading = format!("line {k}: participant {participant}, point {point}, {side}, {steps}");
    row(heading, part, 16, 8, unit)
}

/// Five signed numbers from an offset on, so many bytes apart.
fn row(heading: String, bytes: &[u8], offset: usize, apart: usize, unit: Unit) -> Row {
    let amount = |s| unit.text(signed(bytes, offset + apart * s));
    Row {
        heading,
        amounts: std::array::from_fn(amount),
    }
}

/// The rows in columns, with the schedules above.
fn put_rows(text: &mut String, rows: &[Row]) {
    let headings = rows.iter().map(|row| row.heading.len());
    let first = headings.max().unwrap_or(0);
    let column = |s: usize| rows.iter().map(|row| row.amounts[s].len()).max();
    let widths: BySchedule<usize> = std::array::from_fn(|s| column(s).unwrap_or(0));
    let schedules = Row {
        heading: "schedule".to_string(),
        amounts: std::array::from_fn(|s| (s + 1).to_string()),
    };
    for row in std::iter::once(&schedules).chain(rows) {
        let _ = write!(text, "{:first$}", row.heading);
        for (amount, width) in row.amounts.iter().zip(widths) {
            let _ = write!(text, "  {amount:>width$}");
        }
        text.push('\n');
    }
}
