//! Writing: text, CSV for spreadsheets, JSON for programs. Every error of standard output is seen.

use crate::amounts::{money, plain, MONEY_PLACES, PRICE_PLACES};
use crate::outcome::{Problem, Result};
use serde_json::Value;
use std::io::Write;

/// How answers are written.
#[derive(Clone, Copy, Debug, PartialEq, Eq)]
pub enum Format {
    Text,
    Csv,
    Json,
}

/// In CSV, money and prices are in dollars, or in the day file's units of $0.0000001 and $0.0001 per GJ.
#[derive(Clone, Copy, Debug, PartialEq, Eq)]
pub enum Unit {
    Dollars,
    Units,
}

impl Unit {
    /// Money for a reader: dollars with commas between thousands, or units as the settling program prints them.
    pub fn text(self, value: i64) -> String {
        match self {
            Unit::Dollars => money(value),
            Unit::Units => value.to_string(),
        }
    }

    pub fn money(self, value: i64) -> String {
        match self {
            Unit::Dollars => plain(value, MONEY_PLACES),
            Unit::Units => value.to_string(),
        }
    }

    pub fn price(self, value: u32) -> String {
        match self {
            Unit::Dollars => plain(value.into(), PRICE_PLACES),
            Unit::Units => value.to_string(),
        }
    }

    /// The ending of a column's name.
    pub fn name(self) -> &'static str {
        match self {
            Unit::Dollars => "dollars",
            Unit::Units => "units",
        }
    }
}

/// A table with a header row.
pub struct Table<'a> {
    writer: csv::Writer<&'a mut dyn Write>,
}

impl<'a> Table<'a> {
    pub fn new(out: &'a mut dyn Write, columns: &[String]) -> Result<Table<'a>> {
        let mut table = Table {
            writer: csv::Writer::from_writer(out),
        };
        table.row(columns)?;
        Ok(table)
    }

    pub fn row(&mut self, cells: &[String]) -> Result<()> {
        self.writer.write_record(cells).map_err(of_output)
    }

    pub fn finish(mut self) -> Result<()> {
        Ok(self.writer.flush()?)
    }
}

fn of_output(error: csv::Error) -> Problem {
    Problem {
        last: true,
        ..Problem::failed(format!("standard output: {error}"))
    }
}

/// One object: laid out where it is the only one, in one row where several follow one another.
pub fn put_json(out: &mut dyn Write, value: &Value, alone: bool) -> Result<()> {
    let text = match alone {
        true => format!("{value:#}"),
        false => value.to_string(),
    };
    Ok(writeln!(out, "{text}")?)
}

/// Names such as `payment_1` .. `payment_5`, with an ending where one is given.
pub fn numbered(name: &str, count: usize, ending: &str) -> Vec<String> {
    (1..=count).map(|k| format!("{name}_{k}{ending}")).collect()
}

/// Columns under one another: the first to the left, the others to the right. A row that ends early has its last cell as it is, to the left.
pub fn aligned(rows: &[Vec<String>]) -> String {
    let columns = rows.iter().map(Vec::len).max().unwrap_or(0);
    let is_short =
        |row: &Vec<String>, column: usize| row.len() < columns && column + 1 == row.len();
    let width = |column: usize| {
        let rows = rows
            .iter()
            .filter(|row| column < row.len() && !is_short(row, column));
        rows.map(|row| row[column].chars().count())
            .max()
            .unwrap_or(0)
    };
    let widths: Vec<usize> = (0..columns).map(width).collect();
    let mut text = String::new();
    for row in rows {
        for (column, cell) in row.iter().enumerate() {
            let fill = " ".repeat(widths[column].saturating_sub(cell.chars().count()));
            match column {
                _ if is_short(row, column) => text.push_str(&format!("  {cell}")),
                0 => text.push_str(&format!("{cell}{fill}")),
                _ => text.push_str(&format!("  {fill}{cell}")),
            }
        }
        text.push('\n');
    }
    text
}
