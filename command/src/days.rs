//! What is printed of days that were worked out: the whole answer of each, or one row for each; as text, as a table or as JSON.

use crate::amounts::{dollars_alike, grouped, money_sum, MONEY_PLACES};
use crate::arguments::Options;
use crate::layout::{BySchedule, SCHEDULES};
use crate::many::{self, Settled};
use crate::outcome::{Result, Status};
use crate::output::{aligned, numbered, put_json, Format, Table, Unit};
use crate::values::counted;
use serde_json::Value;
use std::io::Write;

/// What is printed of each day.
#[derive(Clone, Copy, Debug, PartialEq, Eq)]
pub enum Rows {
    /// Its whole answer: a row for each line of its book, or for each schedule of its uplift.
    Whole,
    /// One row.
    Days,
}

/// An accepted day's answer.
pub trait Answer {
    /// Names of the amounts by schedule that its row in a table of days has.
    const AMOUNTS: &'static [&'static str];

    /// How many lines the day has.
    fn line_count(&self) -> usize;

    /// These amounts. In text the first are shown, and added up over all days.
    fn amounts(&self) -> Vec<BySchedule<i64>>;

    /// The whole answer as text.
    fn text(&self, unit: Unit) -> String;

    /// Its columns and rows in a table; the first column is the file.
    fn columns(unit: Unit) -> Vec<String>;
    fn put_rows(&self, table: &mut Table, name: &str, unit: Unit) -> Result<()>;

    fn json(&self, name: &str) -> Value;
}

pub fn print<T: Answer>(
    settled: &[Settled<T>],
    options: &Options,
    out: &mut dyn Write,
) -> Result<Status> {
    let alone = settled.len() == 1;
    match (options.format, options.rows) {
        (Format::Text, Rows::Whole) => texts(settled, options.unit, out)?,
        (Format::Text, Rows::Days) => out.write_all(summary(settled).as_bytes())?,
        (Format::Csv, Rows::Whole) => whole_table(settled, options.unit, out)?,
        (Format::Csv, Rows::Days) => days_table(settled, options.unit, out)?,
        (Format::Json, _) => settled
            .iter()
            .try_for_each(|day| put_json(out, &day_json(day), alone))?,
    }
    out.flush()?;
    Ok(many::status(settled, options.format == Format::Json))
}

/// A heading with the file's name where there are several.
fn texts<T: Answer>(settled: &[Settled<T>], unit: Unit, out: &mut dyn Write) -> Result<()> {
    for day in settled {
        let text = match &day.answer {
            Ok(answer) => answer.text(unit),
            Err(stop) => match stop.number {
                Some(number) => format!("refused {number}\n"),
                None => continue,
            },
        };
        if settled.len() > 1 {
            writeln!(out, "== {} ==", day.name)?;
        }
        out.write_all(text.as_bytes())?;
    }
    Ok(())
}

/// The days with their first amounts in dollars, and the sums of all.
fn summary<T: Answer>(settled: &[Settled<T>]) -> String {
    let answers: Vec<(usize, BySchedule<i64>)> = settled
        .iter()
        .filter_map(|day| day.answer.as_ref().ok())
        .map(|answer| (answer.line_count(), answer.amounts()[0]))
        .collect();
    let amounts: Vec<i64> = answers.iter().flat_map(|(_, amounts)| *amounts).collect();
    let amounts = dollars_alike(&amounts, MONEY_PLACES, 2);
    let mut amounts = amounts.chunks(SCHEDULES);
    let schedules = (1..=SCHEDULES).map(|s| format!("schedule {s}"));
    let mut rows = vec![["day", "lines"]
        .map(String::from)
        .into_iter()
        .chain(schedules)
        .collect()];
    for day in settled {
        let mut row = vec![day.name.clone()];
        match &day.answer {
            Ok(answer) => {
                row.push(answer.line_count().to_string());
                row.extend(amounts.next().unwrap_or(&[]).iter().cloned());
            }
            Err(stop) => row.push(stop.short()),
        }
        rows.push(row);
    }
    let lines = answers.iter().map(|(lines, _)| *lines as u64).sum();
    let mut last = vec![
        format!("total of {}", counted(answers.len(), "day")),
        grouped(lines),
    ];
    let sum = |s: usize| answers.iter().map(|(_, row)| i128::from(row[s])).sum();
    last.extend((0..SCHEDULES).map(|s| money_sum(sum(s))));
    rows.push(last);
    aligned(&rows)
}

/// All rows of each day's answer.
fn whole_table<T: Answer>(settled: &[Settled<T>], unit: Unit, out: &mut dyn Write) -> Result<()> {
    let mut table = Table::new(out, &T::columns(unit))?;
    for day in settled {
        if let Ok(answer) = &day.answer {
            answer.put_rows(&mut table, &day.name, unit)?;
        }
    }
    table.finish()
}

/// One row for each day; one that was refused has its number and words.
fn days_table<T: Answer>(settled: &[Settled<T>], unit: Unit, out: &mut dyn Write) -> Result<()> {
    let ending = format!("_{}", unit.name());
    let mut columns = ["file", "lines"].map(String::from).to_vec();
    for name in T::AMOUNTS {
        columns.extend(numbered(name, SCHEDULES, &ending));
    }
    columns.extend(["refused", "why"].map(String::from));
    let mut table = Table::new(out, &columns)?;
    for day in settled {
        let row = match &day.answer {
            Ok(answer) => {
                let first = vec![day.name.clone(), answer.line_count().to_string()];
                let amounts = answer.amounts().concat();
                let amounts = amounts.into_iter().map(|value| unit.money(value)).collect();
                [first, amounts, vec![String::new(); 2]].concat()
            }
            Err(stop) => {
                let mut row = vec![day.name.clone()];
                row.resize(columns.len() - 2, String::new());
                row.push(
                    stop.number
                        .map_or(String::new(), |number| number.to_string()),
                );
                row.push(stop.message.clone());
                row
            }
        };
        table.row(&row)?;
    }
    table.finish()
}

fn day_json<T: Answer>(day: &Settled<T>) -> Value {
    match &day.answer {
        Ok(answer) => answer.json(&day.name),
        Err(stop) => stop.json(&day.name),
    }
}
