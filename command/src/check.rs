//! `check`: whether settling accepts a day, with the excess of its lines, and every fault of one that it does not accept.

use crate::arguments::Options;
use crate::excess;
use crate::figures::refused;
use crate::input::{read_day, Input};
use crate::outcome::{each, Problem, Result, Status};
use crate::output::{put_json, Format, Table};
use crate::refusals::{day_faults, explain_day, Explained, Fault};
use serde_json::{json, Value};
use std::ffi::OsStr;
use std::io::Write;

pub fn run(options: &Options, out: &mut dyn Write) -> Result<Status> {
    let mut worst = Status::Accepted;
    let mut note = |answer: &Option<Explained>| {
        worst = worst.max(if answer.is_some() {
            Status::Refused
        } else {
            Status::Accepted
        });
    };
    let status = match options.format {
        Format::Csv => {
            let mut table = Table::new(out, &COLUMNS.map(String::from))?;
            let status = each(&options.files, |file| {
                let (input, answer) = check_file(file)?;
                note(&answer);
                put_table(&mut table, &input.name, &answer, options.all)
            })?;
            table.finish()?;
            status
        }
        Format::Json => each(&options.files, |file| {
            let (input, answer) = check_file(file)?;
            note(&answer);
            let value = match answer {
                None => json!({ "file": input.name, "refused": 0 }),
                Some(explained) => refused_json(&input.name, &limited(explained, options.all)),
            };
            put_json(out, &value, options.files.len() == 1)
        })?,
        Format::Text => each(&options.files, |file| {
            let (input, answer) = check_file(file)?;
            note(&answer);
            Ok(writeln!(out, "{}", text(&input, &answer, options.all)?)?)
        })?,
    };
    Ok(status.max(worst))
}

/// None where the day is accepted.
pub fn check(input: &Input) -> Result<Option<Explained>> {
    match mewikofu::settle(&input.bytes) {
        Err(refusal) => explain_day(input, refusal).map(Some),
        Ok(_) => match day_faults(&input.bytes, input.more).first() {
            None => Ok(None),
            Some(fault) => Err(Problem::failed(format!(
                "{}: accepted; but the search for faults found {}: {}. The answer is the proved one; the search is wrong",
                input.name, fault.number, fault.words
            ))),
        },
    }
}

fn check_file(file: &OsStr) -> Result<(Input, Option<Explained>)> {
    let input = read_day(file)?;
    let answer = check(&input)?;
    Ok((input, answer))
}

/// `FILE: accepted` with each line's excess, or the refusal: the first fault in one row, or all in a row each.
pub fn text(input: &Input, answer: &Option<Explained>, all: bool) -> Result<String> {
    let said = match answer {
        None => {
            let lines = excess::of_day(&input.bytes).map_err(|refusal| refused(input, refusal))?;
            let lines = lines
                .iter()
                .map(|(k, words)| format!("; line {k}: {words}"));
            format!("accepted{}", lines.collect::<String>())
        }
        Some(explained) if all => explained.rows().join("\n"),
        Some(explained) => explained.first(),
    };
    Ok(format!("{}: {said}", input.name))
}

fn limited(mut explained: Explained, all: bool) -> Explained {
    if !all {
        explained.faults.truncate(1);
    }
    explained
}

const COLUMNS: [&str; 10] = [
    "file", "refused", "line", "schedule", "slot", "interval", "value", "limit", "why", "record",
];

fn put_table(table: &mut Table, name: &str, answer: &Option<Explained>, all: bool) -> Result<()> {
    let Some(explained) = answer else {
        let mut row = vec![name.to_string(), "0".to_string()];
        row.resize(COLUMNS.len(), String::new());
        return table.row(&row);
    };
    let shown = if all { explained.faults.len() } else { 1 };
    explained.faults.iter().take(shown).try_for_each(|fault| {
        let place = |value: Option<usize>| value.map_or(String::new(), |value| value.to_string());
        let Fault {
            number,
            line,
            record,
            schedule,
            slot,
            interval,
            value,
            limit,
            words,
        } = fault;
        table.row(&[
            name.to_string(),
            number.to_string(),
            place(*line),
            place(*schedule),
            place(*slot),
            place(*interval),
            value.to_string(),
            limit.map_or(String::new(), |limit| limit.to_string()),
            words.clone(),
            place(*record),
        ])
    })
}

/// Lines and ad hoc records count from 0, schedules, slots and intervals from 1; what doesn't apply is null.
pub fn refused_json(name: &str, explained: &Explained) -> Value {
    let faults: Vec<Value> = explained
        .faults
        .iter()
        .map(|fault| {
            let Fault { number, line, record, schedule, slot, interval, value, limit, words } = fault;
            json!({ "number": number, "line": line, "schedule": schedule, "slot": slot, "interval": interval, "value": value, "limit": limit, "words": words, "record": record })
        })
        .collect();
    json!({ "file": name, "refused": explained.refusal.number(), "words": explained.refusal.words(), "faults": faults })
}
