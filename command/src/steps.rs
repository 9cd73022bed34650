//! `steps`: every figure of every step, as the proved program prints it, as a table or as JSON.

use crate::ad_hoc::InForce;
use crate::arguments::Options;
use crate::figures::{Figures, Line};
use crate::input::read_day;
use crate::layout::SCHEDULES;
use crate::outcome::{each, Result, Status};
use crate::output::{numbered, put_json, Format, Table, Unit};
use crate::settle::side_word;
use mewikofu::{match_place, BookLine, Excess, View, MATCHES};
use serde_json::{json, Value};
use std::io::Write;

pub fn run(options: &Options, out: &mut dyn Write) -> Result<Status> {
    match options.format {
        Format::Csv => {
            let mut table = Table::new(out, &columns(options.unit))?;
            let status = each(&options.files, |file| {
                let (input, figures) = crate::figures::read(file)?;
                put_table(&mut table, &input.name, &figures, options.unit)
            })?;
            table.finish()?;
            Ok(status)
        }
        Format::Json => each(&options.files, |file| {
            let (input, figures) = crate::figures::read(file)?;
            put_json(
                out,
                &steps_json(&input.name, &figures),
                options.files.len() == 1,
            )
        }),
        Format::Text => each(&options.files, |file| {
            let input = read_day(file)?;
            if options.files.len() > 1 {
                writeln!(out, "== {} ==", input.name)?;
            }
            match Figures::new(&input.bytes) {
                Ok(figures) => Ok(out.write_all(text(&figures).as_bytes())?),
                Err(refusal) => {
                    writeln!(out, "refused {}", refusal.number())?;
                    Err(crate::figures::refused(&input, refusal))
                }
            }
        }),
    }
}

/// What the program `steps` prints.
pub fn text(figures: &Figures) -> String {
    let mut text = Vec::new();
    for (k, line) in figures.lines.iter().enumerate() {
        let BookLine {
            participant,
            point,
            side,
            steps,
            ..
        } = line.entry;
        let side = side_word(side);
        text.extend(format!("line {k} {participant} {point} {side} {steps}\n").bytes());
        for (j, step) in line.steps.iter().enumerate() {
            put_step(&mut text, j, step);
        }
        put_excess(&mut text, line.excess());
    }
    String::from_utf8(text).expect("words and digits")
}

fn put_step(text: &mut Vec<u8>, j: usize, step: &View) {
    text.extend_from_slice(b"step");
    put_words(text, &[j as u32, step.end, step.width, step.actual]);
    for s in 0..SCHEDULES {
        text.extend_from_slice(&[b'\n', b'1' + s as u8]);
        put_words(text, &quantities(step, s));
        for money in payments(step, s) {
            put_number(text, money);
        }
    }
    text.extend_from_slice(b"\nmatches");
    put_words(text, &step.matches);
    text.push(b'\n');
}

fn put_words(text: &mut Vec<u8>, words: &[u32]) {
    for &word in words {
        put_number(text, word.into());
    }
}

/// A space and the number, with its sign below 0. The formatter would take the most time of a day's text.
fn put_number(text: &mut Vec<u8>, number: i64) {
    if let digit @ 0..=9 = number {
        return text.extend_from_slice(&[b' ', b'0' + digit as u8]);
    }
    let mut bytes = [b' '; 24];
    let (mut first, mut rest) = (bytes.len(), number.unsigned_abs());
    while rest > 0 {
        // Two digits, the first of which may be a 0 too many.
        first -= 2;
        let pair = (rest % 100) as u8;
        bytes[first] = b'0' + pair / 10;
        bytes[first + 1] = b'0' + pair % 10;
        rest /= 100;
    }
    first += usize::from(bytes[first] == b'0');
    if number < 0 {
        first -= 1;
        bytes[first] = b'-';
    }
    bytes[first - 1] = b' ';
    text.extend_from_slice(&bytes[first - 1..]);
}

/// The last row of a line.
fn put_excess(text: &mut Vec<u8>, excess: Excess) {
    text.extend_from_slice(b"excess pricing");
    put_words(text, &excess.pricing);
    text.extend_from_slice(b" operating");
    put_words(text, &excess.operating);
    text.extend_from_slice(b" actual");
    put_words(text, &[excess.actual]);
    text.push(b'\n');
}

/// Price, flag, O, E, AGINO, MSIQ and C.
fn quantities(step: &View, s: usize) -> [u32; 7] {
    let rows = [
        &step.price,
        &step.flag,
        &step.operating,
        &step.pricing,
        &step.agino,
        &step.msiq,
        &step.constrained,
    ];
    rows.map(|row| row[s])
}

/// Initial, revised, modified and final.
fn payments(step: &View, s: usize) -> [i64; 4] {
    [&step.initial, &step.revised, &step.modified, &step.finals].map(|row| row[s])
}

/// One row for each line, step and schedule.
fn columns(unit: Unit) -> Vec<String> {
    let unit = unit.name();
    let mut columns = [
        "file",
        "line",
        "participant",
        "point",
        "side",
        "step",
        "end",
        "width",
        "actual",
        "schedule",
    ]
    .map(String::from)
    .to_vec();
    columns.push(format!("price_{unit}"));
    columns.extend(
        [
            "flag",
            "operating",
            "pricing",
            "agino",
            "msiq",
            "constrained",
        ]
        .map(String::from),
    );
    columns.extend(numbered("match", SCHEDULES - 1, ""));
    columns
        .extend(["initial", "revised", "modified", "final"].map(|name| format!("{name}_{unit}")));
    columns.extend(EXCESS_COLUMNS.map(String::from));
    columns.push(AD_HOC_COLUMN.to_string());
    columns
}

/// The order number of the ad hoc record whose operating row is in force for the line in the schedule; empty where that is the line's own.
pub const AD_HOC_COLUMN: &str = "ad_hoc_order";

pub fn ad_hoc_cell(line: &Line, s: usize) -> String {
    line.ad_hoc[s].map_or(String::new(), |row| row.order.to_string())
}

/// The line's excess in a table with a row for each step and schedule.
pub const EXCESS_COLUMNS: [&str; 3] = ["operating_excess", "pricing_excess", "actual_excess"];

pub fn excess_cells(step: &View, s: usize) -> [String; 3] {
    let Excess {
        operating,
        pricing,
        actual,
    } = step.excess;
    [operating[s], pricing[s], actual].map(|value| value.to_string())
}

fn put_table(table: &mut Table, name: &str, figures: &Figures, unit: Unit) -> Result<()> {
    for (k, line) in figures.lines.iter().enumerate() {
        let Line { entry, steps, .. } = line;
        let key = [
            entry.participant.to_string(),
            entry.point.to_string(),
            side_word(entry.side).to_string(),
        ];
        for (j, step) in steps.iter().enumerate() {
            for s in 0..SCHEDULES {
                let mut row = vec![name.to_string(), k.to_string()];
                row.extend(key.iter().cloned());
                row.extend(
                    [j as u32, step.end, step.width, step.actual, s as u32 + 1]
                        .map(|value| value.to_string()),
                );
                let [price, rest @ ..] = quantities(step, s);
                row.push(unit.price(price));
                row.extend(rest.map(|value| value.to_string()));
                // m(r, s) for r below s; the places of later schedules are empty.
                row.extend((0..SCHEDULES - 1).map(|r| {
                    if r < s {
                        step.matches[match_place(r, s)].to_string()
                    } else {
                        String::new()
                    }
                }));
                row.extend(payments(step, s).map(|value| unit.money(value)));
                row.extend(excess_cells(step, s));
                row.push(ad_hoc_cell(line, s));
                table.row(&row)?;
            }
        }
    }
    Ok(())
}

/// Quantities in MJ, prices in $0.0001 per GJ, money in $0.0000001.
fn steps_json(name: &str, figures: &Figures) -> Value {
    let lines: Vec<Value> = figures.lines.iter().map(line_json).collect();
    json!({ "file": name, "price_unit": "$0.0001/GJ", "money_unit": "$0.0000001", "lines": lines })
}

fn line_json(line: &Line) -> Value {
    let steps: Vec<Value> = line.steps.iter().map(step_json).collect();
    json!({
        "participant": line.entry.participant,
        "point": line.entry.point,
        "side": side_word(line.entry.side),
        "steps": steps,
        "excess": excess_json(line.excess()),
        "ad_hoc": ad_hoc_json(&line.ad_hoc),
    })
}

/// The operating rows in force that are of ad hoc records, each with the line's own.
fn ad_hoc_json(rows: &InForce) -> Vec<Value> {
    let rows = rows.iter().enumerate().filter_map(|(s, row)| {
        let row = (*row)?;
        Some(json!({ "schedule": s + 1, "order": row.order, "operating": row.quantities, "own": row.own }))
    });
    rows.collect()
}

fn excess_json(excess: Excess) -> Value {
    json!({ "operating": excess.operating, "pricing": excess.pricing, "actual": excess.actual })
}

pub fn step_json(step: &View) -> Value {
    let pairs = (1..SCHEDULES).flat_map(|s| (0..s).map(move |r| (r, s)));
    let matches = pairs.filter(|&(r, s)| step.matches[match_place(r, s)] > 0);
    let matches: Vec<Value> =
        matches.map(|(r, s)| json!({ "rise": r + 1, "fall": s + 1, "quantity": step.matches[match_place(r, s)] })).collect();
    debug_assert!(matches.len() <= MATCHES);
    json!({
        "end": step.end, "width": step.width, "actual": step.actual,
        "price": step.price, "flag": step.flag, "operating": step.operating, "pricing": step.pricing,
        "agino": step.agino, "msiq": step.msiq, "constrained": step.constrained, "matches": matches,
        "initial": step.initial, "revised": step.revised, "modified": step.modified, "final": step.finals,
    })
}
