//! `cut`: the steps of one line, given as its 660 bytes or as a line of a day.

use crate::ad_hoc::{self, InForce};
use crate::arguments::Options;
use crate::figures::refused;
use crate::input::{read_day, read_part, Input};
use crate::layout::{word, Layout, SCHEDULES};
use crate::outcome::{each, Problem, Result, Status};
use crate::output::{numbered, put_json, Format, Table, Unit};
use crate::refusals::explain_line;
use crate::settle::put;
use crate::values::counted;
use mewikofu::{Cut, Refusal};
use serde_json::{json, Value};
use std::ffi::OsStr;
use std::io::Write;

pub fn run(options: &Options, out: &mut dyn Write) -> Result<Status> {
    if options.format == Format::Csv {
        let mut table = Table::new(out, &columns(options.unit))?;
        let status = each(&options.files, |file| {
            let (name, answer) = cut(file, options.line)?;
            put_table(
                &mut table,
                &name,
                &answer.map_err(|(_, problem)| problem)?,
                options.unit,
            )
        })?;
        table.finish()?;
        return Ok(status);
    }
    each(&options.files, |file| {
        let (name, answer) = cut(file, options.line)?;
        if options.format == Format::Json {
            let cut = answer.map_err(|(_, problem)| problem)?;
            return put_json(out, &cut_json(&name, &cut), options.files.len() == 1);
        }
        if options.files.len() > 1 {
            writeln!(out, "== {name} ==")?;
        }
        match answer {
            Ok(cut) => Ok(out.write_all(text(&cut).as_bytes())?),
            Err((number, problem)) => {
                writeln!(out, "refused {number}")?;
                Err(problem)
            }
        }
    })
}

/// The steps, or the number with its words.
type Answer = std::result::Result<Cut, (u32, Problem)>;

fn cut(file: &OsStr, line: Option<usize>) -> Result<(String, Answer)> {
    let (input, rows) = match line {
        Some(k) => line_of_day(file, k)?,
        None => (read_part(file)?, [None; SCHEDULES]),
    };
    let answer = mewikofu::cut(&input.bytes).map_err(|refusal| {
        let problem = match explain_line(&input, refusal) {
            Ok(explained) => {
                let (name, first, own) = (&input.name, explained.first(), own_rows(refusal, &rows));
                Problem::refused(format!("{name}: {first}{own}"))
            }
            Err(problem) => problem,
        };
        (refusal.number(), problem)
    });
    Ok((input.name, answer))
}

/// The bytes of a day's line, with its own operating rows, and the rows of ad hoc records that are in force in the day.
fn line_of_day(file: &OsStr, k: usize) -> Result<(Input, InForce)> {
    let input = read_day(file)?;
    let part = match mewikofu::line_part(&input.bytes, k) {
        Ok(part) => part.to_vec(),
        Err(Refusal::NoLine) => return Err(no_line(&input, k)),
        Err(refusal) => return Err(refused(&input, refusal)),
    };
    let records = ad_hoc::records(&input.bytes, &Layout::named(&input.bytes));
    let rows = ad_hoc::in_force(&records, &part, k);
    let line = Input {
        name: format!("{} line {k}", input.name),
        bytes: part,
        more: false,
        ..input
    };
    Ok((line, rows))
}

/// That the day may be accepted although the cutter refuses the line's own rows.
fn own_rows(refusal: Refusal, rows: &InForce) -> String {
    match (refusal, ad_hoc::schedules(rows)) {
        (Refusal::Totals, schedules) if !schedules.is_empty() => format!(
            "; the cutter reads the line's own rows, and in the day those of ad hoc records are in force in {schedules}"
        ),
        _ => String::new(),
    }
}

/// Refusal 16 in words.
pub fn no_line(input: &Input, k: usize) -> Problem {
    let lines = counted(word(&input.bytes, 0) as usize, "line");
    let name = &input.name;
    Problem::refused(format!(
        "{name}: refused 16: the day has no line {k}: it has {lines}, counted from 0"
    ))
}

/// What the program `cut` prints.
pub fn text(cut: &Cut) -> String {
    let mut text = format!("cut {}\n", cut.count);
    for (k, end) in cut.ends().iter().enumerate() {
        put(&mut text, &end.to_string(), &cut.prices.map(|row| row[k]));
    }
    put(&mut text, "flags", &cut.flags);
    put(&mut text, "missing", &cut.missing);
    text
}

fn columns(unit: Unit) -> Vec<String> {
    let first = ["file", "step", "end", "width"].map(String::from).to_vec();
    let prices = numbered("price", SCHEDULES, &format!("_{}", unit.name()));
    [first, prices, numbered("flag", SCHEDULES, "")].concat()
}

fn put_table(table: &mut Table, name: &str, cut: &Cut, unit: Unit) -> Result<()> {
    let mut before = 0;
    for (k, &end) in cut.ends().iter().enumerate() {
        let first = vec![
            name.to_string(),
            k.to_string(),
            end.to_string(),
            (end - before).to_string(),
        ];
        let prices = cut.prices.map(|row| unit.price(row[k])).to_vec();
        let flags = (0..SCHEDULES)
            .map(|s| u8::from(cut.flag(s, k)).to_string())
            .collect();
        table.row(&[first, prices, flags].concat())?;
        before = end;
    }
    Ok(())
}

/// Ends in MJ, uncapped prices in $0.0001 per GJ.
fn cut_json(name: &str, cut: &Cut) -> Value {
    let row = |k: usize| json!({ "end": cut.ends[k], "price": cut.prices.map(|row| row[k]), "flag": std::array::from_fn::<u8, SCHEDULES, _>(|s| cut.flag(s, k).into()) });
    let steps: Vec<Value> = (0..cut.count as usize).map(row).collect();
    json!({ "file": name, "price_unit": "$0.0001/GJ", "steps": steps, "missing": cut.missing })
}
