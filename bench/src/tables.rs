//! The tables of docs/BENCHMARKS.md. Each has a name, which bench/page finds in the page.

use crate::calls::Call;
use crate::cutting::CUT;
use crate::settling::{LINE_PART, SETTLE, UPLIFT};
use crate::streams::Stream;
use crate::timing::times;
use crate::{instructions, viewing};

type Row = (&'static Call, Stream);

pub const NAMES: [&str; 4] = ["settle", "cut", "views", "others"];

/// Prints the table of a name.
pub fn print(name: &str) {
    println!("<!-- table {name} -->");
    println!();
    match name {
        "settle" => table(&["Days", "Clawback", "Lines"], &settle_rows()),
        "cut" => table(&["Line"], &cut_rows()),
        "views" => table(&["Call", "Days", "Clawback", "Lines"], &view_rows()),
        _ => table(&["Call", "Days", "Clawback", "Lines"], &other_rows()),
    }
    println!();
}

fn settle_rows() -> Vec<Row> {
    let growth = [1, 2, 4, 8, 16, 32, 64];
    let kinds = day_kinds();
    let rows = kinds.flat_map(|(kind, clawback)| growth.map(|lines| (kind, clawback, lines)));
    let ad_hoc = [false, true].map(|clawback| ("hard, ad hoc", clawback, 64));
    let streams = rows.chain(ad_hoc).map(days);
    streams.map(|stream| (&SETTLE, stream)).collect()
}

fn cut_rows() -> Vec<Row> {
    let kinds = [("INJ", [1, 14, 56]), ("WDR", [1, 14, 55])];
    let lines = kinds.into_iter().flat_map(|(side, steps)| {
        let lines = move |steps| Stream::Lines { side, steps };
        steps.map(lines)
    });
    let streams = lines.chain([Stream::MarketLines]);
    streams.map(|stream| (&CUT, stream)).collect()
}

fn view_rows() -> Vec<Row> {
    const CALLS: [(&Call, &[usize]); 4] = [
        (&viewing::STEP, &[1, 8, 64]),
        (&viewing::LINE, &[1, 8, 64]),
        (&viewing::DAY_BY_LINE, &[64]),
        (&viewing::DAY_BY_STEP, &[64]),
    ];
    let mut rows: Vec<Row> = Vec::new();
    for (call, growth) in CALLS {
        let of_kind = |(kind, on)| growth.iter().map(move |&lines| (kind, on, lines));
        rows.extend(day_kinds().flat_map(of_kind).map(|of| (call, days(of))));
    }
    rows
}

fn other_rows() -> Vec<Row> {
    let uplift = day_kinds().map(|(kind, on)| (&UPLIFT, days((kind, on, 64))));
    let part = (&LINE_PART, days(("market", false, 64)));
    uplift.chain([part]).collect()
}

fn day_kinds() -> impl Iterator<Item = (&'static str, bool)> {
    let kinds = ["hard", "market"].into_iter();
    kinds.flat_map(|kind| [(kind, false), (kind, true)])
}

fn days((kind, clawback, lines): (&'static str, bool, usize)) -> Stream {
    Stream::Days {
        kind,
        clawback,
        lines,
    }
}

/// A row for each call and stream, whose words are the first cells; with the call's name before them where the heads have a place for it.
fn table(heads: &[&str], rows: &[Row]) {
    let (first, _) = rows[0];
    let names: Vec<&str> = first.passes.iter().map(|(name, _)| *name).collect();
    let others = &names[1..];
    let mut cells: Vec<String> = heads.iter().map(|head| head.to_string()).collect();
    cells.extend(names.iter().map(|name| name.to_string()));
    cells.extend(others.iter().map(|name| format!("proved / {name}")));
    cells.extend(names.iter().map(|name| format!("{name} instructions")));
    println!("| {} |", cells.join(" | "));
    println!("|{}", "---|".repeat(cells.len()));
    for (call, stream) in rows {
        let words = match stream {
            Stream::Days { .. } => stream.words(),
            _ => vec![stream.words().join(" ")],
        };
        let mut cells: Vec<String> = Vec::new();
        if heads.len() > words.len() {
            cells.push(call.name.into());
        }
        cells.extend(words);
        cells.extend(figures(call, stream, names.len()));
        println!("| {} |", cells.join(" | "));
    }
}

/// The cells of a row: times, ratios and instructions. Cells of whom the call isn't made by are empty.
fn figures(call: &Call, stream: &Stream, width: usize) -> Vec<String> {
    let times = times(call, stream);
    let (unit, nanoseconds) = call.unit;
    let time = |&taken: &f64| format!("{} {unit}", significant(taken / nanoseconds));
    let ratio = |ratio: &f64| significant(*ratio);
    let count = |(by, _): &(&str, _)| match instructions::count(call, by, stream) {
        Some(count) => thousands(count),
        None => String::new(),
    };
    let filled = |mut cells: Vec<String>, width| {
        cells.resize(width, String::new());
        cells
    };
    [
        filled(times.nanoseconds.iter().map(time).collect(), width),
        filled(times.ratios[1..].iter().map(ratio).collect(), width - 1),
        filled(call.passes.iter().map(count).collect(), width),
    ]
    .concat()
}

/// Three figures, or all before the point.
fn significant(value: f64) -> String {
    let decimals = match value {
        100.0.. => 0,
        10.0.. => 1,
        _ => 2,
    };
    format!("{value:.decimals$}")
}

/// With a comma before each three digits.
fn thousands(number: u64) -> String {
    let digits = number.to_string();
    let groups = digits.as_bytes().rchunks(3).rev();
    let groups: Vec<String> = groups
        .map(|group| String::from_utf8_lossy(group).into())
        .collect();
    groups.join(",")
}

#[test]
fn figures_are_written_in_short() {
    assert_eq!(
        [1.234, 12.34, 123.4, 4321.0].map(significant),
        ["1.23", "12.3", "123", "4321"]
    );
    assert_eq!(
        [0, 12, 999, 1000, 1234567].map(thousands),
        ["0", "12", "999", "1,000", "1,234,567"]
    );
}
