//! What the programs print (01 K10, 02 F-2 and F-1).

use crate::cut::{cut, Cut};
use crate::layout::*;
use crate::refusal::day_number;
use crate::settle::settle;
use crate::uplift::{uplift, Uplift};
use crate::view::{DayView, Excess, View};
use std::fmt::{Display, Write};

pub fn refused(number: u32) -> String {
    format!("refused {number}\n")
}

/// The settling program's report of a day.
pub fn settle_report(day: &[u8]) -> String {
    let mut book = [0; book_length(MOST_LINES)];
    match settle(day, &mut book) {
        0 => book_report(&book),
        number => refused(number),
    }
}

/// The uplift program's report of a day.
pub fn uplift_report(day: &[u8]) -> String {
    match uplift(day) {
        Uplift { number: 0, shares } => {
            let mut text = String::new();
            put(&mut text, "uplift", &shares);
            text
        }
        Uplift { number, .. } => refused(number),
    }
}

/// The cutting program's report of a line.
pub fn cut_report(line: &[u8]) -> String {
    match cut(line) {
        answer @ Cut { number: 0, .. } => steps_of_cut(&answer),
        Cut { number, .. } => refused(number),
    }
}

/// The report of every step of every line of a day.
pub fn steps_report(day: &[u8]) -> String {
    match day_number(day) {
        0 => views_report(&DayView::new(day)),
        number => refused(number),
    }
}

fn book_report(book: &[u8]) -> String {
    let lines = word(book, 0) as usize;
    let mut text = format!("day {lines}\n");
    let starts = (0..lines).map(book_length);
    for part in starts.map(|start| &book[start..start + BOOK_LINE_BYTES]) {
        let key = [0, 1, 2].map(|place| word(part, place));
        let heading = heading(key, word(part, 3) as usize);
        put(&mut text, &heading, &signed_row(part, 16, 8));
    }
    put(&mut text, "total", &book_totals(book));
    put(&mut text, "adjusted", &book_adjusted(book));
    text
}

fn steps_of_cut(answer: &Cut) -> String {
    let mut text = format!("cut {}\n", answer.count);
    for k in 0..answer.count as usize {
        put(
            &mut text,
            &answer.ends[k].to_string(),
            &answer.prices.map(|row| row[k]),
        );
    }
    put(&mut text, "flags", &answer.flags);
    put(&mut text, "missing", &answer.missing);
    text
}

fn views_report(views: &DayView) -> String {
    let mut text = String::new();
    for (k, line) in views.day.lines().enumerate() {
        let steps: Vec<View> = views.line(line).collect();
        let heading = heading(line.key(), steps.len());
        writeln!(text, "line {k} {heading}").unwrap();
        for (j, step) in steps.iter().enumerate() {
            let heading = format!("step {j}");
            put(&mut text, &heading, &[step.upper, step.width, step.actual]);
            (0..SCHEDULES).for_each(|s| put_schedule(&mut text, step, s));
            put(&mut text, "matches", &step.matches);
        }
        put_excess(&mut text, &steps[0].excess);
    }
    text
}

/// The excess of a line, which all of its steps have.
fn put_excess(text: &mut String, excess: &Excess) {
    push(text, "excess pricing", &excess.pricing);
    push(text, " operating", &excess.operating);
    put(text, " actual", &[excess.actual]);
}

fn put_schedule(text: &mut String, step: &View, s: usize) {
    let quantities = [
        step.price[s],
        step.flag[s],
        step.operating[s],
        step.pricing[s],
        step.agino[s],
        step.msiq[s],
        step.constrained_on[s],
    ];
    let payments = [&step.initial, &step.revised, &step.modified, &step.finals];
    let payments = payments.map(|payment| payment[s]);
    let row = [&quantities.map(i64::from)[..], &payments].concat();
    put(text, &(s + 1).to_string(), &row);
}

/// Participant, point, side and step count.
fn heading([participant, point, side]: [u32; 3], steps: usize) -> String {
    let side = match Side::of_word(side) {
        Side::Injection => "INJ",
        Side::Withdrawal => "WDR",
    };
    format!("{participant} {point} {side} {steps}")
}

/// A heading, and values with a space before each.
fn push<T: Display>(text: &mut String, heading: &str, values: &[T]) {
    text.push_str(heading);
    for value in values {
        write!(text, " {value}").unwrap();
    }
}

/// The same and a line feed.
fn put<T: Display>(text: &mut String, heading: &str, values: &[T]) {
    push(text, heading, values);
    text.push('\n');
}
