//! What is drawn is what was settled: before a page is made the figures of the book, of the uplift, of the views and of the cutter are compared.

use crate::amounts::{money, price};
use crate::figures::{Figures, Line};
use crate::layout::*;
use crate::uplift::Uplift;
use mewikofu::{Cut, View};

type Fits<T> = std::result::Result<T, String>;

/// The rise of C in schedule s, below 0 where it falls.
pub fn change(step: &View, s: usize) -> i64 {
    let before = match s {
        0 => 0,
        _ => step.constrained[s - 1],
    };
    i64::from(step.constrained[s]) - i64::from(before)
}

/// Each line's steps from the cutter, or what doesn't fit together.
pub fn cuts(day: &Figures) -> Fits<Vec<Cut>> {
    totals(day)?;
    Uplift::new(&day.book, day.uplift)?;
    let cut = |(k, line): (usize, &Line)| {
        let cut = mewikofu::cut(&line.bytes).map_err(|refusal| refusal.to_string())?;
        payments(line).map_err(|why| format!("line {k}, {why}"))?;
        excess(line).map_err(|why| format!("line {k}, {why}"))?;
        prices(day, line, &cut).map_err(|why| format!("line {k}, {why}"))?;
        Ok(cut)
    };
    day.lines.iter().enumerate().map(cut).collect()
}

/// The lines' payments add up to the totals, and the totals to the adjusted ones.
fn totals(day: &Figures) -> Fits<()> {
    let (total, adjusted) = (day.book.totals(), day.book.adjusted());
    for (s, &total) in total.iter().enumerate() {
        let sum: i64 = day.lines.iter().map(|line| line.entry.payments[s]).sum();
        same(sum, total, || format!("lines in schedule {}", s + 1))?;
    }
    same(adjusted.iter().sum(), total.iter().sum(), || {
        "adjusted totals".to_string()
    })
}

fn same(sum: i64, whole: i64, what: impl Fn() -> String) -> Fits<()> {
    match sum == whole {
        true => Ok(()),
        false => Err(format!(
            "{}: {} in sum, and the book has {}",
            what(),
            money(sum),
            money(whole)
        )),
    }
}

/// A line's drawn payments add up to the book's; a step that isn't paid has none, a rise is never charged and a fall never paid.
fn payments(line: &Line) -> Fits<()> {
    if line.steps.len() != line.entry.steps as usize {
        return Err(format!(
            "steps: {} drawn, and the book has {}",
            line.steps.len(),
            line.entry.steps
        ));
    }
    for s in 0..SCHEDULES {
        for (j, step) in line.steps.iter().enumerate() {
            let (paid, change) = (step.finals[s], change(step, s));
            let is_paid = line.is_paid(step, s);
            if paid != 0 && (!is_paid || paid.signum() != change.signum()) {
                return Err(format!(
                    "step {j}, schedule {}: {} for a change of {change} MJ on a step that is {}paid",
                    s + 1,
                    money(paid),
                    if is_paid { "" } else { "not " }
                ));
            }
        }
        let sum: i64 = line.steps.iter().map(|step| step.finals[s]).sum();
        same(sum, line.entry.payments[s], || {
            format!("steps in schedule {}", s + 1)
        })?;
    }
    Ok(())
}

/// Every step has the line's excess, with which the steps' quantities add up to the line's totals and its effective actual.
fn excess(line: &Line) -> Fits<()> {
    let own = line.excess();
    if line.steps.iter().any(|step| step.excess != own) {
        return Err("excess: not the same in the views of all steps".to_string());
    }
    let adds_up = |what: &str, quantity: &dyn Fn(&View) -> u32, excess: u32, total: u64| {
        let steps = line.steps.iter().map(|step| u64::from(quantity(step)));
        let sum = steps.sum::<u64>() + u64::from(excess);
        match sum == total {
            true => Ok(()),
            false => Err(format!(
                "{what}: {sum} MJ with the excess, and the line has {total} MJ"
            )),
        }
    };
    for s in 0..SCHEDULES {
        let schedule = s + 1;
        let (operating, pricing) = (line.totals.operating[s], line.totals.pricing[s]);
        let what = format!("operating quantities in schedule {schedule}");
        adds_up(
            &what,
            &|step| step.operating[s],
            own.operating[s],
            operating,
        )?;
        let what = format!("pricing quantities in schedule {schedule}");
        adds_up(&what, &|step| step.pricing[s], own.pricing[s], pricing)?;
    }
    let total = line.totals.actual;
    adds_up("effective actuals", &|step| step.actual, own.actual, total)
}

/// The views have the cutter's ends, flags and, cut down to the cap, prices.
fn prices(day: &Figures, line: &Line, cut: &Cut) -> Fits<()> {
    let ends: Vec<u32> = line.steps.iter().map(|step| step.end).collect();
    if ends != cut.ends() {
        return Err("ends: the views' aren't the cutter's".to_string());
    }
    for (j, step) in line.steps.iter().enumerate() {
        for s in 0..SCHEDULES {
            let bid = cut.prices[s][j];
            let capped = match day.market.marks[s] {
                true => bid.min(day.market.cap),
                false => bid,
            };
            if step.price[s] != capped || (step.flag[s] == 1) != cut.flag(s, j) {
                return Err(format!(
                    "step {j}, schedule {}: the view's price is {}, the cutter's {}",
                    s + 1,
                    price(step.price[s]),
                    price(bid)
                ));
            }
        }
    }
    Ok(())
}
