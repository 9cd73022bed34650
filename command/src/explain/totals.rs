//! Totals and adjusted totals (document 01, "Totals and book"), beside the book's.

use super::sentences::money;
use crate::figures::Figures;
use crate::layout::*;

/// Whether the book's totals are the sums of its lines' payments, and its adjusted totals what the rule makes of them.
pub fn check(day: &Figures) -> Result<(), String> {
    let sums: BySchedule<i64> =
        std::array::from_fn(|s| day.lines.iter().map(|line| line.entry.payments[s]).sum());
    if sums != day.book.totals() {
        return Err(format!(
            "the lines' payments add up to {sums:?} units, and the book's totals are {:?}",
            day.book.totals()
        ));
    }
    let adjusted = adjusted(sums);
    match adjusted == day.book.adjusted() {
        true => Ok(()),
        false => Err(format!(
            "the adjusted totals are worked out as {adjusted:?} units, and the book has {:?}",
            day.book.adjusted()
        )),
    }
}

fn adjusted(totals: BySchedule<i64>) -> BySchedule<i64> {
    let mut adjusted = [0; SCHEDULES];
    for s in 0..SCHEDULES {
        adjusted[s] = match s == 0 || totals[s] >= 0 {
            true => least_sum(&totals, s).max(0),
            false => (totals[s] + kept_back(&totals, &adjusted, s)).min(0),
        };
    }
    adjusted
}

/// The least of t(s), t(s) + t(s+1), .. up to schedule 5.
fn least_sum(totals: &BySchedule<i64>, s: usize) -> i64 {
    let mut sum = 0;
    let sums = totals[s..].iter().map(|total| {
        sum += total;
        sum
    });
    sums.fold(i64::MAX, i64::min)
}

/// The sum of t - a over earlier schedules.
fn kept_back(totals: &BySchedule<i64>, adjusted: &BySchedule<i64>, s: usize) -> i64 {
    (0..s).map(|r| totals[r] - adjusted[r]).sum()
}

/// One sentence for each schedule.
pub fn sentences(day: &Figures) -> Vec<String> {
    let (totals, adjusted) = (day.book.totals(), day.book.adjusted());
    let sentence = |s: usize| {
        let (t, a) = (money(totals[s]), money(adjusted[s]));
        let why = why(&totals, &adjusted, s);
        format!("Schedule {}: total {t}, adjusted {a}: {why}.", s + 1)
    };
    (0..SCHEDULES).map(sentence).collect()
}

fn why(totals: &BySchedule<i64>, adjusted: &BySchedule<i64>, s: usize) -> String {
    if s > 0 && totals[s] < 0 {
        let kept = money(kept_back(totals, adjusted, s));
        return format!(
            "it is below $0, so what earlier schedules kept back, {kept}, is added, up to at most $0"
        );
    }
    let least = money(least_sum(totals, s));
    match s {
        4 => "no schedule comes after, so it is the total, but at least $0".to_string(),
        _ => format!(
            "the least of this total and its sums with those that follow, up to schedule 5, is \
             {least}, and the adjusted total is that, but at least $0"
        ),
    }
}
