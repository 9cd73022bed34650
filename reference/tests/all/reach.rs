//! That the generated days reach what the laws are to be tried on.

use crate::kept::entries;
use crate::{line_count, valid_days};
use reference::cut::Steps;
use reference::generate::{line, line_with_steps};
use reference::layout::*;
use reference::quantities::{operating_totals, pricing_totals};
use reference::refusal::{cut_number, day_number};
use reference::view::{DayView, View};
use std::collections::BTreeSet;

/// What was met on a day.
#[derive(Default)]
pub struct Met(BTreeSet<&'static str>);

impl Met {
    pub fn note(&mut self, what: &'static str, met: bool) {
        if met {
            self.0.insert(what);
        }
    }

    /// Those of `wanted` that weren't met.
    pub fn missing(&self, wanted: &[&'static str]) -> Vec<&'static str> {
        let missing = wanted.iter().filter(|what| !self.0.contains(*what));
        missing.copied().collect()
    }

    fn day(&mut self, day: &[u8]) {
        let views = DayView::new(day);
        let market = &views.day.market;
        self.note("one line", line_count(day) == 1);
        self.note("64 lines", line_count(day) == 64);
        self.note("clawback off", !market.clawback);
        self.note(
            "market price at its limit",
            market.prices.contains(&PRICE_LIMIT),
        );
        for line in views.day.lines() {
            let steps: Vec<View> = views.line(line).collect();
            self.line(line, &steps);
            steps.iter().for_each(|step| self.step(step));
        }
        for side in [Side::Injection, Side::Withdrawal] {
            let lines = views.day.lines().filter(|line| line.side() == side);
            let accredited = lines.filter(|line| line.word(ACCREDITATION) == 1);
            let steps: Vec<View> = accredited.flat_map(|line| unhedged(&views, line)).collect();
            (1..5).for_each(|s| self.pool(&steps, s, side));
        }
    }

    fn line(&mut self, line: Line, steps: &[View]) {
        self.note("injection", line.side() == Side::Injection);
        self.note("withdrawal", line.side() == Side::Withdrawal);
        self.note("not accredited", line.word(ACCREDITATION) == 0);
        self.note("hedge", line.word(HEDGE) != 0);
        self.note("56 steps", steps.len() == 56);
        self.note("one step", steps.len() == 1);
        self.note("quantity limit", line.greatest_break() == QUANTITY_LIMIT);
        self.note(
            "a line without flags",
            steps.iter().all(|v| v.flag == [0; 5]),
        );
        let uncapped = Steps::new(line).map(|step| step.prices);
        self.note("cap in effect", steps.iter().map(|v| v.price).ne(uncapped));
    }

    fn step(&mut self, v: &View) {
        self.note("flag", v.flag != [0; 5]);
        self.note("price limit", v.price.contains(&PRICE_LIMIT));
        self.note(
            "AGINO in all schedules",
            v.agino.iter().all(|&agino| agino > 0),
        );
        self.note("MSIQ below E", v.msiq != v.pricing);
        self.note(
            "two matches of a fall",
            v.matches[6..].iter().filter(|&&m| m > 0).count() > 1,
        );
        for s in 1..5 {
            let of_flag = v.flag[s] == 1 && v.finals[s] == v.modified[s];
            self.note(
                "final is modified by flag",
                of_flag && v.modified[s] != v.revised[s],
            );
            self.note(
                "final is revised",
                v.finals[s] == v.revised[s] && v.revised[s] != v.initial[s],
            );
        }
    }

    /// Where the quotient T times D / B decides a final payment, or the initial is greater.
    fn pool(&mut self, steps: &[View], s: usize, side: Side) {
        let change =
            |v: &View| i128::from(v.constrained_on[s]) - i128::from(v.constrained_on[s - 1]);
        let total: i128 = steps.iter().map(|v| i128::from(v.revised[s])).sum();
        let rises: i128 = steps.iter().map(|v| change(v).max(0)).sum();
        let falls: i128 = steps.iter().map(|v| (-change(v)).max(0)).sum();
        let base = rises.max(falls);
        for v in steps
            .iter()
            .filter(|v| v.flag[s] == 0 && v.initial[s] < 0 && total > 0)
        {
            let product = total * -change(v);
            let pooled = i128::from(v.revised[s]) - product / base;
            let exact = product % base == 0;
            let by_pool = i128::from(v.finals[s]) == pooled && v.finals[s] > v.initial[s];
            let decided = by_pool && v.finals[s] != v.revised[s];
            self.note(
                "pooled injection with a remainder",
                decided && !exact && side == Side::Injection,
            );
            self.note(
                "pooled withdrawal with a remainder",
                decided && !exact && side == Side::Withdrawal,
            );
            self.note(
                "product above 64 bits",
                decided && product > i128::from(u64::MAX),
            );
            let kept = v.finals[s] == v.initial[s] && pooled < i128::from(v.initial[s]);
            self.note(
                "initial above the pooled",
                kept && v.initial[s] < v.revised[s],
            );
        }
    }
}

/// What days without fault are to reach and don't.
fn not_reached(days: impl Iterator<Item = Vec<u8>>) -> Vec<&'static str> {
    let mut met = Met::default();
    for day in days {
        assert_eq!(day_number(&day), 0);
        met.day(&day);
    }
    let wanted = [
        "one line",
        "64 lines",
        "clawback off",
        "market price at its limit",
        "injection",
        "withdrawal",
        "not accredited",
        "hedge",
        "56 steps",
        "one step",
        "quantity limit",
        "a line without flags",
        "flag",
        "cap in effect",
        "price limit",
        "AGINO in all schedules",
        "MSIQ below E",
        "two matches of a fall",
        "final is modified by flag",
        "final is revised",
        "pooled injection with a remainder",
        "pooled withdrawal with a remainder",
        "product above 64 bits",
        "initial above the pooled",
    ];
    met.missing(&wanted)
}

/// The unhedged steps of a line.
pub fn unhedged<'a>(views: &DayView<'a>, line: Line<'a>) -> Vec<View> {
    let hedged = |v: &View| v.upper <= line.word(HEDGE);
    views.line(line).skip_while(hedged).collect()
}

#[test]
fn generated_days_reach() {
    assert_eq!(not_reached(valid_days()), [""; 0]);
}

/// Days of the layout with ad hoc records; of the others those with a total above M, others with a pulled bid, others
/// with a set of schedules, and those of document 01 alone.
#[derive(PartialEq, Eq)]
pub enum Kind {
    AdHoc,
    Excess,
    Pulled,
    Sets,
    Plain,
}

impl Kind {
    fn of(day: &[u8]) -> Kind {
        let is_pulled = |line: Line| (0..SCHEDULES).any(|bid| line.is_pulled(bid));
        let is_set = |line: Line| line.word(ACCREDITATION) >= EMPTY_SET;
        let layout = Layout::named(day);
        let day = Day::new(day);
        if layout == Layout::AdHoc {
            Kind::AdHoc
        } else if day.lines().any(has_excess) {
            Kind::Excess
        } else if day.lines().any(is_pulled) {
            Kind::Pulled
        } else if day.lines().any(is_set) {
            Kind::Sets
        } else {
            Kind::Plain
        }
    }
}

/// By how much a line's pricing and operating totals are above M.
pub fn excess_of(line: Line) -> [BySchedule<u64>; 2] {
    let most = u64::from(line.greatest_break());
    let above = |totals: BySchedule<u64>| totals.map(|total| total.saturating_sub(most));
    [pricing_totals(line), operating_totals(line)].map(above)
}

/// Some pricing or operating total is above M.
pub fn has_excess(line: Line) -> bool {
    excess_of(line).as_flattened().iter().any(|&x| x > 0)
}

/// The accepted days of a kind in the pack that a program is run on.
pub fn accepted(program: &str, kind: Kind) -> Vec<Vec<u8>> {
    let days = entries(program).into_iter();
    days.filter(|day| day_number(day) == 0 && Kind::of(day) == kind)
        .collect()
}

/// The days that the program `check_steps` is run on.
#[test]
fn days_of_steps_days_reach() {
    let valid = accepted("check_steps", Kind::Plain);
    assert!(valid.len() >= 60);
    assert!(valid.iter().filter(|day| line_count(day) >= 20).count() >= 5);
    assert_eq!(not_reached(valid.into_iter()), [""; 0]);
}

#[test]
fn lines_have_the_steps_asked_for() {
    for steps in 1..=MOST_STEPS {
        for seed in 0..20 {
            let line = line_with_steps(seed, steps);
            assert_eq!(reference::cut::cut(&line).count as usize, steps);
        }
    }
    assert!((0..500).all(|seed| cut_number(&line(seed)) == 0));
}
