//! Demand 3 (01 "Totals and book", "Matching") and what 02 F-2 and F-5 make of it, on generated days.

use crate::{book_of, law_days, line_count};
use reference::cut::cut;
use reference::layout::*;
use reference::line_part::line_part;
use reference::matching::pair;
use reference::quantities::{effective_actual, operating_totals, pricing_totals};
use reference::view::{line_views, view, DayView, LineViews, View};

#[test]
fn steps_and_quantities_add_up() {
    for day in law_days() {
        let views = DayView::new(&day);
        for (k, line) in views.day.lines().enumerate() {
            let steps: Vec<View> = views.line(line).collect();
            check_cut(line_part(&day, k as u64), &steps, Layout::named(&day));
            let widths: u32 = steps.iter().map(|v| v.width).sum();
            assert_eq!(widths, line.greatest_break());
            check_totals(line, &steps);
        }
    }
}

/// Steps and the excess, which each step's view has, add up to the totals. The excess isn't constrained on.
fn check_totals(line: Line, steps: &[View]) {
    let last = steps.last().unwrap();
    assert!(steps.iter().all(|v| v.excess == last.excess));
    for s in 0..SCHEDULES {
        let sum = |of: fn(&View) -> BySchedule<u32>| -> u64 {
            steps.iter().map(|v| u64::from(of(v)[s])).sum()
        };
        let pricing = sum(|v| v.pricing) + u64::from(last.excess.pricing[s]);
        assert_eq!(pricing_totals(line)[s], pricing);
        let operating = sum(|v| v.operating);
        let excess = u64::from(last.excess.operating[s]);
        assert_eq!(operating_totals(line)[s], operating + excess);
        assert!(sum(|v| v.constrained_on) <= operating_totals(line)[s] - excess);
    }
    let actual: u32 = steps.iter().map(|v| v.actual).sum();
    assert_eq!(effective_actual(line), actual + last.excess.actual);
    assert!(last.excess.actual <= last.excess.operating[SCHEDULES - 1]);
}

/// The cutter's ends and flags are the view's, and a width is an end less the one before. Where ad hoc rows are in
/// force it may refuse the line for its own.
fn check_cut(line: &[u8], steps: &[View], layout: Layout) {
    let cut = cut(line);
    if layout == Layout::AdHoc && cut.number == 12 {
        return;
    }
    assert_eq!((cut.number, cut.count as usize), (0, steps.len()));
    let mut lower = 0;
    for (k, step) in steps.iter().enumerate() {
        assert_eq!((cut.ends[k], cut.ends[k] - lower), (step.upper, step.width));
        lower = cut.ends[k];
        let flags = cut.flags.map(|word| (word >> k & 1) as u32);
        assert_eq!(flags, step.flag);
        assert!((0..SCHEDULES).all(|s| cut.prices[s][k] >= step.price[s]));
    }
    assert_eq!(cut.missing, cut.flags.map(u64::count_ones));
}

#[test]
fn step_limits_and_matches() {
    for day in law_days() {
        let views = DayView::new(&day);
        for step in views.day.lines().flat_map(|line| views.line(line)) {
            assert!((0..SCHEDULES).all(|s| step.agino[s] <= step.operating[s]));
            assert!((0..SCHEDULES).all(|s| step.msiq[s] <= step.pricing[s]));
            check_matches(&step);
        }
    }
}

fn check_matches(step: &View) {
    let c = step.constrained_on.map(i64::from);
    let change = |s: usize| c[s] - if s == 0 { 0 } else { c[s - 1] };
    let m = |r, s| i64::from(step.matches[pair(r, s)]);
    let mut open = 0;
    for (s, &constrained_on) in c.iter().enumerate() {
        let of_fall: i64 = (0..s).map(|r| m(r, s)).sum();
        assert_eq!(of_fall, (-change(s)).max(0));
        let of_rise: i64 = (s + 1..SCHEDULES).map(|later| m(s, later)).sum();
        assert!(of_rise <= change(s).max(0));
        open += change(s).max(0) - of_fall;
        assert_eq!(open, constrained_on);
    }
}

#[test]
fn book_balances() {
    for day in law_days() {
        let book = book_of(&day);
        let totals: Vec<i64> = (0..5).map(|s| signed(&book, 16 + 16 * s)).collect();
        let adjusted: Vec<i64> = (0..5).map(|s| signed(&book, 24 + 16 * s)).collect();
        let mut all_payments = 0;
        for line in 0..line_count(&day) {
            for s in 0..5 {
                let payment = signed(&book, 96 + 56 * line + 16 + 8 * s);
                assert!(payment.abs() <= 2_000_000_000_000_000);
                all_payments += payment;
            }
        }
        assert_eq!(adjusted.iter().sum::<i64>(), all_payments);
        assert!(totals[0] >= 0);
        let first_positive = adjusted.iter().position(|&a| a > 0).unwrap_or(5);
        assert!(adjusted[first_positive..].iter().all(|&a| a >= 0));
    }
}

/// The view asked step by step is the one that goes through the day once, and that of all steps of a line.
#[test]
fn one_view_and_all_views() {
    for day in law_days().filter(|day| line_count(day) < 8) {
        let views = DayView::new(&day);
        for (k, line) in views.day.lines().enumerate() {
            let steps: Vec<View> = views.line(line).collect();
            let asked = (0..steps.len()).map(|j| view(&day, k as u64, j as u64));
            assert!(asked.eq(steps.iter().cloned()));
            assert_eq!(view(&day, k as u64, steps.len() as u64).number, 17);
            let (number, views) = (0, steps);
            assert_eq!(line_views(&day, k as u64), LineViews { number, views });
        }
    }
}
