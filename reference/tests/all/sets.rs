//! Accreditation by schedule (02 F-7): what it decides and what it doesn't.

use crate::{book_of, line_count, set_days, valid_days};
use reference::k10::k10;
use reference::layout::*;
use reference::report::settle_report;
use reference::view::{DayView, View};

/// The day with each line's accreditation changed.
fn with_accreditation(day: &[u8], to: impl Fn(u32) -> u32) -> Vec<u8> {
    let mut day = day.to_vec();
    for k in 0..line_count(&day) {
        let place = day_length(k) / 4 + ACCREDITATION;
        let word = to(word(&day, place));
        put_word(&mut day, place, word);
    }
    day
}

fn views(day: &[u8]) -> Vec<View> {
    let views = DayView::new(day);
    let lines = views.day.lines();
    lines.flat_map(|line| views.line(line)).collect()
}

#[test]
fn empty_set_is_0_and_full_set_is_1() {
    for day in valid_days() {
        let by_sets = with_accreditation(&day, |word| EMPTY_SET + 31 * word);
        assert_eq!(views(&by_sets), views(&day));
        assert_eq!(book_of(&by_sets), book_of(&day));
    }
}

/// The view of a step without its payments.
fn without_payments(view: &View) -> View {
    View {
        initial: [0; 5],
        revised: [0; 5],
        modified: [0; 5],
        finals: [0; 5],
        ..view.clone()
    }
}

/// Beside the same day with all lines accredited: payments before T are the same or 0, and all else is the same.
#[test]
fn accreditation_decides_payments_alone() {
    for day in set_days() {
        let all = with_accreditation(&day, |_| 1);
        let (some, all) = (DayView::new(&day), DayView::new(&all));
        for (line, of_all) in some.day.lines().zip(all.day.lines()) {
            for (step, full) in some.line(line).zip(all.line(of_all)) {
                assert_eq!(without_payments(&step), without_payments(&full));
                let kinds = |v: &View| [v.initial, v.revised, v.modified];
                let kept = |s| if line.accredited(s) { 1 } else { 0 };
                let expected = kinds(&full).map(|kind| std::array::from_fn(|s| kept(s) * kind[s]));
                assert_eq!(kinds(&step), expected);
                assert!((0..5).all(|s| line.accredited(s) || step.finals[s] == 0));
            }
        }
    }
}

/// K10's step rises by 1000 in schedule 2 and falls by 500 in schedule 4, at a rate of 20000.
#[test]
fn k10_with_each_set() {
    for set in 0..32 {
        let [second, fourth] = [set >> 1 & 1, set >> 3 & 1];
        let (rise, fall) = (20_000_000 * second, -10_000_000 * fourth);
        let adjusted = match (second, fourth) {
            (1, 1) => "0 10000000 0 0 0",
            (1, 0) => "0 20000000 0 0 0",
            (0, 1) => "0 0 0 -10000000 0",
            _ => "0 0 0 0 0",
        };
        let payments = format!("0 {rise} 0 {fall} 0");
        let report =
            format!("day 1\n7 3 INJ 2 {payments}\ntotal {payments}\nadjusted {adjusted}\n");
        let day = with_accreditation(&k10(), |_| 32 + set as u32);
        assert_eq!(settle_report(&day), report, "set {set}");
    }
}
