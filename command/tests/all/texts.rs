//! What `settle`, `steps` and `cut` print, byte for byte. Of `uplift` see there.

use crate::draw::EXAMPLES;
use crate::{k10_each_excess, k10_pulled, run, stored, with_pulled, worked, WORKED};
use mewikofu_command::{cut, figures::Figures, settle, steps};
use reference::generate::{
    damaged_day, damaged_line, excess_day, excess_line, line, small_day, small_excess_day,
    valid_day,
};
use reference::report::{cut_report, settle_report, steps_report};

fn kept(path: &str) -> String {
    String::from_utf8(stored(path)).unwrap()
}

#[test]
fn kept_reports() {
    for name in EXAMPLES.iter().chain(&["refused"]) {
        let run = run(&["settle"], &stored(&format!("examples/{name}.day")));
        assert_eq!(
            String::from_utf8(run.out).unwrap(),
            kept(&format!("examples/{name}.report"))
        );
    }
    for name in [
        "rules",
        "accreditation",
        "pulled",
        "excess",
        "ad-hoc",
        "uplift",
        "open-rises",
        "winter",
    ] {
        let steps = run(&["steps"], &stored(&format!("examples/{name}.day"))).text();
        assert_eq!(steps, kept(&format!("examples/{name}.steps")));
    }
    assert_eq!(
        run(&["steps"], &stored("crates/steps/stdin")).text(),
        kept("crates/steps/stdout")
    );
    assert_eq!(
        run(&["cut"], &stored("crates/cut/stdin")).text(),
        kept("crates/cut/stdout")
    );
}

/// Figures of a third implementation, with totals above the greatest break and with ad hoc records.
#[test]
fn worked_days() {
    for name in WORKED {
        let day = worked(name, "day");
        assert!(run(&["settle"], &day).output() == worked(name, "report"));
        assert!(run(&["steps"], &day).output() == worked(name, "steps"));
    }
}

/// A line's excess is its last row, also where it is 0.
#[test]
fn excess_rows() {
    let last = |day: &[u8]| {
        run(&["steps"], day)
            .text()
            .lines()
            .last()
            .unwrap()
            .to_string()
    };
    let none = "excess pricing 0 0 0 0 0 operating 0 0 0 0 0 actual 0";
    assert_eq!(last(&stored("examples/k10.day")), none);
    let each = "excess pricing 0 1 1000 0 0 operating 0 0 0 0 900 actual 700";
    assert_eq!(last(&k10_each_excess()), each);
}

#[test]
fn reports_are_the_references() {
    for seed in 0..400 {
        let pulled = with_pulled(valid_day(seed), seed);
        for day in [valid_day(seed), damaged_day(seed), excess_day(seed), pulled] {
            let text = match mewikofu::settle(&day) {
                Ok(book) => settle::report(&book),
                Err(refusal) => format!("refused {}\n", refusal.number()),
            };
            assert_eq!(text, settle_report(&day), "{seed}");
        }
    }
}

#[test]
fn steps_are_the_references() {
    for seed in 0..300 {
        let pulled = with_pulled(small_day(seed), seed);
        for day in [small_day(seed), small_excess_day(seed), pulled] {
            let figures = Figures::new(&day).unwrap();
            assert_eq!(steps::text(&figures), steps_report(&day), "{seed}");
        }
    }
}

#[test]
fn cuts_are_the_references() {
    for seed in 0..1_000 {
        for bytes in [line(seed), damaged_line(seed), excess_line(seed)] {
            let text = match mewikofu::cut(&bytes) {
                Ok(answer) => cut::text(&answer),
                Err(refusal) => format!("refused {}\n", refusal.number()),
            };
            assert_eq!(text, cut_report(&bytes), "{seed}");
        }
    }
}

/// K10's bids of $2 up to 1000 and $5 up to 3000, pulled in the schedules 3 and 4: every step has $5 there and is flagged.
#[test]
fn cut_of_pulled_bids() {
    let text = run(&["cut", "--line", "0"], &k10_pulled(&[3, 4])).text();
    let rows = "cut 2\n1000 20000 20000 50000 50000 20000\n3000 50000 50000 50000 50000 50000\n";
    assert_eq!(text, format!("{rows}flags 0 0 3 3 0\nmissing 0 0 2 2 0\n"));
}

/// By the program: generated days and lines, and the lines of a day by their numbers.
#[test]
fn the_programs_output() {
    for seed in 0..20 {
        let day = valid_day(seed);
        assert_eq!(run(&["settle"], &day).text(), settle_report(&day));
        assert_eq!(run(&["steps"], &day).text(), steps_report(&day));
        let k = (seed as usize) % ((day.len() - 64) / 660);
        let bytes = &day[64 + 660 * k..][..660];
        assert_eq!(run(&["cut"], bytes).text(), cut_report(bytes));
        assert_eq!(
            run(&["cut", "--line", &k.to_string()], &day).text(),
            cut_report(bytes)
        );
    }
}
