//! Days with the figures of an implementation by other hands than this one and the proved code.

use reference::report::{settle_report, steps_report};

/// For each name the day, its report and its steps.
macro_rules! worked {
    ($($name:literal)*) => {
        [$([
            &include_bytes!(concat!("../worked/", $name, ".day"))[..],
            include_bytes!(concat!("../worked/", $name, ".report")),
            include_bytes!(concat!("../worked/", $name, ".steps")),
        ]),*]
    };
}

const NO_EXCESS: &str = "excess pricing 0 0 0 0 0 operating 0 0 0 0 0 actual 0\n";

/// Pulled bids (02 F-6). No total exceeds M, and the text of their steps has no row of it.
#[test]
fn pulled() {
    for [day, report, steps] in worked!("F-6-1" "F-6-2" "F-6-3") {
        assert_eq!(settle_report(day).as_bytes(), report);
        let lines = steps_report(day).matches("line ").count();
        let found = steps_report(day).replace(NO_EXCESS, "");
        assert_eq!(found.as_bytes(), steps);
        let rows = steps_report(day).matches(NO_EXCESS).count();
        assert_eq!(rows, lines);
    }
}

/// Totals above M (02 F-2).
#[test]
fn excess() {
    check(&worked!("F-2-1" "F-2-2" "F-2-3"));
}

/// Ad hoc records (02 F-5).
#[test]
fn ad_hoc() {
    check(&worked!("F-5-1" "F-5-2" "F-5-3"));
}

fn check(days: &[[&[u8]; 3]]) {
    for [day, report, steps] in days {
        assert_eq!(settle_report(day).as_bytes(), *report);
        assert_eq!(steps_report(day).as_bytes(), *steps);
    }
}
