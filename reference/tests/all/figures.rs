//! K1 to K10 (01 "Figures to check against").

use crate::kept::kept;
use crate::{book_of, K10_FIRST_STEP, K10_REPORT};
use reference::cut::cut;
use reference::k10::k10;
use reference::layout::*;
use reference::matching::Matching;
use reference::quantities::{agino, effective_actual, msiq, operating_totals, pricing_totals};
use reference::report::{cut_report, settle_report, steps_report};
use reference::table1;
use reference::totals::adjusted;
use reference::view::{view, View};

const ENDS: [u32; 14] = [15, 16, 17, 30, 32, 34, 37, 45, 48, 51, 60, 64, 68, 75];

fn views() -> Vec<View> {
    (0..14).map(|step| view(&table1::day(), 0, step)).collect()
}

fn at_end(upper: u32) -> View {
    views()
        .into_iter()
        .find(|view| view.upper == upper)
        .unwrap()
}

#[test]
fn k1_ends_and_fd_table_2_widths() {
    let cut = cut(&table1::line());
    assert_eq!((cut.number, cut.count), (0, 14));
    assert_eq!(cut.ends[..14], ENDS);
    assert_eq!(cut.ends[14..], [0; 42]);
    assert_eq!(
        views().iter().map(|view| view.upper).collect::<Vec<_>>(),
        ENDS
    );
    let widths: Vec<u32> = views().iter().map(|view| view.width).collect();
    assert_eq!(widths, [15, 1, 1, 13, 2, 2, 3, 8, 3, 3, 9, 4, 4, 7]);
}

#[test]
fn k2_first_reschedule() {
    let cut = cut(&table1::line());
    let (end_64, end_68) = (11, 12);
    assert_eq!(
        (cut.prices[1][end_64], cut.flags[1] >> end_64 & 1),
        (36_000, 0)
    );
    assert_eq!(
        (cut.prices[1][end_68], cut.flags[1] >> end_68 & 1),
        (36_000, 1)
    );
    assert_eq!((at_end(64).price[1], at_end(64).flag[1]), (36_000, 0));
    assert_eq!((at_end(68).price[1], at_end(68).flag[1]), (36_000, 1));
}

#[test]
fn fd_table_3_prices() {
    let expected = "cut 14
15 20000 21000 22000 22000 22000
16 25000 21000 22000 22000 22000
17 25000 26000 22000 22000 22000
30 25000 26000 27000 27000 27000
32 30000 26000 27000 27000 27000
34 30000 31000 27000 27000 27000
37 30000 31000 32000 32000 32000
45 30000 31000 32000 32000 32000
48 35000 31000 32000 32000 32000
51 35000 36000 32000 32000 32000
60 35000 36000 37000 37000 37000
64 40000 36000 37000 37000 37000
68 40000 36000 37000 37000 37000
75 40000 36000 37000 37000 37000
flags 0 12288 8192 8192 8192
missing 0 2 1 1 1
";
    assert_eq!(cut_report(&table1::line()), expected);
}

#[test]
fn k3_pricing_totals() {
    let line = table1::line();
    assert_eq!(
        pricing_totals(Line::new(&line).unwrap()),
        [15, 31, 40, 44, 45]
    );
    assert_eq!(
        operating_totals(Line::new(&line).unwrap()),
        [15, 40, 55, 44, 50]
    );
}

#[test]
fn k4_fd_tables_5_and_6() {
    assert_eq!(at_end(32).pricing[1], 1);
    let pricing = [
        [15, 0, 0, 0, 0, 0, 0, 0, 0, 0, 0, 0, 0, 0],
        [15, 1, 1, 13, 1, 0, 0, 0, 0, 0, 0, 0, 0, 0],
        [15, 1, 1, 13, 2, 2, 3, 3, 0, 0, 0, 0, 0, 0],
        [15, 1, 1, 13, 2, 2, 3, 7, 0, 0, 0, 0, 0, 0],
        [15, 1, 1, 13, 2, 2, 3, 8, 0, 0, 0, 0, 0, 0],
    ];
    let operating = [
        [15, 0, 0, 0, 0, 0, 0, 0, 0, 0, 0, 0, 0, 0],
        [15, 1, 1, 13, 2, 2, 3, 3, 0, 0, 0, 0, 0, 0],
        [15, 1, 1, 13, 2, 2, 3, 8, 3, 3, 4, 0, 0, 0],
        [15, 1, 1, 13, 2, 2, 3, 7, 0, 0, 0, 0, 0, 0],
        [15, 1, 1, 13, 2, 2, 3, 8, 3, 2, 0, 0, 0, 0],
    ];
    for (k, view) in views().iter().enumerate() {
        assert_eq!(view.pricing, pricing.map(|row| row[k]));
        assert_eq!(view.operating, operating.map(|row| row[k]));
    }
}

/// FD Table 8 with 01's correction; FD Table 10 has 0 for the schedules before the last.
#[test]
fn k5_effective_actual_and_agino() {
    assert_eq!(effective_actual(Line::new(&table1::line()).unwrap()), 47);
    let last: Vec<u32> = views().iter().map(|view| view.agino[4]).collect();
    assert_eq!(last, [0, 0, 0, 0, 0, 0, 0, 0, 1, 2, 0, 0, 0, 0]);
    assert!(views().iter().all(|view| view.agino[..4] == [0; 4]));
}

#[test]
fn k6_agino_going_back() {
    assert_eq!(agino(&[10, 20, 30, 40, 50], 5), [5, 15, 25, 35, 45]);
}

/// FD Table 12: price, pricing quantity of schedule 4, MSIQ(5), MSIQ(4); market price 2.7.
#[test]
fn fd_table_12_msiq() {
    const ROWS: [[u32; 4]; 14] = [
        [20_000, 15, 15, 15],
        [25_000, 1, 1, 1],
        [25_000, 1, 1, 1],
        [25_000, 13, 13, 13],
        [30_000, 2, 2, 2],
        [30_000, 2, 2, 2],
        [30_000, 3, 3, 3],
        [30_000, 7, 8, 7],
        [35_000, 0, 0, 0],
        [35_000, 0, 0, 0],
        [35_000, 0, 0, 0],
        [40_000, 0, 0, 0],
        [40_000, 0, 0, 0],
        [40_000, 0, 0, 0],
    ];
    for [price, pricing_4, last, before_last] in ROWS {
        let rates = [0, 0, 0, Side::Injection.rate(price, 27_000), 0];
        let msiq = msiq(&[0, 0, 0, pricing_4, last], &rates);
        assert_eq!(msiq[3..], [before_last, last]);
    }
}

#[test]
fn k7_matches() {
    // m(1,2) m(1,3) m(2,3) m(1,4) m(2,4) m(3,4) m(1,5) m(2,5) m(3,5) m(4,5)
    let expected = [0, 1, 2, 0, 0, 0, 1, 0, 0, 2];
    assert_eq!(Matching::new(&[3, 5, 2, 4, 1]).matches, expected);
}

/// K1 and K3 to K7 as the program `steps` prints them: its file for the day of these cases.
#[test]
fn k3_to_k7_in_the_text_of_steps() {
    let text = String::from_utf8(kept("steps", "stdout")).unwrap();
    let line = |case: u32| {
        let whole = text.split("line ").find(|part| {
            let mut words = part.split(' ').skip(1);
            words.next() == Some(case.to_string().as_str())
        });
        whole.unwrap().split("step ").skip(1)
    };
    // A step's rows: its heading, five schedules, its matches. Numbers only.
    let rows = |step: &str| -> Vec<Vec<u32>> {
        let numbers = |row: &str| {
            row.split(' ')
                .filter_map(|word| word.parse().ok())
                .collect()
        };
        step.lines().map(numbers).collect()
    };
    let column = |case: u32, place: usize| -> Vec<Vec<u32>> {
        let steps = line(case).map(rows);
        steps
            .map(|step| (1..=5).map(|s| step[s][place]).collect())
            .collect()
    };
    const OPERATING: usize = 3;
    const PRICING: usize = 4;
    const AGINO: usize = 5;
    const CONSTRAINED: usize = 7;
    let ends: Vec<u32> = line(3).map(|step| rows(step)[0][1]).collect();
    assert_eq!(ends, ENDS);
    let totals = |place: usize| -> Vec<u32> {
        let steps = column(3, place);
        (0..5)
            .map(|s| steps.iter().map(|step| step[s]).sum())
            .collect()
    };
    assert_eq!(totals(PRICING), [15, 31, 40, 44, 45]);
    let end = |upper: u32| ENDS.iter().position(|&end| end == upper).unwrap();
    assert_eq!(column(3, PRICING)[end(32)][1], 1);
    assert_eq!(line(3).map(|step| rows(step)[0][3]).sum::<u32>(), 47);
    assert_eq!(totals(OPERATING)[4], 50);
    assert_eq!(column(3, AGINO)[end(48)][4], 1);
    assert_eq!(column(3, AGINO)[end(51)][4], 2);
    assert_eq!(column(6, OPERATING), [[10, 20, 30, 40, 50]]);
    assert_eq!(column(6, AGINO), [[5, 15, 25, 35, 45]]);
    assert_eq!(column(7, CONSTRAINED), [[3, 5, 2, 4, 1]]);
    let matches: Vec<_> = line(7).map(|step| rows(step)[6].clone()).collect();
    assert_eq!(matches, [[0, 1, 2, 0, 0, 0, 1, 0, 0, 2]]);
}

#[test]
fn k8_k9_adjusted_totals() {
    assert_eq!(adjusted(&[5, -2, 4, -3, 0]), [3, 0, 1, 0, 0]);
    assert_eq!(adjusted(&[5, -8, 4, 0, 0]), [0, -3, 4, 0, 0]);
}

#[test]
fn k10_report() {
    assert_eq!(settle_report(&k10()), K10_REPORT);
}

#[test]
fn k10_book() {
    let mut expected: Vec<u8> = [1u32, 16, 96, 152]
        .into_iter()
        .flat_map(u32::to_le_bytes)
        .collect();
    let pairs = [0i64, 0, 20_000_000, 10_000_000, 0, 0, -10_000_000, 0, 0, 0];
    expected.extend(pairs.into_iter().flat_map(i64::to_le_bytes));
    expected.extend([7u32, 3, 0, 2].into_iter().flat_map(u32::to_le_bytes));
    let payments = [0i64, 20_000_000, 0, -10_000_000, 0];
    expected.extend(payments.into_iter().flat_map(i64::to_le_bytes));
    assert_eq!(book_of(&k10()), expected);
}

/// Worked out by hand from 01's definitions.
#[test]
fn k10_steps() {
    let second = "step 1 3000 2000 500
1 50000 0 0 0 0 0 0 0 0 0 0
2 50000 0 1000 0 0 0 1000 20000000 20000000 20000000 20000000
3 50000 0 1000 0 0 0 1000 0 0 0 0
4 50000 0 500 0 0 0 500 -10000000 -10000000 -10000000 -10000000
5 50000 0 500 0 0 0 500 0 0 0 0
matches 0 0 0 0 500 0 0 0 0 0
excess pricing 0 0 0 0 0 operating 0 0 0 0 0 actual 0
";
    assert_eq!(steps_report(&k10()), [K10_FIRST_STEP, second].concat());
}
