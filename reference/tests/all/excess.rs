//! Totals above M (02 F-2): how far they may go, what the view shows of them, and what they leave as it is.

use crate::pulled::put_bid;
use crate::reach::excess_of;
use crate::{book_of, excess_days, line_count, numbers, K10_FIRST_STEP};
use reference::cut::cut;
use reference::generate::excess_k10_days;
use reference::k10::k10_of;
use reference::layout::*;
use reference::quantities::{allocate, Allocation};
use reference::refusal::line_part_number;
use reference::report::{settle_report, steps_report};
use reference::view::{view, DayView, Excess, View};

/// FD Table 1's steps that end at 30, 60 and 75, and M, 75.
#[test]
fn allocation() {
    let allocated = |total, lower, upper| {
        let Allocation { on_step, excess } = allocate(total, 75, lower, upper);
        (on_step, excess)
    };
    for (total, on_steps, excess) in [
        (0, [0, 0, 0], 0),
        (31, [30, 1, 0], 0),
        (74, [30, 30, 14], 0),
        (75, [30, 30, 15], 0),
        (76, [30, 30, 15], 1),
        (1075, [30, 30, 15], 1000),
    ] {
        let steps = [(0, 30), (30, 60), (60, 75)];
        let found = steps.map(|(lower, upper)| allocated(total, lower, upper));
        assert_eq!(found, on_steps.map(|on_step| (on_step, excess)), "{total}");
    }
}

/// K10's day with some words of its line put.
fn k10_with(words: &[(usize, u32)]) -> Vec<u8> {
    k10_of_side_with(Side::Injection, words)
}

fn k10_of_side_with(side: Side, words: &[(usize, u32)]) -> Vec<u8> {
    let mut day = k10_of(side);
    for &(place, value) in words {
        put_word(line_mut(&mut day, 0), place, value);
    }
    day
}

const SIDES: [Side; 2] = [Side::Injection, Side::Withdrawal];

/// The numbers of that day on each side.
fn numbers_with(words: &[(usize, u32)]) -> [[u32; 4]; 2] {
    SIDES.map(|side| numbers(&k10_of_side_with(side, words)))
}

/// K10's line as a withdrawal, also with totals above M: prices are as far from the market price, 30000, on its other
/// side, and all other figures are those of the injection.
#[test]
fn k10_as_a_withdrawal() {
    let [mut injections, mut withdrawals] = SIDES.map(excess_k10_days);
    injections.push(k10_of(Side::Injection));
    withdrawals.push(k10_of(Side::Withdrawal));
    assert_eq!(injections.len(), withdrawals.len());
    for (injection, withdrawal) in injections.iter().zip(&withdrawals) {
        assert_eq!(numbers(injection), numbers(withdrawal));
        let report = settle_report(injection).replace("INJ", "WDR");
        assert_eq!(settle_report(withdrawal), report);
        for step in 0..2 {
            let expected = view(injection, 0, step);
            let price = match expected.number {
                0 => expected.price.map(|price| 60_000 - price),
                _ => [0; 5],
            };
            assert_eq!(view(withdrawal, 0, step), View { price, ..expected });
        }
    }
}

/// M is 3000. Every pricing total of K10 is 1000, and its operating totals are 1000, 2000, 2000, 1500 and 1500; here
/// the last interval gets more.
#[test]
fn totals_of_k10_up_to_4000() {
    const OPERATING: [u32; 5] = [1000, 2000, 2000, 1500, 1500];
    for (s, operating) in OPERATING.into_iter().enumerate() {
        for (place, other) in [
            (pricing_place(s, 4), 1000),
            (operating_place(s, 4), operating),
        ] {
            for (total, number) in [(3000, 0), (3001, 0), (3999, 0), (4000, 0), (4001, 12)] {
                let words = [(place, total - other)];
                assert_eq!(numbers_with(&words), [[number; 4]; 2], "{total} in {s}");
                assert_eq!(line_part_number(&k10_with(&words), 0), 0);
            }
        }
    }
}

/// With M at the quantity limit an entry may be 1,000 above it. Break, hedge and actual may not.
#[test]
fn entries_above_the_quantity_limit() {
    let raised = (break_place(2, 1), 200_000_000);
    for s in 0..SCHEDULES {
        let operating: Vec<_> = (0..4).map(|i| (operating_place(s, i), 0)).collect();
        let pricing = vec![(pricing_place(0, 0), 0)];
        let last = [operating_place(s, 4), pricing_place(s, 4)];
        for (cleared, last) in [operating, pricing].into_iter().zip(last) {
            for (total, number) in [(200_000_001, 0), (200_001_000, 0), (200_001_001, 12)] {
                let words = [&cleared[..], &[raised, (last, total)]].concat();
                assert_eq!(numbers_with(&words), [[number; 4]; 2], "{total}");
            }
        }
    }
    let entry = (operating_place(4, 4), 199_999_500); // 200_001_000 in sum
    for (place, number) in [(break_place(2, 1), 8), (HEDGE, 11), (actual_place(4), 13)] {
        for (value, number) in [(200_000_000, 0), (200_000_001, number)] {
            let day = k10_with(&[raised, entry, (place, value)]);
            assert_eq!(numbers(&day), [number; 4], "word {place} as {value}");
        }
    }
}

/// Five words whose sum is small, or M, in 32 bits: 5 x 858,993,460 = 2^32 + 4, and others. Pricing entries that other
/// totals share are small here.
#[test]
fn sums_above_32_bits() {
    const FIFTH: u32 = 858_993_460;
    const ROWS: [[u32; 5]; 4] = [
        [FIFTH; 5],
        [FIFTH, FIFTH, FIFTH, FIFTH, FIFTH - 4],
        [u32::MAX, u32::MAX, u32::MAX, u32::MAX, 3004],
        [1 << 31, 0, 0, 2999, 1 << 31],
    ];
    for s in 0..SCHEDULES {
        for row in ROWS {
            let words: Vec<_> = (0..5).map(|i| (operating_place(s, i), row[i])).collect();
            assert_eq!(numbers_with(&words), [[12; 4]; 2], "{row:?}");
        }
    }
    let pricing: [&[(usize, u32)]; 5] = [
        &[(1, 1 << 30), (2, 1 << 30), (3, 1 << 30), (4, 1 << 30)],
        &[(2, u32::MAX), (3, 1), (4, 1)],
        &[(3, 1 << 31), (4, 1 << 31)],
        &[(4, u32::MAX)],
        &[(4, u32::MAX)],
    ];
    for (s, own) in pricing.into_iter().enumerate() {
        let words: Vec<_> = own.iter().map(|&(i, x)| (pricing_place(s, i), x)).collect();
        assert_eq!(numbers_with(&words), [[12; 4]; 2], "pricing of {s}");
    }
}

/// A day of one accredited injection with one step up to 1000 at 50000 in each bid, market prices 30000, nothing
/// priced, the first four operating rows 0, and this fifth row and these actuals in intervals 1 and 2.
fn one_step_day(row: [u32; 2], actuals: [u32; 2]) -> Vec<u8> {
    let mut words = vec![(pricing_place(0, 0), 0)];
    for i in 0..2 {
        words.extend((0..4).map(|s| (operating_place(s, i), 0)));
        words.extend([
            (operating_place(4, i), row[i]),
            (actual_place(i), actuals[i]),
        ]);
    }
    let mut day = k10_with(&words);
    (0..SCHEDULES).for_each(|s| put_bid(line_mut(&mut day, 0), s, &[(1000, 50_000)]));
    day
}

/// The figures are those of min(Q, M) and not those of a file with a row cut to M: the effective actual is 900 here,
/// and would be 700 with the first entry as 400.
#[test]
fn effective_actual_is_of_the_whole_row() {
    let with_excess = view(&one_step_day([600, 600], [600, 300]), 0, 0);
    assert_eq!((with_excess.actual, with_excess.operating[4]), (900, 1000));
    assert_eq!(with_excess.constrained_on, [0, 0, 0, 0, 900]);
    assert_eq!(with_excess.excess.operating, [0, 0, 0, 0, 200]);
    assert_eq!(with_excess.excess.actual, 0);
    assert_eq!(with_excess.finals, [0, 0, 0, 0, 18_000_000]);
    let cut = view(&one_step_day([400, 600], [600, 300]), 0, 0);
    assert_eq!((cut.actual, cut.operating[4]), (700, 1000));
    assert_eq!(cut.constrained_on, [0, 0, 0, 0, 700]);
    assert_eq!(cut.excess.operating, [0; 5]);
    assert_eq!(cut.finals, [0, 0, 0, 0, 14_000_000]);
}

/// Worked out by hand. What isn't delivered of the excess takes nothing from the step: AGINO(5) = 1000 - min(A, 1000).
#[test]
fn undelivered_excess() {
    for (actual, on_step, excess, constrained_on) in [
        (1200, 1000, 200, 1000),
        (1001, 1000, 1, 1000),
        (1000, 1000, 0, 1000),
        (999, 999, 0, 999),
        (0, 0, 0, 0),
    ] {
        let found = view(&one_step_day([1200, 0], [actual, 0]), 0, 0);
        assert_eq!((found.actual, found.excess.actual), (on_step, excess));
        assert_eq!(found.agino[4], 1000 - on_step);
        assert_eq!(found.constrained_on[4], constrained_on);
        assert_eq!(found.excess.operating[4], 200);
    }
}

/// The second step, worked out by hand: K10 with a pricing total of 3001 in schedule 3, an operating total of 4000 in
/// schedule 2 and one of 3250 in schedule 5, of which 3249 are delivered.
const K10_EXCESS_STEP: &str = "step 1 3000 2000 2000
1 50000 0 0 0 0 0 0 0 0 0 0
2 50000 0 2000 0 0 0 2000 40000000 40000000 40000000 40000000
3 50000 0 1000 2000 0 2000 0 -40000000 -40000000 -40000000 -40000000
4 50000 0 500 0 0 0 500 10000000 10000000 10000000 10000000
5 50000 0 2000 0 0 0 2000 30000000 30000000 30000000 30000000
matches 0 0 2000 0 0 0 0 0 0 0
excess pricing 0 0 1 0 0 operating 0 1000 0 0 250 actual 249
";

const K10_EXCESS_REPORT: &str = "day 1
7 3 INJ 2 0 40000000 -40000000 10000000 30000000
total 0 40000000 -40000000 10000000 30000000
adjusted 0 0 0 10000000 30000000
";

#[test]
fn k10_with_excess() {
    let day = k10_with(&[
        (pricing_place(2, 4), 2001),
        (operating_place(1, 4), 2000),
        (operating_place(4, 4), 1750),
        (actual_place(4), 1749),
    ]);
    let steps = [K10_FIRST_STEP, K10_EXCESS_STEP].concat();
    assert_eq!(steps_report(&day), steps);
    assert_eq!(settle_report(&day), K10_EXCESS_REPORT);
}

/// The line with its operating rows of schedules 1 to 4 and its pricing rows cut to totals of at most M.
fn cut_to_most(bytes: &mut [u8]) {
    let line = Line::new(bytes).unwrap();
    let [pricing, operating] = excess_of(line).map(|excess| excess.map(|x| x as u32));
    for s in 0..SCHEDULES {
        // The last entry is in no other total, and generated lines have the excess there.
        let last = pricing_place(s, 4);
        put_word(bytes, last, word(bytes, last) - pricing[s]);
        let mut left = if s < 4 { operating[s] } else { 0 };
        for place in (0..SCHEDULES).map(|i| operating_place(s, i)) {
            let taken = left.min(word(bytes, place));
            put_word(bytes, place, word(bytes, place) - taken);
            left -= taken;
        }
    }
}

/// In all rows but the fifth operating one, which the effective actual reads, cutting a row to M changes nothing else.
#[test]
fn rows_cut_to_m_leave_all_but_the_excess() {
    let mut met = 0;
    for day in excess_days() {
        let mut cut_day = day.clone();
        for k in 0..line_count(&day) {
            cut_to_most(&mut cut_day[day_length(k)..day_length(k + 1)]);
        }
        assert_eq!(book_of(&cut_day), book_of(&day));
        let (views, of_cut) = (DayView::new(&day), DayView::new(&cut_day));
        for (line, cut_line) in views.day.lines().zip(of_cut.day.lines()) {
            for (step, of_cut) in views.line(line).zip(of_cut.line(cut_line)) {
                met += u32::from(step != of_cut);
                let excess = Excess {
                    operating: [0, 0, 0, 0, step.excess.operating[4]],
                    pricing: [0; 5],
                    actual: step.excess.actual,
                };
                let expected = View { excess, ..step };
                assert_eq!(of_cut, expected);
            }
        }
    }
    assert!(met > 1000);
}

/// The cutter reads no total but for refusal 12.
#[test]
fn cut_of_a_line_with_excess() {
    for day in excess_days() {
        for k in 0..line_count(&day) {
            let mut line = day[day_length(k)..day_length(k + 1)].to_vec();
            let with_excess = cut(&line);
            line[4 * pricing_place(0, 0)..].fill(0);
            assert_eq!(with_excess, cut(&line));
            assert_eq!(with_excess.number, 0);
        }
    }
}
