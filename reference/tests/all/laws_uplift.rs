//! What 02 F-1 promises of the shares, on rows of totals and on generated days.

use crate::{book_of, law_days};
use reference::generate::{uplift_limit_days, uplift_row_days, uplift_totals};
use reference::layout::*;
use reference::totals::adjusted;
use reference::uplift::{shares, uplift};
use std::ops::Range;

type Row = BySchedule<i64>;

/// All rows of totals from -4 to 4 with a first that is at least 0.
pub fn small_rows() -> impl Iterator<Item = Row> {
    (0..5 * 9i64.pow(4)).map(|code| {
        let digit = |place: u32| code / 9i64.pow(place) % 9 - 4;
        [code / 9i64.pow(4), digit(0), digit(1), digit(2), digit(3)]
    })
}

/// The greatest size of a total.
const MOST: i64 = 128_000_000_000_000_000;

/// Drawn rows made as large as they can be, with last digits of their own.
pub fn large_rows() -> impl Iterator<Item = Row> {
    (0..20_000).map(uplift_totals).map(|row| {
        let greatest = row.iter().map(|t| t.abs()).max().unwrap().max(1);
        let enlarged = |t: i64| t * (MOST / greatest) - t.signum() * (t % 1_000).abs();
        row.map(enlarged)
    })
}

/// The groups of 02: each from its first schedule to the one behind its last.
pub fn groups(t: &Row) -> Vec<Range<usize>> {
    let mut groups: Vec<Range<usize>> = Vec::new();
    for s in (0..SCHEDULES).filter(|&s| t[s] != 0) {
        match groups.last_mut() {
            Some(group) if group.end == s && (t[s] > 0) == (t[s - 1] > 0) => group.end = s + 1,
            _ => groups.push(s..s + 1),
        }
    }
    groups
}

pub fn sum(row: &[i64]) -> i128 {
    row.iter().map(|&x| i128::from(x)).sum()
}

/// The laws of the shares of these totals, with document 01's adjusted totals.
fn check(t: &Row, a: &Row, shares: &Row) {
    for s in 0..SCHEDULES {
        let (t, share) = (t[s], shares[s]);
        assert!(share == 0 || share.signum() == t.signum());
        assert!(share.abs() <= t.abs());
    }
    for group in groups(t) {
        let [of_totals, of_adjusted] = [t, a].map(|row| sum(&row[group.clone()]));
        assert_eq!(sum(&shares[group.clone()]), of_adjusted);
        for s in group {
            let [t, share] = [t[s], shares[s]].map(i128::from);
            let off = share * of_totals - t * of_adjusted;
            assert!(off.abs() < of_totals.abs(), "{t} of {of_totals}: {share}");
        }
    }
    assert_eq!(sum(shares), sum(t));
}

#[test]
fn laws_of_rows() {
    let drawn = (0..20_000).map(uplift_totals);
    for t in small_rows().chain(drawn).chain(large_rows()) {
        let a = adjusted(&t);
        check(&t, &a, &shares(&t, &a));
    }
}

#[test]
fn laws_of_days() {
    let at_edges = uplift_row_days().into_iter().chain(uplift_limit_days());
    for day in law_days().chain(at_edges) {
        let book = book_of(&day);
        let answer = uplift(&day);
        assert_eq!(answer.number, 0);
        check(&book_totals(&book), &book_adjusted(&book), &answer.shares);
        let lines = book[BOOK_LINES_OFFSET..].chunks(BOOK_LINE_BYTES);
        let payments: i128 = lines.map(|line| sum(&signed_row(line, 16, 8))).sum();
        assert_eq!(sum(&answer.shares), payments);
    }
}
