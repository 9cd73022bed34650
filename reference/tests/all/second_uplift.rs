//! A second computation of the shares (02 F-1), schedule by schedule and without a product, and its comparison with the
//! first.

use crate::laws_uplift::{large_rows, small_rows};
use crate::second::{adjusted, totals_and_adjusted, Five};
use crate::{law_days, uplift_days};
use reference::generate::{uplift_limit_days, uplift_row_days, uplift_totals};
use reference::totals;
use reference::uplift::{shares, uplift, Uplift};

/// GROUP(s): the schedules from which to s, and from s to which, all totals have the sign of that of s.
fn group(t: &Five, s: usize) -> Vec<usize> {
    let alike = |from: usize, to: usize| (from..=to).all(|r| t[r] * t[s] > 0);
    let is_in = |r: &usize| alike(s.min(*r), s.max(*r));
    (0..5).filter(is_in).collect()
}

/// `total` times `adjusted` over `sum`, all of them sizes, by long division over the total's binary digits: the
/// quotient, and whether there is a remainder.
fn divide(total: u64, adjusted: u64, sum: u64) -> (u64, bool) {
    let (mut quotient, mut remainder) = (0, 0);
    for digit in (0..64).rev().map(|place| total >> place & 1) {
        remainder = 2 * remainder + digit * adjusted;
        quotient = 2 * quotient + remainder / sum;
        remainder %= sum;
    }
    (quotient, remainder > 0)
}

fn share(t: &Five, a: &Five, s: usize) -> i128 {
    let group = group(t, s);
    if group.is_empty() {
        return 0;
    }
    let size = |of: &Five| {
        let sum: i128 = group.iter().map(|&r| of[r]).sum();
        sum.unsigned_abs() as u64
    };
    let quotient = |r: usize| divide(t[r].unsigned_abs() as u64, size(a), size(t));
    let whole: u64 = group.iter().map(|&r| quotient(r).0).sum();
    let left = size(a) - whole;
    let before = group.iter().filter(|&&r| r < s && quotient(r).1).count();
    let (size, has_remainder) = quotient(s);
    let unit = has_remainder && (before as u64) < left;
    i128::from(size + u64::from(unit)) * t[s].signum()
}

fn second(t: &Five, a: &Five) -> [i64; 5] {
    std::array::from_fn(|s| share(t, a, s) as i64)
}

#[test]
fn second_computation_of_days_agrees() {
    let at_edges = uplift_row_days().into_iter().chain(uplift_limit_days());
    for day in law_days().chain(at_edges) {
        let [t, a] = totals_and_adjusted(&day);
        let (number, shares) = (0, second(&t, &a));
        assert_eq!(uplift(&day), Uplift { number, shares }, "{t:?}");
    }
}

/// All rows of small totals, drawn rows and rows up to the limits.
#[test]
fn second_computation_of_rows_agrees() {
    let drawn = (0..20_000).map(uplift_totals);
    for row in small_rows().chain(drawn).chain(large_rows()) {
        let t = row.map(i128::from);
        let found = shares(&row, &totals::adjusted(&row));
        assert_eq!(found, second(&t, &adjusted(&t)), "{row:?}");
    }
}

/// The totals that a day was drawn with are those of the second computation.
#[test]
fn drawn_totals() {
    for (seed, day) in (0..).zip(uplift_days()) {
        let [t, _] = totals_and_adjusted(&day);
        assert_eq!(t, uplift_totals(seed).map(i128::from));
    }
}
