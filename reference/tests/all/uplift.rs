//! Uplift by schedule (02 F-1), worked out by hand.

use crate::programs::run;
use crate::{book_of, valid_days};
use reference::generate::*;
use reference::k10::k10;
use reference::layout::*;
use reference::refusal::day_number;
use reference::report::uplift_report;
use reference::totals::adjusted;
use reference::uplift::{shares, uplift, Uplift};
use std::collections::BTreeSet;

type Row = BySchedule<i64>;

/// 2^32 and 2^31.
const P: i64 = 1 << 32;
const H: i64 = 1 << 31;

/// Totals, adjusted totals and shares.
const WORKED: [[Row; 3]; 62] = [
    // K8 and K9: groups of one have their adjusted totals.
    [[5, -2, 4, -3, 0], [3, 0, 1, 0, 0], [3, 0, 1, 0, 0]],
    [[5, -8, 4, 0, 0], [0, -3, 4, 0, 0], [0, -3, 4, 0, 0]],
    // Nothing is taken off where no sign changes.
    [[0; 5], [0; 5], [0; 5]],
    [[1, 2, 3, 4, 5], [1, 2, 3, 4, 5], [1, 2, 3, 4, 5]],
    [
        [0, -1, -2, -3, -4],
        [0, -1, -2, -3, -4],
        [0, -1, -2, -3, -4],
    ],
    [[3, -3, 3, -3, 3], [0, 0, 0, 0, 3], [0, 0, 0, 0, 3]],
    [[2, -3, 2, -3, 2], [0, -1, 0, -1, 2], [0, -1, 0, -1, 2]],
    [[0, 2, -1, 2, -1], [0, 1, 0, 1, 0], [0, 1, 0, 1, 0]],
    [[9, -1, 9, -1, 9], [8, 0, 8, 0, 9], [8, 0, 8, 0, 9]],
    // 3/4, 2/4 and 1/4 each.
    [[1, 1, 1, 1, -1], [1, 1, 1, 0, 0], [1, 1, 1, 0, 0]],
    [[1, 1, 1, 1, -2], [1, 1, 0, 0, 0], [1, 1, 0, 0, 0]],
    [[1, 1, 1, 1, -3], [1, 0, 0, 0, 0], [1, 0, 0, 0, 0]],
    [[1, 1, 1, 1, -4], [0; 5], [0; 5]],
    [[1, 1, 1, 1, -5], [0, 0, 0, 0, -1], [0, 0, 0, 0, -1]],
    [[1, -1, -1, -1, -1], [0, 0, -1, -1, -1], [0, -1, -1, -1, 0]],
    [[2, -1, -1, -1, -1], [0, 0, 0, -1, -1], [0, -1, -1, 0, 0]],
    [[3, -1, -1, -1, -1], [0, 0, 0, 0, -1], [0, -1, 0, 0, 0]],
    [[4, -1, -1, -1, -1], [0; 5], [0; 5]],
    [[5, -1, -1, -1, -1], [1, 0, 0, 0, 0], [1, 0, 0, 0, 0]],
    // 15/9 and 12/9; 12/9 and 15/9; 30/9 and 15/9.
    [[5, 4, -6, 0, 0], [3, 0, 0, 0, 0], [2, 1, 0, 0, 0]],
    [[4, 5, -6, 0, 0], [3, 0, 0, 0, 0], [2, 1, 0, 0, 0]],
    [[6, 3, 0, 1, -5], [5, 0, 0, 0, 0], [4, 1, 0, 0, 0]],
    // 16/9, 24/9, 32/9, and the other way round.
    [[1, -2, -3, -4, 0], [0, -1, -3, -4, 0], [0, -2, -3, -3, 0]],
    [[1, -4, -3, -2, 0], [0, -3, -3, -2, 0], [0, -4, -3, -1, 0]],
    // 6/6, 2/6, 4/6 in each order.
    [[3, 1, 2, -4, 0], [2, 0, 0, 0, 0], [1, 1, 0, 0, 0]],
    [[1, 3, 2, -4, 0], [1, 1, 0, 0, 0], [1, 1, 0, 0, 0]],
    [[1, 2, 3, -4, 0], [1, 1, 0, 0, 0], [1, 0, 1, 0, 0]],
    [[4, -3, -1, -2, 0], [0, 0, 0, -2, 0], [0, -1, -1, 0, 0]],
    [[4, -1, -3, -2, 0], [0, 0, 0, -2, 0], [0, -1, -1, 0, 0]],
    [[4, -1, -2, -3, 0], [0, 0, 0, -2, 0], [0, -1, 0, -1, 0]],
    // 60, 8 4/7, 17 1/7, 34 2/7.
    [
        [70, 10, 20, 40, -20],
        [70, 10, 20, 20, 0],
        [60, 9, 17, 34, 0],
    ],
    [
        [10, 70, 20, 40, -20],
        [10, 70, 20, 20, 0],
        [9, 60, 17, 34, 0],
    ],
    [
        [20, -70, -10, -20, -40],
        [0, -50, -10, -20, -40],
        [0, -60, -9, -17, -34],
    ],
    // A total of 0 ends a group. FD 9.4 would have 6 0 3, 3 0 0 2, 20 27 0 13, 1 0 1, 6 3 0 3 and 6 3 0 2 in the first six.
    [[7, 0, 5, -3, 0], [7, 0, 2, 0, 0], [7, 0, 2, 0, 0]],
    [[4, 0, 0, 4, -3], [4, 0, 0, 1, 0], [4, 0, 0, 1, 0]],
    [[30, 40, 0, 20, -30], [30, 30, 0, 0, 0], [26, 34, 0, 0, 0]],
    [[3, 0, 3, 0, -4], [2, 0, 0, 0, 0], [2, 0, 0, 0, 0]],
    [[10, 5, 0, 5, -8], [10, 2, 0, 0, 0], [8, 4, 0, 0, 0]],
    [[10, 4, 0, 5, -8], [10, 1, 0, 0, 0], [8, 3, 0, 0, 0]],
    [[1, -2, 0, -3, 0], [0, -1, 0, -3, 0], [0, -1, 0, -3, 0]],
    [[0, 5, 0, -2, -2], [0, 1, 0, 0, 0], [0, 1, 0, 0, 0]],
    [[0, 0, 5, 3, -4], [0, 0, 4, 0, 0], [0, 0, 3, 1, 0]],
    [[3, 0, -2, -2, 0], [0, 0, 0, -1, 0], [0, 0, -1, 0, 0]],
    [[3, 0, -2, 0, -2], [0, 0, 0, 0, -1], [0, 0, 0, 0, -1]],
    [[5, 5, 0, -7, 0], [3, 0, 0, 0, 0], [2, 1, 0, 0, 0]],
    [[8, -9, 0, -4, -4], [0, -1, 0, -4, -4], [0, -1, 0, -4, -4]],
    [[1, -3, 0, 2, -1], [0, -2, 0, 1, 0], [0, -2, 0, 1, 0]],
    [[1, -2, -2, 0, 5], [0, -1, -2, 0, 5], [0, -2, -1, 0, 5]],
    // 1000/1001 and 999 1/1001; 1000/1001 and 1/1001.
    [[1, 1_000, -1, 0, 0], [1, 999, 0, 0, 0], [1, 999, 0, 0, 0]],
    [[1_000, 1, -1_000, 0, 0], [1, 0, 0, 0, 0], [1, 0, 0, 0, 0]],
    // 2^63 over 3 times 2^31, three times; then one less over it, which is whole.
    [
        [H, H, H, -H, 0],
        [H, H, 0, 0, 0],
        [1_431_655_766, 1_431_655_765, 1_431_655_765, 0, 0],
    ],
    [
        [H, H, H, -H - 1, 0],
        [H, H - 1, 0, 0, 0],
        [1_431_655_765, 1_431_655_765, 1_431_655_765, 0, 0],
    ],
    // 2^64, and 2^32 less and more, over 2^33.
    [[P, P, -P, 0, 0], [P, 0, 0, 0, 0], [H, H, 0, 0, 0]],
    [
        [P, P, -P - 1, 0, 0],
        [P - 1, 0, 0, 0, 0],
        [H, H - 1, 0, 0, 0],
    ],
    [[P, P, -P + 1, 0, 0], [P, 1, 0, 0, 0], [H + 1, H, 0, 0, 0]],
    [[P, P, -1, 0, 0], [P, P - 1, 0, 0, 0], [P, P - 1, 0, 0, 0]],
    // 2^64 - 1 over 2^32 + 6 is 2^32 - 6 and 35 over it.
    [
        [P - 1, 7, -5, 0, 0],
        [P - 1, 2, 0, 0, 0],
        [P - 5, 6, 0, 0, 0],
    ],
    // 2^64 over 2^32 + 7 is 2^32 - 7 and 49 over it.
    [[P, 7, -7, 0, 0], [P, 0, 0, 0, 0], [P - 6, 6, 0, 0, 0]],
    // 2^64 + 1 over the sum of its two factors is less than 1 below the lesser one.
    [
        [274_177, 67_280_421_310_721, -274_177, 0, 0],
        [274_177, 67_280_421_036_544, 0, 0, 0],
        [274_177, 67_280_421_036_544, 0, 0, 0],
    ],
    [[P, -P, -P, 0, 0], [0, 0, -P, 0, 0], [0, -H, -H, 0, 0]],
    // A little less than 2^31 + 5/4, twice; a little more than 7/2.
    [
        [P + 1, -P, -P, -7, 0],
        [0, 0, -P + 1, -7, 0],
        [0, -H - 2, -H - 1, -3, 0],
    ],
    [
        [H, -H, -H, -H, 0],
        [0, 0, -H, -H, 0],
        [0, -1_431_655_766, -1_431_655_765, -1_431_655_765, 0],
    ],
];

#[test]
fn rows() {
    assert_eq!(WORKED.map(|[totals, ..]| totals), UPLIFT_ROWS);
    for ([t, a, expected], day) in WORKED.into_iter().zip(uplift_row_days()) {
        assert_eq!(adjusted(&t), a, "{t:?}");
        assert_eq!(shares(&t, &a), expected, "{t:?}");
        let book = book_of(&day);
        assert_eq!([book_totals(&book), book_adjusted(&book)], [t, a]);
        let (number, shares) = (0, expected);
        assert_eq!(uplift(&day), Uplift { number, shares });
    }
}

/// X, the greatest total, and X less what one of the 64 lines adds to it.
const X: i64 = 128_000_000_000_000_000;
const Y: i64 = 126_000_000_000_000_000;

/// Totals and shares of the days at the limits.
const AT_LIMITS: [[Row; 2]; 9] = [
    [[X, -X, X, -X, X], [0, 0, 0, 0, X]],
    [[X - 20_000_000, 1, Y, 1, Y], [X - 20_000_000, 1, Y, 1, Y]],
    // A little more than Y - 7/2, twice; less than 1.
    [[Y, 1, Y, -7, 0], [Y - 3, 1, Y - 4, 0, 0]],
    // A little more than Y - 1,999,999,770,000,003/2, twice; less than 1; less than 8.
    [
        [Y, 1, Y, 8, -1_999_999_770_000_003],
        [125_000_000_114_999_999, 1, 125_000_000_114_999_999, 7, 0],
    ],
    // A little more than Y/2 + 11/2; a little more than 1/2; a little less than Y/2 + 2.
    [[Y + 7, 1, Y, -Y, 0], [Y / 2 + 6, 1, Y / 2 + 1, 0, 0]],
    // Both are less than 1.
    [[Y, 1, -Y, 0, 0], [1, 0, 0, 0, 0]],
    // A little more than Y - 7/2, twice; both others are less than 1.
    [[7, -Y, -1, -Y, -1], [0, -Y + 3, -1, -Y + 3, 0]],
    [[0, -Y, -1, -Y, -1], [0, -Y, -1, -Y, -1]],
    // All have remainders, and one unit is left over.
    [
        [2_000_000_000_000_000, -Y, -599_999_967, -Y, -110_000_000],
        [
            0,
            -125_000_000_002_817_461,
            -595_238_062,
            -125_000_000_002_817_460,
            -109_126_984,
        ],
    ],
];

#[test]
fn limits() {
    let expected = AT_LIMITS.into_iter().cycle();
    let days = uplift_limit_days();
    assert_eq!(days.len(), 2 * AT_LIMITS.len());
    for ([t, expected], day) in expected.zip(days) {
        assert_eq!(book_totals(&book_of(&day)), t);
        assert_eq!(shares(&t, &adjusted(&t)), expected);
        let (number, shares) = (0, expected);
        assert_eq!(uplift(&day), Uplift { number, shares });
    }
}

/// Groups tried directly, with adjusted totals that document 01 doesn't give: a group of five can have four units left
/// over, and only its sum counts.
#[test]
fn groups_of_any_adjusted_totals() {
    assert_eq!(shares(&[1; 5], &[4, 0, 0, 0, 0]), [1, 1, 1, 1, 0]);
    assert_eq!(shares(&[1; 5], &[0, 0, 0, 1, 3]), [1, 1, 1, 1, 0]);
    assert_eq!(shares(&[-1; 5], &[0, 0, 0, 0, -4]), [-1, -1, -1, -1, 0]);
    // 5/15, 10/15, 15/15, 20/15, 25/15.
    assert_eq!(shares(&[1, 2, 3, 4, 5], &[5, 0, 0, 0, 0]), [1, 1, 1, 1, 1]);
    // The adjusted total of a schedule with a total of 0 isn't looked at.
    assert_eq!(
        shares(&[3, 0, 3, 0, -3], &[1, 9, 2, 9, -1]),
        [1, 0, 2, 0, -1]
    );
}

/// K10: two groups of one, between totals of 0.
#[test]
fn k10_shares() {
    assert_eq!(uplift_report(&k10()), "uplift 0 10000000 0 0 0\n");
    assert_eq!(run(&["uplift"], &k10()), b"uplift 0 10000000 0 0 0\n");
}

#[test]
fn refused() {
    let zeros = |number| Uplift {
        number,
        shares: [0; 5],
    };
    assert_eq!(uplift(&[]), zeros(1));
    assert_eq!(uplift(&[0; 64]), zeros(2));
    assert_eq!(run(&["uplift"], &[0; 64]), b"refused 2\n");
    assert_eq!(run(&["uplift"], &ad_hoc_long_days()[0]), b"refused 19\n");
    let mut met = BTreeSet::new();
    for seed in 0..uplift_fault_kinds() as u64 {
        let (day, number) = uplift_fault_day_and_number(seed);
        assert_eq!(day_number(&day), number, "{seed}");
        met.insert(number);
        match number {
            0 => assert_ne!(uplift(&day), zeros(0), "{seed}"),
            number => {
                assert_eq!(uplift(&day), zeros(number));
                assert_eq!(uplift_report(&day), format!("refused {number}\n"));
            }
        }
    }
    // All of settling's but 15.
    assert!(met.into_iter().eq((0..=14).chain(19..=21)));
}

/// A day of 64 lines needs the longest book; there is no 15 for it.
#[test]
fn no_book_is_lent() {
    let days = valid_days().filter(|day| crate::line_count(day) == MOST_LINES);
    let numbers: Vec<u32> = days.map(|day| uplift(&day).number).collect();
    assert!(!numbers.is_empty() && numbers.iter().all(|&number| number == 0));
}
