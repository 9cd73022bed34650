//! That the days for uplift by schedule (02 F-1) reach what the laws are to be tried on, and that each wrong reading
//! gives other shares on some of them.

use crate::kept::entries;
use crate::laws_uplift::{groups, sum};
use crate::reach::Met;
use crate::{book_of, uplift_days};
use reference::generate::{uplift_limit_days, uplift_row_days};
use reference::layout::*;
use reference::refusal::day_number;
use reference::uplift::shares;
use std::ops::Range;

type Row = BySchedule<i64>;

/// Groups of more than one total, of which a part but not all is taken off: of positive totals, then of negative ones.
const UNITS: [[&str; 4]; 2] = [
    [
        "+: no unit left over",
        "+: one unit left over",
        "+: two units left over",
        "+: three units left over",
    ],
    [
        "-: no unit left over",
        "-: one unit left over",
        "-: two units left over",
        "-: three units left over",
    ],
];
const SIZES: [[&str; 3]; 2] = [
    [
        "+: two schedules",
        "+: three schedules",
        "+: four schedules",
    ],
    [
        "-: two schedules",
        "-: three schedules",
        "-: four schedules",
    ],
];
const EXACT: [[&str; 3]; 2] = [
    [
        "+: the first has no remainder, another has one",
        "+: one between has no remainder, another has one",
        "+: the last has no remainder, another has one",
    ],
    [
        "-: the first has no remainder, another has one",
        "-: one between has no remainder, another has one",
        "-: the last has no remainder, another has one",
    ],
];
const GREATER: [&str; 2] = [
    "+: a remainder without a unit is greater than one with a unit",
    "-: a remainder without a unit is greater than one with a unit",
];
const NOT_ADJUSTED: [&str; 2] = [
    "+: shares aren't the adjusted totals",
    "-: shares aren't the adjusted totals",
];
const NOTHING_LEFT: [&str; 2] = ["+: all is taken off", "-: all is taken off"];

const ZERO_BETWEEN: [&str; 4] = [
    "0 between two groups above 0",
    "0 between two groups below 0",
    "0 behind a group above 0, before one below 0",
    "0 behind a group below 0, before one above 0",
];
const OF_ROW: [&str; 5] = [
    "one group of five",
    "five groups of one",
    "a first total of 0",
    "0 first, then four below 0",
    "nothing but 0",
];
/// Of any group.
const PRODUCTS: [&str; 5] = [
    "a product of 63 bits",
    "a product of 64 bits",
    "a product of 65 bits",
    "a product of 115 bits with a remainder",
    "a product of 116 bits",
];

fn bits(x: i128) -> u32 {
    128 - x.unsigned_abs().leading_zeros()
}

fn note_group(met: &mut Met, t: &Row, a: &Row, group: Range<usize>) {
    let [of_totals, of_adjusted] = [t, a].map(|row| sum(&row[group.clone()]));
    let side = usize::from(of_totals < 0);
    let product = |s: usize| i128::from(t[s]) * of_adjusted;
    let remainder = |s: usize| (product(s) % of_totals).abs();
    for s in group.clone() {
        for (what, wanted) in PRODUCTS.into_iter().zip([63, 64, 65, 115, 116]) {
            let fits = wanted != 115 || remainder(s) != 0;
            met.note(what, bits(product(s)) == wanted && fits);
        }
    }
    met.note(NOTHING_LEFT[side], of_adjusted == 0);
    if group.len() < 2 || of_adjusted == 0 || of_adjusted == of_totals {
        return;
    }
    met.note(SIZES[side][group.len() - 2], true);
    let remainders: Vec<i128> = group.clone().map(remainder).collect();
    let units = remainders.iter().sum::<i128>() / of_totals.abs();
    met.note(UNITS[side][units as usize], true);
    let some = remainders.iter().any(|&remainder| remainder != 0);
    for (k, &remainder) in remainders.iter().enumerate() {
        let place = match k {
            0 => 0,
            _ if k + 1 < group.len() => 1,
            _ => 2,
        };
        met.note(EXACT[side][place], some && remainder == 0);
    }
    let with: Vec<i128> = remainders.into_iter().filter(|&r| r != 0).collect();
    let (with, without) = with.split_at(units as usize);
    let lowest = with.iter().min();
    let is_greater = lowest.is_some_and(|lowest| without.iter().any(|r| r > lowest));
    met.note(GREATER[side], is_greater);
    let found = shares(t, a);
    met.note(NOT_ADJUSTED[side], found[group.clone()] != a[group]);
}

fn note_row(met: &mut Met, t: &Row, a: &Row) {
    let signs = t.map(i64::signum);
    met.note(OF_ROW[0], signs == [1; 5]);
    met.note(OF_ROW[1], groups(t).len() == 5);
    met.note(OF_ROW[2], signs[0] == 0);
    met.note(OF_ROW[3], signs == [0, -1, -1, -1, -1]);
    met.note(OF_ROW[4], signs == [0; 5]);
    for pair in groups(t)
        .windows(2)
        .filter(|pair| pair[0].end < pair[1].start)
    {
        let around = (signs[pair[0].start], signs[pair[1].start]);
        let kinds = [(1, 1), (-1, -1), (1, -1), (-1, 1)];
        let kind = kinds.iter().position(|&kind| kind == around).unwrap();
        met.note(ZERO_BETWEEN[kind], true);
    }
    groups(t)
        .into_iter()
        .for_each(|group| note_group(met, t, a, group));
}

fn check_days(days: &[Vec<u8>], left_out: &[&str]) {
    let mut met = Met::default();
    for day in days {
        let [t, a] = totals_of(day);
        note_row(&mut met, &t, &a);
    }
    let by_sign = [GREATER, NOT_ADJUSTED, NOTHING_LEFT].concat();
    let of_groups = [UNITS.concat(), SIZES.concat(), EXACT.concat(), by_sign].concat();
    let of_rows = [&ZERO_BETWEEN[..], &OF_ROW, &PRODUCTS].concat();
    let mut wanted = [of_groups, of_rows].concat();
    wanted.retain(|what| !left_out.contains(what));
    assert_eq!(met.missing(&wanted), [""; 0]);
}

fn totals_of(day: &[u8]) -> [Row; 2] {
    let book = book_of(day);
    [book_totals(&book), book_adjusted(&book)]
}

/// The drawn days reach all but products that only the limits have.
#[test]
fn uplift_days_reach() {
    check_days(&uplift_days().collect::<Vec<_>>(), &PRODUCTS[3..]);
}

/// The fixed rows with the days at the limits.
#[test]
fn rows_and_limits_reach() {
    check_days(&[uplift_row_days(), uplift_limit_days()].concat(), &[]);
}

/// The days that the program `check_uplift` is run on and that aren't refused.
fn kept_days() -> Vec<Vec<u8>> {
    let mut days = entries("check_uplift");
    days.retain(|day| day_number(day) == 0);
    days
}

#[test]
fn kept_days_reach() {
    check_days(&kept_days(), &[]);
}

/// How the five shares may be read.
#[derive(Clone, Copy)]
struct Reading {
    /// Whether a schedule is in the group of the one before it, given the totals of both.
    is_joined: fn(i64, i64) -> bool,
    /// What a group shares out, given its totals and adjusted totals.
    shared: fn(&[i64], &[i64]) -> i128,
    /// A share before units are added: of a total, what is shared out and the sum of totals.
    divide: fn(i128, i128, i128) -> i128,
    /// The places within the group that get the units, given how many are left over and the remainders' sizes.
    units: fn(usize, &[i128]) -> Vec<usize>,
}

const RIGHT: Reading = Reading {
    is_joined: |before, t| before.signum() == t.signum(),
    shared: |_, adjusted| sum(adjusted),
    divide: |t, shared, totals| t * shared / totals,
    units: |left, remainders| places(remainders).take(left).collect(),
};

/// The places of those that aren't 0.
fn places(remainders: &[i128]) -> impl DoubleEndedIterator<Item = usize> + '_ {
    (0..remainders.len()).filter(|&k| remainders[k] != 0)
}

const WRONG: [(&str, Reading); 19] = [
    (
        "0 is joined to totals above 0 (FD 9.4)",
        Reading {
            is_joined: |before, t| (before >= 0) == (t >= 0),
            ..RIGHT
        },
    ),
    (
        "0 is joined to its neighbours",
        Reading {
            is_joined: |before, t| before.signum() * t.signum() >= 0,
            ..RIGHT
        },
    ),
    (
        "a group goes on where the sign changes",
        Reading {
            is_joined: |before, t| before != 0 && t != 0,
            ..RIGHT
        },
    ),
    (
        "the day is one group",
        Reading {
            is_joined: |_, _| true,
            ..RIGHT
        },
    ),
    (
        "each schedule is a group",
        Reading {
            is_joined: |_, _| false,
            ..RIGHT
        },
    ),
    (
        "totals are taken for adjusted totals",
        Reading {
            shared: |totals, _| sum(totals),
            ..RIGHT
        },
    ),
    (
        "units go to the latest",
        Reading {
            units: |left, remainders| places(remainders).rev().take(left).collect(),
            ..RIGHT
        },
    ),
    (
        "units go to the earliest, with a remainder or not",
        Reading {
            units: |left, _| (0..left).collect(),
            ..RIGHT
        },
    ),
    (
        "all units go to the earliest with a remainder",
        Reading {
            units: |left, remainders| {
                let first = places(remainders).take(1);
                first.flat_map(|k| vec![k; left]).collect()
            },
            ..RIGHT
        },
    ),
    (
        "units go to the greatest remainders",
        Reading {
            units: |left, remainders| {
                let mut order: Vec<usize> = places(remainders).collect();
                order.sort_by_key(|&k| -remainders[k]);
                order.truncate(left);
                order
            },
            ..RIGHT
        },
    ),
    (
        "one unit at most is given",
        Reading {
            units: |left, remainders| places(remainders).take(left.min(1)).collect(),
            ..RIGHT
        },
    ),
    (
        "units aren't given",
        Reading {
            units: |_, _| Vec::new(),
            ..RIGHT
        },
    ),
    (
        "sizes are rounded up",
        Reading {
            divide: |t, shared, totals| {
                let rest = i128::from(t * shared % totals != 0);
                t * shared / totals + rest * t.signum()
            },
            ..RIGHT
        },
    ),
    (
        "sizes are rounded to the nearest",
        Reading {
            divide: |t, shared, totals| {
                let (product, totals) = ((t * shared).abs(), totals.abs());
                (2 * product + totals) / (2 * totals) * t.signum()
            },
            ..RIGHT
        },
    ),
    (
        "numbers, not sizes, are rounded down",
        Reading {
            divide: |t, shared, totals| (t * shared * totals.signum()).div_euclid(totals.abs()),
            ..RIGHT
        },
    ),
    (
        "products are of 64 bits with a sign",
        Reading {
            divide: |t, shared, totals| i128::from((t as i64).wrapping_mul(shared as i64)) / totals,
            ..RIGHT
        },
    ),
    (
        "products are of 64 bits without a sign",
        Reading {
            divide: |t, shared, totals| {
                let product = (t.unsigned_abs() as u64).wrapping_mul(shared.unsigned_abs() as u64);
                i128::from(product) / totals.abs() * t.signum()
            },
            ..RIGHT
        },
    ),
    (
        "products are of 115 bits",
        Reading {
            divide: |t, shared, totals| {
                let product = (t * shared).unsigned_abs() % (1 << 115);
                product as i128 / totals.abs() * t.signum()
            },
            ..RIGHT
        },
    ),
    (
        "numbers are of 53 bits",
        Reading {
            divide: |t, shared, totals| (t as f64 * shared as f64 / totals as f64) as i128,
            ..RIGHT
        },
    ),
];

fn read(reading: &Reading, t: &Row, a: &Row) -> [i128; 5] {
    let mut found = [0; 5];
    let mut start = 0;
    while start < 5 {
        let joined = |s: &usize| (reading.is_joined)(t[s - 1], t[*s]);
        let end = (start + 1..5).find(|s| !joined(s)).unwrap_or(5);
        let totals = sum(&t[start..end]);
        if totals != 0 {
            let shared = (reading.shared)(&t[start..end], &a[start..end]);
            let part = &mut found[start..end];
            for (share, &t) in part.iter_mut().zip(&t[start..end]) {
                *share = (reading.divide)(t.into(), shared, totals);
            }
            let remainder = |&t: &i64| (i128::from(t) * shared % totals).abs();
            let remainders: Vec<i128> = t[start..end].iter().map(remainder).collect();
            let left = (shared.abs() - part.iter().sum::<i128>().abs()).clamp(0, 5) as usize;
            for k in (reading.units)(left.min(part.len()), &remainders) {
                part[k] += shared.signum();
            }
        }
        start = end;
    }
    found
}

/// On how many days a reading gives other shares.
fn told_apart(rows: &[[Row; 2]], reading: &Reading) -> usize {
    let differs = |[t, a]: &&[Row; 2]| read(reading, t, a) != shares(t, a).map(i128::from);
    rows.iter().filter(differs).count()
}

#[test]
fn kept_days_tell_wrong_readings_apart() {
    let rows: Vec<[Row; 2]> = kept_days().iter().map(|day| totals_of(day)).collect();
    assert_eq!(told_apart(&rows, &RIGHT), 0);
    for (name, reading) in WRONG {
        let days = told_apart(&rows, &reading);
        println!("{days} of {}: {name}", rows.len());
        assert!(days > 1, "{name}");
    }
}
