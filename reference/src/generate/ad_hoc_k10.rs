//! K10's day with ad hoc records (02 F-5): order numbers, rows in and out of force, and how long a file may be.

use super::ad_hoc::*;
use super::edges::with_lines;
use crate::k10::k10_of;
use crate::layout::*;

/// M of K10's line.
const MOST: u32 = 3000;

/// The ends of what order numbers may be, and of what they would be with a sign.
const ORDERS: [u32; 5] = [0, 1, (1 << 31) - 1, 1 << 31, u32::MAX];

/// Rows whose totals tell them apart from each other and from K10's.
const LOWER: RowWords = [300, 0, 0, 0, 400];
const MIDDLE: RowWords = [0, 1700, 0, 0, 0];
const HIGHER: RowWords = [1000, 200, 0, 1000, 0];

/// K10's day, its line on this side: two records for one row with each two of the order numbers, in both orders in the
/// file; then three in each order; then row 5 beside the actuals; then rows in and out of force at refusal 12's limit.
pub fn ad_hoc_k10_days(side: Side) -> Vec<Vec<u8>> {
    let mut days = Vec::new();
    if side == Side::Injection {
        days.extend(two_orders());
        days.extend(three_orders());
        days.push(one_order_in_all_rows());
    }
    days.extend(last_rows(side));
    for s in 0..SCHEDULES {
        days.extend(in_force(side, s));
        days.extend(out_of_force(side, s));
    }
    days
}

fn k10_with(side: Side, records: &[RecordWords]) -> Vec<u8> {
    with_records(&k10_of(side), records)
}

fn two_orders() -> Vec<Vec<u8>> {
    let mut days = Vec::new();
    for (j, &low) in ORDERS.iter().enumerate() {
        for (k, &high) in ORDERS.iter().enumerate().skip(j + 1) {
            let s = (j + k) % SCHEDULES;
            let two = [record(0, s, low, LOWER), record(0, s, high, HIGHER)];
            days.push(k10_with(Side::Injection, &two));
            days.push(k10_with(Side::Injection, &[two[1], two[0]]));
        }
    }
    days
}

fn three_orders() -> Vec<Vec<u8>> {
    let of = |order, row| record(0, 1, order, row);
    let [a, b, c] = [
        of(2, LOWER),
        of((1 << 31) - 1, MIDDLE),
        of((1 << 31) + 2, HIGHER),
    ];
    let orders = [
        [a, b, c],
        [a, c, b],
        [b, a, c],
        [b, c, a],
        [c, a, b],
        [c, b, a],
    ];
    orders
        .iter()
        .map(|three| k10_with(Side::Injection, three))
        .collect()
}

/// Three lines of which every row has a record of the same order number: no twins.
fn one_order_in_all_rows() -> Vec<u8> {
    let row = |j: usize| [LOWER, MIDDLE, HIGHER][j % 3];
    let records = (0..3 * SCHEDULES).map(|j| record(j / SCHEDULES, j % SCHEDULES, 7, row(j)));
    with_records(&with_lines(3), &records.collect::<Vec<_>>())
}

/// Rows of schedule 5, which the effective actual reads beside the actuals, 1000 and 500.
fn last_rows(side: Side) -> Vec<Vec<u8>> {
    let rows = [
        [0, 0, 0, 0, 0],
        [500, 1000, 0, 0, 0],
        [1500, 0, 0, 0, 0],
        [0, 0, 2000, 0, 0],
        [999, 501, 0, 0, 0],
        [3250, 750, 0, 0, 0],
    ];
    let last = SCHEDULES - 1;
    rows.map(|row| k10_with(side, &[record(0, last, 3, row)]))
        .into()
}

fn of_total(s: usize, total: u32) -> RowWords {
    let mut row = [0; SCHEDULES];
    row[s] = total;
    row
}

/// A record's row at M + 1,000 and M + 1,001 and above 32 bits; the line's own at M + 1,001 where the record is for the
/// schedule behind it.
fn in_force(side: Side, s: usize) -> Vec<Vec<u8>> {
    let mut days: Vec<Vec<u8>> = [
        of_total(s, MOST + EXCESS_LIMIT),
        of_total(s, MOST + EXCESS_LIMIT + 1),
        [858_993_460; SCHEDULES], // 2^32 + 4
    ]
    .map(|row| k10_with(side, &[record(0, s, 0, row)]))
    .into();
    let mut old = k10_of(side);
    put_row(
        line_mut(&mut old, 0),
        s,
        of_total(s, MOST + EXCESS_LIMIT + 1),
    );
    days.push(with_records(
        &old,
        &[record(0, (s + 1) % SCHEDULES, 9, LOWER)],
    ));
    days
}

/// K10's row in force: beside a lower order number at M + 1,001, before and behind it, and over a row of the line that
/// would have refusal 12.
fn out_of_force(side: Side, s: usize) -> Vec<Vec<u8>> {
    let mut old = k10_of(side);
    let proper = record(0, s, 1 << 31, row_of(line_mut(&mut old, 0), s));
    let above = record(0, s, 5, of_total(s, MOST + EXCESS_LIMIT + 1));
    put_row(line_mut(&mut old, 0), s, LOWER);
    let mut days = vec![
        with_records(&old, &[above, proper]),
        with_records(&old, &[proper, above]),
    ];
    put_row(line_mut(&mut old, 0), s, [u32::MAX; SCHEDULES]);
    days.push(with_records(&old, &[proper]));
    days
}

/// So many of K10's lines and so many records, all for different rows or order numbers. Their rows are proper.
fn with_counts(lines: usize, records: u32) -> Vec<u8> {
    let of = |j: usize| record(j % lines, j % SCHEDULES, j as u32, LOWER);
    let records: Vec<RecordWords> = (0..records as usize).map(of).collect();
    with_records(&with_lines(lines), &records)
}

/// 0, 1, 64, 65 and more records with 1, 2 and 64 lines; a count of 2^27 more for each; one line with one record, cut
/// off or with zeros behind it, with its length word as it was and as its length is.
pub fn ad_hoc_length_days() -> Vec<Vec<u8>> {
    let counts = [
        (1, 0),
        (1, 1),
        (1, 64),
        (1, 65),
        (2, 64),
        (2, 726),
        (64, 0),
        (64, 64),
        (64, 65),
        (64, 725),
        (65, 1),
    ];
    let mut days: Vec<Vec<u8>> = counts.map(|(n, count)| with_counts(n, count)).into();
    for (lines, records) in [(1, 0), (1, 1), (1, 64), (1, 65)] {
        for above in [1, 16, 31] {
            let mut day = with_counts(lines, records);
            put_word(&mut day, RECORD_COUNT, records + (above << 27));
            days.push(day);
        }
    }
    let lengths = [0, 23, 24, 63, 64, 65, 66, 67, 68, 69, 70, 71, 72, 73];
    let around = [731, 732, 733, 763, 765, 768, 796];
    for length in lengths.into_iter().chain(around) {
        let mut day = with_counts(1, 1);
        day.resize(length, 0);
        days.push(day.clone());
        if length >= LEAST_DAY {
            put_word(&mut day, FILE_LENGTH, length as u32);
            days.push(day);
        }
    }
    days
}

/// 64 lines and files of more than 65,536 bytes: 726 and 2,048 records; 726 and a byte; the old layout so long.
pub fn ad_hoc_long_days() -> Vec<Vec<u8>> {
    let long = with_counts(MOST_LINES, 726);
    let mut longer = long.clone();
    longer.push(0);
    let mut old = with_lines(MOST_LINES);
    old.resize(long.len(), 0);
    vec![long, with_counts(MOST_LINES, 2048), longer, old]
}
