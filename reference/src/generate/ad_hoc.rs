//! Days in the layout with ad hoc records (02 F-5), made from days of the old layout. The rows in force are the old
//! day's own, so number, views and book are that day's. The rows that records and lines have beside them may be any.

use super::day_faults::damaged_behind_header;
use super::random::Random;
use super::*;
use std::collections::BTreeSet;

/// The words of a record, and of an operating row.
pub type RecordWords = [u32; RECORD_WORDS];
pub type RowWords = BySchedule<u32>;

/// A day from a seed.
type DrawDay = fn(u64) -> Vec<u8>;

/// A damaged day from a seed, with its number.
type DrawDamaged = fn(u64) -> (Vec<u8>, u32);

/// A day of some other kind with ad hoc records.
pub fn ad_hoc_day(seed: u64) -> Vec<u8> {
    ad_hoc_day_and_old(seed).0
}

/// The same, and the old day.
pub fn ad_hoc_day_and_old(seed: u64) -> (Vec<u8>, Vec<u8>) {
    const KINDS: [DrawDay; 5] = [
        valid_day,
        set_day,
        pulled_day,
        excess_day,
        over_delivery_day,
    ];
    of_some_kind(&KINDS, seed)
}

/// The small day likewise.
pub fn small_ad_hoc_day(seed: u64) -> Vec<u8> {
    const KINDS: [DrawDay; 5] = [
        small_day,
        small_set_day,
        small_pulled_day,
        small_excess_day,
        small_over_delivery_day,
    ];
    of_some_kind(&KINDS, seed).0
}

fn of_some_kind(kinds: &[DrawDay], seed: u64) -> (Vec<u8>, Vec<u8>) {
    let random = &mut Random::new(seed ^ 1 << 34);
    let old = random.pick(kinds)(seed);
    let count = draw_count(random);
    (to_ad_hoc(&old, count, random), old)
}

/// One line of a small day with ad hoc records. Its own rows are what the cutter reads, and may give refusal 12.
pub fn ad_hoc_line(seed: u64) -> Vec<u8> {
    let mut day = small_ad_hoc_day(seed);
    let k = Random::new(seed ^ 1 << 35).place(Day::new(&day).line_count());
    line_mut(&mut day, k).to_vec()
}

pub fn ad_hoc_damaged_day(seed: u64) -> Vec<u8> {
    ad_hoc_damaged_day_and_number(seed).0
}

/// A damaged day of the old layout, with a fault behind its header, with ad hoc records; and its number. Seeds in a row
/// go through all the faults, a few of them through faults far from each other.
pub fn ad_hoc_damaged_day_and_number(seed: u64) -> (Vec<u8>, u32) {
    const KINDS: [DrawDamaged; 4] = [
        damaged_behind_header,
        set_fault_day_and_number,
        pulled_fault_day_and_number,
        excess_fault_day_and_number,
    ];
    let kinds = KINDS.len() as u64;
    let (old, number) = KINDS[(seed % kinds) as usize](seed / kinds * 19);
    let random = &mut Random::new(seed ^ 1 << 34);
    let count = draw_count(random);
    (to_ad_hoc(&old, count, random), number)
}

/// How many records: none, one, the most or a few.
fn draw_count(random: &mut Random) -> usize {
    match random.below(10) {
        0 => 0,
        1 => 1,
        2 => MOST_RECORDS as usize,
        _ => random.range(2, 12) as usize,
    }
}

/// The day in the layout with records, of which there are so many: its rows in force are those of the old one.
pub fn with_rows_in_force(old: &[u8], count: usize, seed: u64) -> Vec<u8> {
    to_ad_hoc(old, count, &mut Random::new(seed))
}

/// The day in the layout with records, of which there are so many.
pub fn to_ad_hoc(old: &[u8], count: usize, random: &mut Random) -> Vec<u8> {
    let mut day = old.to_vec();
    let mut rows = rows_of(Day::new(&day).line_count());
    random.shuffle(&mut rows);
    let replaced = random.range(1, rows.len() as u32) as usize;
    rows.truncate(replaced.min(count));
    let mut records = Vec::new();
    for (j, &(k, s)) in rows.iter().enumerate() {
        let of_row = (count - j).div_ceil(rows.len());
        records.extend(replace_row(line_mut(&mut day, k), (k, s), of_row, random));
    }
    arrange(&mut records, random);
    with_records(&day, &records)
}

/// All operating rows: a line and a schedule, from 0.
fn rows_of(lines: usize) -> Vec<(usize, usize)> {
    let of_line = |k| (0..SCHEDULES).map(move |s| (k, s));
    (0..lines).flat_map(of_line).collect()
}

/// So many records for a line's row in a schedule. The highest order number has the row; the others, and mostly the
/// line itself, get another.
fn replace_row(
    line: &mut [u8],
    (k, s): (usize, usize),
    count: usize,
    random: &mut Random,
) -> Vec<RecordWords> {
    let row = row_of(line, s);
    let orders = draw_orders(count, random);
    let highest = orders.last().copied();
    let mut records = Vec::new();
    for &order in &orders {
        let is_highest = Some(order) == highest;
        let other = draw_other_row(line, row, random);
        records.push(record(k, s, order, if is_highest { row } else { other }));
    }
    if !random.one_in(4) {
        let other = draw_other_row(line, row, random);
        put_row(line, s, other);
    }
    records
}

/// So many different order numbers.
fn draw_orders(count: usize, random: &mut Random) -> BTreeSet<u32> {
    let mut orders = BTreeSet::new();
    while orders.len() < count {
        let (any, low) = (random.range(0, u32::MAX), random.range(0, 9));
        let (near, far) = ((1 << 31) - 1 + random.range(0, 2), u32::MAX);
        orders.insert(random.pick(&[0, low, low, near, near, far, any]));
    }
    orders
}

/// A row that isn't in force: one of the line's, the row in force with its quantities moved on by one interval, zeros
/// or one that would have refusal 12.
fn draw_other_row(line: &[u8], [a, b, c, d, e]: RowWords, random: &mut Random) -> RowWords {
    let of_line = row_of(line, random.place(SCHEDULES));
    let mut above = [0; SCHEDULES];
    above[random.place(SCHEDULES)] = QUANTITY_LIMIT + EXCESS_LIMIT + 1;
    let wrapping = [1 << 31, 0, 1, 0, 1 << 31];
    let rows = [of_line, [e, a, b, c, d], [0; SCHEDULES], above, wrapping];
    random.pick(&[rows[0], rows[0], rows[1], rows[2], rows[3], rows[4]])
}

/// Any order in the file: by order numbers rising or falling, by line and schedule, or mixed.
fn arrange(records: &mut [RecordWords], random: &mut Random) {
    match random.below(5) {
        0 => records.sort_by_key(|record| record[RECORD_ORDER]),
        1 => records.sort_by_key(|record| u32::MAX - record[RECORD_ORDER]),
        2 => records.sort(),
        _ => random.shuffle(records),
    }
}

/// A record for line k and schedule s, both from 0.
pub fn record(k: usize, s: usize, order: u32, row: RowWords) -> RecordWords {
    let [a, b, c, d, e] = row;
    [k as u32, s as u32 + 1, order, a, b, c, d, e]
}

/// A line's own operating row.
pub fn row_of(line: &[u8], s: usize) -> RowWords {
    std::array::from_fn(|i| word(line, operating_place(s, i)))
}

pub fn put_row(line: &mut [u8], s: usize, row: RowWords) {
    for (i, quantity) in row.into_iter().enumerate() {
        put_word(line, operating_place(s, i), quantity);
    }
}

/// A day of the old layout in the other one, with these records.
pub fn with_records(old: &[u8], records: &[RecordWords]) -> Vec<u8> {
    let mut day = vec![0; Layout::AdHoc.market()];
    day.extend(market(old));
    put_header(&mut day, Layout::AdHoc, Day::new(old).line_count(), 0);
    append_records(&mut day, records);
    day
}

/// Adds records to a day of the layout with records, and the header that says so.
pub fn append_records(day: &mut Vec<u8>, records: &[RecordWords]) {
    let count = record_count(day) + records.len() as u32;
    let words = records.iter().flatten();
    day.extend(words.flat_map(|word| word.to_le_bytes()));
    let lines = word(day, LINE_COUNT) as usize;
    put_header(day, Layout::AdHoc, lines, count);
}
