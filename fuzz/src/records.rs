//! Mutations of a day's ad hoc records (02 F-5) and of its layout.

use crate::mutate::{greatest_break, lines, near, quantity};
use crate::random::Random;
use reference::generate::{append_records, record, row_of, with_records, RecordWords, RowWords};
use reference::layout::*;

/// The ends of what order numbers may be, and of what they would be with a sign.
const ORDERS: [u32; 6] = [0, 1, (1 << 31) - 1, 1 << 31, u32::MAX - 1, u32::MAX];

/// A count of 2^27 records more adds 2^32 to the length.
const WRAPPING: u32 = 1 << 27;

/// The layout that a day's header names, the old one where there is none.
pub fn layout(day: &[u8]) -> Layout {
    match day.len() < LEAST_DAY {
        true => Layout::Old,
        false => Layout::named(day),
    }
}

/// Where line k begins.
pub fn line_at(day: &[u8], k: usize) -> usize {
    layout(day).line(k)
}

/// Whole records that the bytes behind the lines have room for.
pub fn record_room(day: &[u8]) -> usize {
    match layout(day) {
        Layout::Old => 0,
        Layout::AdHoc => day.len().saturating_sub(line_at(day, lines(day))) / RECORD_BYTES,
    }
}

/// The records there.
pub fn records(day: &[u8]) -> Vec<RecordWords> {
    let start = line_at(day, lines(day));
    let of = |bytes: &[u8]| std::array::from_fn(|place| word(bytes, place));
    let count = record_room(day);
    let chunks = day.get(start..).unwrap_or(&[]).chunks_exact(RECORD_BYTES);
    chunks.take(count).map(of).collect()
}

/// Puts these records in the place of those there, with a header that fits.
pub fn put_records(day: &mut Vec<u8>, records: &[RecordWords]) {
    let n = lines(day);
    day.truncate(Layout::AdHoc.line(n));
    put_header(day, Layout::AdHoc, n, 0);
    append_records(day, records);
}

/// The day with so many lines at most, and the records for these.
pub fn keep_lines(day: &mut Vec<u8>, wanted: usize) {
    let n = lines(day);
    if n <= wanted {
        return;
    }
    let mut kept = records(day);
    kept.retain(|record| record[RECORD_LINE] < wanted as u32);
    let layout = layout(day);
    day.truncate(layout.line(wanted));
    put_header(day, layout, wanted, 0);
    if layout == Layout::AdHoc {
        append_records(day, &kept);
    }
}

/// Takes the records for line k away, and those for later lines one line back.
pub fn take_line_out(records: &mut Vec<RecordWords>, k: usize) {
    let k = k as u32;
    records.retain(|record| record[RECORD_LINE] != k);
    for record in records {
        record[RECORD_LINE] -= u32::from(record[RECORD_LINE] > k);
    }
}

/// The other layout. Records are lost, or one is there for a row.
pub fn change_layout(day: &mut Vec<u8>, random: &mut Random) {
    let n = lines(day);
    match layout(day) {
        Layout::Old => {
            day.truncate(day_length(n));
            put_header(day, Layout::Old, n, 0);
            *day = with_records(day, &[]);
            add_record(day, random);
        }
        Layout::AdHoc => {
            day.truncate(line_at(day, n));
            day.drain(..Layout::AdHoc.market() - Layout::Old.market());
            put_header(day, Layout::Old, n, 0);
        }
    }
}

fn some_order(random: &mut Random) -> u32 {
    let (low, any) = (random.range(0, 9), random.next() as u32);
    let end = random.pick(&ORDERS);
    random.pick(&[low, low, end, end, any])
}

/// A row for a line: a total in one or two intervals, or one of its own rows.
fn some_row(line: &[u8], random: &mut Random) -> RowWords {
    if random.one_in(4) {
        return row_of(line, random.below(SCHEDULES));
    }
    let total = quantity(line, greatest_break(line), random);
    let first = random.range(0, total);
    let start = random.below(SCHEDULES - 1);
    let mut row = [0; SCHEDULES];
    row[start] = first;
    row[start + 1] = total - first;
    row
}

/// A row that is refused where it is in force.
fn refused_row(line: &[u8], random: &mut Random) -> RowWords {
    let mut row = [0; SCHEDULES];
    row[random.below(SCHEDULES)] = greatest_break(line).saturating_add(EXCESS_LIMIT + 1);
    random.pick(&[row, [u32::MAX; SCHEDULES], [1 << 31, 0, 0, 0, 1 << 31]])
}

/// A record more, for some line and schedule.
fn add_record(day: &mut Vec<u8>, random: &mut Random) {
    let (k, s) = (random.below(lines(day)), random.below(SCHEDULES));
    let row = some_row(line_mut(day, k), random);
    let mut all = records(day);
    if all.len() < MOST_RECORDS as usize {
        let at = random.below(all.len() + 1);
        all.insert(at, record(k, s, some_order(random), row));
        put_records(day, &all);
    }
}

/// Changes that mostly keep a day with records accepted.
pub fn change_keeping(day: &mut Vec<u8>, random: &mut Random) {
    let mut all = records(day);
    if all.is_empty() || random.one_in(5) {
        return add_record(day, random);
    }
    let (j, other) = (random.below(all.len()), random.below(all.len()));
    let k = all[j][RECORD_LINE] as usize;
    if k >= lines(day) {
        return;
    }
    match random.below(8) {
        0 => all.swap(j, other),
        1 => drop(all.remove(j)),
        2 => all[j][RECORD_ORDER] = some_order(random),
        3 => all[j][RECORD_ORDER] = near(all[other][RECORD_ORDER], random),
        4 => all[j][RECORD_SCHEDULE] = 1 + random.below(SCHEDULES) as u32,
        5 => put_row(&mut all[j], some_row(line_mut(day, k), random)),
        6 => return replace_own_row(day, &all[j], random),
        _ if all.len() < MOST_RECORDS as usize => {
            let lower = lower_record(&all[j], line_mut(day, k), random);
            all.insert(other, lower);
        }
        _ => {}
    }
    put_records(day, &all);
}

fn put_row(record: &mut RecordWords, row: RowWords) {
    record[RECORD_ROW..].copy_from_slice(&row);
}

/// Another row of the line itself, where a record is for it; often one that would be refused.
fn replace_own_row(day: &mut [u8], record: &RecordWords, random: &mut Random) {
    let (k, s) = (
        record[RECORD_LINE] as usize,
        record[RECORD_SCHEDULE] as usize,
    );
    if !(1..=SCHEDULES).contains(&s) {
        return;
    }
    let line = line_mut(day, k);
    let row = match random.one_in(2) {
        true => some_row(line, random),
        false => refused_row(line, random),
    };
    for (i, quantity) in row.into_iter().enumerate() {
        put_word(line, operating_place(s - 1, i), quantity);
    }
}

/// A record for the same row with a lower order number and any row.
fn lower_record(record: &RecordWords, line: &[u8], random: &mut Random) -> RecordWords {
    let mut lower = *record;
    let order = record[RECORD_ORDER];
    let (any, before) = (random.range(0, order), order.saturating_sub(1));
    lower[RECORD_ORDER] = random.pick(&[any, any, before, 0]);
    let row = match random.one_in(3) {
        true => refused_row(line, random),
        false => some_row(line, random),
    };
    put_row(&mut lower, row);
    lower
}

/// The lines' own rows become those of the records for them, and the lines get others: for rows that were drawn for
/// lines alone.
pub fn move_to_records(day: &mut Vec<u8>, random: &mut Random) {
    let mut all = records(day);
    for record in &mut all {
        let (k, s) = (
            record[RECORD_LINE] as usize,
            record[RECORD_SCHEDULE] as usize,
        );
        if k < lines(day) && (1..=SCHEDULES).contains(&s) && !random.one_in(8) {
            put_row(record, row_of(line_mut(day, k), s - 1));
        }
    }
    for record in &all {
        if (record[RECORD_LINE] as usize) < lines(day) {
            replace_own_row(day, record, random);
        }
    }
    put_records(day, &all);
}

/// Limits of the header and of records, and what lies beyond them.
pub fn cross_limit(day: &mut Vec<u8>, random: &mut Random) {
    let n = lines(day) as u32;
    let mut all = records(day);
    if all.is_empty() || random.one_in(4) {
        return cross_header(day, random);
    }
    let (j, other) = (random.below(all.len()), random.below(all.len()));
    match random.below(6) {
        0 => all[j][RECORD_LINE] = random.pick(&[n - 1, n, n + 1, 1 << 31, u32::MAX]),
        1 => all[j][RECORD_SCHEDULE] = random.pick(&[0, 1, 5, 6, (1 << 31) + 1, u32::MAX]),
        2 => all.insert(other, all[j]),
        3 => {
            let key = all[other];
            all[j][..RECORD_ROW].copy_from_slice(&key[..RECORD_ROW]);
        }
        4 if random.one_in(2) => fill_up(&mut all, random.pick(&[63, 64, 64, 65, 66])),
        _ => {
            let k = (all[j][RECORD_LINE] as usize).min(n as usize - 1);
            let line = line_mut(day, k);
            let above = random.pick(&[0, 1, EXCESS_LIMIT, EXCESS_LIMIT + 1]);
            let mut row = [0; SCHEDULES];
            row[random.below(SCHEDULES)] = greatest_break(line).saturating_add(above);
            let refused = refused_row(line, random);
            put_row(&mut all[j], random.pick(&[row, row, refused]));
        }
    }
    put_records(day, &all);
}

/// Copies of the first record with other order numbers up to so many.
fn fill_up(all: &mut Vec<RecordWords>, count: usize) {
    for order in 0.. {
        if all.len() >= count {
            return;
        }
        let mut record = all[0];
        record[RECORD_ORDER] = order;
        if !all.iter().any(|r| r[..RECORD_ROW] == record[..RECORD_ROW]) {
            all.push(record);
        }
    }
}

/// A word of the header that doesn't fit, or that fits in 32 bits alone.
fn cross_header(day: &mut [u8], random: &mut Random) {
    let count = record_room(day) as u32;
    let offset = line_at(day, lines(day)) as u32;
    let (place, value) = match random.below(8) {
        0..4 => {
            let above = 1 + random.range(0, 30);
            (RECORD_COUNT, count.wrapping_add(above * WRAPPING))
        }
        4 => (RECORD_COUNT, near(count, random)),
        5 => (
            RECORDS_OFFSET,
            random.pick(&[0, offset, offset + 32, offset - 8, 72]),
        ),
        6 => (MARKET_OFFSET, random.pick(&[0, 16, 17, 24, 72])),
        _ => (LINES_OFFSET, random.pick(&[64, 72, 0])),
    };
    put_word(day, place, value);
}
