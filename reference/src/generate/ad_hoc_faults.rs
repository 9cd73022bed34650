//! Damage to days with ad hoc records (02 F-5), each with the number that it leads to; 0 is the passing side of a
//! limit.

use super::ad_hoc::*;
use super::day_faults::{day_to_damage, DayFault};
use super::line_faults::most;
use super::random::Random;
use crate::layout::*;

type Records = Vec<RecordWords>;

/// In the order of their kinds.
const TABLES: [&[DayFault]; 4] = [OF_HEADER, OF_MARKET, OF_RECORDS, OF_ROWS];

/// A count of 2^27 records more adds 2^32 to the length, which is 0 in 32 bits.
const WRAPPING: u32 = 1 << 27;

const OF_HEADER: &[DayFault] = &[
    (1, |day, _| day.clear()),
    (1, |day, _| day.truncate(24)),
    (1, |day, _| day.truncate(63)),
    // Long enough for refusal 2, too short for header and market table.
    (3, |day, _| day.truncate(64)),
    (3, |day, _| day.truncate(71)),
    (3, |day, _| day.truncate(72)),
    (3, |day, _| cut_with_length_word(day, 64)),
    (3, |day, _| cut_with_length_word(day, 71)),
    (2, |day, _| {
        cut_with_length_word(day, 64);
        put_word(day, LINE_COUNT, 0);
    }),
    (2, |day, _| put_word(day, LINE_COUNT, 0)),
    (2, |day, _| put_word(day, LINE_COUNT, u32::MAX)),
    (3, |day, _| add(day, LINE_COUNT, 1)),
    (3, |day, _| add(day, LINE_COUNT, u32::MAX)),
    // Offsets of the market table and of the lines.
    (3, |day, _| put_word(day, MARKET_OFFSET, 0)),
    (3, |day, _| put_word(day, MARKET_OFFSET, 16)),
    (3, |day, _| put_word(day, MARKET_OFFSET, 17)),
    (3, |day, _| put_word(day, MARKET_OFFSET, 25)),
    (3, |day, _| put_word(day, MARKET_OFFSET, 72)),
    (3, |day, _| put_word(day, MARKET_OFFSET, 24 + (1 << 31))),
    (3, |day, _| put_word(day, LINES_OFFSET, 64)),
    (3, |day, _| put_word(day, LINES_OFFSET, 71)),
    (3, |day, _| put_word(day, LINES_OFFSET, u32::MAX)),
    (3, |day, _| {
        put_word(day, MARKET_OFFSET, 16);
        put_word(day, LINES_OFFSET, 64);
    }),
    // The count beside the length.
    (0, |day, _| clear_rows(day)),
    (3, |day, _| put_word(day, RECORD_COUNT, 0)),
    (3, |day, _| add(day, RECORD_COUNT, 1)),
    (3, |day, _| add(day, RECORD_COUNT, u32::MAX)),
    (3, |day, _| add(day, RECORD_COUNT, WRAPPING)),
    (3, |day, _| add(day, RECORD_COUNT, 31 * WRAPPING)),
    (3, |day, _| {
        put_records(day, Records::clear);
        add(day, RECORD_COUNT, WRAPPING);
    }),
    (3, |day, _| {
        fill_up(day, MOST_RECORDS);
        add(day, RECORD_COUNT, WRAPPING);
    }),
    (3, |day, _| wrap_length(day, u32::MAX)),
    (3, |day, _| wrap_length(day, 2 * WRAPPING - 1)),
    // The records' offset.
    (3, |day, _| put_word(day, RECORDS_OFFSET, 0)),
    (3, |day, _| put_word(day, RECORDS_OFFSET, 72)),
    (3, |day, _| put_word(day, RECORDS_OFFSET, u32::MAX)),
    (3, |day, _| add(day, RECORDS_OFFSET, 4)),
    (3, |day, _| add(day, RECORDS_OFFSET, 32)),
    (3, |day, _| {
        put_records(day, Records::clear);
        put_word(day, RECORDS_OFFSET, 0);
    }),
    (3, |day, _| {
        put_records(day, Records::clear);
        add(day, RECORDS_OFFSET, 32);
    }),
    // The length.
    (3, |day, _| add(day, FILE_LENGTH, 1)),
    (3, |day, _| add(day, FILE_LENGTH, 32)),
    (3, |day, _| day.push(0)),
    (3, |day, _| day.truncate(day.len() - 1)),
    (3, |day, _| day.truncate(day.len() - 32)),
    (3, |day, _| day.resize(day.len() + 32, 0)),
    // Days of the old layout.
    (3, |day, _| {
        to_old(day);
        put_word(day, MARKET_OFFSET, 24);
    }),
    (3, |day, _| {
        to_old(day);
        put_word(day, LINES_OFFSET, 72);
    }),
    (3, |day, _| {
        to_old(day);
        lengthen(day, 8);
    }),
    (3, |day, _| {
        to_old(day);
        lengthen(day, 32);
    }),
    (3, |day, _| {
        to_old(day);
        day.extend([0; 32]);
    }),
    // How many records.
    (0, |day, _| fill_up(day, MOST_RECORDS)),
    (19, |day, _| fill_up(day, MOST_RECORDS + 1)),
    (19, |day, _| fill_up(day, 726)),
    (3, |day, _| {
        fill_up(day, MOST_RECORDS + 1);
        day.push(0);
    }),
    (3, |day, _| {
        fill_up(day, MOST_RECORDS + 1);
        add(day, RECORDS_OFFSET, 4);
    }),
    (2, |day, _| {
        fill_up(day, MOST_RECORDS + 1);
        put_word(day, LINE_COUNT, 0);
    }),
    // 19 is the header's last, and comes before all that stands behind it.
    (19, |day, _| {
        fill_up(day, MOST_RECORDS + 1);
        put_word(market_mut(day), PRICE_CAP, u32::MAX);
    }),
    (19, |day, _| {
        fill_up(day, MOST_RECORDS + 1);
        put_word(market_mut(day), CLAWBACK, 2);
    }),
    (19, |day, _| {
        fill_up(day, MOST_RECORDS + 1);
        put_records(day, |records| records[0][RECORD_SCHEDULE] = 6);
    }),
    (19, |day, _| {
        fill_up(day, MOST_RECORDS);
        put_records(day, |records| records.push(records[0]));
    }),
    (19, |day, _| {
        fill_up(day, MOST_RECORDS + 1);
        put_word(line_mut(day, 0), SIDE, 2);
    }),
];

const OF_MARKET: &[DayFault] = &[
    (0, |day, _| {
        put_word(market_mut(day), PRICE_CAP, PRICE_LIMIT)
    }),
    (4, |day, _| {
        put_word(market_mut(day), PRICE_CAP, PRICE_LIMIT + 1)
    }),
    (4, |day, random| {
        let s = random.place(SCHEDULES);
        put_word(market_mut(day), MARKET_PRICE + s, PRICE_LIMIT + 1);
    }),
    (5, |day, random| {
        let s = random.place(SCHEDULES);
        put_word(market_mut(day), CAP_MARK + s, 2);
    }),
    (5, |day, _| put_word(market_mut(day), CLAWBACK, 2)),
    // Before the records.
    (4, |day, _| {
        put_word(market_mut(day), MARKET_PRICE, u32::MAX);
        put_records(day, |records| records[0][RECORD_LINE] = u32::MAX);
    }),
    (5, |day, _| {
        put_word(market_mut(day), CAP_MARK + 4, 2);
        put_records(day, |records| records.push(records[0]));
    }),
];

const OF_RECORDS: &[DayFault] = &[
    // Lines that the day hasn't, in the first, the last and some record.
    (20, |day, _| name_line(day, 0, 0)),
    (20, |day, _| name_line(day, usize::MAX, 0)),
    (20, |day, random| name_line(day, random.place(4), 1)),
    (20, |day, _| {
        put_records(day, |records| records[1][RECORD_LINE] = u32::MAX)
    }),
    (20, |day, _| {
        put_records(day, |records| records[0][RECORD_LINE] += 1 << 31)
    }),
    (0, |day, _| {
        let last = line_count(day) - 1;
        push(day, last, 4, u32::MAX, [0; SCHEDULES]);
    }),
    // Schedules.
    (20, |day, _| name_schedule(day, 0, 0)),
    (20, |day, random| name_schedule(day, random.place(4), 0)),
    (20, |day, _| name_schedule(day, 0, 6)),
    (20, |day, _| name_schedule(day, usize::MAX, 6)),
    (20, |day, _| name_schedule(day, 2, u32::MAX)),
    (20, |day, _| name_schedule(day, 1, (1 << 31) + 1)),
    (0, |day, _| push(day, 0, 0, u32::MAX, [0; SCHEDULES])),
    // Twins: side by side, first and last, with another row, out of force, at the ends of the order numbers.
    (21, |day, random| {
        let j = random.place(3);
        put_records(day, |records| records.insert(j, records[j]));
    }),
    (21, |day, _| {
        put_records(day, |records| records.push(records[0]))
    }),
    (21, |day, _| {
        put_records(day, |records| {
            records.push(records[1]);
            records.last_mut().unwrap()[RECORD_ROW..].fill(7);
        })
    }),
    (21, |day, _| push_twins(day, 0, [0, 1, 0])),
    (21, |day, _| {
        push_twins(day, 1, [1 << 31, u32::MAX, 1 << 31])
    }),
    (21, |day, _| {
        push_twins(day, 4, [u32::MAX, 0, u32::MAX]);
    }),
    (21, |day, _| {
        fill_up(day, MOST_RECORDS - 1);
        put_records(day, |records| records.push(records[0]));
    }),
    // No twins: one of line, schedule and order number differs.
    (0, |day, _| {
        clear_rows(day);
        (0..SCHEDULES).for_each(|s| push(day, 0, s, 7, [0; SCHEDULES]));
    }),
    (0, |day, _| {
        clear_rows(day);
        (0..line_count(day)).for_each(|k| push(day, k, 2, 7, [0; SCHEDULES]));
    }),
    (0, |day, _| push_twins(day, 3, [0, 1 << 31, u32::MAX])),
    // 20 over all records comes before 21.
    (20, |day, _| {
        put_records(day, |records| records.insert(0, records[0]));
        name_line(day, usize::MAX, 0);
    }),
    (20, |day, _| {
        put_records(day, |records| records.push(records[1]));
        name_schedule(day, 0, 0);
    }),
    (20, |day, _| {
        name_schedule(day, 0, 6);
        put_records(day, |records| records.insert(0, records[0]));
    }),
    (20, |day, _| {
        put_records(day, |records| records.insert(1, records[0]));
        push(day, 1, 1, 77, [0; SCHEDULES]);
        name_schedule(day, usize::MAX, 6);
    }),
    (20, |day, _| {
        fill_up(day, MOST_RECORDS - 2);
        put_records(day, |records| {
            records.insert(31, records[30]);
            records.push(records[0]);
        });
        name_line(day, usize::MAX, 0);
    }),
    // Both before the lines.
    (20, |day, _| {
        name_line(day, usize::MAX, 0);
        put_word(line_mut(day, 0), SIDE, 2);
    }),
    (20, |day, _| {
        name_schedule(day, 0, 6);
        first_line_twice(day);
    }),
    (21, |day, _| {
        put_records(day, |records| records.push(records[0]));
        put_word(line_mut(day, 0), count_place(0), 0);
    }),
    (21, |day, _| {
        push_twins(day, 0, [5, 9, 5]);
        put_word(line_mut(day, 0), actual_place(0), u32::MAX);
    }),
];

const OF_ROWS: &[DayFault] = &[
    // The row in force at the limit of refusal 12, and above 32 bits.
    (0, |day, random| force(day, random, 1000)),
    (12, |day, random| force(day, random, 1001)),
    (12, |day, random| {
        let s = random.place(SCHEDULES);
        push_only(day, 0, s, [858_993_460; SCHEDULES]);
    }),
    (12, |day, random| {
        let s = random.place(SCHEDULES);
        push_only(day, 1, s, [1 << 31, 0, 0, 0, 1 << 31]);
    }),
    (12, |day, random| {
        force(day, random, 1000);
        put_row(line_mut(day, 1), 3, [0; SCHEDULES]);
        push_only(day, 1, 3, [0, u32::MAX, 0, 0, 0]);
    }),
    // Rows out of force: of a lower order number, before and behind the one in force, and of the line.
    (0, |day, random| above_with(day, random, [0, 1])),
    (0, |day, random| {
        above_with(day, random, [1 << 31, u32::MAX])
    }),
    (12, |day, random| above_with(day, random, [1, 0])),
    (12, |day, random| above_with(day, random, [1 << 31, 1])),
    (0, |day, random| {
        let s = random.place(SCHEDULES);
        put_row(line_mut(day, 0), s, [u32::MAX; SCHEDULES]);
        push_only(day, 0, s, [0; SCHEDULES]);
    }),
    // The line's own row is in force: the record is for another schedule or line.
    (12, |day, _| {
        clear_rows(day);
        put_row(line_mut(day, 1), 2, [u32::MAX; SCHEDULES]);
        push(day, 1, 3, 0, [0; SCHEDULES]);
    }),
    (12, |day, _| {
        clear_rows(day);
        put_row(line_mut(day, 1), 2, [u32::MAX; SCHEDULES]);
        push(day, 0, 2, 0, [0; SCHEDULES]);
    }),
    // Lines one after another, and the rest of a line.
    (6, |day, _| {
        put_word(line_mut(day, 0), SIDE, 2);
        push_only(day, 1, 0, [u32::MAX; SCHEDULES]);
    }),
    (12, |day, _| {
        push_only(day, 0, 4, [u32::MAX; SCHEDULES]);
        put_word(line_mut(day, 1), SIDE, 2);
    }),
    (11, |day, _| {
        push_only(day, 0, 1, [u32::MAX; SCHEDULES]);
        put_word(line_mut(day, 0), HEDGE, u32::MAX);
    }),
    (12, |day, _| {
        push_only(day, 0, 1, [u32::MAX; SCHEDULES]);
        put_word(line_mut(day, 0), actual_place(0), u32::MAX);
    }),
    (13, |day, _| {
        push_only(day, 0, 4, [0; SCHEDULES]);
        put_word(line_mut(day, 0), actual_place(0), QUANTITY_LIMIT + 1);
    }),
    (14, |day, _| {
        clear_rows(day);
        first_line_twice(day);
        push(day, 1, 0, 1, [0; SCHEDULES]);
    }),
];

fn line_count(day: &[u8]) -> usize {
    word(day, LINE_COUNT) as usize
}

/// Adds to a word, in 32 bits.
fn add(day: &mut [u8], place: usize, amount: u32) {
    let value = word(day, place).wrapping_add(amount);
    put_word(day, place, value);
}

/// So many bytes, and a length word that says so.
fn cut_with_length_word(day: &mut Vec<u8>, length: usize) {
    day.truncate(length);
    put_word(day, FILE_LENGTH, length as u32);
}

/// So many bytes more, and a length word that says so.
fn lengthen(day: &mut Vec<u8>, bytes: usize) {
    day.resize(day.len() + bytes, 0);
    add(day, FILE_LENGTH, bytes as u32);
}

/// A header with this count, the low 32 bits of the length that goes with it as length word, and so many bytes.
fn wrap_length(day: &mut Vec<u8>, count: u32) {
    let lines = line_count(day);
    put_header(day, Layout::AdHoc, lines, count);
    let length = word(day, FILE_LENGTH);
    day.resize(length as usize, 0);
}

/// Takes header and records away, and puts the old header.
fn to_old(day: &mut Vec<u8>) {
    let lines = line_count(day);
    put_records(day, Records::clear);
    day.drain(..Layout::AdHoc.market() - Layout::Old.market());
    put_header(day, Layout::Old, lines, 0);
}

/// Changes the records, and puts the header that fits.
fn put_records(day: &mut Vec<u8>, change: impl FnOnce(&mut Records)) {
    let of_record = |record: Record| std::array::from_fn(|place| record.word(place));
    let mut records: Records = Day::new(day).records().map(of_record).collect();
    change(&mut records);
    let lines = line_count(day);
    day.truncate(Layout::AdHoc.line(lines));
    put_header(day, Layout::AdHoc, lines, 0);
    append_records(day, &records);
}

/// Adds a record, in the place of one that would be its twin.
fn push(day: &mut Vec<u8>, k: usize, s: usize, order: u32, row: RowWords) {
    put_records(day, |records| {
        let pushed = record(k, s, order, row);
        records.retain(|other| other[..RECORD_ROW] != pushed[..RECORD_ROW]);
        records.push(pushed);
    });
}

/// A record for a row that no other is for.
fn push_only(day: &mut Vec<u8>, k: usize, s: usize, row: RowWords) {
    clear_row(day, k, s);
    push(day, k, s, 1, row);
}

/// Takes the records for a row away.
fn clear_row(day: &mut Vec<u8>, k: usize, s: usize) {
    let is_other = |r: &RecordWords| r[..RECORD_ORDER] != record(k, s, 0, [0; 5])[..RECORD_ORDER];
    put_records(day, |records| records.retain(is_other));
}

/// No records, and lines with nothing in their own rows.
fn clear_rows(day: &mut Vec<u8>) {
    put_records(day, Records::clear);
    for k in 0..line_count(day) {
        (0..SCHEDULES).for_each(|s| put_row(line_mut(day, k), s, [0; SCHEDULES]));
    }
}

/// Three records for a row of the first line, of these order numbers, and no others for it.
fn push_twins(day: &mut Vec<u8>, s: usize, orders: [u32; 3]) {
    clear_row(day, 0, s);
    let three = orders.map(|order| record(0, s, order, [0; SCHEDULES]));
    put_records(day, |records| {
        records.insert(0, three[0]);
        records.extend(&three[1..]);
    });
}

/// Gives record j, the last for one that isn't there, the line count plus this as line.
fn name_line(day: &mut Vec<u8>, j: usize, above: u32) {
    let line = line_count(day) as u32 + above;
    put_in_record(day, j, RECORD_LINE, line);
}

fn name_schedule(day: &mut Vec<u8>, j: usize, schedule: u32) {
    put_in_record(day, j, RECORD_SCHEDULE, schedule);
}

fn put_in_record(day: &mut Vec<u8>, j: usize, place: usize, value: u32) {
    put_records(day, |records| {
        let last = records.len() - 1;
        records[j.min(last)][place] = value;
    });
}

/// Records for the first line's schedule 1 up to so many, all below those that are there.
fn fill_up(day: &mut Vec<u8>, count: u32) {
    clear_row(day, 0, 0);
    let there = record_count(day);
    let records = (there..count).map(|order| record(0, 0, order, [0; SCHEDULES]));
    append_records(day, &records.collect::<Records>());
}

fn row_of_total(day: &mut [u8], k: usize, above: u32, random: &mut Random) -> RowWords {
    let mut row = [0; SCHEDULES];
    row[random.place(SCHEDULES)] = most(line_mut(day, k)) + above;
    row
}

/// A row in force whose total is so much above M.
fn force(day: &mut Vec<u8>, random: &mut Random, above: u32) {
    let (k, s) = (random.place(line_count(day)), random.place(SCHEDULES));
    let row = row_of_total(day, k, above, random);
    push_only(day, k, s, row);
}

/// Two records for a row, the first with a total of M + 1,001, of these order numbers, in any order.
fn above_with(day: &mut Vec<u8>, random: &mut Random, [above, proper]: [u32; 2]) {
    let (k, s) = (random.place(line_count(day)), random.place(SCHEDULES));
    let row = row_of_total(day, k, 1001, random);
    let mut two = [
        record(k, s, above, row),
        record(k, s, proper, [0; SCHEDULES]),
    ];
    random.shuffle(&mut two);
    clear_row(day, k, s);
    append_records(day, &two);
}

fn first_line_twice(day: &mut [u8]) {
    let layout = Layout::named(day);
    day.copy_within(layout.line(0)..layout.line(1), layout.line(1));
}

/// How many kinds of damaged day there are.
pub fn ad_hoc_fault_kinds() -> usize {
    TABLES.concat().len()
}

pub fn ad_hoc_fault_day(seed: u64) -> Vec<u8> {
    ad_hoc_fault_day_and_number(seed).0
}

/// A day of 2 to 4 lines and at least 4 records, with one of the faults, and its number. Seeds in a row go through all
/// the faults.
pub fn ad_hoc_fault_day_and_number(seed: u64) -> (Vec<u8>, u32) {
    let faults = TABLES.concat();
    let (number, apply) = faults[(seed % faults.len() as u64) as usize];
    let random = &mut Random::new(!seed);
    let (old, _) = day_to_damage(seed, |_, _| {});
    let mut day = to_ad_hoc(&old, random.range(4, 12) as usize, random);
    apply(&mut day, random);
    (day, number)
}
