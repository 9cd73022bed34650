//! Ad hoc records (02 F-5): which row is in force, what reads it, and that the answers are those of the old file with
//! the rows written in.

use crate::{ad_hoc_days, line_count, K10_REPORT};
use reference::cut::cut;
use reference::generate::*;
use reference::k10::k10;
use reference::layout::*;
use reference::line_part::line_part;
use reference::refusal::*;
use reference::report::{settle_report, steps_report};
use reference::settle::settle;
use reference::view::view;
use std::collections::BTreeMap;

const OWN: [u32; 5] = [1000, 1000, 0, 0, 0];

/// K10's day with these records for its line: schedule from 1, order number, row.
fn k10_with(records: &[(usize, u32, [u32; 5])]) -> Vec<u8> {
    let of = |&(s, order, row): &(usize, u32, [u32; 5])| record(0, s - 1, order, row);
    with_records(&k10(), &records.iter().map(of).collect::<Vec<_>>())
}

#[test]
fn layout_with_one_line_and_one_record() {
    let day = k10_with(&[(2, 9, [1, 2, 3, 4, 5])]);
    let words: Vec<u32> = (0..6).map(|place| word(&day, place)).collect();
    assert_eq!(words, [1, 24, 72, 764, 1, 732]);
    assert_eq!(day.len(), 764);
    assert_eq!(day[24..72], k10()[16..64]);
    assert_eq!(day[72..732], k10()[64..]);
    let record: Vec<u32> = (183..191).map(|place| word(&day, place)).collect();
    assert_eq!(record, [0, 2, 9, 1, 2, 3, 4, 5]);
}

#[test]
fn k10_in_the_layout_with_records() {
    let none = with_records(&k10(), &[]);
    assert_eq!(none.len(), 732);
    let same = k10_with(&[(2, 0, OWN)]);
    for day in [none, same] {
        assert_eq!(settle_report(&day), K10_REPORT);
        assert_eq!(steps_report(&day), steps_report(&k10()));
    }
}

/// K10 with an operating row of 1000 and 700 in schedule 2: 700 on the second step in it, 1000 in schedule 3, so rises
/// of 700 and 300 at a rate of 20000.
const K10_1700: &str = "day 1
7 3 INJ 2 0 14000000 6000000 -10000000 0
total 0 14000000 6000000 -10000000 0
adjusted 0 10000000 0 0 0
";

/// The highest order number, compared without sign, wherever it stands.
#[test]
fn order_numbers() {
    let (row, other) = ([1000, 700, 0, 0, 0], [1000, 400, 0, 0, 0]);
    for (low, high) in [
        (0, 1),
        (0, u32::MAX),
        (2_147_483_647, 2_147_483_648),
        (1, 2_147_483_648),
        (2_147_483_648, 4_294_967_295),
    ] {
        let (first, second) = ((2, low, other), (2, high, row));
        for records in [[first, second], [second, first]] {
            assert_eq!(settle_report(&k10_with(&records)), K10_1700);
        }
        let own = k10_with(&[(3, high, OWN), (3, low, other)]);
        assert_eq!(settle_report(&own), K10_REPORT);
    }
    let one = k10_with(&[(2, 0, row)]);
    assert_eq!(settle_report(&one), K10_1700);
}

/// A(5) is the sum of the lesser of row 5 in force and the actuals, 1000 and 500: 500 + 500, where K10's is 1500.
#[test]
fn effective_actual_reads_the_row_in_force() {
    let day = k10_with(&[(5, 3, [500, 1000, 0, 0, 0])]);
    let steps = [0, 1].map(|step| view(&day, 0, step));
    assert_eq!(steps.each_ref().map(|v| v.operating[4]), [1000, 500]);
    assert_eq!(steps.each_ref().map(|v| v.actual), [1000, 0]);
    assert_eq!(steps.each_ref().map(|v| v.agino[4]), [0, 500]);
    let old = [0, 1].map(|step| view(&k10(), 0, step));
    assert_eq!(old.each_ref().map(|v| v.actual), [1000, 500]);
}

fn numbers(day: &[u8]) -> [u32; 3] {
    [
        day_number(day),
        settle_number(day, 152),
        view_number(day, 0, 0),
    ]
}

/// M is 3000: 4000 passes in the row in force, 4001 doesn't. A row that isn't in force isn't checked; the cutter reads
/// the line's own.
#[test]
fn refusal_12_reads_the_row_in_force() {
    for s in 1..=5 {
        for (total, number) in [(4000, 0), (4001, 12), (u32::MAX, 12)] {
            let day = k10_with(&[(s, 6, [0, 0, total, 0, 0])]);
            assert_eq!(numbers(&day), [number; 3]);
            assert_eq!(cut_number(line_part(&day, 0)), 0);
            let day = k10_with(&[(s, 7, [0; 5]), (s, 6, [0, 0, total, 0, 0])]);
            assert_eq!(numbers(&day), [0; 3]);
        }
        let mut day = k10_with(&[(s, 0, [0; 5])]);
        let place = operating_place(s - 1, 4);
        put_word(line_mut(&mut day, 0), place, u32::MAX);
        assert_eq!(numbers(&day), [0; 3]);
        assert_eq!(cut_number(line_part(&day, 0)), 12);
        put_word(line_mut(&mut day, 0), actual_place(0), u32::MAX);
        assert_eq!(numbers(&day), [13; 3]);
    }
}

/// K10's line three times, with records for the first and the last, which `change` is made to.
fn three_lines(change: impl Fn(&mut Vec<RecordWords>)) -> Vec<u8> {
    let mut records = vec![
        record(0, 0, 5, [0; 5]),
        record(2, 4, 5, [0; 5]),
        record(2, 4, 6, OWN),
    ];
    change(&mut records);
    let mut old = k10();
    for k in 1..3 {
        let mut line = k10()[64..].to_vec();
        put_word(&mut line, PARTICIPANT, 100 + k);
        old.extend(line);
    }
    put_header(&mut old, Layout::Old, 3, 0);
    with_records(&old, &records)
}

/// A record's place, the value put there and the day's number.
const WORDS_OF_RECORDS: &[(usize, u32, u32)] = &[
    (RECORD_LINE, 0, 0),
    (RECORD_LINE, 2, 0),
    (RECORD_LINE, 3, 20),
    (RECORD_LINE, 4, 20),
    (RECORD_LINE, 2_147_483_648, 20),
    (RECORD_LINE, 4_294_967_295, 20),
    (RECORD_SCHEDULE, 0, 20),
    (RECORD_SCHEDULE, 1, 0),
    (RECORD_SCHEDULE, 5, 0),
    (RECORD_SCHEDULE, 6, 20),
    (RECORD_SCHEDULE, 2_147_483_649, 20),
    (RECORD_SCHEDULE, 4_294_967_295, 20),
    (RECORD_ORDER, 0, 0),
    (RECORD_ORDER, 4_294_967_295, 0),
];

#[test]
fn lines_and_schedules_of_records() {
    for &(place, value, number) in WORDS_OF_RECORDS {
        for j in [0, 2] {
            let day = three_lines(|records| records[j][place] = value);
            assert_eq!(day_number(&day), number, "word {place} of {j} as {value}");
            assert_eq!([0, 3].map(|k| line_part_number(&day, k)), [0, 16]);
        }
    }
}

#[test]
fn equal_records() {
    let number = |change: fn(&mut Vec<RecordWords>)| day_number(&three_lines(change));
    assert_eq!(number(|records| records.push(records[0])), 21);
    assert_eq!(number(|records| records.insert(1, records[1])), 21);
    assert_eq!(number(|records| records[2][RECORD_ORDER] = 5), 21);
    assert_eq!(number(|records| records.push(record(0, 1, 5, [0; 5]))), 0);
    assert_eq!(number(|records| records.push(record(1, 0, 5, [0; 5]))), 0);
    assert_eq!(number(|records| records.push(record(0, 0, 4, [9; 5]))), 0);
    let both = |records: &mut Vec<RecordWords>| {
        records.insert(0, records[0]);
        records[3][RECORD_LINE] = 3;
    };
    assert_eq!(day_number(&three_lines(both)), 20);
}

/// Each before the next: 2, 3, 19, 4, 5, 20, 21, those of lines, 14 and 15. The line part meets the header's alone.
#[test]
fn order_of_refusals() {
    let mut day = three_lines(|records| {
        records.insert(0, records[0]);
        records[2][RECORD_SCHEDULE] = 0;
        let more = (records.len() as u32..65).map(|order| record(1, 1, order, [0; 5]));
        records.extend(more);
    });
    put_word(market_mut(&mut day), CLAWBACK, 2);
    put_word(market_mut(&mut day), PRICE_CAP, u32::MAX);
    put_word(line_mut(&mut day, 1), SIDE, 2);
    put_word(&mut day, RECORDS_OFFSET, 0);
    put_word(&mut day, LINE_COUNT, 0);
    let numbers = |day: &[u8]| {
        let part = line_part_number(day, 3);
        [day_number(day), settle_number(day, 0), part]
    };
    assert_eq!(numbers(&day), [2, 2, 2]);
    put_word(&mut day, LINE_COUNT, 3);
    assert_eq!(numbers(&day), [3, 3, 3]);
    put_word(&mut day, RECORDS_OFFSET, 2052);
    assert_eq!(numbers(&day), [19, 19, 19]);
    assert!(line_part(&day, 0).is_empty());
    day.truncate(day.len() - 32);
    put_header(&mut day, Layout::AdHoc, 3, 64);
    assert_eq!(numbers(&day), [4, 4, 16]);
    put_word(market_mut(&mut day), PRICE_CAP, 0);
    assert_eq!(numbers(&day), [5, 5, 16]);
    put_word(market_mut(&mut day), CLAWBACK, 1);
    assert_eq!(numbers(&day), [20, 20, 16]);
    put_word(&mut day[2052..], 2 * 8 + RECORD_SCHEDULE, 5);
    assert_eq!(numbers(&day), [21, 21, 16]);
    put_word(&mut day[2052..], RECORD_ORDER, 77);
    assert_eq!(numbers(&day), [6, 6, 16]);
    put_word(line_mut(&mut day, 1), SIDE, 0);
    assert_eq!(numbers(&day), [0, 15, 16]);
    let key = [PARTICIPANT, POINT].map(|place| word(line_mut(&mut day, 0), place));
    put_words(line_mut(&mut day, 2), &key);
    assert_eq!(numbers(&day), [14, 14, 16]);
}

/// Words of K10's header with one record, 764 bytes, and the number.
#[test]
fn words_of_the_header() {
    for (place, value, number) in [
        (LINE_COUNT, 0, 2),
        (LINE_COUNT, 2, 3),
        (LINE_COUNT, 65, 2),
        (MARKET_OFFSET, 0, 3),
        (MARKET_OFFSET, 16, 3),
        (MARKET_OFFSET, 17, 3),
        (MARKET_OFFSET, 72, 3),
        (LINES_OFFSET, 64, 3),
        (LINES_OFFSET, 71, 3),
        (FILE_LENGTH, 732, 3),
        (FILE_LENGTH, 765, 3),
        (RECORD_COUNT, 0, 3),
        (RECORD_COUNT, 2, 3),
        (RECORD_COUNT, 134_217_729, 3), // 2^27 + 1
        (RECORD_COUNT, 2_147_483_649, 3),
        (RECORDS_OFFSET, 0, 3),
        (RECORDS_OFFSET, 731, 3),
        (RECORDS_OFFSET, 764, 3),
    ] {
        let mut day = k10_with(&[(1, 0, OWN)]);
        put_word(&mut day, place, value);
        assert_eq!(day_number(&day), number, "word {place} as {value}");
        assert_eq!(line_part_number(&day, 0), number);
    }
}

/// Every length; from 64 bytes on header words are read, and 72 are needed for a market table.
#[test]
fn lengths() {
    let day = k10_with(&[(1, 0, OWN)]);
    for length in 0..day.len() + 40 {
        let mut cut = day.clone();
        cut.resize(length, 0);
        let expected = match length {
            0..64 => 1,
            764 => 0,
            _ => 3,
        };
        assert_eq!(day_number(&cut), expected, "{length} bytes");
        assert_eq!(line_part_number(&cut, 0), expected, "{length} bytes");
    }
}

/// How many records; the last is a file of 65,544 bytes.
#[test]
fn counts() {
    for (lines, count, number) in [
        (1, 0, 0),
        (1, 64, 0),
        (1, 65, 19),
        (64, 64, 0),
        (64, 726, 19),
    ] {
        let mut old = k10()[..64].to_vec();
        for k in 0..lines {
            let mut line = k10()[64..].to_vec();
            put_word(&mut line, PARTICIPANT, k);
            old.extend(line);
        }
        put_header(&mut old, Layout::Old, lines as usize, 0);
        let records: Vec<_> = (0..count).map(|order| record(0, 1, order, OWN)).collect();
        let day = with_records(&old, &records);
        assert_eq!(day.len(), 72 + 660 * lines as usize + 32 * count as usize);
        assert_eq!(day_number(&day), number);
        assert_eq!(line_part_number(&day, 0), number);
        for wrapped in [1, 7, 31] {
            let mut day = day.clone();
            put_word(&mut day, RECORD_COUNT, count + (wrapped << 27));
            assert_eq!(day_number(&day), 3);
        }
    }
}

/// The lent bytes are the line's own, from 72 + 660k on.
#[test]
fn line_parts() {
    for day in ad_hoc_days().take(100) {
        let n = line_count(&day) as u64;
        for k in 0..n {
            let start = 72 + 660 * k as usize;
            let own = &day[start..start + 660];
            assert_eq!(line_part(&day, k).as_ptr_range(), own.as_ptr_range());
        }
        assert_eq!(
            (line_part_number(&day, n), line_part(&day, n).len()),
            (16, 0)
        );
    }
}

/// The file of the old layout with the rows in force written in, worked out from the bytes alone.
fn written_in(day: &[u8]) -> Vec<u8> {
    let n = line_count(day);
    let (before, records) = day.split_at(72 + 660 * n);
    let mut in_force: BTreeMap<[u32; 2], (u32, &[u8])> = BTreeMap::new();
    for record in records.chunks(32) {
        let [line, schedule, order] = [0, 1, 2].map(|place| word(record, place));
        let found = in_force.entry([line, schedule]).or_insert((order, record));
        if order >= found.0 {
            *found = (order, record);
        }
    }
    let length = 64 + 660 * n as u32;
    let header = [n as u32, 16, 64, length].map(u32::to_le_bytes);
    let mut old = [header.as_flattened(), &before[24..]].concat();
    for ([line, schedule], (_, record)) in in_force {
        let start = 64 + 660 * line as usize + 4 * 135 + 20 * (schedule as usize - 1);
        old[start..start + 20].copy_from_slice(&record[12..]);
    }
    old
}

/// The numbers that a day has before its lines are met.
const BEFORE_LINES: [u32; 8] = [1, 2, 3, 4, 5, 19, 20, 21];

/// Generated days of the layout with records that get as far as their lines, accepted and refused.
fn days_up_to_lines() -> impl Iterator<Item = Vec<u8>> {
    let small = (0..300).map(small_ad_hoc_day);
    let damaged = (0..1000).map(ad_hoc_damaged_day);
    let faults = (0..1000).map(ad_hoc_fault_day);
    let days = ad_hoc_days().chain(small).chain(damaged).chain(faults);
    days.filter(|day| !BEFORE_LINES.contains(&day_number(day)))
}

/// Number, book, views and their refusals are those of the old file with the rows written in.
#[test]
fn answers_are_those_of_the_old_file() {
    let mut numbers = BTreeMap::new();
    for day in days_up_to_lines() {
        let old = written_in(&day);
        assert_eq!(day_number(&day), day_number(&old));
        *numbers.entry(day_number(&day)).or_insert(0) += 1;
        let least = book_length(line_count(&day));
        for room in [least - 1, least, least + 9] {
            let [mut book, mut expected] = [vec![0xA5; room], vec![0xA5; room]];
            assert_eq!(settle(&day, &mut book), settle(&old, &mut expected));
            assert_eq!(book, expected);
        }
        assert_eq!(steps_report(&day), steps_report(&old));
        for (line, step) in [(0, 0), (0, 60), (line_count(&day) as u64, 0)] {
            assert_eq!(view(&day, line, step), view(&old, line, step));
        }
    }
    assert!([0, 6, 7, 8, 9, 10, 11, 12, 13, 14]
        .into_iter()
        .eq(numbers.into_keys()));
}

/// Generated days have the answers of the day that they were made from, and are that day with the rows written in.
#[test]
fn generated_days_are_those_of_their_old_day() {
    for seed in 0..300 {
        let (day, old) = ad_hoc_day_and_old(seed);
        assert_eq!(day_number(&day), 0);
        assert!(written_in(&day) == old, "seed {seed}");
    }
}

#[test]
fn damaged_days_have_their_numbers() {
    for seed in 0..1500 {
        let (day, number) = ad_hoc_fault_day_and_number(seed);
        assert_eq!(day_number(&day), number, "fault of seed {seed}");
        let (day, number) = ad_hoc_damaged_day_and_number(seed);
        assert_eq!(day_number(&day), number, "damaged day of seed {seed}");
    }
}

/// The cutter reads the line's own rows: it may refuse a line of an accepted day with 12, and else cuts as ever.
#[test]
fn cuts_of_an_accepted_day() {
    let mut met = [0; 2];
    for day in ad_hoc_days() {
        let old = written_in(&day);
        for k in 0..line_count(&day) as u64 {
            let found = cut(line_part(&day, k));
            match found.number {
                0 => assert_eq!(found, cut(line_part(&old, k))),
                number => assert_eq!(number, 12),
            }
            met[usize::from(found.number == 12)] += 1;
        }
    }
    assert!(met.iter().all(|&count| count > 100));
}
