//! That the generated days with ad hoc records (02 F-5), and the kept ones, reach what they are for, on both sides.

use crate::ad_hoc_days;
use crate::kept::entries;
use crate::reach::{accepted, Kind, Met};
use crate::reach_sets::has_some;
use reference::cut::cut;
use reference::generate::RecordWords;
use reference::layout::*;
use reference::line_part::line_part;
use reference::quantities::{effective_actual, operating_totals};
use reference::refusal::day_number;
use std::collections::BTreeSet;

type RowWords = BySchedule<u32>;

/// An operating row that records are for: its line with the rows in force and with its own, its schedule, its records
/// in the order of the file.
struct OfRow<'a> {
    line: Line<'a>,
    own: Line<'a>,
    s: usize,
    records: Vec<RecordWords>,
}

fn row_of(line: Line, s: usize) -> RowWords {
    std::array::from_fn(|i| line.operating(s, i))
}

fn row_of_record(record: &RecordWords) -> RowWords {
    record[RECORD_ROW..].try_into().unwrap()
}

impl OfRow<'_> {
    fn in_force(&self) -> RowWords {
        row_of(self.line, self.s)
    }

    /// The records, the greatest by this key last.
    fn sorted_by<T: Ord>(&self, key: fn(&RecordWords) -> T) -> Vec<RecordWords> {
        let mut records = self.records.clone();
        records.sort_by_key(key);
        records
    }

    /// The highest order number.
    fn highest(&self) -> u32 {
        self.sorted_by(|r| r[RECORD_ORDER]).last().unwrap()[RECORD_ORDER]
    }

    /// Another row would be in force if it were this record's.
    fn differs(&self, record: &RecordWords) -> bool {
        row_of_record(record) != self.in_force()
    }

    /// A row would have refusal 12.
    fn is_above(&self, row: RowWords) -> bool {
        let total: u64 = row.into_iter().map(u64::from).sum();
        total > u64::from(self.line.greatest_break() + EXCESS_LIMIT)
    }
}

type OfRows = (&'static str, fn(&OfRow) -> bool);

/// What rows with records reach, of each side.
const OF_ROWS: &[OfRows] = &[
    ("several records", |row| row.records.len() > 2),
    ("the first in the file isn't in force", |row| {
        row.differs(&row.records[0])
    }),
    ("the last in the file isn't in force", |row| {
        row.differs(row.records.last().unwrap())
    }),
    ("the lowest order number isn't in force", |row| {
        row.differs(&row.sorted_by(|r| r[RECORD_ORDER])[0])
    }),
    ("the highest with a sign isn't in force", |row| {
        let by_sign = row.sorted_by(|r| r[RECORD_ORDER] as i32);
        row.differs(by_sign.last().unwrap())
    }),
    ("0 in force", |row| row.highest() == 0),
    ("2^31 - 1 in force", |row| row.highest() == (1 << 31) - 1),
    ("2^31 in force", |row| row.highest() == 1 << 31),
    ("2^32 - 1 in force", |row| row.highest() == u32::MAX),
    ("the line has another row", |row| {
        row_of(row.own, row.s) != row.in_force()
    }),
    ("the line's row would have refusal 12", |row| {
        row.is_above(row_of(row.own, row.s))
    }),
    ("a record's row would have refusal 12", |row| {
        row.records.iter().any(|r| row.is_above(row_of_record(r)))
    }),
    ("an excess in force", |row| {
        let most = u64::from(row.line.greatest_break());
        operating_totals(row.line)[row.s] > most
    }),
    ("another effective actual than the line's row 5", |row| {
        let in_32_bits = !row.is_above(row_of(row.own, row.s)) && row.s == SCHEDULES - 1;
        in_32_bits && effective_actual(row.own) != effective_actual(row.line)
    }),
    ("the bid is pulled", |row| row.line.is_pulled(row.s)),
    ("a set of schedules", |row| has_some(row.line)),
];

const HEDGE_BELOW: OfRows = ("a hedge", |row| row.line.word(HEDGE) > 0);

type OfDays = (&'static str, fn(&Day) -> bool);

/// What days reach.
const OF_DAYS: &[OfDays] = &[
    ("no record", |day| day.records().count() == 0),
    ("one record", |day| day.records().count() == 1),
    ("64 records", |day| day.records().count() == 64),
    ("one line", |day| day.line_count() == 1),
    ("clawback on", |day| day.market.clawback),
    ("clawback off", |day| !day.market.clawback),
    ("a cap", |day| day.market.caps != [u32::MAX; SCHEDULES]),
    ("an order number in several rows", |day| {
        let orders = day.records().map(|record| record.word(RECORD_ORDER));
        let different: BTreeSet<u32> = orders.collect();
        different.len() < day.records().count()
    }),
];

/// What days, injections and withdrawals met, and of which sides and schedules there are records.
#[derive(Default)]
struct WithRecords {
    of_days: Met,
    of_rows: [Met; 2],
    schedules: BTreeSet<(u32, usize)>,
}

impl WithRecords {
    fn day(&mut self, bytes: &[u8]) {
        let day = Day::new(bytes);
        for (what, is_met) in OF_DAYS {
            self.of_days.note(what, is_met(&day));
        }
        for (k, line) in day.lines().enumerate() {
            let own = Line::new(line_part(bytes, k as u64)).unwrap();
            for s in 0..SCHEDULES {
                let is_for = |r: &RecordWords| r[..2] == [k as u32, s as u32 + 1];
                let words = |r: Record| std::array::from_fn(|place| r.word(place));
                let records: Vec<RecordWords> = day.records().map(words).filter(is_for).collect();
                let row = OfRow {
                    line,
                    own,
                    s,
                    records,
                };
                self.row(&row);
            }
        }
    }

    fn row(&mut self, row: &OfRow) {
        if row.records.is_empty() {
            return;
        }
        let side = row.line.side();
        self.schedules.insert((side as u32, row.s));
        for (what, is_met) in OF_ROWS.iter().chain([&HEDGE_BELOW]) {
            self.of_rows[side as usize].note(what, is_met(row));
        }
    }
}

fn check_days(what: &str, days: impl IntoIterator<Item = Vec<u8>>) {
    let mut met = WithRecords::default();
    days.into_iter().for_each(|day| met.day(&day));
    let of_days: Vec<_> = OF_DAYS.iter().map(|(what, _)| *what).collect();
    assert_eq!(met.of_days.missing(&of_days), [""; 0], "{what}");
    let of_rows: Vec<_> = OF_ROWS.iter().map(|(what, _)| *what).collect();
    let missing = met.of_rows.each_ref().map(|met| met.missing(&of_rows));
    assert_eq!(missing, [[""; 0]; 2], "{what}");
    assert_eq!(met.of_rows[0].missing(&[HEDGE_BELOW.0]), [""; 0], "{what}");
    assert_eq!(met.schedules.len(), 2 * SCHEDULES, "{what}");
}

#[test]
fn ad_hoc_days_reach() {
    check_days("generated", ad_hoc_days());
}

#[test]
fn kept_days_reach() {
    for program in ["check_settle", "check_steps"] {
        check_days(program, accepted(program, Kind::AdHoc));
    }
}

/// Of both sides lines that the cutter accepts, and some that it refuses for a row of theirs.
#[test]
fn kept_lines_reach() {
    let lines = entries("check_cut");
    let last = &lines[lines.len() - 48..];
    let met: BTreeSet<(u32, u32)> = last
        .iter()
        .map(|l| (word(l, SIDE), cut(l).number))
        .collect();
    assert_eq!(met, [(0, 0), (0, 12), (1, 0), (1, 12)].into());
}

/// A file of more than 65,536 bytes that is refused for its count of records, not for its length.
#[test]
fn kept_long_days() {
    for program in ["check_steps", "check_day_numbers"] {
        let long = entries(program)
            .into_iter()
            .filter(|day| day.len() > 65_536);
        let numbers: BTreeSet<u32> = long.map(|day| day_number(&day)).collect();
        assert_eq!(numbers, [3, 19].into(), "{program}");
    }
    assert!(entries("check_settle")
        .iter()
        .all(|day| day.len() <= 65_536));
}
