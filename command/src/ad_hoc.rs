//! Ad hoc records of a day, and the operating rows in force (document 02, F-5).

use crate::layout::*;
use crate::lists::joined;

/// One ad hoc record, as the file has it.
#[derive(Clone, Copy, Debug, PartialEq, Eq)]
pub struct Record {
    /// From 0.
    pub line: u32,
    /// From 1.
    pub schedule: u32,
    pub order: u32,
    pub quantities: [u32; SCHEDULES],
}

impl Record {
    fn new(bytes: &[u8]) -> Record {
        Record {
            line: word(bytes, AD_HOC_LINE),
            schedule: word(bytes, AD_HOC_SCHEDULE),
            order: word(bytes, AD_HOC_ORDER),
            quantities: std::array::from_fn(|i| word(bytes, AD_HOC_QUANTITIES + i)),
        }
    }

    /// The schedule from 0, where there is such a schedule.
    pub fn schedule_place(&self) -> Option<usize> {
        let schedule = (self.schedule as usize).checked_sub(1);
        schedule.filter(|&s| s < SCHEDULES)
    }
}

/// All records of a day that has those of its layout.
pub fn records(day: &[u8], layout: &Layout) -> Vec<Record> {
    let places = 0..layout.record_count();
    places.map(|j| Record::new(layout.record(day, j))).collect()
}

/// A row of a record in force, with the line's own, which it replaces.
#[derive(Clone, Copy, Debug, PartialEq, Eq)]
pub struct Row {
    /// The record's place in the file, from 0.
    pub place: usize,
    pub order: u32,
    pub quantities: [u32; SCHEDULES],
    pub own: [u32; SCHEDULES],
}

/// The records' rows in force for one line; none in a schedule where its own is.
pub type InForce = BySchedule<Option<Row>>;

/// Of the records for line k the one with the highest order number, for each schedule.
pub fn in_force(records: &[Record], line: &[u8], k: usize) -> InForce {
    let mut rows: InForce = [None; SCHEDULES];
    let of_line = records.iter().enumerate();
    for (place, record) in of_line.filter(|(_, record)| record.line as usize == k) {
        let Some(s) = record.schedule_place() else {
            continue;
        };
        if rows[s].is_none_or(|row| row.order < record.order) {
            rows[s] = Some(Row {
                place,
                order: record.order,
                quantities: record.quantities,
                own: std::array::from_fn(|i| word(line, operating_place(s, i))),
            });
        }
    }
    rows
}

/// The line's bytes with the rows in force in place of its own: what settling reads of it, and the cutter of an accepted day never refuses.
pub fn with_rows(line: &[u8], rows: &InForce) -> Vec<u8> {
    let mut bytes = line.to_vec();
    for (s, row) in rows.iter().enumerate() {
        if let Some(row) = row {
            put_words(&mut bytes[4 * operating_place(s, 0)..], &row.quantities);
        }
    }
    bytes
}

/// For each row `in schedule 2 an ad hoc row is in force (order number 7): 1 0.5 0 0 0 in place of the line's own, 1 1 0 0 0.` `write` writes a number of MJ.
pub fn statements(rows: &InForce, write: impl Fn(u32) -> String) -> Vec<String> {
    let list = |row: [u32; SCHEDULES]| row.map(&write).join(" ");
    let named = rows.iter().enumerate().filter_map(|(s, row)| {
        let (schedule, row) = (s + 1, (*row)?);
        let order = row.order;
        let [quantities, own] = [row.quantities, row.own].map(list);
        Some(format!("in schedule {schedule} an ad hoc row is in force (order number {order}): {quantities} in place of the line's own, {own}."))
    });
    named.collect()
}

/// The same as sentences to stand after others.
pub fn sentences(rows: &InForce, write: impl Fn(u32) -> String) -> String {
    let statements = statements(rows, write);
    let sentences = statements.iter().map(|words| format!(" I{}", &words[1..]));
    sentences.collect()
}

/// `schedule 2 (order number 7) and schedule 3 (order number 4)`.
pub fn schedules(rows: &InForce) -> String {
    let named = rows.iter().enumerate().filter_map(|(s, row)| {
        let order = (*row)?.order;
        Some(format!("schedule {} (order number {order})", s + 1))
    });
    joined(&named.collect::<Vec<_>>())
}
