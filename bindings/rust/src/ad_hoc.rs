//! Ad hoc records of a day file (document 02, F-5). The file's records are read and written here; which row is in force is the proved code's to
//! find.

use crate::refusal::Refusal;
use crate::{line_part, AD_HOC_BYTES, LINE_BYTES, SCHEDULES};

/// The market table's length, and the header's without ad hoc records and with a count of them.
const MARKET_BYTES: usize = 48;
const HEADER_BYTES: usize = 16;
const AD_HOC_HEADER_BYTES: usize = 24;

/// An ad hoc record: a row of operating quantities that stands for the line's own in one schedule. Of the records for a line and a schedule the
/// one with the highest order number is in force, wherever it stands in the file.
///
/// ```
/// use mewikofu::AdHoc;
///
/// let record = AdHoc { line: 0, schedule: 1, order: 7, quantities: [1000, 500, 0, 0, 0] };
/// assert_eq!(record.bytes()[4], 2); // the file counts schedules from 1
/// assert_eq!(AdHoc::of_bytes(&record.bytes()), Some(record));
/// ```
#[derive(Clone, Copy, Debug, PartialEq, Eq, Hash)]
pub struct AdHoc {
    /// Counted from 0.
    pub line: u32,
    /// Counted from 0; the file's word is one more.
    pub schedule: usize,
    pub order: u32,
    /// In MJ, by interval.
    pub quantities: [u32; SCHEDULES],
}

impl AdHoc {
    /// What a record's bytes say; none where the schedule's word isn't 1 to 5, which is refused with 20.
    pub fn of_bytes(bytes: &[u8; AD_HOC_BYTES]) -> Option<AdHoc> {
        let [line, schedule, order, quantities @ ..]: [u32; AD_HOC_BYTES / 4] =
            std::array::from_fn(|place| word(bytes, place));
        let schedule = (schedule as usize).checked_sub(1);
        Some(AdHoc {
            line,
            schedule: schedule.filter(|&s| s < SCHEDULES)?,
            order,
            quantities,
        })
    }

    /// The record's bytes in the file.
    ///
    /// # Panics
    ///
    /// Where the schedule is above 4.
    pub fn bytes(&self) -> [u8; AD_HOC_BYTES] {
        assert!(
            self.schedule < SCHEDULES,
            "the schedule is counted from 0 to 4"
        );
        let first = [self.line, self.schedule as u32 + 1, self.order];
        let mut bytes = [0; AD_HOC_BYTES];
        let words = first.iter().chain(&self.quantities);
        for (place, word) in bytes.chunks_exact_mut(4).zip(words) {
            place.copy_from_slice(&word.to_le_bytes());
        }
        bytes
    }
}

/// The ad hoc records of a day, in the file's order; none in the layout without them. The header is checked, and of each record that it names a
/// line and a schedule (20).
pub fn ad_hoc_records(day: &[u8]) -> Result<Vec<AdHoc>, Refusal> {
    let (_, records) = parts(day)?;
    let (records, _) = records.as_chunks();
    let record = |bytes| {
        let record = AdHoc::of_bytes(bytes).filter(|record| record.line < word(day, 0));
        record.ok_or(Refusal::AdHocLineOrSchedule)
    };
    records.iter().map(record).collect()
}

/// The same day with these records after those that it has, in the layout with ad hoc records. Only the header is checked. With more than 64
/// records in all the day is refused with 19.
pub fn with_ad_hoc(day: &[u8], records: &[AdHoc]) -> Result<Vec<u8>, Refusal> {
    let (market_and_lines, before) = parts(day)?;
    let records_at = AD_HOC_HEADER_BYTES + market_and_lines.len();
    let count = before.len() / AD_HOC_BYTES + records.len();
    let header = [
        word(day, 0) as usize,
        AD_HOC_HEADER_BYTES,
        AD_HOC_HEADER_BYTES + MARKET_BYTES,
        records_at + AD_HOC_BYTES * count,
        count,
        records_at,
    ];
    let header = header
        .into_iter()
        .flat_map(|word| (word as u32).to_le_bytes());
    let mut made: Vec<u8> = header.collect();
    made.extend_from_slice(market_and_lines);
    made.extend_from_slice(before);
    made.extend(records.iter().flat_map(AdHoc::bytes));
    Ok(made)
}

/// A day's market table with its lines, and its records.
fn parts(day: &[u8]) -> Result<(&[u8], &[u8]), Refusal> {
    // The line part checks the header.
    line_part(day, 0)?;
    let header = match word(day, 1) as usize {
        HEADER_BYTES => HEADER_BYTES,
        _ => AD_HOC_HEADER_BYTES,
    };
    let lines = MARKET_BYTES + LINE_BYTES * word(day, 0) as usize;
    Ok(day[header..].split_at(lines))
}

fn word(bytes: &[u8], place: usize) -> u32 {
    u32::from_le_bytes(std::array::from_fn(|k| bytes[4 * place + k]))
}
