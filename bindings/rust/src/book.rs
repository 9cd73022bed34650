//! The book that settling writes (document 01, "Totals and book").

use crate::SCHEDULES;

const PAIRS_AT: usize = 16;
const ENTRIES_AT: usize = 96;
const ENTRY_BYTES: usize = 56;
const PAYMENTS: usize = 16;

/// The length of a book of n lines.
pub const fn book_bytes(n: usize) -> usize {
    ENTRIES_AT + ENTRY_BYTES * n
}

/// A settled day's book.
#[derive(Clone, Debug, PartialEq, Eq)]
pub struct Book {
    bytes: Vec<u8>,
}

#[derive(Clone, Copy, Debug, PartialEq, Eq)]
pub enum Side {
    Injection,
    Withdrawal,
}

/// One line of a book. Payments are by schedule, in $0.0000001.
#[derive(Clone, Debug, PartialEq, Eq)]
pub struct BookLine {
    pub participant: u32,
    pub point: u32,
    pub side: Side,
    pub steps: u32,
    pub payments: [i64; SCHEDULES],
}

impl Book {
    /// The book at the start of bytes that settling accepted.
    pub(crate) fn written(mut bytes: Vec<u8>) -> Book {
        bytes.truncate(book_bytes(word(&bytes, 0) as usize));
        Book { bytes }
    }

    pub fn as_bytes(&self) -> &[u8] {
        &self.bytes
    }

    pub fn line_count(&self) -> usize {
        (self.bytes.len() - ENTRIES_AT) / ENTRY_BYTES
    }

    /// t by schedule, in $0.0000001.
    pub fn totals(&self) -> [i64; SCHEDULES] {
        std::array::from_fn(|s| signed(&self.bytes, PAIRS_AT + 16 * s))
    }

    /// a by schedule, in $0.0000001.
    pub fn adjusted(&self) -> [i64; SCHEDULES] {
        std::array::from_fn(|s| signed(&self.bytes, PAIRS_AT + 16 * s + 8))
    }

    /// The lines in the day's order.
    pub fn lines(&self) -> impl ExactSizeIterator<Item = BookLine> + '_ {
        self.bytes[ENTRIES_AT..].chunks_exact(ENTRY_BYTES).map(line)
    }
}

fn line(entry: &[u8]) -> BookLine {
    BookLine {
        participant: word(entry, 0),
        point: word(entry, 4),
        side: match word(entry, 8) {
            0 => Side::Injection,
            _ => Side::Withdrawal,
        },
        steps: word(entry, 12),
        payments: std::array::from_fn(|s| signed(entry, PAYMENTS + 8 * s)),
    }
}

fn word(bytes: &[u8], at: usize) -> u32 {
    u32::from_le_bytes(std::array::from_fn(|k| bytes[at + k]))
}

fn signed(bytes: &[u8], at: usize) -> i64 {
    i64::from_le_bytes(std::array::from_fn(|k| bytes[at + k]))
}
