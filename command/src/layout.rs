//! Places of the day file and the book (document 01, "Units and the day file", "Totals and book"; document 02, F-5). Schedules, lines, bids, slots, intervals and
//! ad hoc records count from 0.

pub use mewikofu::{
    book_bytes, AD_HOC_BYTES, LINE_BYTES, MOST_AD_HOC, MOST_EXCESS, MOST_LINES, SCHEDULES,
};

/// One value for each schedule.
pub type BySchedule<T> = [T; SCHEDULES];

/// The most MJ of a quantity and the most units of $0.0001 per GJ of a price.
pub const QUANTITY_LIMIT: u32 = 200_000_000;
pub const PRICE_LIMIT: u32 = 10_000_000;

/// Slots for breaks, and as many for prices, in a bid.
pub const BID_SLOTS: usize = 11;
pub const BID_WORDS: usize = 1 + 2 * BID_SLOTS;

/// Whether the bid of a schedule, from 0, can be pulled: its count is then 0.
pub const fn can_be_pulled(bid: usize) -> bool {
    bid > 0
}

/// No day file is shorter; refusal 1.
pub const LEAST_BYTES: usize = 64;

/// The market offset of a file without ad hoc records, and of one that may have some.
pub const MARKET_OFFSET: usize = 16;
pub const AD_HOC_MARKET_OFFSET: usize = 24;

/// Byte places of the book.
pub const BOOK_TOTALS_OFFSET: usize = 16;
pub const BOOK_LINES_OFFSET: usize = 96;
pub const BOOK_LINE_BYTES: usize = 56;

/// Word places of the market table, from the start of the table.
pub const MARKET_PRICE: usize = 0;
pub const CAP_MARK: usize = 5;
pub const PRICE_CAP: usize = 10;
pub const CLAWBACK: usize = 11;
const MARKET_WORDS: usize = 12;

/// Word places of a line, from the start of the line.
pub const PARTICIPANT: usize = 0;
pub const POINT: usize = 1;
pub const SIDE: usize = 2;
pub const ACCREDITATION: usize = 3;
pub const HEDGE: usize = 4;
const BIDS: usize = 5;
const PRICING: usize = BIDS + SCHEDULES * BID_WORDS;
const OPERATING: usize = PRICING + 15;
const ACTUALS: usize = OPERATING + SCHEDULES * SCHEDULES;

/// Word places of an ad hoc record, from the start of the record.
pub const AD_HOC_LINE: usize = 0;
pub const AD_HOC_SCHEDULE: usize = 1;
pub const AD_HOC_ORDER: usize = 2;
pub const AD_HOC_QUANTITIES: usize = 3;

/// Place of a bid's count.
pub const fn count_place(bid: usize) -> usize {
    BIDS + bid * BID_WORDS
}

pub const fn break_place(bid: usize, slot: usize) -> usize {
    count_place(bid) + 1 + slot
}

pub const fn price_place(bid: usize, slot: usize) -> usize {
    break_place(bid, slot) + BID_SLOTS
}

/// Place of a pricing quantity; row s holds the intervals from s on.
pub const fn pricing_place(row: usize, interval: usize) -> usize {
    const ROW_START: [usize; SCHEDULES] = [0, 5, 9, 12, 14];
    PRICING + ROW_START[row] + interval - row
}

pub const fn operating_place(schedule: usize, interval: usize) -> usize {
    OPERATING + schedule * SCHEDULES + interval
}

pub const fn actual_place(interval: usize) -> usize {
    ACTUALS + interval
}

/// Where the parts of a day file stand, in bytes: header, market table, lines, ad hoc records.
#[derive(Clone, Copy, Debug, PartialEq, Eq)]
pub struct Layout {
    pub lines: usize,
    /// How many ad hoc records; none where the header is that of document 01, of four words, which has no count of them.
    pub records: Option<usize>,
}

impl Layout {
    /// What a header's words say. Every market offset but that of document 01 is held to the layout with ad hoc records.
    pub fn named(day: &[u8]) -> Layout {
        let old = word(day, 1) as usize == MARKET_OFFSET;
        Layout {
            lines: word(day, 0) as usize,
            records: (!old).then(|| word(day, 4) as usize),
        }
    }

    pub const fn market_at(&self) -> usize {
        match self.records {
            None => MARKET_OFFSET,
            Some(_) => AD_HOC_MARKET_OFFSET,
        }
    }

    pub const fn header_words(&self) -> usize {
        self.market_at() / 4
    }

    pub const fn line_at(&self, k: usize) -> usize {
        self.market_at() + 4 * MARKET_WORDS + LINE_BYTES * k
    }

    pub const fn record_at(&self, j: usize) -> usize {
        self.line_at(self.lines) + AD_HOC_BYTES * j
    }

    pub const fn record_count(&self) -> usize {
        match self.records {
            None => 0,
            Some(count) => count,
        }
    }

    pub const fn length(&self) -> usize {
        self.record_at(self.record_count())
    }

    /// The header's words. The length of a file with very many records doesn't fit one.
    pub fn header(&self) -> Vec<u64> {
        let first = [self.lines, self.market_at(), self.line_at(0), self.length()];
        let last = [self.record_count(), self.record_at(0)];
        let words = first.into_iter().chain(last);
        let words = words.take(self.header_words());
        words.map(|word| word as u64).collect()
    }

    /// A file of this layout with its header, all else 0. It has at most some hundred lines and records.
    pub fn empty_day(&self) -> Vec<u8> {
        let mut day = vec![0; self.length()];
        let header: Vec<u32> = self.header().iter().map(|&word| word as u32).collect();
        put_words(&mut day, &header);
        day
    }

    pub fn market<'a>(&self, day: &'a [u8]) -> &'a [u8] {
        &day[self.market_at()..self.line_at(0)]
    }

    /// The 660 bytes of line k of a day that has them.
    pub fn line<'a>(&self, day: &'a [u8], k: usize) -> &'a [u8] {
        &day[self.line_at(k)..self.line_at(k + 1)]
    }

    /// The 32 bytes of ad hoc record j of a day that has them.
    pub fn record<'a>(&self, day: &'a [u8], j: usize) -> &'a [u8] {
        &day[self.record_at(j)..self.record_at(j + 1)]
    }
}

/// The little-endian word at a word place.
pub fn word(bytes: &[u8], place: usize) -> u32 {
    u32::from_le_bytes(std::array::from_fn(|k| bytes[4 * place + k]))
}

pub fn put_word(bytes: &mut [u8], place: usize, value: u32) {
    bytes[4 * place..4 * place + 4].copy_from_slice(&value.to_le_bytes());
}

/// Writes words one after another from the start.
pub fn put_words(bytes: &mut [u8], words: &[u32]) {
    for (place, &value) in words.iter().enumerate() {
        put_word(bytes, place, value);
    }
}

/// The signed 64-bit number at a byte offset.
pub fn signed(bytes: &[u8], offset: usize) -> i64 {
    i64::from_le_bytes(std::array::from_fn(|k| bytes[offset + k]))
}

/// INJ, WDR, or the number of no side.
pub fn side_name(word: u32) -> String {
    match word {
        0 => "INJ".to_string(),
        1 => "WDR".to_string(),
        other => other.to_string(),
    }
}
