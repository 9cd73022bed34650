//! Units, limits, and the places of the day file and the book (01 "Units and the day file", "Totals and book", 02 F-5).

/// Schedules of a gas day; scheduling intervals are as many.
pub const SCHEDULES: usize = 5;
/// One value for each schedule.
pub type BySchedule<T> = [T; SCHEDULES];

/// The most MJ of a quantity and the most units of $0.0001 per GJ of a price.
pub const QUANTITY_LIMIT: u32 = 200_000_000;
pub const PRICE_LIMIT: u32 = 10_000_000;
/// The most MJ by which a pricing or operating total may exceed M (02 F-2).
pub const EXCESS_LIMIT: u32 = 1_000;

pub const MOST_LINES: usize = 64;
/// The most ad hoc records of a day (02 F-5).
pub const MOST_RECORDS: u32 = 64;
pub const MOST_STEPS: usize = 56;
/// Slots for breaks, and as many for prices, in a bid.
pub const BID_SLOTS: usize = 11;

/// Bytes of the parts of a day file.
const MARKET_BYTES: usize = 4 * MARKET_WORDS;
pub const LINE_BYTES: usize = 660;
pub const RECORD_BYTES: usize = 4 * RECORD_WORDS;

/// A day under so many bytes has refusal 1, whatever layout it names.
pub const LEAST_DAY: usize = day_length(0);

/// Word places of the header; the last two are those of ad hoc records.
pub const LINE_COUNT: usize = 0;
pub const MARKET_OFFSET: usize = 1;
pub const LINES_OFFSET: usize = 2;
pub const FILE_LENGTH: usize = 3;
pub const RECORD_COUNT: usize = 4;
pub const RECORDS_OFFSET: usize = 5;

/// Byte places of the book.
pub const BOOK_TOTALS_OFFSET: usize = 16;
pub const BOOK_LINES_OFFSET: usize = 96;
pub const BOOK_LINE_BYTES: usize = 56;

/// Word places of the market table, from the start of the table.
pub const MARKET_PRICE: usize = 0;
pub const CAP_MARK: usize = MARKET_PRICE + SCHEDULES;
pub const PRICE_CAP: usize = CAP_MARK + SCHEDULES;
pub const CLAWBACK: usize = PRICE_CAP + 1;
const MARKET_WORDS: usize = CLAWBACK + 1;

/// Word places of a line, from the start of the line.
pub const PARTICIPANT: usize = 0;
pub const POINT: usize = 1;
pub const SIDE: usize = 2;
pub const ACCREDITATION: usize = 3;
pub const HEDGE: usize = 4;
const BIDS: usize = 5;
const BID_WORDS: usize = 1 + 2 * BID_SLOTS;
const PRICING: usize = BIDS + SCHEDULES * BID_WORDS;
const OPERATING: usize = PRICING + 15;
const ACTUALS: usize = OPERATING + SCHEDULES * SCHEDULES;
const LINE_WORDS: usize = LINE_BYTES / 4;

/// Word places of an ad hoc record, from the start of the record. Its line counts from 0, its schedule from 1.
pub const RECORD_LINE: usize = 0;
pub const RECORD_SCHEDULE: usize = 1;
pub const RECORD_ORDER: usize = 2;
pub const RECORD_ROW: usize = 3;
pub const RECORD_WORDS: usize = RECORD_ROW + SCHEDULES;

/// Accreditation words from the one to the other are 32 plus a set of schedules (02 F-7).
pub const EMPTY_SET: u32 = 32;
pub const FULL_SET: u32 = 63;

/// Place of a bid's count. Bids, slots, rows and intervals count from 0.
pub const fn count_place(bid: usize) -> usize {
    BIDS + bid * BID_WORDS
}

pub const fn break_place(bid: usize, slot: usize) -> usize {
    count_place(bid) + 1 + slot
}

pub const fn price_place(bid: usize, slot: usize) -> usize {
    break_place(bid, slot) + BID_SLOTS
}

/// Place of a pricing quantity; row s holds the intervals from s on.
pub const fn pricing_place(row: usize, interval: usize) -> usize {
    const ROW_START: [usize; SCHEDULES] = [0, 5, 9, 12, 14];
    PRICING + ROW_START[row] + interval - row
}

pub const fn operating_place(schedule: usize, interval: usize) -> usize {
    OPERATING + schedule * SCHEDULES + interval
}

pub const fn actual_place(interval: usize) -> usize {
    ACTUALS + interval
}

/// The two layouts of a day file. Where its parts stand follows from the header's length: the market table is behind
/// the header, then come the lines, then the ad hoc records.
#[derive(Clone, Copy, Debug, PartialEq, Eq)]
pub enum Layout {
    /// Without ad hoc records (01).
    Old,
    /// With ad hoc records, which may be none (02 F-5).
    AdHoc,
}

impl Layout {
    /// The layout that a header names: the old one by its market offset, the other by any else.
    pub fn named(day: &[u8]) -> Layout {
        match word(day, MARKET_OFFSET) as usize == Layout::Old.market() {
            true => Layout::Old,
            false => Layout::AdHoc,
        }
    }

    pub const fn header_words(self) -> usize {
        match self {
            Layout::Old => FILE_LENGTH + 1,
            Layout::AdHoc => RECORDS_OFFSET + 1,
        }
    }

    /// Where the market table begins.
    pub const fn market(self) -> usize {
        4 * self.header_words()
    }

    /// Where line k, from 0, begins. That of the line count is where the lines end and records begin.
    pub const fn line(self, k: usize) -> usize {
        self.market() + MARKET_BYTES + LINE_BYTES * k
    }

    /// A file's length, in 64 bits since that of a count of records may not fit a word.
    pub const fn length(self, lines: usize, records: u32) -> u64 {
        self.line(lines) as u64 + RECORD_BYTES as u64 * records as u64
    }

    /// The header's words, in 64 bits likewise. The old layout has no words for records.
    pub fn header(self, lines: usize, records: u32) -> impl Iterator<Item = u64> {
        let words = [
            lines as u64,
            self.market() as u64,
            self.line(0) as u64,
            self.length(lines, records),
            records.into(),
            self.line(lines) as u64,
        ];
        words.into_iter().take(self.header_words())
    }
}

/// The ad hoc records that a header says there are.
pub fn record_count(day: &[u8]) -> u32 {
    match Layout::named(day) {
        Layout::Old => 0,
        Layout::AdHoc => word(day, RECORD_COUNT),
    }
}

/// The length of a day of the old layout.
pub const fn day_length(lines: usize) -> usize {
    Layout::Old.line(lines)
}

pub const fn book_length(lines: usize) -> usize {
    BOOK_LINES_OFFSET + BOOK_LINE_BYTES * lines
}

/// The little-endian word at a word place.
pub fn word(bytes: &[u8], place: usize) -> u32 {
    u32::from_le_bytes(bytes.as_chunks().0[place])
}

pub fn put_word(bytes: &mut [u8], place: usize, value: u32) {
    bytes.as_chunks_mut().0[place] = value.to_le_bytes();
}

/// Writes words one after another from the start.
pub fn put_words(bytes: &mut [u8], words: &[u32]) {
    for (place, &value) in words.iter().enumerate() {
        put_word(bytes, place, value);
    }
}

/// Writes the header of a day with so many lines and records. Of a length above 32 bits the low ones are written.
pub fn put_header(day: &mut [u8], layout: Layout, lines: usize, records: u32) {
    for (place, value) in layout.header(lines, records).enumerate() {
        put_word(day, place, value as u32);
    }
}

/// The signed 64-bit number at a byte offset.
pub fn signed(bytes: &[u8], offset: usize) -> i64 {
    i64::from_le_bytes(bytes[offset..].as_chunks().0[0])
}

pub fn put_signed(bytes: &mut [u8], offset: usize, value: i64) {
    bytes[offset..].as_chunks_mut().0[0] = value.to_le_bytes();
}

/// Five signed numbers, so many bytes apart.
pub fn signed_row(bytes: &[u8], offset: usize, apart: usize) -> BySchedule<i64> {
    std::array::from_fn(|s| signed(bytes, offset + apart * s))
}

/// The totals in a book.
pub fn book_totals(book: &[u8]) -> BySchedule<i64> {
    signed_row(book, BOOK_TOTALS_OFFSET, 16)
}

/// The adjusted totals in a book.
pub fn book_adjusted(book: &[u8]) -> BySchedule<i64> {
    signed_row(book, BOOK_TOTALS_OFFSET + 8, 16)
}

#[derive(Clone, Copy, Debug, PartialEq, Eq)]
pub enum Side {
    Injection,
    Withdrawal,
}

impl Side {
    pub fn of_word(word: u32) -> Side {
        match word {
            0 => Side::Injection,
            _ => Side::Withdrawal,
        }
    }
}

/// The words of an operating schedule's row.
type Row = [[u8; 4]; SCHEDULES];

/// One line's words, and its operating rows in force.
#[derive(Clone, Copy)]
pub struct Line<'a> {
    words: &'a [[u8; 4]; LINE_WORDS],
    rows: BySchedule<&'a Row>,
}

impl<'a> Line<'a> {
    /// A line given alone, its own rows being in force. None unless there are 660 bytes.
    pub fn new(bytes: &'a [u8]) -> Option<Line<'a>> {
        let (words, rest) = bytes.as_chunks();
        let words: &[[u8; 4]; LINE_WORDS] = words.try_into().ok()?;
        let own = words[OPERATING..ACTUALS].as_chunks().0;
        let rows = std::array::from_fn(|s| &own[s]);
        rest.is_empty().then_some(Line { words, rows })
    }

    pub fn word(self, place: usize) -> u32 {
        u32::from_le_bytes(self.words[place])
    }

    /// The operating quantity in force, schedules and intervals from 0.
    pub fn operating(self, s: usize, interval: usize) -> u32 {
        u32::from_le_bytes(self.rows[s][interval])
    }

    /// Participant, point and side; no two lines of a day have equal ones.
    pub fn key(self) -> [u32; 3] {
        [PARTICIPANT, POINT, SIDE].map(|place| self.word(place))
    }

    pub fn side(self) -> Side {
        Side::of_word(self.word(SIDE))
    }

    /// Whether the line is accredited in schedule s, from 0: with 0 in none, with 1 in all, else in those of its set.
    pub fn accredited(self, s: usize) -> bool {
        match self.word(ACCREDITATION) {
            0 => false,
            1 => true,
            set => set >> s & 1 == 1,
        }
    }

    /// How many slots of a bid are used; none in a pulled bid (02 F-6).
    pub fn count(self, bid: usize) -> usize {
        self.word(count_place(bid)) as usize
    }

    pub fn is_pulled(self, bid: usize) -> bool {
        self.count(bid) == 0
    }

    pub fn break_point(self, bid: usize, slot: usize) -> u32 {
        self.word(break_place(bid, slot))
    }

    pub fn price(self, bid: usize, slot: usize) -> u32 {
        self.word(price_place(bid, slot))
    }

    /// The last price in schedule s, from 0: that of its bid, or where this is pulled that of the nearest earlier bid
    /// that isn't (02 F-6). The first bid never is.
    pub fn last_price(self, s: usize) -> u32 {
        match self.count(s) {
            0 => self.last_price(s - 1),
            count => self.price(s, count - 1),
        }
    }

    /// M, the greatest break of the bids that aren't pulled: the greatest of their last ones, since breaks rise.
    pub fn greatest_break(self) -> u32 {
        let there = (0..SCHEDULES).filter(|&bid| !self.is_pulled(bid));
        let last = |bid| self.break_point(bid, self.count(bid) - 1);
        there.map(last).fold(0, u32::max)
    }
}

/// The market table.
pub struct Market {
    pub prices: BySchedule<u32>,
    /// The most a step's price can be: APC where the cap mark is 1, no limit elsewhere.
    pub caps: BySchedule<u32>,
    pub clawback: bool,
}

impl Market {
    fn new(table: &[u8]) -> Market {
        let cap = |s| match word(table, CAP_MARK + s) {
            0 => u32::MAX,
            _ => word(table, PRICE_CAP),
        };
        Market {
            prices: std::array::from_fn(|s| word(table, MARKET_PRICE + s)),
            caps: std::array::from_fn(cap),
            clawback: word(table, CLAWBACK) == 1,
        }
    }
}

/// An ad hoc record (02 F-5).
#[derive(Clone, Copy)]
pub struct Record<'a>(&'a [u8; RECORD_BYTES]);

impl<'a> Record<'a> {
    pub fn word(self, place: usize) -> u32 {
        word(self.0, place)
    }

    /// Line, schedule and order number; no two records of a day have equal ones.
    pub fn key(self) -> [u32; 3] {
        [RECORD_LINE, RECORD_SCHEDULE, RECORD_ORDER].map(|place| self.word(place))
    }

    /// Whether it is for line k and schedule s, both from 0.
    fn is_for(self, k: usize, s: usize) -> bool {
        self.word(RECORD_LINE) as usize == k && self.word(RECORD_SCHEDULE) as usize == s + 1
    }

    fn row(self) -> &'a Row {
        self.0.as_chunks().0[RECORD_ROW..].first_chunk().unwrap()
    }
}

/// The market table's bytes and all behind them.
pub fn market(day: &[u8]) -> &[u8] {
    &day[Layout::named(day).market()..]
}

pub fn market_mut(day: &mut [u8]) -> &mut [u8] {
    let start = Layout::named(day).market();
    &mut day[start..]
}

/// The bytes of line k, from 0.
pub fn line_mut(day: &mut [u8], k: usize) -> &mut [u8] {
    let start = Layout::named(day).line(k);
    &mut day[start..start + LINE_BYTES]
}

/// The parts of a day whose header has no fault.
pub struct Day<'a> {
    pub market: Market,
    lines: &'a [[u8; LINE_BYTES]],
    records: &'a [[u8; RECORD_BYTES]],
}

impl<'a> Day<'a> {
    pub fn new(day: &'a [u8]) -> Day<'a> {
        let layout = Layout::named(day);
        let (before, records) = day.split_at(layout.line(word(day, LINE_COUNT) as usize));
        Day {
            market: Market::new(market(day)),
            lines: before[layout.line(0)..].as_chunks().0,
            records: records.as_chunks().0,
        }
    }

    pub fn line_count(&self) -> usize {
        self.lines.len()
    }

    /// Line k, from 0, with its operating rows in force: an ad hoc one, else the line's own.
    pub fn line(&self, k: usize) -> Line<'a> {
        let mut line = Line::new(&self.lines[k]).unwrap();
        for (s, row) in line.rows.iter_mut().enumerate() {
            *row = self.ad_hoc_row(k, s).unwrap_or(row);
        }
        line
    }

    /// The row of the highest order number for line k and schedule s.
    fn ad_hoc_row(&self, k: usize, s: usize) -> Option<&'a Row> {
        let records = self.records().filter(|record| record.is_for(k, s));
        let highest = records.max_by_key(|record| record.word(RECORD_ORDER));
        highest.map(Record::row)
    }

    pub fn records(&self) -> impl Iterator<Item = Record<'a>> + '_ {
        self.records.iter().map(Record)
    }

    pub fn lines(&self) -> impl Iterator<Item = Line<'a>> + '_ {
        (0..self.line_count()).map(|k| self.line(k))
    }
}
