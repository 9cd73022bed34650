//! Refusals in words. The number is always the proved archive's; where the fault lies is this module's own finding, which is not proved: every fault of a file in
//! the order of document 01's table, so that the first must have the archive's number. `explain` fails where it hasn't.

use crate::ad_hoc::{self, InForce, Record, Row};
use crate::amounts::{grouped, price};
use crate::figures::Totals;
use crate::input::Input;
use crate::layout::*;
use crate::lists::pulled_words;
use crate::outcome::{Problem, Result};
use crate::values::counted;
use mewikofu::{Accreditation, Refusal};

/// One fault of a file.
#[derive(Clone, Debug, Default, PartialEq, Eq)]
pub struct Fault {
    pub number: u32,
    /// From 0.
    pub line: Option<usize>,
    /// An ad hoc record, from 0.
    pub record: Option<usize>,
    /// From 1, as slots and intervals.
    pub schedule: Option<usize>,
    pub slot: Option<usize>,
    pub interval: Option<usize>,
    pub value: u64,
    pub limit: Option<u64>,
    /// Place, value and limit in words.
    pub words: String,
}

/// A refused file.
#[derive(Clone, Debug, PartialEq, Eq)]
pub struct Explained {
    pub refusal: Refusal,
    /// All faults, in the table's order; the first has the refusal's number.
    pub faults: Vec<Fault>,
}

impl Explained {
    /// The number, the table's words for it and the first fault.
    pub fn first(&self) -> String {
        let Explained { refusal, faults } = self;
        format!(
            "refused {}: {}: {}",
            refusal.number(),
            refusal.words(),
            faults[0].words
        )
    }

    /// The number with the table's words, then a row for each fault.
    pub fn rows(&self) -> Vec<String> {
        let mut rows = vec![format!(
            "refused {}: {}",
            self.refusal.number(),
            self.refusal.words()
        )];
        rows.extend(
            self.faults
                .iter()
                .map(|fault| format!("  {}: {}", fault.number, fault.words)),
        );
        rows
    }
}

/// The faults of a day that the archive refused.
pub fn explain_day(input: &Input, refusal: Refusal) -> Result<Explained> {
    explain(&input.name, refusal, day_faults(&input.bytes, input.more))
}

/// The faults of a line's bytes that the cutter refused.
pub fn explain_line(input: &Input, refusal: Refusal) -> Result<Explained> {
    explain(&input.name, refusal, cut_faults(&input.bytes, input.more))
}

fn explain(name: &str, refusal: Refusal, faults: Vec<Fault>) -> Result<Explained> {
    match faults.first() {
        Some(first) if first.number == refusal.number() => Ok(Explained { refusal, faults }),
        first => {
            let found = first.map_or("no fault".to_string(), |fault| {
                format!("{}: {}", fault.number, fault.words)
            });
            Err(Problem::failed(format!(
                "{name}: refused {}: {}; but the search for its place found {found}. The number is the proved one; the search is wrong",
                refusal.number(),
                refusal.words()
            )))
        }
    }
}

/// Every fault of a day's bytes; `more` where the file goes on after them.
pub fn day_faults(bytes: &[u8], more: bool) -> Vec<Fault> {
    let mut faults = Vec::new();
    let Some(layout) = header_faults(bytes, more, &mut faults) else {
        return faults;
    };
    market_faults(layout.market(bytes), &mut faults);
    // Of a file that is too short the whole lines are looked at, and the records where all are there.
    let records = match bytes.len() < layout.length() {
        true => Vec::new(),
        false => ad_hoc::records(bytes, &layout),
    };
    record_faults(&records, layout.lines, &mut faults);
    let lines = layout
        .lines
        .min((bytes.len() - layout.line_at(0)) / LINE_BYTES);
    for k in 0..lines {
        let own = layout.line(bytes, k);
        let rows = ad_hoc::in_force(&records, own, k);
        LineFaults {
            line: &ad_hoc::with_rows(own, &rows),
            place: Some(k),
            rows,
            faults: &mut faults,
        }
        .find();
    }
    key_faults(bytes, &layout, lines, &mut faults);
    faults
}

/// Every fault of a line's bytes.
pub fn cut_faults(bytes: &[u8], more: bool) -> Vec<Fault> {
    let mut faults = Vec::new();
    if bytes.len() != LINE_BYTES {
        faults.push(Fault {
            number: 18,
            value: bytes.len() as u64,
            limit: Some(LINE_BYTES as u64),
            words: format!("the file has {}; a line has 660", size(bytes, more)),
            ..Fault::default()
        });
        return faults;
    }
    LineFaults {
        line: bytes,
        place: None,
        rows: [None; SCHEDULES],
        faults: &mut faults,
    }
    .find();
    faults
}

fn size(bytes: &[u8], more: bool) -> String {
    let length = bytes.len() as u64;
    match more {
        true => format!("more than {} bytes", number(length - 1)),
        false => format!("{} bytes", number(length)),
    }
}

fn number(value: impl Into<u64>) -> String {
    grouped(value.into())
}

/// What the header's words are, in its order.
const HEADER_NAMES: [&str; 6] = [
    "line count",
    "offset of the market table",
    "offset of the lines",
    "file length",
    "count of ad hoc records",
    "offset of the ad hoc records",
];

fn header_fault(number: u32, value: u64, limit: usize, words: String) -> Fault {
    Fault {
        number,
        value,
        limit: Some(limit as u64),
        words,
        ..Fault::default()
    }
}

/// Refusals 1 to 3 and 19. Answers the layout that can be looked at; none where a count is above its limit, or no layout is named.
fn header_faults(bytes: &[u8], more: bool, faults: &mut Vec<Fault>) -> Option<Layout> {
    if bytes.len() < LEAST_BYTES {
        let words = format!(
            "the file has {}; header and market table take {LEAST_BYTES}",
            size(bytes, more)
        );
        faults.push(header_fault(1, bytes.len() as u64, LEAST_BYTES, words));
        return None;
    }
    let n = word(bytes, 0);
    if !(1..=MOST_LINES as u32).contains(&n) {
        let n_words = number(n);
        let words = format!("the header's line count is {n_words}; it must be 1 to {MOST_LINES}");
        faults.push(header_fault(2, n.into(), MOST_LINES, words));
        return None;
    }
    let market = word(bytes, 1);
    if ![MARKET_OFFSET, AD_HOC_MARKET_OFFSET].contains(&(market as usize)) {
        let (name, market_words) = (HEADER_NAMES[1], number(market));
        let words = format!("the header's {name} is {market_words}; it must be {MARKET_OFFSET}, or {AD_HOC_MARKET_OFFSET} in a file with ad hoc records");
        faults.push(header_fault(3, market.into(), MARKET_OFFSET, words));
        return None;
    }
    let layout = Layout::named(bytes);
    layout_faults(bytes, more, &layout, faults);
    let count = layout.record_count();
    if count > MOST_AD_HOC {
        let (name, count_words) = (HEADER_NAMES[4], number(count as u64));
        let words = format!("the header's {name} is {count_words}; the most is {MOST_AD_HOC}");
        faults.push(header_fault(19, count as u64, MOST_AD_HOC, words));
        return None;
    }
    (bytes.len() >= layout.line_at(0)).then_some(layout)
}

/// Refusal 3: the words and the length that don't fit the header's counts.
fn layout_faults(bytes: &[u8], more: bool, layout: &Layout, faults: &mut Vec<Fault>) {
    let lines = counted(layout.lines, "line");
    let counts = match layout.records {
        None => lines,
        Some(1) => format!("{lines} and 1 ad hoc record"),
        Some(count) => format!("{lines} and {} ad hoc records", number(count as u64)),
    };
    for (place, due) in layout.header().into_iter().enumerate() {
        let value = word(bytes, place);
        if u64::from(value) != due {
            let (name, value_words, due_words) = (HEADER_NAMES[place], number(value), number(due));
            let words = format!(
                "the header's {name} is {value_words}; with {counts} it must be {due_words}"
            );
            faults.push(header_fault(3, value.into(), due as usize, words));
        }
    }
    let length = layout.length();
    if bytes.len() != length {
        let (size, due) = (size(bytes, more), number(length as u64));
        let words = format!("the file has {size}; with {counts} it must have {due}");
        faults.push(header_fault(3, bytes.len() as u64, length, words));
    }
}

/// Refusals 20 and 21.
fn record_faults(records: &[Record], lines: usize, faults: &mut Vec<Fault>) {
    for (j, record) in records.iter().enumerate() {
        let mut wrong = |value: u32, limit: usize, words: String| {
            let words = format!("{}: {words}", record_words(j, record));
            faults.push(Fault {
                number: 20,
                record: Some(j),
                value: value.into(),
                limit: Some(limit as u64),
                words,
                ..Fault::default()
            });
        };
        if record.line as usize >= lines {
            let has = counted(lines, "line");
            let words = format!("the day has no such line; it has {has}, counted from 0");
            wrong(record.line, lines - 1, words);
        }
        if record.schedule_place().is_none() {
            let words = format!("there is no such schedule; it must be 1 to {SCHEDULES}");
            wrong(record.schedule, SCHEDULES, words);
        }
    }
    for (j, record) in records.iter().enumerate() {
        let key = |record: &Record| (record.line, record.schedule, record.order);
        let mut before = records[..j].iter();
        if let Some(earlier) = before.position(|other| key(other) == key(record)) {
            faults.push(Fault {
                number: 21,
                record: Some(j),
                value: earlier as u64,
                words: format!("{}: record {earlier} has the same", record_words(j, record)),
                ..Fault::default()
            });
        }
    }
}

/// A record with what it names.
fn record_words(j: usize, record: &Record) -> String {
    let Record {
        line,
        schedule,
        order,
        ..
    } = record;
    format!("ad hoc record {j} (line {line}, schedule {schedule}, order number {order})")
}

/// Refusals 4 and 5.
fn market_faults(market: &[u8], faults: &mut Vec<Fault>) {
    let mut above =
        |refusal, place, limit: u32, schedule: Option<usize>, words: &dyn Fn(u32) -> String| {
            let value = word(market, place);
            if value > limit {
                let (value, limit, words) =
                    (u64::from(value), Some(u64::from(limit)), words(value));
                faults.push(Fault {
                    number: refusal,
                    schedule,
                    value,
                    limit,
                    words,
                    ..Fault::default()
                });
            }
        };
    for s in 0..SCHEDULES {
        above(4, MARKET_PRICE + s, PRICE_LIMIT, Some(s + 1), &|value| {
            format!(
                "market price of schedule {}: {}; {}",
                s + 1,
                price_words(value),
                price_limit_words()
            )
        });
    }
    above(4, PRICE_CAP, PRICE_LIMIT, None, &|value| {
        format!(
            "administered price cap: {}; {}",
            price_words(value),
            price_limit_words()
        )
    });
    for s in 0..SCHEDULES {
        above(5, CAP_MARK + s, 1, Some(s + 1), &|value| {
            format!(
                "cap mark of schedule {}: {}; it must be 0 or 1",
                s + 1,
                number(value)
            )
        });
    }
    above(5, CLAWBACK, 1, None, &|value| {
        format!("clawback switch: {}; it must be 0 or 1", number(value))
    });
}

/// A price in units and dollars.
fn price_words(value: u32) -> String {
    format!("{} ({} per GJ)", number(value), price(value))
}

fn price_limit_words() -> String {
    format!("the most is {}", price_words(PRICE_LIMIT))
}

fn quantity_limit_words() -> String {
    format!("the most is {} MJ", number(QUANTITY_LIMIT))
}

/// Refusals 6 to 13 of one line.
struct LineFaults<'a> {
    /// With the operating rows in force.
    line: &'a [u8],
    /// From 0; none for a line without a day.
    place: Option<usize>,
    /// Those of the rows that are of ad hoc records.
    rows: InForce,
    faults: &'a mut Vec<Fault>,
}

impl LineFaults<'_> {
    fn word(&self, place: usize) -> u32 {
        word(self.line, place)
    }

    fn count(&self, bid: usize) -> usize {
        self.word(count_place(bid)) as usize
    }

    /// The line with its key.
    fn name(&self) -> String {
        let [participant, point, side] = [PARTICIPANT, POINT, SIDE].map(|place| self.word(place));
        let key = format!(
            "participant {participant}, point {point}, {}",
            side_name(side)
        );
        match self.place {
            Some(k) => format!("line {k} ({key})"),
            None => format!("the line ({key})"),
        }
    }

    fn put(&mut self, fault: Fault, words: String) {
        let words = format!("{}, {words}", self.name());
        self.faults.push(Fault {
            line: self.place,
            words,
            ..fault
        });
    }

    fn find(mut self) {
        self.find_side_and_accreditation();
        let before = self.faults.len();
        (0..SCHEDULES).for_each(|bid| self.find_in_bid(bid));
        // Without the bids' counts and breaks the line has no greatest break.
        if self.faults[before..]
            .iter()
            .all(|fault| !matches!(fault.number, 7 | 8))
        {
            let most = self.greatest_break();
            self.find_hedge(most);
            self.find_totals(most);
        }
        self.find_actuals();
    }

    /// Refusal 6.
    fn find_side_and_accreditation(&mut self) {
        let [side, accreditation] = [SIDE, ACCREDITATION].map(|place| self.word(place));
        let mut wrong = |name: &str, value: u32, limit: Option<u64>, proper: &str| {
            let fault = Fault {
                number: 6,
                value: value.into(),
                limit,
                ..Fault::default()
            };
            let words = format!("{name}: {}; it must be {proper}", number(value));
            self.put(fault, words);
        };
        if side > 1 {
            wrong("side", side, Some(1), "0 or 1");
        }
        if Accreditation::of_word(accreditation).is_none() {
            // Proper words are on both sides of 2 to 31, so these have no limit.
            let limit = (accreditation > 63).then_some(63);
            wrong("accreditation", accreditation, limit, "0, 1 or 32 to 63");
        }
    }

    /// M. Breaks rise, so a bid's greatest is its last; a pulled bid has none.
    fn greatest_break(&self) -> u32 {
        let last = |bid| {
            let slot = self.count(bid).checked_sub(1);
            slot.map_or(0, |slot| self.word(break_place(bid, slot)))
        };
        (0..SCHEDULES).map(last).fold(0, u32::max)
    }

    /// M, and which bids aren't in it.
    fn greatest_break_words(&self, most: u32) -> String {
        let pulled: Vec<usize> = (1..=SCHEDULES).filter(|s| self.count(s - 1) == 0).collect();
        let pulled = match &pulled[..] {
            [] => String::new(),
            pulled => format!(" (the {})", pulled_words(pulled)),
        };
        let most = number(most);
        format!("the greatest break of its bids, {most} MJ{pulled}")
    }

    /// Refusals 7 to 10.
    fn find_in_bid(&mut self, bid: usize) {
        let count = self.count(bid);
        if count > BID_SLOTS || (count == 0 && !can_be_pulled(bid)) {
            return self.put_count(bid, count);
        }
        let mut last = 0;
        for slot in 0..count {
            let value = self.word(break_place(bid, slot));
            self.find_break(bid, slot, value, last);
            last = value;
        }
        for slot in 0..count {
            let before = (slot > 0).then(|| self.word(price_place(bid, slot - 1)));
            self.find_price(bid, slot, before);
        }
        for slot in count..BID_SLOTS {
            self.find_unused(bid, slot, count);
        }
    }

    /// Refusal 7.
    fn put_count(&mut self, bid: usize, count: usize) {
        let fault = Fault {
            number: 7,
            schedule: Some(bid + 1),
            value: count as u64,
            limit: Some(BID_SLOTS as u64),
            ..Fault::default()
        };
        let pulled = match (can_be_pulled(bid), count) {
            (true, _) => ", or 0 for a pulled bid",
            (false, 0) => ", since only bids of the schedules 2 to 5 can be pulled",
            (false, _) => "",
        };
        let (schedule, count) = (bid + 1, number(count as u64));
        self.put(
            fault,
            format!("bid of schedule {schedule}: its count is {count}; it must be 1 to {BID_SLOTS}{pulled}"),
        );
    }

    /// Refusal 10: break and price of a slot past the count.
    fn find_unused(&mut self, bid: usize, slot: usize, count: usize) {
        let pulled = if count == 0 { " (a pulled bid)" } else { "" };
        for (place, name) in [
            (break_place(bid, slot), "break"),
            (price_place(bid, slot), "price"),
        ] {
            let value = self.word(place);
            if value != 0 {
                let fault = Fault {
                    number: 10,
                    schedule: Some(bid + 1),
                    slot: Some(slot + 1),
                    value: value.into(),
                    limit: Some(0),
                    ..Fault::default()
                };
                let (at, value) = (slot_words(bid, slot), number(value));
                self.put(
                    fault,
                    format!(
                        "{at}: {name} {value}; the bid's count is {count}{pulled}, so it must be 0"
                    ),
                );
            }
        }
    }

    fn find_break(&mut self, bid: usize, slot: usize, value: u32, last: u32) {
        let at = slot_words(bid, slot);
        let fault = Fault {
            number: 8,
            schedule: Some(bid + 1),
            slot: Some(slot + 1),
            value: value.into(),
            ..Fault::default()
        };
        if value <= last {
            let limit = match slot {
                0 => "it must be above 0".to_string(),
                _ => format!("it must be above the one before, {} MJ", number(last)),
            };
            self.put(
                Fault {
                    limit: Some(last.into()),
                    ..fault.clone()
                },
                format!("{at}: break {} MJ; {limit}", number(value)),
            );
        }
        if value > QUANTITY_LIMIT {
            let words = format!(
                "{at}: break {} MJ; {}",
                number(value),
                quantity_limit_words()
            );
            self.put(
                Fault {
                    limit: Some(QUANTITY_LIMIT.into()),
                    ..fault
                },
                words,
            );
        }
    }

    fn find_price(&mut self, bid: usize, slot: usize, before: Option<u32>) {
        let value = self.word(price_place(bid, slot));
        let at = slot_words(bid, slot);
        let fault = Fault {
            number: 9,
            schedule: Some(bid + 1),
            slot: Some(slot + 1),
            value: value.into(),
            ..Fault::default()
        };
        let limit = match (before, self.word(SIDE)) {
            (Some(before), 0) if value < before => {
                Some((before, "on an injection it must not be below"))
            }
            (Some(before), 1) if value > before => {
                Some((before, "on a withdrawal it must not be above"))
            }
            _ => None,
        };
        if let Some((before, rule)) = limit {
            let words = format!(
                "{at}: price {}; {rule} the one before, {}",
                price_words(value),
                price_words(before)
            );
            self.put(
                Fault {
                    limit: Some(before.into()),
                    ..fault.clone()
                },
                words,
            );
        }
        if value > PRICE_LIMIT {
            let words = format!(
                "{at}: price {}; {}",
                price_words(value),
                price_limit_words()
            );
            self.put(
                Fault {
                    limit: Some(PRICE_LIMIT.into()),
                    ..fault
                },
                words,
            );
        }
    }

    /// Refusal 11.
    fn find_hedge(&mut self, most: u32) {
        let hedge = self.word(HEDGE);
        let (limit, words) = match self.word(SIDE) {
            0 => (
                most,
                format!("the most is {}", self.greatest_break_words(most)),
            ),
            1 => (0, "on a withdrawal it must be 0".to_string()),
            _ => return,
        };
        if hedge > limit {
            let fault = Fault {
                number: 11,
                value: hedge.into(),
                limit: Some(limit.into()),
                ..Fault::default()
            };
            self.put(fault, format!("hedge: {} MJ; {words}", number(hedge)));
        }
    }

    /// Refusal 12.
    fn find_totals(&mut self, most: u32) {
        let Totals {
            pricing, operating, ..
        } = Totals::new(self.line);
        let limit = u64::from(most + MOST_EXCESS);
        for (name, totals) in [("pricing", pricing), ("operating", operating)] {
            for (s, total) in totals.into_iter().enumerate() {
                if total > limit {
                    let row = self.rows[s].filter(|_| name == "operating");
                    let fault = Fault {
                        number: 12,
                        record: row.map(|row| row.place),
                        schedule: Some(s + 1),
                        value: total,
                        limit: Some(limit),
                        ..Fault::default()
                    };
                    let row = row.map_or(String::new(), row_words);
                    let words = self.total_words(most, total);
                    self.put(
                        fault,
                        format!("{name} total of schedule {}{row}: {words}", s + 1),
                    );
                }
            }
        }
    }

    /// A total above M + 1,000 MJ, and by how much.
    fn total_words(&self, most: u32, total: u64) -> String {
        let limit = u64::from(most + MOST_EXCESS);
        let [total, above] = [total, total - limit].map(number);
        let (limit, excess) = (number(limit), number(MOST_EXCESS));
        let most = self.greatest_break_words(most);
        format!("{total} MJ, which is {above} MJ too much; the most is {limit} MJ, which is {excess} MJ above {most}")
    }

    /// Refusal 13.
    fn find_actuals(&mut self) {
        for i in 0..SCHEDULES {
            let value = self.word(actual_place(i));
            if value > QUANTITY_LIMIT {
                let limit = Some(QUANTITY_LIMIT.into());
                let fault = Fault {
                    number: 13,
                    interval: Some(i + 1),
                    value: value.into(),
                    limit,
                    ..Fault::default()
                };
                self.put(
                    fault,
                    format!(
                        "actual of interval {}: {} MJ; {}",
                        i + 1,
                        number(value),
                        quantity_limit_words()
                    ),
                );
            }
        }
    }
}

/// Which record a row in force is of.
fn row_words(row: Row) -> String {
    let Row { place, order, .. } = row;
    format!(", whose row is that of ad hoc record {place} (order number {order})")
}

fn slot_words(bid: usize, slot: usize) -> String {
    format!("bid of schedule {}, slot {}", bid + 1, slot + 1)
}

/// Refusal 14.
fn key_faults(bytes: &[u8], layout: &Layout, lines: usize, faults: &mut Vec<Fault>) {
    let keys: Vec<[u32; 3]> = (0..lines)
        .map(|k| [PARTICIPANT, POINT, SIDE].map(|place| word(layout.line(bytes, k), place)))
        .collect();
    for (k, key) in keys.iter().enumerate() {
        if let Some(earlier) = keys[..k].iter().position(|other| other == key) {
            let [participant, point, side] = *key;
            let key = format!(
                "participant {participant}, point {point} and side {}",
                side_name(side)
            );
            let words = format!("line {k} has {key}, as line {earlier} has");
            faults.push(Fault {
                number: 14,
                line: Some(k),
                value: earlier as u64,
                words,
                ..Fault::default()
            });
        }
    }
}
