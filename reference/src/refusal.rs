//! The refusals (01 "Where each refusal is checked", 02 F-7, F-6, F-2 and F-5). Each call answers the number of the
//! first fault met, or 0.

use crate::cut::Steps;
use crate::layout::*;
use crate::quantities::{operating_totals, pricing_totals};
use std::collections::BTreeSet;

/// Passed, or the number of the fault.
type Check = Result<(), u32>;

fn require(passes: bool, number: u32) -> Check {
    if passes {
        Ok(())
    } else {
        Err(number)
    }
}

fn number(check: Check) -> u32 {
    check.err().unwrap_or(0)
}

/// The number of a day's file: 1 to 14, 19 to 21, or 0.
pub fn day_number(day: &[u8]) -> u32 {
    number(check_day(day))
}

/// The number of settling a day into a book of so many bytes.
pub fn settle_number(day: &[u8], book_len: usize) -> u32 {
    let check = || {
        check_day(day)?;
        require(book_len >= book_length(line_count(day)), 15)
    };
    number(check())
}

/// The number of viewing a step of a line.
pub fn view_number(day: &[u8], line: u64, step: u64) -> u32 {
    let check = || {
        check_day(day)?;
        check_line_index(day, line)?;
        let steps = Steps::new(Day::new(day).line(line as usize)).count();
        require(step < steps as u64, 17)
    };
    number(check())
}

/// The number of viewing all steps of a line.
pub fn line_views_number(day: &[u8], line: u64) -> u32 {
    number(check_day(day).and_then(|()| check_line_index(day, line)))
}

/// The number of lending line k's bytes.
pub fn line_part_number(day: &[u8], k: u64) -> u32 {
    number(check_header(day).and_then(|()| check_line_index(day, k)))
}

/// The number of cutting one line.
pub fn cut_number(line: &[u8]) -> u32 {
    number(Line::new(line).ok_or(18).and_then(check_line))
}

fn line_count(day: &[u8]) -> usize {
    word(day, LINE_COUNT) as usize
}

fn check_line_index(day: &[u8], line: u64) -> Check {
    require(line < line_count(day) as u64, 16)
}

fn check_day(bytes: &[u8]) -> Check {
    check_header(bytes)?;
    check_market(market(bytes))?;
    let day = Day::new(bytes);
    check_records(&day)?;
    day.lines().try_for_each(check_line)?;
    check_keys(&day)
}

/// 1 to 3, and 19.
fn check_header(day: &[u8]) -> Check {
    require(day.len() >= LEAST_DAY, 1)?;
    let n = line_count(day);
    require((1..=MOST_LINES).contains(&n), 2)?;
    let (layout, records) = (Layout::named(day), record_count(day));
    let words = (0..layout.header_words()).map(|place| u64::from(word(day, place)));
    let fits = words.eq(layout.header(n, records));
    require(fits && day.len() as u64 == layout.length(n, records), 3)?;
    require(records <= MOST_RECORDS, 19)
}

/// 4 and 5.
fn check_market(table: &[u8]) -> Check {
    let at_most = |limit, place| word(table, place) <= limit;
    let mut prices = (MARKET_PRICE..CAP_MARK).chain([PRICE_CAP]);
    let mut switches = (CAP_MARK..PRICE_CAP).chain([CLAWBACK]);
    require(prices.all(|place| at_most(PRICE_LIMIT, place)), 4)?;
    require(switches.all(|place| at_most(1, place)), 5)
}

/// 20 over all ad hoc records, then 21.
fn check_records(day: &Day) -> Check {
    let is_there = |record: Record| {
        let [line, schedule, _] = record.key();
        (line as usize) < day.line_count() && (1..=SCHEDULES as u32).contains(&schedule)
    };
    require(day.records().all(is_there), 20)?;
    let mut keys = BTreeSet::new();
    require(day.records().all(|record| keys.insert(record.key())), 21)
}

/// 6 to 13.
fn check_line(line: Line) -> Check {
    let accreditation = matches!(line.word(ACCREDITATION), 0 | 1 | EMPTY_SET..=FULL_SET);
    require(line.word(SIDE) <= 1 && accreditation, 6)?;
    (0..SCHEDULES).try_for_each(|bid| check_bid(line, bid))?;
    let most = line.greatest_break();
    let hedge_limit = match line.side() {
        Side::Injection => most,
        Side::Withdrawal => 0,
    };
    require(line.word(HEDGE) <= hedge_limit, 11)?;
    let limit = u64::from(most + EXCESS_LIMIT);
    let within = |totals: BySchedule<u64>| totals.iter().all(|&total| total <= limit);
    require(
        within(pricing_totals(line)) && within(operating_totals(line)),
        12,
    )?;
    let mut actuals = (0..SCHEDULES).map(|i| line.word(actual_place(i)));
    require(actuals.all(|actual| actual <= QUANTITY_LIMIT), 13)
}

/// 7 to 10, each over the whole bid. Only a later bid than the first may be pulled; then no slot is used.
fn check_bid(line: Line, bid: usize) -> Check {
    let count = line.count(bid);
    require(count <= BID_SLOTS && (bid > 0 || count > 0), 7)?;
    require(breaks_rise(line, bid, count), 8)?;
    require(prices_in_order(line, bid, count), 9)?;
    let unused = |slot| line.break_point(bid, slot) == 0 && line.price(bid, slot) == 0;
    require((count..BID_SLOTS).all(unused), 10)
}

fn breaks_rise(line: Line, bid: usize, count: usize) -> bool {
    let mut last = 0;
    let rises = (0..count).all(|slot| {
        let before = std::mem::replace(&mut last, line.break_point(bid, slot));
        before < last
    });
    rises && last <= QUANTITY_LIMIT
}

/// Within the limit; not falling on an injection, not rising on a withdrawal.
fn prices_in_order(line: Line, bid: usize, count: usize) -> bool {
    let side = line.side();
    let mut last = line.price(bid, 0);
    (0..count).all(|slot| {
        let before = std::mem::replace(&mut last, line.price(bid, slot));
        let in_order = match side {
            Side::Injection => before <= last,
            Side::Withdrawal => before >= last,
        };
        in_order && last <= PRICE_LIMIT
    })
}

/// 14.
fn check_keys(day: &Day) -> Check {
    let mut keys = [[0; 3]; MOST_LINES];
    for (k, line) in day.lines().enumerate() {
        keys[k] = line.key();
        require(!keys[..k].contains(&keys[k]), 14)?;
    }
    Ok(())
}
