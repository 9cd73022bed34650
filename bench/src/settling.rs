//! Settling, uplift and the line part.

use crate::calls::{Call, MICROSECONDS, NANOSECONDS};
#[cfg(older)]
use crate::older;
use crate::proved;
use crate::streams::{Block, Input};
use reference::layout::{book_length, BySchedule, LINE_BYTES, MOST_LINES};
use std::hint::black_box;

const BOOK: usize = book_length(MOST_LINES);

pub const SETTLE: Call = Call {
    name: "settle",
    passes: &[
        ("proved", |days| settle_days(proved::settle, days)),
        ("reference", |days| {
            settle_days(reference::settle::settle, days)
        }),
        #[cfg(older)]
        ("older", |days| settle_days(older::settle, days)),
    ],
    count: |_| 1,
    compare: |day| {
        let book = book_of(reference::settle::settle, &day.bytes);
        assert!(book_of(proved::settle, &day.bytes) == book);
        #[cfg(older)]
        assert!(book_of(older::settle, &day.bytes) == book);
    },
    blocks: 100,
    lines_of_block: 640,
    unit: MICROSECONDS,
};

type Settle = fn(&[u8], &mut [u8]) -> u32;

fn settle_days(settle: Settle, days: &Block) {
    let mut book = [0; BOOK];
    for day in days {
        black_box(settle(black_box(&day.bytes), &mut book));
        black_box(&book);
    }
}

/// The number, and the lent bytes after the call.
fn book_of(settle: Settle, day: &[u8]) -> (u32, [u8; BOOK]) {
    let mut book = [0xa5; BOOK];
    (settle(day, &mut book), book)
}

pub const UPLIFT: Call = Call {
    name: "uplift",
    passes: &[
        ("proved", |days| uplift_days(proved::uplift, days)),
        ("reference", |days| uplift_days(reference_uplift, days)),
        #[cfg(older)]
        ("older", |days| uplift_days(older::uplift, days)),
    ],
    count: |_| 1,
    compare: |day| {
        let shares = shares_of(reference_uplift, day);
        assert_eq!(shares_of(proved::uplift, day), shares);
        #[cfg(older)]
        assert_eq!(shares_of(older::uplift, day), shares);
    },
    blocks: 100,
    lines_of_block: 640,
    unit: MICROSECONDS,
};

type Uplift = fn(&[u8], &mut BySchedule<i64>) -> u32;

fn reference_uplift(day: &[u8], shares: &mut BySchedule<i64>) -> u32 {
    let answer = reference::uplift::uplift(day);
    *shares = answer.shares;
    answer.number
}

fn uplift_days(uplift: Uplift, days: &Block) {
    let mut shares = [0; 5];
    for day in days {
        black_box(uplift(black_box(&day.bytes), &mut shares));
        black_box(&shares);
    }
}

fn shares_of(uplift: Uplift, day: &Input) -> (u32, BySchedule<i64>) {
    let mut shares = [1; 5];
    (uplift(&day.bytes, &mut shares), shares)
}

/// The parts of all lines of a day.
pub const LINE_PART: Call = Call {
    name: "line part",
    passes: &[
        ("proved", |days| lend_lines(proved::line_part, days)),
        ("reference", |days| lend_lines(reference_line_part, days)),
        #[cfg(older)]
        ("older", |days| lend_lines(older::line_part, days)),
    ],
    count: |day| day.steps.len(),
    compare: |day| {
        for k in 0..=day.steps.len() {
            let part = part_of(reference_line_part, day, k);
            assert_eq!(part_of(proved::line_part, day, k), part);
            #[cfg(older)]
            assert_eq!(part_of(older::line_part, day, k), part);
        }
    },
    blocks: 100,
    lines_of_block: 640,
    unit: NANOSECONDS,
};

type LinePart = fn(&[u8], usize, &mut usize, &mut usize) -> u32;

/// In the archive's form: where the part begins, and its length.
fn reference_line_part(day: &[u8], k: usize, at: &mut usize, length: &mut usize) -> u32 {
    let part = reference::line_part::line_part(day, k as u64);
    *length = part.len();
    *at = match part {
        [] => 0,
        _ => part.as_ptr() as usize - day.as_ptr() as usize,
    };
    match part {
        [] => reference::refusal::line_part_number(day, k as u64),
        _ => 0,
    }
}

fn lend_lines(line_part: LinePart, days: &Block) {
    let (mut at, mut length) = (0, 0);
    for day in days {
        for k in 0..day.steps.len() {
            black_box(line_part(black_box(&day.bytes), k, &mut at, &mut length));
            black_box((at, length));
        }
    }
}

fn part_of(line_part: LinePart, day: &Input, k: usize) -> (u32, usize, usize) {
    let (mut at, mut length) = (1, LINE_BYTES + 1);
    let number = line_part(&day.bytes, k, &mut at, &mut length);
    (number, at, length)
}

#[cfg(test)]
mod tests {
    use super::*;
    use crate::hard;

    /// Days with ad hoc records have the books of those without, and the settlers answer alike.
    #[test]
    fn ad_hoc_days_agree() {
        for (seed, clawback) in (0..16).flat_map(|seed| [(seed, false), (seed, true)]) {
            let [old, ad_hoc] = [hard::day, hard::ad_hoc_day].map(|day| day(seed, 64, clawback));
            let book = book_of(proved::settle, &old);
            assert!(book.0 == 0 && book == book_of(proved::settle, &ad_hoc));
            assert!(book == book_of(reference::settle::settle, &ad_hoc));
        }
    }

    /// Settling needs little stack: a thread that has 32 KB settles the longest days.
    #[test]
    fn little_stack() {
        let of_seed = |seed| [hard::day(seed, 64, true), hard::ad_hoc_day(seed, 64, true)];
        let mut days: Vec<Vec<u8>> = (0..16).flat_map(of_seed).collect();
        days.push(hard::day(16, 64, false));
        let settle = move || {
            let mut book = vec![0; BOOK];
            days.iter().all(|day| proved::settle(day, &mut book) == 0)
        };
        let thread = std::thread::Builder::new().stack_size(32 * 1024);
        assert!(thread.spawn(settle).unwrap().join().unwrap());
    }
}
