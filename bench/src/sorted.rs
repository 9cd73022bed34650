//! The cutter as one would write it first: all breaks sorted, equal ones taken out, then each bid's prices in turn.

use reference::cut::Cut;
use reference::layout::*;
use reference::refusal::cut_number;

#[inline(never)]
pub fn cut(bytes: &[u8]) -> Cut {
    let mut answer = Cut {
        number: cut_number(bytes),
        count: 0,
        ends: [0; MOST_STEPS],
        prices: [[0; MOST_STEPS]; SCHEDULES],
        flags: [0; SCHEDULES],
        missing: [0; SCHEDULES],
    };
    if let (0, Some(line)) = (answer.number, Line::new(bytes)) {
        let count = put_ends(line, &mut answer.ends);
        answer.count = count as u32;
        for bid in 0..SCHEDULES {
            let ends = &answer.ends[..count];
            answer.flags[bid] = put_prices(line, bid, ends, &mut answer.prices[bid]);
            answer.missing[bid] = answer.flags[bid].count_ones();
        }
    }
    answer
}

/// Answers how many ends there are.
fn put_ends(line: Line, ends: &mut [u32; MOST_STEPS]) -> usize {
    let mut breaks = [0; MOST_STEPS];
    let mut n = 0;
    for bid in 0..SCHEDULES {
        for slot in 0..line.count(bid) {
            breaks[n] = line.break_point(bid, slot);
            n += 1;
        }
    }
    breaks[n] = line.word(HEDGE);
    let breaks = &mut breaks[..=n];
    breaks.sort_unstable();
    let mut count = 0;
    let mut last = 0;
    for &end in breaks.iter() {
        if end != last {
            ends[count] = end;
            count += 1;
            last = end;
        }
    }
    count
}

/// Answers the word of flags.
fn put_prices(line: Line, bid: usize, ends: &[u32], prices: &mut [u32; MOST_STEPS]) -> u64 {
    if line.is_pulled(bid) {
        prices[..ends.len()].fill(line.last_price(bid));
        return (1 << ends.len()) - 1;
    }
    let last = line.count(bid) - 1;
    let mut slot = 0;
    let mut flags = 0;
    for (k, &end) in ends.iter().enumerate() {
        while slot < last && line.break_point(bid, slot) < end {
            slot += 1;
        }
        prices[k] = line.price(bid, slot);
        flags |= u64::from(line.break_point(bid, slot) < end) << k;
    }
    flags
}
