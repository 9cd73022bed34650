//! Steps, their uncapped prices and flags (01 "Steps and prices", 02 F-6, FD 4.2 and 4.3).

use crate::layout::*;
use crate::refusal::cut_number;

/// Stands for a break where none is left; it is above every limit.
const NO_BREAK: u32 = u32::MAX;

/// One step: from `lower` to `upper`, with the uncapped price and the flag of each schedule.
pub struct Step {
    pub lower: u32,
    pub upper: u32,
    pub prices: BySchedule<u32>,
    pub flags: BySchedule<bool>,
}

/// A bid's breaks or prices with one place more.
type Column = [u32; BID_SLOTS + 1];

/// The steps of a line without fault, rising: a merge of its five bids and its hedge.
/// Each bid has a slot, that of its first break that is at least the next upper end.
pub struct Steps {
    breaks: BySchedule<Column>,
    prices: BySchedule<Column>,
    slots: BySchedule<usize>,
    /// The breaks at the slots.
    heads: BySchedule<u32>,
    hedge: u32,
    lower: u32,
}

impl Steps {
    pub fn new(line: Line) -> Steps {
        let mut breaks = [[NO_BREAK; BID_SLOTS + 1]; SCHEDULES];
        let mut prices = [[0; BID_SLOTS + 1]; SCHEDULES];
        for bid in 0..SCHEDULES {
            read_bid(line, bid, &mut breaks[bid], &mut prices[bid]);
        }
        Steps {
            breaks,
            prices,
            slots: [0; SCHEDULES],
            heads: breaks.map(|column| column[0]),
            hedge: match line.word(HEDGE) {
                0 => NO_BREAK,
                hedge => hedge,
            },
            lower: 0,
        }
    }

    /// Moves past a step's end, without branches since none could be foreseen.
    fn pass(&mut self, end: u32) {
        for bid in 0..SCHEDULES {
            self.slots[bid] += usize::from(self.heads[bid] == end);
            self.heads[bid] = self.breaks[bid][self.slots[bid]];
        }
        if self.hedge == end {
            self.hedge = NO_BREAK;
        }
        self.lower = end;
    }
}

/// Reads the breaks and prices of a bid. After the last break stands `NO_BREAK` at the schedule's last price; in a
/// pulled bid it stands first.
fn read_bid(line: Line, bid: usize, breaks: &mut Column, prices: &mut Column) {
    let count = line.count(bid);
    for slot in 0..BID_SLOTS {
        let end = line.break_point(bid, slot);
        breaks[slot] = if slot < count { end } else { NO_BREAK };
        prices[slot] = line.price(bid, slot);
    }
    prices[count] = line.last_price(bid);
}

impl Iterator for Steps {
    type Item = Step;

    #[inline]
    fn next(&mut self) -> Option<Step> {
        let upper = self.heads.into_iter().fold(self.hedge, u32::min);
        if upper == NO_BREAK {
            return None;
        }
        let step = Step {
            lower: self.lower,
            upper,
            prices: std::array::from_fn(|s| self.prices[s][self.slots[s]]),
            flags: std::array::from_fn(|s| self.heads[s] == NO_BREAK),
        };
        self.pass(upper);
        Some(step)
    }
}

/// The cutter's answer. Places past the count are 0; a refused one has its number and zeros.
#[derive(Clone, Debug, PartialEq, Eq)]
pub struct Cut {
    pub number: u32,
    pub count: u32,
    pub ends: [u32; MOST_STEPS],
    pub prices: BySchedule<[u32; MOST_STEPS]>,
    /// Bit k is the flag of step k.
    pub flags: BySchedule<u64>,
    /// How many flags are set.
    pub missing: BySchedule<u32>,
}

pub fn cut(line: &[u8]) -> Cut {
    let mut answer = Cut {
        number: cut_number(line),
        count: 0,
        ends: [0; MOST_STEPS],
        prices: [[0; MOST_STEPS]; SCHEDULES],
        flags: [0; SCHEDULES],
        missing: [0; SCHEDULES],
    };
    if let (0, Some(line)) = (answer.number, Line::new(line)) {
        fill(&mut answer, line);
    }
    answer
}

fn fill(answer: &mut Cut, line: Line) {
    let mut count = 0;
    let mut flags = [0; SCHEDULES];
    for (k, step) in (0..MOST_STEPS).zip(Steps::new(line)) {
        count += 1;
        answer.ends[k] = step.upper;
        for (s, flags) in flags.iter_mut().enumerate() {
            answer.prices[s][k] = step.prices[s];
            *flags |= u64::from(step.flags[s]) << k;
        }
    }
    answer.count = count;
    answer.flags = flags;
    answer.missing = flags.map(u64::count_ones);
}
