//! That the generated days and lines with pulled bids (02 F-6) reach what they are for, on both sides.

use crate::kept::entries;
use crate::pulled_days;
use crate::reach::{unhedged, Kind, Met};
use crate::reach_sets::has_some;
use crate::reach_sides::*;
use reference::layout::*;
use reference::matching::pair;
use reference::refusal::cut_number;
use reference::view::{DayView, View};
use std::collections::BTreeSet;

/// The pulled bid of schedule s, and its source: the bid whose last price it takes over.
struct Bid<'a> {
    line: Line<'a>,
    s: usize,
    source: usize,
}

impl Bid<'_> {
    fn source_count(&self) -> usize {
        self.line.count(self.source)
    }

    fn last_price(&self, bid: usize) -> u32 {
        self.line.price(bid, self.line.count(bid) - 1)
    }

    fn hedge(&self) -> u32 {
        self.line.word(HEDGE)
    }

    fn hedge_is_break(&self) -> bool {
        let line = self.line;
        let used = |bid| (0..line.count(bid)).map(move |slot| line.break_point(bid, slot));
        (0..SCHEDULES).flat_map(used).any(|end| end == self.hedge())
    }
}

type OfBid = (&'static str, fn(&Bid) -> bool);

/// What the pulled bids of each side reach.
const OF_BIDS: &[OfBid] = &[
    ("a source of 1 step", |b| b.source_count() == 1),
    ("a source of 11 steps", |b| b.source_count() == BID_SLOTS),
    ("a source whose prices differ", |b| {
        b.line.price(b.source, 0) != b.last_price(b.source)
    }),
    ("a source other than the first bid, at another price", |b| {
        b.last_price(b.source) != b.last_price(0)
    }),
    ("a pulled bid after the source", |b| b.source + 1 < b.s),
    ("a bid put back with another count", |b| {
        let there = (b.s + 1..SCHEDULES).find(|&bid| !b.line.is_pulled(bid));
        there.is_some_and(|bid| b.line.count(bid) != b.source_count())
    }),
];

/// What those of injections reach beside it.
const OF_HEDGES: &[OfBid] = &[
    ("a hedge above the source's breaks", |b| {
        b.hedge() > b.line.break_point(b.source, b.source_count() - 1)
    }),
    ("a hedge at a break", |b| b.hedge_is_break()),
    ("a hedge between breaks", |b| {
        b.hedge() > 0 && !b.hedge_is_break()
    }),
    ("a hedge of M", |b| b.hedge() == b.line.greatest_break()),
    ("a hedge with four bids pulled", |b| {
        b.hedge() > 0 && pulled(b.line).len() == 4
    }),
];

/// An unhedged step in schedule s, of a line whose bid of s is pulled.
struct Step<'a> {
    market: &'a Market,
    line: Line<'a>,
    view: &'a View,
    s: usize,
}

impl Step<'_> {
    /// The cap, and the price that the bid takes over.
    fn cap_and_price(&self) -> (u32, u32) {
        (self.market.caps[self.s], self.line.last_price(self.s))
    }

    fn falls(&self) -> bool {
        let c = &self.view.constrained_on;
        c[self.s] < c[self.s - 1]
    }

    fn is_charged(&self) -> bool {
        self.falls() && self.view.finals[self.s] < 0
    }

    /// Charged for a rise of schedule r, from 0.
    fn is_charged_for(&self, r: usize) -> bool {
        self.is_charged() && r < self.s && self.view.matches[pair(r, self.s)] > 0
    }

    fn rate(&self) -> u32 {
        let (price, market) = (self.view.price[self.s], self.market.prices[self.s]);
        self.line.side().rate(price, market)
    }
}

type OfStep = (&'static str, fn(&Step) -> bool);

/// What the steps of each side reach.
const OF_STEPS: &[OfStep] = &[
    ("APC below the price taken over", |step| {
        let (cap, price) = step.cap_and_price();
        cap < price
    }),
    ("APC at the price taken over", |step| {
        let (cap, price) = step.cap_and_price();
        cap == price
    }),
    ("APC above the price taken over", |step| {
        let (cap, price) = step.cap_and_price();
        cap > price && cap != u32::MAX
    }),
    ("a fall charged at the rates of its rises", |step| {
        let v = step.view;
        let kinds = [v.initial, v.revised].map(|kind| kind[step.s]);
        step.market.clawback && step.is_charged() && !kinds.contains(&v.finals[step.s])
    }),
    ("a fall charged for a rise of schedule 1", |step| {
        step.is_charged_for(0)
    }),
    ("a fall charged for a rise of schedule 2", |step| {
        step.is_charged_for(1)
    }),
    ("a fall charged without clawback", |step| {
        !step.market.clawback && step.is_charged()
    }),
    ("a fall at a rate of 0", |step| {
        step.falls() && step.rate() == 0 && step.line.accredited(step.s)
    }),
    ("a paid rise", |step| step.view.finals[step.s] > 0),
    ("a fall charged in a schedule of the set", |step| {
        has_some(step.line) && step.is_charged()
    }),
    ("a fall in a schedule that the set leaves out", |step| {
        has_some(step.line) && step.falls() && step.rate() > 0 && !step.line.accredited(step.s)
    }),
];

/// What each side's schedules reach.
const SHARE: &str = "a share of a T with payments of a pulled bid";

fn pulled(line: Line) -> Vec<usize> {
    (0..SCHEDULES).filter(|&s| line.is_pulled(s)).collect()
}

/// What injections and withdrawals met.
#[derive(Default)]
struct WithPulled {
    met: [Met; 2],
    /// Sides and sets of pulled schedules.
    sets: BTreeSet<(u32, Vec<usize>)>,
}

impl WithPulled {
    fn step(&mut self, step: &Step) {
        let met = &mut self.met[step.line.side() as usize];
        for (what, is_met) in OF_STEPS {
            met.note(what, is_met(step));
        }
    }

    /// One side's unhedged steps, each with its line, in schedule s.
    fn share(&mut self, side: Side, steps: &[(Line, View)], s: usize) {
        let in_total = |(line, v): &(Line, View)| line.is_pulled(s) && v.revised[s] != 0;
        let is_met = steps.iter().any(in_total) && steps.iter().any(|(_, v)| has_share(v, s));
        self.met[side as usize].note(SHARE, is_met);
    }
}

impl Sides for WithPulled {
    const KIND: Kind = Kind::Pulled;

    fn wanted() -> Wanted {
        Wanted {
            of_lines: names(OF_BIDS),
            of_hedges: names(OF_HEDGES),
            of_days: [names(OF_STEPS), vec![SHARE]].concat(),
        }
    }

    fn line(&mut self, line: Line) {
        let met = &mut self.met[line.side() as usize];
        for s in pulled(line) {
            let source = (0..s).rfind(|&bid| !line.is_pulled(bid)).unwrap();
            let bid = Bid { line, s, source };
            for (what, is_met) in OF_BIDS.iter().chain(OF_HEDGES) {
                met.note(what, is_met(&bid));
            }
        }
        self.sets.insert((line.side() as u32, pulled(line)));
    }

    fn day(&mut self, day: &[u8]) {
        let views = DayView::new(day);
        let market = &views.day.market;
        for side in [Side::Injection, Side::Withdrawal] {
            let lines = views.day.lines().filter(|line| line.side() == side);
            let steps = |line| unhedged(&views, line).into_iter().map(move |v| (line, v));
            let steps: Vec<(Line, View)> = lines.flat_map(steps).collect();
            for &(line, ref view) in &steps {
                let in_schedule = |s| Step {
                    market,
                    line,
                    view,
                    s,
                };
                let steps = pulled(line).into_iter().map(in_schedule);
                steps.for_each(|step| self.step(&step));
            }
            (1..SCHEDULES).for_each(|s| self.share(side, &steps, s));
        }
        views.day.lines().for_each(|line| self.line(line));
    }

    fn met(&self) -> &[Met; 2] {
        &self.met
    }

    /// Each of the 15 sets of schedules beside the empty one.
    fn check_others(&self, what: &str) {
        assert_eq!(self.sets.len(), 2 * 16, "{what}");
    }
}

#[test]
fn pulled_days_reach() {
    check_days::<WithPulled>("generated", pulled_days());
}

#[test]
fn kept_days_reach() {
    check_kept_days::<WithPulled>();
}

#[test]
fn kept_lines_reach() {
    check_kept_lines::<WithPulled>();
}

/// Each slot of a pulled bid is the one that isn't 0 in some line that `check_cut` refuses with 10.
#[test]
fn kept_lines_have_each_slot() {
    let lines = entries("check_cut").into_iter();
    let mut slots = BTreeSet::new();
    for line in lines.filter(|line| cut_number(line) == 10) {
        let line = Line::new(&line).unwrap();
        for bid in pulled(line) {
            let is_put = |slot: &usize| line.word(count_place(bid) + 1 + slot) != 0;
            let put: Vec<usize> = (0..2 * BID_SLOTS).filter(is_put).collect();
            slots.extend(<[usize; 1]>::try_from(put));
        }
    }
    assert_eq!(slots.len(), 2 * BID_SLOTS);
}
