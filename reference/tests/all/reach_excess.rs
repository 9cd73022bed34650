//! That the generated days and lines with totals above M (02 F-2) reach what they are for, on both sides.

use crate::excess_days;
use crate::kept::entries;
use crate::reach::{excess_of, has_excess, unhedged, Kind, Met};
use crate::reach_sets::has_some;
use crate::reach_sides::*;
use reference::cut::Steps;
use reference::layout::*;
use reference::quantities::{operating_totals, pricing_totals};
use reference::refusal::cut_number;
use reference::view::{DayView, View};
use std::collections::BTreeSet;

/// Some word from the one place up to the other is above the quantity limit.
fn is_above_limit(line: Line, from: usize, to: usize) -> bool {
    (from..to).any(|place| line.word(place) > QUANTITY_LIMIT)
}

type OfLine = (&'static str, fn(Line) -> bool);

/// What the lines with an excess reach, of each side.
const OF_LINES: &[OfLine] = &[
    ("M below its excess", |line| {
        let most = u64::from(line.greatest_break());
        excess_of(line).as_flattened().iter().any(|&x| x > most)
    }),
    ("a pricing entry above the quantity limit", |line| {
        is_above_limit(line, pricing_place(0, 0), operating_place(0, 0))
    }),
    ("an operating entry above the quantity limit", |line| {
        is_above_limit(line, operating_place(0, 0), actual_place(0))
    }),
    ("both kinds in one schedule", |line| {
        let [pricing, operating] = excess_of(line);
        (0..SCHEDULES).any(|s| pricing[s] > 0 && operating[s] > 0)
    }),
    ("the bid of the schedule is pulled", |line| {
        let [pricing, operating] = excess_of(line);
        (0..SCHEDULES).any(|s| line.is_pulled(s) && pricing[s] + operating[s] > 0)
    }),
    ("a set of schedules", has_some),
    ("one bid alone", |line| {
        (1..SCHEDULES).all(|bid| line.is_pulled(bid))
    }),
];

/// What those of injections reach beside it.
const OF_HEDGES: &[OfLine] = &[
    ("a hedge below M", |line| {
        (1..line.greatest_break()).contains(&line.word(HEDGE))
    }),
    ("a hedge of M", |line| {
        line.word(HEDGE) == line.greatest_break()
    }),
];

/// The last step of a line with an excess, in schedule s.
struct Last<'a> {
    market: &'a Market,
    line: Line<'a>,
    view: &'a View,
    s: usize,
}

impl Last<'_> {
    /// The operating total of the schedule exceeds M.
    fn exceeds(&self) -> bool {
        self.view.excess.operating[self.s] > 0
    }

    fn last_operating(&self) -> u32 {
        self.view.excess.operating[SCHEDULES - 1]
    }

    fn actual(&self) -> u32 {
        self.view.excess.actual
    }

    fn constrained_on(&self) -> u32 {
        self.view.constrained_on[self.s]
    }

    fn falls(&self) -> bool {
        self.s > 0 && self.view.constrained_on[self.s - 1] > self.constrained_on()
    }

    /// The price is below the cutter's.
    fn is_capped(&self) -> bool {
        let step = Steps::new(self.line).last().unwrap();
        self.view.price[self.s] < step.prices[self.s]
    }

    /// Some but not all of the excess of schedule 5 is delivered.
    fn delivers_part(&self) -> bool {
        (1..self.last_operating()).contains(&self.actual())
    }

    /// Schedule 5 has an excess, and an actual that is more than scheduled there is what `is_met` asks for.
    fn over_delivers(&self, is_met: fn(u32) -> bool) -> bool {
        let scheduled = |i| self.line.word(operating_place(SCHEDULES - 1, i));
        let actual = |i| self.line.word(actual_place(i));
        let is_over = |i| actual(i) > scheduled(i) && is_met(actual(i));
        self.last_operating() > 0 && (0..SCHEDULES).any(is_over)
    }
}

type OfLast = (&'static str, fn(&Last) -> bool);

/// What the last steps reach, of each side.
const OF_LAST_STEPS: &[OfLast] = &[
    ("all of the excess delivered", |l| {
        l.actual() > 1 && l.actual() == l.last_operating()
    }),
    ("a part of the excess delivered", |l| l.delivers_part()),
    ("1,000 in the effective actual", |l| {
        l.actual() == EXCESS_LIMIT
    }),
    ("nothing of the excess delivered", |l| {
        l.actual() == 0 && l.last_operating() > 0 && l.view.agino[4] == 0
    }),
    ("more than scheduled delivered", |l| {
        l.over_delivers(|actual| actual < QUANTITY_LIMIT)
    }),
    ("more than scheduled delivered, up to the limit", |l| {
        l.over_delivers(|actual| actual == QUANTITY_LIMIT)
    }),
    ("a part of the excess delivered, elsewhere more", |l| {
        l.delivers_part() && l.over_delivers(|_| true)
    }),
    ("excess in both totals and the actual, all different", |l| {
        let excess = &l.view.excess;
        let three = [excess.pricing[l.s], excess.operating[l.s], excess.actual];
        BTreeSet::from(three).len() == 3 && !three.contains(&0)
    }),
    ("AGINO beside an excess", |l| {
        l.last_operating() > 0 && l.view.agino[4] > 0
    }),
    ("C above 0 beside an excess", |l| {
        l.exceeds() && l.constrained_on() > 0
    }),
    ("C below O beside an excess", |l| {
        l.exceeds() && (1..l.view.operating[l.s]).contains(&l.constrained_on())
    }),
    ("a paid rise to an excess", |l| {
        l.exceeds() && l.view.finals[l.s] > 0
    }),
    ("a charged fall to an excess", |l| {
        l.exceeds() && l.view.finals[l.s] < 0
    }),
    ("a charged fall from an excess", |l| {
        l.falls() && l.view.excess.operating[l.s - 1] > 0 && l.view.finals[l.s] < 0
    }),
    ("a charged fall beside an excess in pricing", |l| {
        l.falls() && l.view.excess.pricing[l.s] > 0 && l.view.finals[l.s] < 0
    }),
    ("a paid rise at a capped price", |l| {
        l.exceeds() && l.is_capped() && l.view.finals[l.s] > 0
    }),
    ("a paid rise where the bid is pulled", |l| {
        l.exceeds() && l.line.is_pulled(l.s) && l.view.finals[l.s] > 0
    }),
    ("a paid rise in a schedule of the set", |l| {
        l.exceeds() && has_some(l.line) && l.view.finals[l.s] > 0
    }),
    ("a paid rise with clawback off", |l| {
        l.exceeds() && !l.market.clawback && l.view.finals[l.s] > 0
    }),
];

/// What each side's schedules reach.
const SHARE: &str = "a share of a T with payments of a line with an excess";

/// What injections and withdrawals met.
#[derive(Default)]
struct WithExcess {
    met: [Met; 2],
    /// Sides, kinds of total and schedules with an excess.
    schedules: BTreeSet<(u32, usize, usize)>,
    /// Sides, kinds of total and excesses of 1, 999 and 1,000.
    amounts: BTreeSet<(u32, usize, u64)>,
}

impl WithExcess {
    fn last_step(&mut self, market: &Market, line: Line, view: &View) {
        let met = &mut self.met[line.side() as usize];
        for s in 0..SCHEDULES {
            let last = Last {
                market,
                line,
                view,
                s,
            };
            for (what, is_met) in OF_LAST_STEPS {
                met.note(what, is_met(&last));
            }
        }
    }

    /// One side's unhedged steps in schedule s.
    fn share(&mut self, side: Side, steps: &[View], s: usize) {
        let in_total = |v: &View| v.excess.operating[s] > 0 && v.revised[s] != 0;
        let is_met = steps.iter().any(in_total) && steps.iter().any(|v| has_share(v, s));
        self.met[side as usize].note(SHARE, is_met);
    }
}

impl Sides for WithExcess {
    const KIND: Kind = Kind::Excess;

    fn wanted() -> Wanted {
        Wanted {
            of_lines: names(OF_LINES),
            of_hedges: names(OF_HEDGES),
            of_days: [names(OF_LAST_STEPS), vec![SHARE]].concat(),
        }
    }

    fn line(&mut self, line: Line) {
        let side = line.side() as u32;
        for (kind, totals) in excess_of(line).into_iter().enumerate() {
            for (s, excess) in totals.into_iter().enumerate().filter(|(_, x)| *x > 0) {
                self.schedules.insert((side, kind, s));
                let amount =
                    Some((side, kind, excess)).filter(|_| matches!(excess, 1 | 999 | 1000));
                self.amounts.extend(amount);
            }
        }
        let met = &mut self.met[side as usize];
        for (what, is_met) in OF_LINES.iter().chain(OF_HEDGES) {
            met.note(what, has_excess(line) && is_met(line));
        }
    }

    fn day(&mut self, day: &[u8]) {
        let views = DayView::new(day);
        for line in views.day.lines() {
            self.line(line);
            let last = views.line(line).last().unwrap();
            self.last_step(&views.day.market, line, &last);
        }
        for side in [Side::Injection, Side::Withdrawal] {
            let lines = views.day.lines().filter(|line| line.side() == side);
            let steps: Vec<View> = lines.flat_map(|line| unhedged(&views, line)).collect();
            (1..SCHEDULES).for_each(|s| self.share(side, &steps, s));
        }
    }

    fn met(&self) -> &[Met; 2] {
        &self.met
    }

    /// An excess of both kinds in each schedule, and one of 1, 999 and 1,000.
    fn check_others(&self, what: &str) {
        assert_eq!(self.schedules.len(), 2 * 2 * SCHEDULES, "{what}");
        assert_eq!(self.amounts.len(), 2 * 2 * 3, "{what}");
    }
}

#[test]
fn excess_days_reach() {
    check_days::<WithExcess>("generated", excess_days());
}

#[test]
fn kept_days_reach() {
    check_kept_days::<WithExcess>();
}

#[test]
fn kept_lines_reach() {
    check_kept_lines::<WithExcess>();
}

/// Of how many sides, kinds of total and schedules there is a line with this number in which one total is what `is_met`
/// asks for, given M, and no other is above M.
fn alone(lines: &[Vec<u8>], number: u32, is_met: impl Fn(u64, u64) -> bool) -> usize {
    let mut met = BTreeSet::new();
    for line in lines.iter().filter(|line| cut_number(line) == number) {
        let line = Line::new(line).unwrap();
        let most = u64::from(line.greatest_break());
        let totals = [pricing_totals(line), operating_totals(line)];
        let totals = totals.as_flattened().iter().enumerate();
        let above: Vec<_> = totals.filter(|(_, &total)| total > most).collect();
        if let [(place, &total)] = above[..] {
            let place = (line.side() as u32, place);
            met.extend(Some(place).filter(|_| is_met(total, most)));
        }
    }
    met.len()
}

/// Of each side, kind and schedule a total alone on both sides of refusal 12's limit and one that is small in 32 bits,
/// with M as 3,000 and at the quantity limit.
#[test]
fn kept_limits_reach() {
    let of_days = |program| -> Vec<Vec<u8>> {
        let days = entries(program)
            .into_iter()
            .filter(|day| day.len() == day_length(1));
        days.map(|day| day[day_length(0)..].to_vec()).collect()
    };
    let packs = ["check_settle", "check_steps", "check_day_numbers"].map(of_days);
    for lines in packs.iter().chain([&entries("check_cut")]) {
        for wanted in [3_000, 200_000_000] {
            for (above, number) in [(1, 0), (999, 0), (1000, 0), (1001, 12)] {
                let is_met = |total, most| most == wanted && total == most + above;
                assert_eq!(alone(lines, number, is_met), 20, "{wanted} + {above}");
            }
            let is_small = |total, most| total >= 1 << 32 && total % (1 << 32) <= most;
            let is_met = |total, most| most == wanted && is_small(total, most);
            assert_eq!(alone(lines, 12, is_met), 20, "{wanted} and 32 bits");
        }
    }
}
