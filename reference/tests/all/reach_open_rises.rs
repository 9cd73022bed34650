//! That the generated days reach what the law of open rises (02 F-14) is to be tried on, on both sides, and that each
//! wrong reading of it is false on some of them.

use crate::law_days;
use crate::laws_open_rises::{at_rates, rates, steps, Step};
use crate::laws_uplift::sum;
use crate::reach::has_excess;
use crate::second::Five;
use reference::layout::*;
use reference::view::DayView;
use std::collections::BTreeMap;

const ALL: BySchedule<bool> = [true; SCHEDULES];
const LAST: usize = SCHEDULES - 1;

/// Some schedule has a rise that `is_met`.
fn some_rise(step: &Step, is_met: impl Fn(usize) -> bool) -> bool {
    (0..SCHEDULES).any(|r| step.rises[r] > 0 && is_met(r))
}

/// Some schedule has a fall that `is_met`.
fn some_fall(step: &Step, is_met: impl Fn(usize) -> bool) -> bool {
    (0..SCHEDULES).any(|q| step.falls[q] > 0 && is_met(q))
}

/// The schedules of the rises that the fall of q takes from.
fn taken<'a>(step: &'a Step, q: usize) -> impl Iterator<Item = usize> + 'a {
    (0..q).filter(move |&r| step.matched(r, q) > 0)
}

/// The fall of q takes a part of some rise, and a part of it is still open.
fn takes_part(step: &Step, q: usize) -> bool {
    taken(step, q).any(|r| step.open(q)[r] > 0)
}

fn takes_whole(step: &Step, q: usize) -> bool {
    taken(step, q).any(|r| step.matched(r, q) == step.rises[r])
}

/// The fall of q is at a rate of 0 and takes from a rise at a rate above 0.
fn takes_at_0(step: &Step, q: usize) -> bool {
    step.rates[q] == 0 && taken(step, q).any(|r| step.rates[r] > 0)
}

/// The bid of s ends below the step and isn't pulled.
fn is_smaller(step: &Step, s: usize) -> bool {
    step.view.flag[s] == 1 && !step.line.is_pulled(s)
}

fn is_capped(step: &Step, s: usize) -> bool {
    step.view.price[s] < step.uncapped[s]
}

/// The operating row in force isn't the line's own.
fn is_ad_hoc(step: &Step, s: usize) -> bool {
    let own = |i| step.line.word(operating_place(s, i));
    (0..SCHEDULES).any(|i| step.line.operating(s, i) != own(i))
}

/// The rates above 0 of the rises that are open after s.
fn open_rates(step: &Step, s: usize) -> impl Iterator<Item = i128> {
    let (open, rates) = (step.open(s), step.rates);
    let is_open = move |&r: &usize| open[r] > 0 && rates[r] > 0;
    (0..SCHEDULES).filter(is_open).map(move |r| rates[r])
}

type OfStep = (&'static str, fn(&Step) -> bool);

/// What the steps paid in all five schedules reach.
const OF_PAID: &[OfStep] = &[
    ("a fall takes a part of a rise", |step| {
        some_fall(step, |q| takes_part(step, q))
    }),
    ("a fall takes several rises", |step| {
        some_fall(step, |q| taken(step, q).count() > 1)
    }),
    ("a fall takes a rise whole and a part of another", |step| {
        some_fall(step, |q| takes_whole(step, q) && takes_part(step, q))
    }),
    ("several falls take from a rise", |step| {
        let falls = |r| (r + 1..SCHEDULES).filter(move |&q| step.matched(r, q) > 0);
        some_rise(step, |r| falls(r).count() > 1)
    }),
    ("a fall where the bid is pulled", |step| {
        some_fall(step, |q| step.line.is_pulled(q) && step.rates[q] > 0)
    }),
    ("a rise where the bid is pulled", |step| {
        some_rise(step, |r| step.line.is_pulled(r) && step.rates[r] > 0)
    }),
    ("a part taken where the bid is pulled", |step| {
        some_fall(step, |q| step.line.is_pulled(q) && takes_part(step, q))
    }),
    ("above by a fall where the bid is pulled", |step| {
        some_fall(step, |q| step.line.is_pulled(q) && takes_at_0(step, q))
    }),
    ("a fall where the bid is smaller but not pulled", |step| {
        some_fall(step, |q| is_smaller(step, q) && step.rates[q] > 0)
    }),
    ("a part taken where it is smaller but not pulled", |step| {
        some_fall(step, |q| is_smaller(step, q) && takes_part(step, q))
    }),
    ("a fall on a line with an excess", |step| {
        has_excess(step.line) && some_fall(step, |q| step.rates[q] > 0)
    }),
    ("a rise by a row of an ad hoc record", |step| {
        some_rise(step, |r| is_ad_hoc(step, r) && step.rates[r] > 0)
    }),
    ("a fall by a row of an ad hoc record", |step| {
        some_fall(step, |q| is_ad_hoc(step, q) && step.rates[q] > 0)
    }),
    ("a rise at a capped price", |step| {
        some_rise(step, |r| is_capped(step, r) && step.rates[r] > 0)
    }),
    ("a fall at a capped price", |step| {
        some_fall(step, |q| is_capped(step, q) && step.rates[q] > 0)
    }),
    ("open rises at several rates", |step| {
        let mut rates = open_rates(step, LAST);
        rates.next().is_some_and(|first| rates.any(|r| r != first))
    }),
    ("the sum is above the open rises", |step| {
        some_fall(step, |q| takes_at_0(step, q) && step.above_open(q) > 0)
    }),
    ("above, and a later fall at a rate above 0", |step| {
        let later = |q| (q + 1..SCHEDULES).any(|l| step.falls[l] > 0 && step.rates[l] > 0);
        some_fall(step, |q| takes_at_0(step, q) && later(q))
    }),
    ("above, and a rise at a rate above 0 still open", |step| {
        step.above_open(LAST) > 0 && open_rates(step, LAST).count() > 0
    }),
    ("a fall at a rate of 0, its rises too: equal", |step| {
        step.falls_at_0(LAST).count() > 0 && step.above_open(LAST) == 0
    }),
    ("equal likewise, a rise at a rate above 0 open", |step| {
        let is_equal = |q| step.rates[q] == 0 && step.above_open(q) == 0;
        some_fall(step, |q| is_equal(q) && open_rates(step, q).count() > 0)
    }),
];

/// The running sum falls below the open rises in some schedule.
fn is_below(step: &Step) -> bool {
    (0..SCHEDULES).any(|s| step.above_open(s) < 0)
}

/// What the other steps reach.
const OF_OTHERS: &[OfStep] = &[
    ("the sum falls below the open rises", is_below),
    ("below, paid in a fall and not in its rise", |step| {
        let unpaid = |q| taken(step, q).any(|r| !step.paid[r] && step.rates[r] > 0);
        is_below(step) && some_fall(step, |q| step.paid[q] && unpaid(q))
    }),
    ("below 0", |step| {
        (0..SCHEDULES).any(|s| sum(&step.view.modified[..=s]) < 0)
    }),
    ("paid up to a fall, and not after it", |step| {
        let is_paid = |q: usize| !step.paid[..=q].contains(&false);
        some_fall(step, |q| is_paid(q) && step.rates[q] > 0)
    }),
    ("paid in a rise and not in its fall: above", |step| {
        step.falls_at_0(LAST).count() == 0 && step.above_open(LAST) > 0
    }),
];

/// What the hedged steps of accredited lines reach.
const OF_HEDGED: &[OfStep] = &[
    ("hedged: below", is_below),
    ("hedged: a fall at a rate above 0", |step| {
        some_fall(step, |q| step.rates[q] > 0)
    }),
];

/// What a step is to reach: by where it is paid.
fn wanted_of(step: &Step) -> &'static [OfStep] {
    let is_hedged = step.view.upper <= step.line.word(HEDGE);
    match step.paid {
        ALL => OF_PAID,
        _ if is_hedged && step.line.word(ACCREDITATION) == 1 => OF_HEDGED,
        _ => OF_OTHERS,
    }
}

/// How many steps of injections and of withdrawals met each.
#[derive(Default)]
struct Counts(BTreeMap<&'static str, [usize; 2]>);

impl Counts {
    fn step(&mut self, step: &Step) {
        for (what, is_met) in wanted_of(step) {
            let count = &mut self.0.entry(what).or_default()[step.line.side() as usize];
            *count += usize::from(is_met(step));
        }
    }

    fn of(&self, what: &str) -> [usize; 2] {
        let counts = self.0.get(what).copied().unwrap_or_default();
        println!("{counts:?}: {what}");
        counts
    }
}

#[test]
fn generated_days_reach() {
    let mut counts = Counts::default();
    for day in law_days() {
        steps(&DayView::new(&day)).for_each(|step| counts.step(&step));
    }
    for (what, _) in OF_PAID.iter().chain(OF_OTHERS) {
        assert!(!counts.of(what).contains(&0), "{what}");
    }
    for (what, _) in OF_HEDGED {
        assert!(counts.of(what)[0] > 0, "{what}");
    }
}

/// How the law may be read.
#[derive(Clone, Copy)]
struct Reading {
    /// Whether it is about a step.
    is_about: fn(&Step) -> bool,
    /// The payments that are added up.
    payments: fn(&Step) -> BySchedule<i64>,
    /// The open rises after s, at their rates.
    open: fn(&Step, usize) -> i128,
    /// What it says of the difference of the two after s.
    holds: fn(&Step, usize, i128) -> bool,
}

const RIGHT: Reading = Reading {
    is_about: |step| step.paid == ALL,
    payments: |step| step.view.modified,
    open: |step, s| at_rates(&step.open(s), &step.rates),
    holds: |step, s, above| at_least(above, step.falls_at_0(s).count() == 0),
};

fn at_least(above: i128, is_exact: bool) -> bool {
    above == 0 || (above > 0 && !is_exact)
}

/// The open rises after s, all at the rate of one schedule.
fn open_at_one_rate(step: &Step, s: usize, of: usize) -> i128 {
    at_rates(&step.open(s), &[step.rates[of]; SCHEDULES])
}

fn uncapped_rates(step: &Step) -> Five {
    rates(step.market, step.line.side(), &step.uncapped)
}

const WRONG: [(&str, Reading); 21] = [
    (
        "all open rises at the rate of schedule s",
        Reading {
            open: |step, s| open_at_one_rate(step, s, s),
            ..RIGHT
        },
    ),
    (
        "all open rises at the rate of schedule 5",
        Reading {
            open: |step, s| open_at_one_rate(step, s, LAST),
            ..RIGHT
        },
    ),
    (
        "all open rises at the rate of the last fall",
        Reading {
            open: |step, s| match (0..=s).rfind(|&q| step.falls[q] > 0) {
                Some(fall) => open_at_one_rate(step, s, fall),
                None => (RIGHT.open)(step, s),
            },
            ..RIGHT
        },
    ),
    (
        "rises at their rates less falls at theirs",
        Reading {
            open: |step, s| {
                let change = |q| (step.rises[q] - step.falls[q]) * step.rates[q];
                (0..=s).map(change).sum()
            },
            ..RIGHT
        },
    ),
    (
        "a fall takes the oldest rise first",
        Reading {
            open: |step, s| at_rates(&step.open_by_list(s, |_| 0), &step.rates),
            ..RIGHT
        },
    ),
    (
        "open rises after the next schedule",
        Reading {
            open: |step, s| (RIGHT.open)(step, LAST.min(s + 1)),
            ..RIGHT
        },
    ),
    (
        "open rises before the schedule",
        Reading {
            open: |step, s| s.checked_sub(1).map_or(0, |s| (RIGHT.open)(step, s)),
            ..RIGHT
        },
    ),
    (
        "open rises at uncapped rates",
        Reading {
            open: |step, s| at_rates(&step.open(s), &uncapped_rates(step)),
            ..RIGHT
        },
    ),
    (
        "the sum is above",
        Reading {
            holds: |_, _, above| above > 0,
            ..RIGHT
        },
    ),
    (
        "above after a fall at a rate of 0",
        Reading {
            holds: |step, s, above| (above > 0) == (step.falls_at_0(s).count() > 0),
            ..RIGHT
        },
    ),
    (
        "exact everywhere",
        Reading {
            holds: |_, _, above| at_least(above, true),
            ..RIGHT
        },
    ),
    (
        "exact unless the fall of s itself is at a rate of 0",
        Reading {
            holds: |step, s, above| at_least(above, step.falls[s] == 0 || step.rates[s] > 0),
            ..RIGHT
        },
    ),
    (
        "exact unless a fall takes a rise at a rate of 0",
        Reading {
            holds: |step, s, above| {
                let at_0 = |q: usize| taken(step, q).any(|r| step.rates[r] == 0);
                at_least(above, !(0..=s).any(at_0))
            },
            ..RIGHT
        },
    ),
    (
        "exact unless a fall is at the market price",
        Reading {
            holds: |step, s, above| {
                let (prices, market) = (step.view.price, step.market.prices);
                let at_0 = |q: usize| step.falls[q] > 0 && prices[q] == market[q];
                at_least(above, !(0..=s).any(at_0))
            },
            ..RIGHT
        },
    ),
    (
        "of all steps",
        Reading {
            is_about: |_| true,
            ..RIGHT
        },
    ),
    (
        "of steps paid in some schedule",
        Reading {
            is_about: |step| step.paid.contains(&true),
            ..RIGHT
        },
    ),
    (
        "of steps paid in schedule 1",
        Reading {
            is_about: |step| step.paid[0],
            ..RIGHT
        },
    ),
    (
        "initial payments",
        Reading {
            payments: |step| step.view.initial,
            ..RIGHT
        },
    ),
    (
        "revised payments",
        Reading {
            payments: |step| step.view.revised,
            ..RIGHT
        },
    ),
    (
        "final payments with clawback on",
        Reading {
            is_about: |step| step.paid == ALL && step.market.clawback,
            payments: |step| step.view.finals,
            ..RIGHT
        },
    ),
    (
        "final payments with clawback off",
        Reading {
            is_about: |step| step.paid == ALL && !step.market.clawback,
            payments: |step| step.view.finals,
            ..RIGHT
        },
    ),
];

/// Those that injections alone tell apart: withdrawals have no hedge, and a cap doesn't lower their rates.
const WRONG_OF_INJECTIONS: [(&str, Reading); 2] = [
    (
        "of steps accredited in all schedules, hedged or not",
        Reading {
            is_about: |step| (0..SCHEDULES).all(|s| step.line.accredited(s)),
            ..RIGHT
        },
    ),
    (
        "exact unless a fall is at an uncapped rate of 0",
        Reading {
            holds: |step, s, above| {
                let rates = uncapped_rates(step);
                let at_0 = |q: usize| step.falls[q] > 0 && rates[q] == 0;
                at_least(above, !(0..=s).any(at_0))
            },
            ..RIGHT
        },
    ),
];

/// A reading is true of a step after each schedule.
fn is_true(reading: &Reading, step: &Step) -> bool {
    let payments = (reading.payments)(step);
    let above = |s| sum(&payments[..=s]) - (reading.open)(step, s);
    let holds = |s| (reading.holds)(step, s, above(s));
    !(reading.is_about)(step) || (0..SCHEDULES).all(holds)
}

/// For each reading the number of days on which it is false of an injection, and of a withdrawal.
fn told_apart(readings: &[Reading]) -> Vec<[usize; 2]> {
    let mut days = vec![[0; 2]; readings.len()];
    for day in law_days() {
        let views = DayView::new(&day);
        let steps: Vec<Step> = steps(&views).collect();
        for (reading, days) in readings.iter().zip(&mut days) {
            for side in [Side::Injection, Side::Withdrawal] {
                let mut of_side = steps.iter().filter(|step| step.line.side() == side);
                let is_false = of_side.any(|step| !is_true(reading, step));
                days[side as usize] += usize::from(is_false);
            }
        }
    }
    days
}

#[test]
fn generated_days_tell_wrong_readings_apart() {
    let named = WRONG.into_iter().chain(WRONG_OF_INJECTIONS);
    let (names, wrong): (Vec<&str>, Vec<Reading>) = named.unzip();
    let days = told_apart(&wrong);
    for (k, (name, days)) in names.iter().zip(&days).enumerate() {
        println!("{days:?}: {name}");
        let sides = if k < WRONG.len() { 2 } else { 1 };
        assert!(days[..sides].iter().all(|&days| days > 1), "{name}");
    }
    assert_eq!(told_apart(&[RIGHT]), [[0; 2]]);
}
