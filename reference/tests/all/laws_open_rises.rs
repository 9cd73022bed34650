//! What 02 F-14 promises of modified payments and open rises, on generated days, on the example days and on days of
//! another implementation.

use crate::kept::days_in;
use crate::law_days;
use crate::laws_uplift::sum;
use crate::second::{change, five, Five};
use reference::cut::Steps;
use reference::layout::*;
use reference::matching::pair;
use reference::refusal::day_number;
use reference::view::{DayView, View};

/// A step of a day without fault: where it is paid, its rates R, rises U and falls D.
pub struct Step<'a> {
    pub market: &'a Market,
    pub line: Line<'a>,
    pub view: View,
    /// The cutter's prices.
    pub uncapped: BySchedule<u32>,
    pub paid: BySchedule<bool>,
    pub rates: Five,
    pub rises: Five,
    pub falls: Five,
}

/// All steps of a day.
pub fn steps<'a>(views: &'a DayView<'a>) -> impl Iterator<Item = Step<'a>> {
    let market = &views.day.market;
    let of_line = move |line| {
        let steps = Steps::new(line).zip(views.line(line));
        steps.map(move |(step, view)| Step::new(market, line, step.prices, view))
    };
    views.day.lines().flat_map(of_line)
}

impl<'a> Step<'a> {
    fn new(market: &'a Market, line: Line<'a>, uncapped: BySchedule<u32>, view: View) -> Self {
        Step {
            market,
            line,
            uncapped,
            paid: std::array::from_fn(|s| is_accredited(line, s) && view.upper > line.word(HEDGE)),
            rates: rates(market, line.side(), &view.price),
            rises: five(|s| change(&view, s).max(0)),
            falls: five(|s| (-change(&view, s)).max(0)),
            view,
        }
    }

    /// m(r, q) for r below q.
    pub fn matched(&self, r: usize, q: usize) -> i128 {
        self.view.matches[pair(r, q)].into()
    }

    /// For each r the open rise after s: U(r) less m(r, q) for q up to s.
    pub fn open(&self, s: usize) -> Five {
        let taken = |r: usize| (r + 1..=s).map(|q| self.matched(r, q)).sum::<i128>();
        five(|r| if r > s { 0 } else { self.rises[r] - taken(r) })
    }

    /// The open rises after s without the matches, from C alone. Rises are put at the end of a list, and a fall takes
    /// them from the place that `next` gives for the list's length.
    pub fn open_by_list(&self, s: usize, next: fn(usize) -> usize) -> Five {
        let mut list: Vec<(usize, i128)> = Vec::new();
        for q in 0..=s {
            let mut left = change(&self.view, q);
            if left > 0 {
                list.push((q, left));
            }
            while left < 0 {
                let place = next(list.len());
                let open = &mut list[place].1;
                let taken = (*open).min(-left);
                *open -= taken;
                left += taken;
                list.retain(|&(_, open)| open > 0);
            }
        }
        let open_of = |r| list.iter().find(|&&(rise, _)| rise == r);
        five(|r| open_of(r).map_or(0, |&(_, open)| open))
    }

    /// By how much the running sum of modified payments is above the open rises after s, each at its own rate.
    pub fn above_open(&self, s: usize) -> i128 {
        sum(&self.view.modified[..=s]) - at_rates(&self.open(s), &self.rates)
    }

    /// The schedules up to s that have a fall at a rate of 0.
    pub fn falls_at_0(&self, s: usize) -> impl Iterator<Item = usize> + '_ {
        (0..=s).filter(|&q| self.falls[q] > 0 && self.rates[q] == 0)
    }
}

/// Accreditation 0 is in none of the schedules and 1 in all; another is 32 plus a set of them (02 F-7).
fn is_accredited(line: Line, s: usize) -> bool {
    match line.word(ACCREDITATION) {
        0 => false,
        1 => true,
        word => (word - 32) / (1 << s) % 2 == 1,
    }
}

/// For each schedule the price less the market price, reversed for withdrawals, and at least 0.
pub fn rates(market: &Market, side: Side, prices: &BySchedule<u32>) -> Five {
    five(|s| {
        let above = i128::from(prices[s]) - i128::from(market.prices[s]);
        match side {
            Side::Injection => above.max(0),
            Side::Withdrawal => (-above).max(0),
        }
    })
}

/// Each quantity at the rate of its schedule, added up.
pub fn at_rates(quantities: &Five, rates: &Five) -> i128 {
    quantities.iter().zip(rates).map(|(q, rate)| q * rate).sum()
}

/// The matches of falls at a rate of 0 up to s, at the rates of their rises.
fn taken_at_0(step: &Step, s: usize) -> i128 {
    let of_fall = |q: usize| (0..q).map(move |r| step.matched(r, q) * step.rates[r]);
    step.falls_at_0(s).flat_map(of_fall).sum()
}

fn check(step: &Step) {
    for s in 0..SCHEDULES {
        assert_eq!(step.open(s), step.open_by_list(s, |length| length - 1));
        if !step.paid[..=s].contains(&false) {
            assert_eq!(step.above_open(s), taken_at_0(step, s));
        }
        if step.paid == [true; SCHEDULES] {
            assert!(step.above_open(s) >= 0);
            let is_exact = step.falls_at_0(s).count() == 0;
            assert!(!is_exact || step.above_open(s) == 0);
        }
    }
}

fn check_days(days: impl IntoIterator<Item = Vec<u8>>) {
    for day in days {
        steps(&DayView::new(&day)).for_each(|step| check(&step));
    }
}

#[test]
fn generated_days() {
    check_days(law_days());
}

#[test]
fn kept_days() {
    for folder in ["examples", "reference/tests/worked"] {
        let mut days = days_in(folder);
        days.retain(|day| day_number(day) == 0);
        assert!(!days.is_empty());
        check_days(days);
    }
}
