//! One payment: a step in a schedule. Each figure of the view is compared with what document 01 makes of the others.

use crate::figures::{Figures, Line};
use crate::layout::*;
use crate::output::Unit;
use crate::settle::side_word;
use crate::steps::{ad_hoc_cell, excess_cells, AD_HOC_COLUMN, EXCESS_COLUMNS};
use mewikofu::{match_place, Cut, Side, View};
use serde_json::{json, Value};

/// R: the price less the market price, reversed for withdrawals; at least 0.
pub fn rate(side: Side, price: u32, market_price: u32) -> u32 {
    match side {
        Side::Injection => price.saturating_sub(market_price),
        Side::Withdrawal => market_price.saturating_sub(price),
    }
}

/// What the steps of one side come to in a schedule.
#[derive(Clone, Copy, Debug, Default, PartialEq, Eq)]
pub struct Pool {
    /// T, the sum of the revised payments.
    pub total: i64,
    /// The sums of rises and falls over the steps paid in the schedule; B is the greater.
    pub rises: u64,
    pub falls: u64,
    /// Some revised payment differs from its initial one.
    pub differs: bool,
}

impl Pool {
    pub fn base(&self) -> u64 {
        self.rises.max(self.falls)
    }
}

/// Added up from the views of the day's steps.
pub struct Pools {
    sides: [BySchedule<Pool>; 2],
}

impl Pools {
    pub fn new(day: &Figures) -> Pools {
        let mut sides = [[Pool::default(); SCHEDULES]; 2];
        for line in &day.lines {
            let pools = &mut sides[place(line.entry.side)];
            for step in &line.steps {
                for (s, pool) in pools.iter_mut().enumerate() {
                    pool.total += step.revised[s];
                    pool.differs |= step.revised[s] != step.initial[s];
                    if line.is_paid(step, s) {
                        let (rise, fall) = change(step, s);
                        pool.rises += u64::from(rise);
                        pool.falls += u64::from(fall);
                    }
                }
            }
        }
        Pools { sides }
    }

    pub fn of(&self, side: Side, s: usize) -> Pool {
        self.sides[place(side)][s]
    }
}

fn place(side: Side) -> usize {
    match side {
        Side::Injection => 0,
        Side::Withdrawal => 1,
    }
}

/// C before schedule s.
fn before(step: &View, s: usize) -> u32 {
    match s {
        0 => 0,
        _ => step.constrained[s - 1],
    }
}

/// U and D.
fn change(step: &View, s: usize) -> (u32, u32) {
    let (now, before) = (step.constrained[s], before(step, s));
    (now.saturating_sub(before), before.saturating_sub(now))
}

/// The schedule whose bid gives the prices of schedule s. The first bid is never pulled.
fn pricing_bid(line: &Line, s: usize) -> usize {
    let not_pulled = (0..=s).rev().find(|&bid| !line.is_pulled(bid));
    not_pulled.unwrap_or(0)
}

/// Which sentence of document 01's "Final", or of whether a step is paid in the schedule, was taken.
#[derive(Clone, Copy, Debug, PartialEq, Eq)]
pub enum Rule {
    NotAccredited,
    Hedged,
    FirstSchedule,
    ClawbackOff,
    PriceMissing,
    Pooled,
    NotTakenBack,
    PoolNotAboveZero,
    NothingRevised,
}

impl Rule {
    pub fn name(self) -> &'static str {
        match self {
            Rule::NotAccredited => "not accredited",
            Rule::Hedged => "hedged",
            Rule::FirstSchedule => "initial: schedule 1",
            Rule::ClawbackOff => "initial: clawback off",
            Rule::PriceMissing => "modified: price missing",
            Rule::Pooled => "revised less share",
            Rule::NotTakenBack => "revised: initial not below 0",
            Rule::PoolNotAboveZero => "revised: T not above 0",
            Rule::NothingRevised => "revised: none differs from its initial",
        }
    }
}

/// T times D / B.
#[derive(Clone, Copy, Debug, PartialEq, Eq)]
pub struct Share {
    pub quotient: i64,
    /// Whether something was dropped in rounding towards zero.
    pub rounded: bool,
}

/// A match with the rise of an earlier schedule.
#[derive(Clone, Copy, Debug, PartialEq, Eq)]
pub struct Match {
    /// From 0.
    pub rise: usize,
    pub quantity: u32,
    /// What each unit is charged in the revised and in the modified payment.
    pub revised_rate: u32,
    pub modified_rate: u32,
}

/// Why a step is paid what it is in schedule s, from 0.
pub struct Reason<'a> {
    pub line: usize,
    pub step: usize,
    pub s: usize,
    pub side: Side,
    pub own: &'a Line,
    pub view: &'a View,
    pub market_price: u32,
    /// The schedule whose bid gives the price: s, or where that bid was pulled the nearest earlier one with a bid that wasn't.
    pub bid: usize,
    /// Before the cap.
    pub bid_price: u32,
    pub cap: Option<u32>,
    pub rate: u32,
    pub before: u32,
    pub rise: u32,
    pub fall: u32,
    pub matches: Vec<Match>,
    pub pool: Pool,
    pub rule: Rule,
    pub share: Option<Share>,
    /// The final payment.
    pub paid: i64,
}

type Fits<T> = std::result::Result<T, String>;

fn product(quantity: u32, rate: u32) -> i64 {
    i64::from(quantity) * i64::from(rate)
}

impl<'a> Reason<'a> {
    /// Or which figure isn't what the others make of it.
    pub fn new(
        day: &'a Figures,
        cut: &Cut,
        pools: &Pools,
        k: usize,
        j: usize,
        s: usize,
    ) -> Fits<Reason<'a>> {
        let own = &day.lines[k];
        let (view, side) = (&own.steps[j], own.entry.side);
        let market_price = day.market.prices[s];
        let (rise, fall) = change(view, s);
        let mut reason = Reason {
            line: k,
            step: j,
            s,
            side,
            own,
            view,
            market_price,
            bid: pricing_bid(own, s),
            bid_price: cut.prices[s][j],
            cap: day.market.marks[s].then_some(day.market.cap),
            rate: rate(side, view.price[s], market_price),
            before: before(view, s),
            rise,
            fall,
            matches: Vec::new(),
            pool: pools.of(side, s),
            rule: Rule::FirstSchedule,
            share: None,
            paid: 0,
        };
        reason.matches = reason.find_matches(day);
        reason.check_step(cut)?;
        reason.check_quantities()?;
        reason.work_out(day.market.clawback)?;
        Ok(reason)
    }

    fn fits<T: PartialEq + std::fmt::Display>(
        &self,
        what: &str,
        worked_out: T,
        view: T,
    ) -> Fits<()> {
        match worked_out == view {
            true => Ok(()),
            false => {
                let (line, step, s) = (self.line, self.step, self.s + 1);
                Err(format!("line {line}, step {step}, schedule {s}: {what} is worked out as {worked_out}, and the view has {view}"))
            }
        }
    }

    /// Ends, price and flag beside the cutter's.
    fn check_step(&self, cut: &Cut) -> Fits<()> {
        let (j, s, view) = (self.step, self.s, self.view);
        let lower = if j == 0 { 0 } else { cut.ends[j - 1] };
        self.fits("its end", cut.ends[j], view.end)?;
        self.fits("its width", cut.ends[j] - lower, view.width)?;
        self.fits(
            "its price",
            self.cap.unwrap_or(u32::MAX).min(self.bid_price),
            view.price[s],
        )?;
        self.fits("its flag", u32::from(cut.flag(s, j)), view.flag[s])?;
        if self.bid == s {
            return Ok(());
        }
        // The last of a line's steps has the bid's last price.
        let last = cut.prices[self.bid][cut.ends().len() - 1];
        self.fits("the price taken over", last, self.bid_price)?;
        self.fits("its flag with a pulled bid", 1, view.flag[s])
    }

    /// The least of O(s) .. O(5).
    pub fn least_operating(&self) -> u32 {
        self.view.operating[self.s..]
            .iter()
            .copied()
            .fold(u32::MAX, u32::min)
    }

    /// Whether MSIQ is E whatever the next schedule's is: the price is beyond the market price.
    pub fn beyond_market(&self) -> bool {
        self.rate > 0
    }

    /// What of a total lies within the step.
    fn allocated(&self, total: u64) -> u64 {
        total
            .min(self.view.end.into())
            .saturating_sub(self.lower_end().into())
    }

    fn check_quantities(&self) -> Fits<()> {
        let (view, s, totals) = (self.view, self.s, &self.own.totals);
        let [o, e, a] = [view.operating[s], view.pricing[s], view.actual];
        self.fits("O", self.allocated(totals.operating[s]), o.into())?;
        self.fits("E", self.allocated(totals.pricing[s]), e.into())?;
        self.fits("A", self.allocated(totals.actual), a.into())?;
        self.check_excess()?;
        let last = SCHEDULES - 1;
        let agino = match s {
            4 => o.saturating_sub(a),
            _ => view.agino[last].saturating_sub(view.operating[last] - self.least_operating()),
        };
        self.fits("AGINO", agino, view.agino[s])?;
        let msiq = match (s, self.beyond_market()) {
            (4, _) | (_, true) => e,
            (_, false) => e.min(view.msiq[s + 1]),
        };
        self.fits("MSIQ", msiq, view.msiq[s])?;
        let c = i64::from(o) - i64::from(view.agino[s]) - i64::from(view.msiq[s]);
        self.fits("C", c.max(0), i64::from(view.constrained[s]))?;
        let matched: u64 = self.matches.iter().map(|one| u64::from(one.quantity)).sum();
        self.fits("the sum of its matches", matched, u64::from(self.fall))
    }

    /// What the line's totals and its effective actual have above its greatest break.
    fn check_excess(&self) -> Fits<()> {
        let (excess, s, totals) = (&self.view.excess, self.s, &self.own.totals);
        let most = u64::from(self.own.greatest_break());
        for (of, total, view) in [
            ("operating total", totals.operating[s], excess.operating[s]),
            ("pricing total", totals.pricing[s], excess.pricing[s]),
            ("effective actual", totals.actual, excess.actual),
        ] {
            let worked_out = total.saturating_sub(most);
            self.fits(&format!("the excess of the {of}"), worked_out, view.into())?;
        }
        Ok(())
    }

    /// The matches of this schedule's fall, the latest rise first.
    fn find_matches(&self, day: &Figures) -> Vec<Match> {
        let quantity = |r: usize| self.view.matches[match_place(r, self.s)];
        let made = (0..self.s).rev().filter(|&r| quantity(r) > 0);
        made.map(|r| {
            let prices = [self.view.price[r], self.view.price[self.s]];
            let price = match self.side {
                Side::Injection => prices[0].min(prices[1]),
                Side::Withdrawal => prices[0].max(prices[1]),
            };
            Match {
                rise: r,
                quantity: quantity(r),
                revised_rate: rate(self.side, price, self.market_price),
                modified_rate: rate(self.side, self.view.price[r], day.market.prices[r]),
            }
        })
        .collect()
    }

    /// The four payments and the rule.
    fn work_out(&mut self, clawback: bool) -> Fits<()> {
        let (view, s) = (self.view, self.s);
        let paid = self.own.is_paid(view, s);
        let initial = if paid {
            product(self.rise, self.rate) - product(self.fall, self.rate)
        } else {
            0
        };
        let charged = |rate: fn(&Match) -> u32| -> i64 {
            -self
                .matches
                .iter()
                .map(|one| product(one.quantity, rate(one)))
                .sum::<i64>()
        };
        let (revised, modified) = match initial < 0 {
            true => (
                charged(|one| one.revised_rate),
                charged(|one| one.modified_rate),
            ),
            false => (initial, initial),
        };
        self.fits("its initial payment", initial, view.initial[s])?;
        self.fits("its revised payment", revised, view.revised[s])?;
        self.fits("its modified payment", modified, view.modified[s])?;
        self.rule = match () {
            () if !self.own.is_accredited(s) => Rule::NotAccredited,
            () if self.own.is_hedged(view) => Rule::Hedged,
            () if s == 0 => Rule::FirstSchedule,
            () if !clawback => Rule::ClawbackOff,
            () if view.flag[s] == 1 => Rule::PriceMissing,
            () if initial >= 0 => Rule::NotTakenBack,
            () if self.pool.total <= 0 => Rule::PoolNotAboveZero,
            () if !self.pool.differs => Rule::NothingRevised,
            () => Rule::Pooled,
        };
        self.share = (self.rule == Rule::Pooled).then(|| self.share_of_pool());
        self.paid = match self.rule {
            Rule::NotAccredited | Rule::Hedged => 0,
            Rule::FirstSchedule | Rule::ClawbackOff => initial,
            Rule::PriceMissing => modified,
            Rule::Pooled => initial.max(revised - self.share.map_or(0, |share| share.quotient)),
            Rule::NotTakenBack | Rule::PoolNotAboveZero | Rule::NothingRevised => revised,
        };
        self.fits("its final payment", self.paid, view.finals[s])
    }

    /// B is at least D, which is above 0 where the initial payment is below 0.
    fn share_of_pool(&self) -> Share {
        let product = i128::from(self.pool.total) * i128::from(self.fall);
        let base = i128::from(self.pool.base()).max(1);
        Share {
            quotient: (product / base) as i64,
            rounded: product % base != 0,
        }
    }

    /// Whether there is more to say than that nothing is paid.
    pub fn is_payment(&self) -> bool {
        let (view, s) = (self.view, self.s);
        [
            view.initial[s],
            view.revised[s],
            view.modified[s],
            view.finals[s],
        ] != [0; 4]
    }

    pub fn lower_end(&self) -> u32 {
        self.view.end - self.view.width
    }
}

/// The columns of a table of payments.
pub fn columns(unit: Unit) -> Vec<String> {
    let money = |name: &str| format!("{name}_{}", unit.name());
    let names = [
        "file",
        "line",
        "participant",
        "point",
        "side",
        "step",
        "schedule",
        "from",
        "to",
    ]
    .map(String::from)
    .to_vec();
    let prices = ["bid_price", "price", "market_price", "rate"]
        .map(money)
        .to_vec();
    let quantities = [
        "operating",
        "pricing",
        "actual",
        "agino",
        "msiq",
        "constrained",
        "constrained_before",
        "rise",
        "fall",
    ]
    .map(String::from)
    .to_vec();
    let payments = ["initial", "revised", "modified", "t", "share", "final"]
        .map(money)
        .to_vec();
    [
        names,
        prices,
        quantities,
        vec!["b".to_string()],
        payments,
        vec!["rule".to_string()],
        EXCESS_COLUMNS.map(String::from).to_vec(),
        vec![AD_HOC_COLUMN.to_string()],
    ]
    .concat()
}

impl Reason<'_> {
    pub fn row(&self, name: &str, unit: Unit) -> Vec<String> {
        let (view, s, entry) = (self.view, self.s, &self.own.entry);
        let mut row = vec![
            name.to_string(),
            self.line.to_string(),
            entry.participant.to_string(),
            entry.point.to_string(),
            side_word(self.side).to_string(),
        ];
        row.extend(
            [self.step as u32, s as u32 + 1, self.lower_end(), view.end]
                .map(|value| value.to_string()),
        );
        row.extend(
            [self.bid_price, view.price[s], self.market_price, self.rate]
                .map(|value| unit.price(value)),
        );
        row.extend(self.quantities().map(|value| value.to_string()));
        row.push(self.pool.base().to_string());
        let share = self
            .share
            .map_or(String::new(), |share| unit.money(share.quotient));
        row.extend(
            [
                view.initial[s],
                view.revised[s],
                view.modified[s],
                self.pool.total,
            ]
            .map(|value| unit.money(value)),
        );
        row.extend([share, unit.money(self.paid), self.rule.name().to_string()]);
        row.extend(excess_cells(view, s));
        row.push(ad_hoc_cell(self.own, s));
        row
    }

    fn quantities(&self) -> [u32; 9] {
        let (view, s) = (self.view, self.s);
        [
            view.operating[s],
            view.pricing[s],
            view.actual,
            view.agino[s],
            view.msiq[s],
            view.constrained[s],
            self.before,
            self.rise,
            self.fall,
        ]
    }

    pub fn json(&self) -> Value {
        let (view, s, entry) = (self.view, self.s, &self.own.entry);
        let [operating, pricing, actual, agino, msiq, constrained, before, rise, fall] =
            self.quantities();
        let matches: Vec<Value> = self
            .matches
            .iter()
            .map(|one| json!({ "rise": one.rise + 1, "quantity": one.quantity }))
            .collect();
        json!({
            "line": self.line, "participant": entry.participant, "point": entry.point, "side": side_word(self.side),
            "step": self.step, "schedule": s + 1, "from": self.lower_end(), "to": view.end,
            "bid_price": self.bid_price, "price": view.price[s], "flag": view.flag[s], "market_price": self.market_price, "rate": self.rate,
            "operating": operating, "pricing": pricing, "actual": actual, "agino": agino, "msiq": msiq,
            "constrained": constrained, "constrained_before": before, "rise": rise, "fall": fall, "matches": matches,
            "initial": view.initial[s], "revised": view.revised[s], "modified": view.modified[s],
            "t": self.pool.total, "b": self.pool.base(), "share": self.share.map(|share| share.quotient),
            "rule": self.rule.name(), "final": self.paid,
            "operating_excess": view.excess.operating[s], "pricing_excess": view.excess.pricing[s], "actual_excess": view.excess.actual,
            "ad_hoc_order": self.own.ad_hoc[s].map(|row| row.order),
        })
    }
}
