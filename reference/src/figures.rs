//! From a line and one of its steps to the figures that need no other line.

use crate::cut::Step;
use crate::layout::*;
use crate::matching::Matching;
use crate::payments::{Payments, Prices};
use crate::quantities::{LineTotals, Quantities};

/// What the steps of a line share.
pub struct LineFigures<'a> {
    market: &'a Market,
    pub side: Side,
    accredited: BySchedule<bool>,
    hedge: u32,
    totals: LineTotals,
}

/// One step's figures. `prices` are capped; `paid` says in which schedules the step is paid.
pub struct StepFigures {
    pub paid: BySchedule<bool>,
    pub prices: BySchedule<u32>,
    pub quantities: Quantities,
    pub matching: Matching,
    pub payments: Payments,
}

impl<'a> LineFigures<'a> {
    pub fn new(market: &'a Market, line: Line) -> LineFigures<'a> {
        LineFigures {
            market,
            side: line.side(),
            accredited: std::array::from_fn(|s| line.accredited(s)),
            hedge: line.word(HEDGE),
            totals: LineTotals::new(line),
        }
    }

    /// In schedule s the line is accredited, and the step isn't hedged.
    fn is_paid(&self, step: &Step, s: usize) -> bool {
        self.accredited[s] && step.upper > self.hedge
    }

    /// The step is paid in some schedule.
    pub fn is_ever_paid(&self, step: &Step) -> bool {
        (0..SCHEDULES).any(|s| self.is_paid(step, s))
    }

    #[inline(always)]
    pub fn step(&self, step: &Step) -> StepFigures {
        let market = &self.market.prices;
        let prices = std::array::from_fn(|s| step.prices[s].min(self.market.caps[s]));
        let rates = std::array::from_fn(|s| self.side.rate(prices[s], market[s]));
        let quantities = Quantities::new(&self.totals, step, &rates);
        let matching = Matching::new(&quantities.constrained_on);
        let paid = std::array::from_fn(|s| self.is_paid(step, s));
        let terms = Prices {
            side: self.side,
            step: &prices,
            market,
            rates: &rates,
        };
        let payments = Payments::new(&terms, &matching, &paid);
        StepFigures {
            paid,
            prices,
            quantities,
            matching,
            payments,
        }
    }
}
