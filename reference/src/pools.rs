//! What the steps of one side come to in a schedule, for the final payments (01 "Payments", FD 8.4.6, 8.5.6).

use crate::cut::Steps;
use crate::figures::{LineFigures, StepFigures};
use crate::layout::{BySchedule, Day, Side, SCHEDULES};

/// One side in one schedule. A step that isn't paid in it changes nothing: its payments are 0 and B leaves it out.
#[derive(Clone, Copy, Default)]
pub struct Pool {
    /// T, the sum of revised payments.
    total: i64,
    /// Sums of U(s) and of D(s) over the steps paid in s; B is the greater.
    rises: u64,
    falls: u64,
    /// Some revised payment differs from its initial. Where none does, a fall's final is its initial either way.
    differs: bool,
}

impl Pool {
    /// Adds a step that is paid in schedule s.
    fn add(&mut self, step: &StepFigures, s: usize) {
        let payments = &step.payments;
        self.total += payments.revised[s];
        self.rises += u64::from(step.matching.rises[s]);
        self.falls += u64::from(step.matching.falls[s]);
        self.differs |= payments.revised[s] != payments.initial[s];
    }

    pub fn in_effect(&self) -> bool {
        self.total > 0 && self.differs
    }

    /// T times D(s) / B towards zero, for a fall D(s) of a step paid in s and T above 0.
    pub fn share(&self, fall: u32) -> i64 {
        let product = u128::from(self.total.unsigned_abs()) * u128::from(fall);
        let share = product / u128::from(self.rises.max(self.falls));
        share as i64 // at most T, since D(s) is at most B
    }
}

/// The pools of both sides.
#[derive(Default)]
pub struct Pools {
    injections: BySchedule<Pool>,
    withdrawals: BySchedule<Pool>,
}

impl Pools {
    /// Without clawback no pool is asked for, and all stay empty.
    pub fn new(day: &Day) -> Pools {
        let mut pools = Pools::default();
        if !day.market.clawback {
            return pools;
        }
        for line in day.lines() {
            let figures = LineFigures::new(&day.market, line);
            let side = pools.side_mut(figures.side);
            for step in Steps::new(line).filter(|step| figures.is_ever_paid(step)) {
                let step = figures.step(&step);
                let paid = (0..SCHEDULES).filter(|&s| step.paid[s]);
                paid.for_each(|s| side[s].add(&step, s));
            }
        }
        pools
    }

    pub fn side(&self, side: Side) -> &BySchedule<Pool> {
        match side {
            Side::Injection => &self.injections,
            Side::Withdrawal => &self.withdrawals,
        }
    }

    fn side_mut(&mut self, side: Side) -> &mut BySchedule<Pool> {
        match side {
            Side::Injection => &mut self.injections,
            Side::Withdrawal => &mut self.withdrawals,
        }
    }
}
