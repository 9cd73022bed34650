//! Totals, their allocation to steps, AGINO, MSIQ and constrained on quantities (01 "Quantities", 02 F-2 and F-5, FD
//! 5 to 7 and 8.1).

use crate::cut::Step;
use crate::layout::*;

/// The pricing total of each schedule, in 64 bits since a line's words have no limit before refusal 12.
pub fn pricing_totals(line: Line) -> BySchedule<u64> {
    let entry = |s: usize, i: usize| u64::from(line.word(pricing_place(s.min(i), i)));
    std::array::from_fn(|s| (0..SCHEDULES).map(|i| entry(s, i)).sum())
}

/// The operating total of each schedule, of the row in force, in 64 bits likewise.
pub fn operating_totals(line: Line) -> BySchedule<u64> {
    let entry = |s, i| u64::from(line.operating(s, i));
    std::array::from_fn(|s| (0..SCHEDULES).map(|i| entry(s, i)).sum())
}

/// The effective actual (FD 6.1.1). It is at most the operating total of schedule 5.
pub fn effective_actual(line: Line) -> u32 {
    let last = SCHEDULES - 1;
    let entry = |i| line.operating(last, i).min(line.word(actual_place(i)));
    (0..SCHEDULES).map(entry).sum()
}

/// What is allocated to the steps of a line without fault, and M, up to which they reach.
pub struct LineTotals {
    most: u32,
    pub pricing: BySchedule<u32>,
    pub operating: BySchedule<u32>,
    pub actual: u32,
}

impl LineTotals {
    pub fn new(line: Line) -> LineTotals {
        LineTotals {
            most: line.greatest_break(),
            pricing: pricing_totals(line).map(|total| total as u32),
            operating: operating_totals(line).map(|total| total as u32),
            actual: effective_actual(line),
        }
    }
}

/// What a step takes of a total, and what no step of the line takes.
#[derive(Clone, Copy)]
pub struct Allocation {
    pub on_step: u32,
    pub excess: u32,
}

/// Allocates a total to the step from `lower` to `upper` of a line whose last step ends at `most`.
#[inline(always)]
pub fn allocate(total: u32, most: u32, lower: u32, upper: u32) -> Allocation {
    Allocation {
        on_step: total.min(upper).saturating_sub(lower),
        excess: total.saturating_sub(most),
    }
}

/// The quantities of one step. On withdrawals AGINO is FD's AGWNO and MSIQ is MSWQ.
pub struct Quantities {
    pub operating: BySchedule<Allocation>,
    pub pricing: BySchedule<Allocation>,
    pub actual: Allocation,
    pub agino: BySchedule<u32>,
    pub msiq: BySchedule<u32>,
    pub constrained_on: BySchedule<u32>,
}

impl Quantities {
    /// `rates` are the step's R: one is above 0 where the price is above the market price (withdrawal: below).
    #[inline(always)]
    pub fn new(totals: &LineTotals, step: &Step, rates: &BySchedule<u32>) -> Quantities {
        let allocated = |total| allocate(total, totals.most, step.lower, step.upper);
        let operating = totals.operating.map(allocated);
        let pricing = totals.pricing.map(allocated);
        let actual = allocated(totals.actual);
        let on_step = |allocations: BySchedule<Allocation>| allocations.map(|a| a.on_step);
        let operating_on_step = on_step(operating);
        let agino = agino(&operating_on_step, actual.on_step);
        let msiq = msiq(&on_step(pricing), rates);
        Quantities {
            operating,
            pricing,
            actual,
            agino,
            msiq,
            constrained_on: constrained_on(&operating_on_step, &agino, &msiq),
        }
    }
}

/// AGINO of a step, going back from schedule 5 (FD 6.1.3, 6.1.4).
pub fn agino(operating: &BySchedule<u32>, actual: u32) -> BySchedule<u32> {
    let last = operating[SCHEDULES - 1];
    let not_injected = last.saturating_sub(actual);
    let mut least = last;
    let mut agino = [0; SCHEDULES];
    for s in (0..SCHEDULES).rev() {
        least = least.min(operating[s]);
        agino[s] = not_injected.saturating_sub(last - least);
    }
    agino
}

/// MSIQ of a step, going back from schedule 5 (FD 7.1).
pub fn msiq(pricing: &BySchedule<u32>, rates: &BySchedule<u32>) -> BySchedule<u32> {
    let mut msiq = *pricing;
    for s in (0..SCHEDULES - 1).rev() {
        if rates[s] == 0 {
            msiq[s] = pricing[s].min(msiq[s + 1]);
        }
    }
    msiq
}

fn constrained_on(
    operating: &BySchedule<u32>,
    agino: &BySchedule<u32>,
    msiq: &BySchedule<u32>,
) -> BySchedule<u32> {
    std::array::from_fn(|s| {
        operating[s]
            .saturating_sub(agino[s])
            .saturating_sub(msiq[s])
    })
}
