//! The step view (01 "Totals and book", last sentences; 02 F-2).

use crate::cut::{Step, Steps};
use crate::figures::LineFigures;
use crate::layout::*;
use crate::matching::PAIRS;
use crate::payments::finals;
use crate::pools::Pools;
use crate::refusal::{line_views_number, view_number};

/// What no step takes of a line's totals.
#[derive(Clone, Debug, Default, PartialEq, Eq)]
pub struct Excess {
    pub operating: BySchedule<u32>,
    pub pricing: BySchedule<u32>,
    pub actual: u32,
}

/// The figures of one step. `price` is capped. The excess is the line's, so the same on all of its steps. A refused
/// view has its number and zeros.
#[derive(Clone, Debug, Default, PartialEq, Eq)]
pub struct View {
    pub number: u32,
    pub upper: u32,
    pub width: u32,
    pub price: BySchedule<u32>,
    pub flag: BySchedule<u32>,
    pub operating: BySchedule<u32>,
    pub pricing: BySchedule<u32>,
    pub actual: u32,
    pub agino: BySchedule<u32>,
    pub msiq: BySchedule<u32>,
    pub constrained_on: BySchedule<u32>,
    /// In the order of `matching::pair`.
    pub matches: [u32; PAIRS],
    pub initial: BySchedule<i64>,
    pub revised: BySchedule<i64>,
    pub modified: BySchedule<i64>,
    pub finals: BySchedule<i64>,
    pub excess: Excess,
}

/// Line and step count from 0.
pub fn view(day: &[u8], line: u64, step: u64) -> View {
    let number = view_number(day, line, step);
    if number != 0 {
        return View {
            number,
            ..View::default()
        };
    }
    let day = DayView::new(day);
    let line = day.day.line(line as usize);
    let step = Steps::new(line).nth(step as usize).unwrap();
    day.step(&LineFigures::new(&day.day.market, line), &step)
}

/// The views of all steps of a line, in order. Refused, there are none.
#[derive(Clone, Debug, Default, PartialEq, Eq)]
pub struct LineViews {
    pub number: u32,
    pub views: Vec<View>,
}

/// The line counts from 0.
pub fn line_views(day: &[u8], line: u64) -> LineViews {
    let number = line_views_number(day, line);
    let views = match number {
        0 => {
            let day = DayView::new(day);
            day.line(day.day.line(line as usize)).collect()
        }
        _ => Vec::new(),
    };
    LineViews { number, views }
}

/// A day without fault and its pools, worked out once for all its steps.
pub struct DayView<'a> {
    pub day: Day<'a>,
    pools: Pools,
}

impl<'a> DayView<'a> {
    pub fn new(day: &'a [u8]) -> DayView<'a> {
        let day = Day::new(day);
        let pools = Pools::new(&day);
        DayView { day, pools }
    }

    /// The views of a line's steps, in order.
    pub fn line(&self, line: Line<'a>) -> impl Iterator<Item = View> + '_ {
        let figures = LineFigures::new(&self.day.market, line);
        Steps::new(line).map(move |step| self.step(&figures, &step))
    }

    fn step(&self, line: &LineFigures, step: &Step) -> View {
        let figures = line.step(step);
        let (clawback, pools) = (self.day.market.clawback, self.pools.side(line.side));
        let falls = &figures.matching.falls;
        let payments = figures.payments;
        let finals = finals(clawback, &step.flags, falls, &payments, pools);
        let quantities = figures.quantities;
        let (operating, pricing) = (quantities.operating, quantities.pricing);
        let excess = Excess {
            operating: operating.map(|total| total.excess),
            pricing: pricing.map(|total| total.excess),
            actual: quantities.actual.excess,
        };
        View {
            number: 0,
            upper: step.upper,
            width: step.upper - step.lower,
            price: figures.prices,
            flag: step.flags.map(u32::from),
            operating: operating.map(|total| total.on_step),
            pricing: pricing.map(|total| total.on_step),
            actual: quantities.actual.on_step,
            agino: quantities.agino,
            msiq: quantities.msiq,
            constrained_on: quantities.constrained_on,
            matches: figures.matching.matches,
            initial: payments.initial,
            revised: payments.revised,
            modified: payments.modified,
            finals,
            excess,
        }
    }
}
