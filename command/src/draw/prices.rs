//! A line's prices along its steps, a plot for each schedule, with market price, cap and what is constrained on.

use super::axis::{Along, Prices};
use super::markup::{at, Markup};
use super::{ad_hoc_sentence, schedule_heading, Drawn, Unpaid};
use crate::amounts::{dollars, dollars_alike, PRICE_PLACES};
use crate::figures::Line;
use crate::layout::{BySchedule, SCHEDULES};
use crate::lists::pulled_sentence;
use mewikofu::Side;
use std::fmt::Write;

const WIDTH: f64 = 1200.0;
/// Left end of the first plot, from one plot to the next, and a plot's width.
const LEFT: f64 = 92.0;
const PITCH: f64 = 222.0;
const PLOT: f64 = 198.0;
const HEIGHT: f64 = 190.0;

/// The plots of one line; all schedules have the same axes.
struct Plots<'a> {
    drawn: &'a Drawn<'a>,
    k: usize,
    line: &'a Line,
    prices: Prices,
    end: i64,
    /// Names and values, in MJ, of the line's excesses that aren't 0 in all schedules.
    excesses: Vec<(&'static str, BySchedule<u32>)>,
    /// Whether a row of an ad hoc record is in force in some schedule.
    ad_hoc: bool,
    /// Highest and lowest place.
    top: f64,
    bottom: f64,
}

pub fn put(page: &mut Markup, drawn: &Drawn, k: usize, line: &Line) {
    let plots = Plots::new(drawn, k, line);
    let height = plots.bottom + 44.0;
    page.open(&format!(
        "div class=\"scroll\" tabindex=\"0\" role=\"region\" aria-labelledby=\"prices-{k}\""
    ));
    page.open(&format!(
        "svg class=\"prices\" viewBox=\"0 0 {} {}\" role=\"img\" aria-labelledby=\"prices-{k} plots-{k}\"",
        at(WIDTH),
        at(height)
    ));
    page.element(
        &format!("title id=\"prices-{k}\""),
        &format!("Prices of line {k}"),
    );
    page.element(&format!("desc id=\"plots-{k}\""), &plots.words());
    plots.axis(page);
    for s in 0..SCHEDULES {
        plots.plot(page, s);
    }
    page.close().close().row_end();
}

impl<'a> Plots<'a> {
    fn new(drawn: &'a Drawn<'a>, k: usize, line: &'a Line) -> Plots<'a> {
        let market = &drawn.day.market;
        let capped = market.marks.contains(&true);
        let excess = line.excess();
        let mut excesses = vec![("operating", excess.operating), ("pricing", excess.pricing)];
        excesses.retain(|(_, row)| *row != [0; SCHEDULES]);
        let ad_hoc = line.ad_hoc.iter().any(Option::is_some);
        let rows = usize::from(capped) + usize::from(ad_hoc) + excesses.len();
        let top = row_place(rows) + 1.0;
        let bottom = top + HEIGHT;
        let steps = 0..line.steps.len();
        let bids = steps.flat_map(|j| (0..SCHEDULES).map(move |s| (s, j)));
        let bids = bids.flat_map(|(s, j)| [drawn.cuts[k].prices[s][j], line.steps[j].price[s]]);
        let cap = capped.then_some(market.cap);
        let values: Vec<i64> = bids.chain(cap).map(i64::from).collect();
        let markets = market.prices.map(i64::from);
        Plots {
            drawn,
            k,
            line,
            prices: Prices::new(&values, &markets, bottom, top),
            end: line
                .steps
                .iter()
                .map(|step| i64::from(step.end))
                .max()
                .unwrap_or(0),
            excesses,
            ad_hoc,
            top,
            bottom,
        }
    }

    fn words(&self) -> String {
        let cut = match self.prices.above.or(self.prices.below) {
            Some(_) => " The price axis is cut: prices far from the market price are drawn beyond its break.",
            None => "",
        };
        format!(
            "Five plots, one for each schedule: the price of each step along the line's quantity in {}, the market price, \
             the cap where one applies, and what is constrained on between the two prices. Parts that aren't paid are hatched.{cut}{}{}{}",
            self.drawn.energy.name(),
            pulled_sentence(&self.line.pulled()),
            ad_hoc_sentence(self.line),
            self.drawn.excess_sentence(self.line)
        )
    }

    /// Names and marked prices at the left, and the quantity's name below.
    fn axis(&self, page: &mut Markup) {
        page.element("text x=\"0\" y=\"16\" class=\"name\"", "price, $/GJ");
        let labels = dollars_alike(&self.prices.ticks, PRICE_PLACES, 2);
        for (&tick, label) in self.prices.ticks.iter().zip(&labels) {
            self.price_label(page, tick, label);
        }
        for (least, most) in self.prices.above.into_iter().chain(self.prices.below) {
            let [low, high] = [least, most].map(|value| dollars(value, PRICE_PLACES, 2));
            match least == most {
                true => self.price_label(page, least, &low),
                false => {
                    let y = self.prices.at(least);
                    for (label, y) in [(format!("to {high}"), y + 11.0), (low, y - 2.0)] {
                        label_at(page, LEFT - 8.0, y, "end", &label);
                    }
                }
            }
        }
        let middle = LEFT + (PITCH * 4.0 + PLOT) / 2.0;
        let name = format!("quantity along the steps, {}", self.drawn.energy.name());
        page.element(
            &format!(
                "text x=\"{}\" y=\"{}\" text-anchor=\"middle\" class=\"name\"",
                at(middle),
                at(self.bottom + 38.0)
            ),
            &name,
        );
    }

    fn price_label(&self, page: &mut Markup, price: i64, label: &str) {
        label_at(page, LEFT - 8.0, self.prices.at(price) + 4.0, "end", label);
    }

    fn plot(&self, page: &mut Markup, s: usize) {
        let left = LEFT + PITCH * s as f64;
        // Long labels need more room.
        let intervals = if self.drawn.energy.write(self.end).len() > 6 {
            2
        } else {
            4
        };
        let along = Along::new(self.end, intervals, left, left + PLOT);
        self.heading(page, s, left);
        page.open("g");
        self.hatched(page, &along, s);
        let mut grid = String::new();
        for &tick in &self.prices.ticks {
            let _ = write!(
                grid,
                "M{} {}h{}",
                at(left),
                at(self.prices.at(tick)),
                at(PLOT)
            );
        }
        path(page, "grid", &grid);
        self.constrained_on(page, &along, s);
        self.step_prices(page, &along, s);
        let market = &self.drawn.day.market;
        path(page, "market", &self.across(left, market.prices[s]));
        if market.marks[s] {
            path(page, "cap", &self.across(left, market.cap));
        }
        let frame = format!(
            "M{left} {top}V{bottom}H{right}",
            left = at(left),
            top = at(self.top),
            bottom = at(self.bottom),
            right = at(left + PLOT)
        );
        path(page, "frame", &frame);
        for y in self.prices.breaks() {
            break_mark(page, left, y);
        }
        self.quantities(page, &along);
        page.close();
    }

    /// Market price, cap where it applies, the ad hoc row in force, and excess where there is some.
    fn heading(&self, page: &mut Markup, s: usize, left: f64) {
        let market = &self.drawn.day.market;
        let place = |y: f64, class: &str| {
            format!("text x=\"{}\" y=\"{}\" class=\"{class}\"", at(left), at(y))
        };
        page.element(&place(16.0, "schedule"), &schedule_heading(self.line, s));
        let written = |value: u32| dollars(i64::from(value), PRICE_PLACES, 2);
        let words = format!("market price {}", written(market.prices[s]));
        page.element(&place(33.0, "market-words"), &words);
        if market.marks[s] {
            let words = format!("cap (APC) {}", written(market.cap));
            page.element(&place(row_place(0), "cap-words"), &words);
        }
        // Below the cap, also where another schedule has it.
        let below_cap = usize::from(market.marks.contains(&true));
        if let Some(row) = self.line.ad_hoc[s] {
            let words = format!("ad hoc row, order number {}", row.order);
            page.element(&place(row_place(below_cap), "row-words"), &words);
        }
        let first = below_cap + usize::from(self.ad_hoc);
        for (k, (name, row)) in self.excesses.iter().enumerate() {
            if row[s] > 0 {
                let words = format!("{name} excess {}", self.drawn.quantity(row[s]));
                page.element(&place(row_place(first + k), "excess-words"), &words);
            }
        }
    }

    fn across(&self, left: f64, price: u32) -> String {
        format!(
            "M{} {}h{}",
            at(left),
            at(self.prices.at(i64::from(price))),
            at(PLOT)
        )
    }

    /// Behind the steps that aren't paid in the schedule. They are the first ones, or all.
    fn hatched(&self, page: &mut Markup, along: &Along, s: usize) {
        let steps = self.line.steps.iter();
        let last = steps
            .rev()
            .find_map(|step| Some((Unpaid::new(self.line, step, s)?, step.end)));
        if let Some((unpaid, end)) = last {
            let (left, right) = (along.at(0), along.at(i64::from(end)));
            page.empty(&format!(
                "rect class=\"{}\" x=\"{}\" y=\"{}\" width=\"{}\" height=\"{}\"",
                unpaid.class(),
                at(left),
                at(self.top),
                at(right - left),
                at(self.bottom - self.top)
            ));
        }
    }

    /// What is constrained on, from the step's MSIQ on, between its price and the market price.
    fn constrained_on(&self, page: &mut Markup, along: &Along, s: usize) {
        let (mut filled, mut outlined) = (String::new(), String::new());
        let market = self.drawn.day.market.prices[s];
        for step in self
            .line
            .steps
            .iter()
            .filter(|step| step.constrained[s] > 0)
        {
            let from = i64::from(step.end - step.width) + i64::from(step.msiq[s]);
            let (left, right) = (
                along.at(from),
                along.at(from + i64::from(step.constrained[s])),
            );
            let price = step.price[s];
            let beyond = match self.line.entry.side {
                Side::Injection => price > market,
                Side::Withdrawal => price < market,
            };
            let area = match beyond && self.line.is_paid(step, s) {
                true => &mut filled,
                false => &mut outlined,
            };
            let (one, other) = (
                self.prices.at(i64::from(price)),
                self.prices.at(i64::from(market)),
            );
            let _ = write!(
                area,
                "M{} {}H{}V{}H{}z",
                at(left),
                at(one),
                at(right),
                at(other),
                at(left)
            );
        }
        path(page, "on", &filled);
        path(page, "free", &outlined);
    }

    /// Prices of the steps, one after another; dashed with flag 1; before the cap where that cut them.
    fn step_prices(&self, page: &mut Markup, along: &Along, s: usize) {
        let (mut own, mut missing, mut uncapped) = (String::new(), String::new(), String::new());
        let mut before: Option<(u32, String)> = None;
        for (j, step) in self.line.steps.iter().enumerate() {
            let left = at(along.at(i64::from(step.end - step.width)));
            let right = at(along.at(i64::from(step.end)));
            let y = at(self.prices.at(i64::from(step.price[s])));
            let place = if step.flag[s] == 0 {
                &mut own
            } else {
                &mut missing
            };
            let (flag, from) = before
                .replace((step.flag[s], y.clone()))
                .unwrap_or((2, y.clone()));
            if flag != step.flag[s] {
                let _ = write!(place, "M{left} {from}");
            }
            if from != y {
                let _ = write!(place, "V{y}");
            }
            let _ = write!(place, "H{right}");
            let bid = self.drawn.cuts[self.k].prices[s][j];
            if bid != step.price[s] {
                let _ = write!(
                    uncapped,
                    "M{left} {}H{right}",
                    at(self.prices.at(i64::from(bid)))
                );
            }
        }
        path(page, "uncapped", &uncapped);
        path(page, "price", &own);
        path(page, "price missing", &missing);
    }

    /// Short marks and labels of quantities below.
    fn quantities(&self, page: &mut Markup, along: &Along) {
        for &tick in &along.ticks {
            let x = along.at(tick);
            path(page, "frame", &format!("M{} {}v5", at(x), at(self.bottom)));
            let label = self.drawn.energy.write(tick);
            // Labels at the ends stay within the plot.
            let room = 3.5 * label.len() as f64;
            let anchor = match tick {
                0 => "start",
                _ if x + room > along.at(self.end) + 4.0 => "end",
                _ => "middle",
            };
            label_at(page, x, self.bottom + 18.0, anchor, &label);
        }
    }
}

/// Where row k, from 0, below a plot's market price stands.
fn row_place(k: usize) -> f64 {
    49.0 + 16.0 * k as f64
}

fn path(page: &mut Markup, class: &str, d: &str) {
    if !d.is_empty() {
        page.empty(&format!("path class=\"{class}\" d=\"{d}\""));
    }
}

fn label_at(page: &mut Markup, x: f64, y: f64, anchor: &str, label: &str) {
    page.element(
        &format!(
            "text x=\"{}\" y=\"{}\" text-anchor=\"{anchor}\"",
            at(x),
            at(y)
        ),
        label,
    );
}

/// The mark of a broken axis: two slanted strokes over a gap in it.
fn break_mark(page: &mut Markup, x: f64, y: f64) {
    let (left, up, down) = (at(x - 6.0), at(y + 1.0), at(y + 6.0));
    path(page, "gap", &format!("M{} {}v8", at(x), at(y - 4.0)));
    path(
        page,
        "break",
        &format!("M{left} {up}l12 -5M{left} {down}l12 -5"),
    );
}
