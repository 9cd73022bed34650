//! A line's rises and falls: a row for each step, and in each schedule a bar, the change and its payment.

use super::markup::{at, Markup};
use super::settled::change;
use super::{decimals, put_money, schedule_heading, Drawn, Unpaid};
use crate::amounts::Energy;
use crate::figures::Line;
use crate::layout::SCHEDULES;
use crate::lists::number_words;
use mewikofu::View;

/// Length of the longest bar. The style sheet moves bars so that they begin in the middle of their place.
const LONGEST: f64 = 36.0;

/// How one line's table is written. Quantities, and payments, have as many decimals in every row, so that they stand under one another.
struct Table<'a> {
    line: &'a Line,
    energy: Energy,
    quantity_decimals: usize,
    money_decimals: usize,
    /// The greatest rise or fall.
    longest: i64,
}

pub fn put(page: &mut Markup, drawn: &Drawn, k: usize, line: &Line) {
    let table = Table::new(drawn.energy, line);
    page.open(&format!(
        "div class=\"scroll\" tabindex=\"0\" role=\"region\" aria-label=\"Rises and falls of line {k}\""
    ));
    page.open("table class=\"changes\"").row_end();
    page.element("caption", &table.caption());
    table.headings(page);
    page.open("tbody").row_end();
    for (j, step) in line.steps.iter().enumerate() {
        table.row(page, j, step);
    }
    page.close();
    table.sums(page);
    page.close().close().row_end();
}

impl<'a> Table<'a> {
    fn new(energy: Energy, line: &'a Line) -> Table<'a> {
        let steps = line.steps.iter();
        let changes = steps.flat_map(|step| (0..SCHEDULES).map(move |s| change(step, s)));
        let changes: Vec<i64> = changes.collect();
        let ends = line.steps.iter().map(|step| i64::from(step.end));
        let needed = ends.chain(changes.iter().copied()).map(|value| {
            let text = energy.write(value);
            text.split_once('.').map_or(0, |(_, part)| part.len())
        });
        Table {
            line,
            energy,
            quantity_decimals: needed.max().unwrap_or(0),
            money_decimals: decimals(line.steps.iter().flat_map(|step| step.finals)),
            longest: changes.into_iter().map(i64::abs).max().unwrap_or(0),
        }
    }

    fn quantity(&self, value: i64) -> String {
        let text = self.energy.write(value);
        let (whole, decimals) = text.split_once('.').unwrap_or((&text, ""));
        match self.quantity_decimals {
            0 => text,
            places => format!("{whole}.{decimals:0<places$}"),
        }
    }

    fn caption(&self) -> String {
        match self.longest {
            0 => "Nothing is constrained on, so nothing rises or falls.".to_string(),
            longest => format!(
                "Rises and falls of the quantity constrained on, with the payment for each; the longest bar is {} {}.",
                self.energy.write(longest),
                self.energy.name()
            ),
        }
    }

    fn headings(&self, page: &mut Markup) {
        let energy = self.energy.name();
        let quantity = format!("Quantity, {energy}");
        page.open("thead").open("tr");
        page.element("th scope=\"col\" rowspan=\"2\"", "Step");
        page.element("th scope=\"col\" rowspan=\"2\"", &quantity);
        page.element("th scope=\"col\" rowspan=\"2\" class=\"left\"", "Status");
        for s in 0..SCHEDULES {
            page.element(
                "th scope=\"colgroup\" colspan=\"2\" class=\"schedule\"",
                &schedule_heading(self.line, s),
            );
        }
        page.close().open("tr");
        for _ in 0..SCHEDULES {
            page.element("th scope=\"col\"", &format!("change, {energy}"));
            page.element("th scope=\"col\"", "payment");
        }
        page.close().close().row_end();
    }

    fn row(&self, page: &mut Markup, j: usize, step: &View) {
        page.open("tr");
        page.element("th scope=\"row\"", &j.to_string());
        let from = self.quantity(i64::from(step.end - step.width));
        let to = self.quantity(i64::from(step.end));
        page.element("td", &format!("{from} to {to}"));
        self.status(page, step);
        for s in 0..SCHEDULES {
            self.cells(page, step, s);
        }
        page.close().row_end();
    }

    /// In which schedules the step is paid, or why in none.
    fn status(&self, page: &mut Markup, step: &View) {
        let paid = (1..=SCHEDULES).filter(|s| self.line.is_paid(step, s - 1));
        let paid: Vec<usize> = paid.collect();
        let is_accredited = (0..SCHEDULES).any(|s| self.line.is_accredited(s));
        let (class, words) = match (paid.len(), is_accredited) {
            (0, false) => ("left unpaid", "not accredited".to_string()),
            (0, true) => ("left unpaid", "hedged".to_string()),
            (SCHEDULES, _) => ("left", "paid".to_string()),
            _ => ("left", format!("paid in {}", number_words(&paid))),
        };
        page.element(&format!("td class=\"{class}\""), &words);
    }

    /// The change with its bar, and its payment; both empty where nothing changes.
    fn cells(&self, page: &mut Markup, step: &View, s: usize) {
        let change = change(step, s);
        if change == 0 {
            page.element("td", "").element("td", "");
            return;
        }
        let class = match (Unpaid::new(self.line, step, s), step.finals[s]) {
            (Some(unpaid), _) => unpaid.class(),
            (None, 0) => "free",
            (None, _) if change > 0 => "rise",
            _ => "fall",
        };
        // A small change is still seen.
        let length = LONGEST * change.abs() as f64 / self.longest as f64;
        let length = at(length.max(1.0) * change.signum() as f64);
        page.open("td").open("svg");
        page.empty(&format!("path class=\"{class}\" d=\"M0 0H{length}V10H0z\""));
        page.close();
        let sign = if change > 0 { "+" } else { "" };
        page.words(sign).words(&self.quantity(change)).close();
        put_money(page, step.finals[s], self.money_decimals);
    }

    /// What was paid and what was charged in each schedule, and the book's payment, which is their sum.
    fn sums(&self, page: &mut Markup) {
        let part = |s: usize, wanted: &dyn Fn(i64) -> bool| -> i64 {
            let finals = self.line.steps.iter().map(|step| step.finals[s]);
            finals.filter(|&amount| wanted(amount)).sum()
        };
        let rows: [(&str, &dyn Fn(usize) -> i64); 3] = [
            ("Paid", &|s| part(s, &|amount| amount > 0)),
            ("Charged", &|s| part(s, &|amount| amount < 0)),
            ("Payment of the line", &|s| self.line.entry.payments[s]),
        ];
        page.open("tfoot").row_end();
        for (name, amount) in rows {
            page.open("tr");
            page.element("th scope=\"row\" colspan=\"3\"", name);
            for s in 0..SCHEDULES {
                page.element("td", "");
                put_money(page, amount(s), self.money_decimals);
            }
            page.close().row_end();
        }
        page.close();
    }
}
