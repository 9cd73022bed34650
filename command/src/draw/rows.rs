//! A line's operating rows of ad hoc records that are in force, each above the line's own, which it replaces.

use super::markup::Markup;
use super::Drawn;
use crate::figures::Line;
use crate::layout::SCHEDULES;

/// Nothing where all rows in force are the line's own.
pub fn put(page: &mut Markup, drawn: &Drawn, k: usize, line: &Line) {
    if line.ad_hoc.iter().all(Option::is_none) {
        return;
    }
    page.open(&format!(
        "div class=\"scroll\" tabindex=\"0\" role=\"region\" aria-label=\"Ad hoc schedules of line {k}\""
    ));
    page.open("table class=\"ad-hoc\"").row_end();
    let caption = format!(
        "Ad hoc schedules: operating rows in force, in {}, and the line's own, which they replace.",
        drawn.energy.name()
    );
    page.element("caption", &caption);
    headings(page);
    page.open("tbody").row_end();
    for (s, row) in line.ad_hoc.iter().enumerate() {
        let Some(row) = row else {
            continue;
        };
        page.open("tr");
        page.element("th scope=\"row\" rowspan=\"2\"", &(s + 1).to_string());
        let order = format!("in force, order number {}", row.order);
        quantities(page, drawn, &order, &row.quantities);
        page.close().row_end();
        page.open("tr class=\"replaced\"");
        quantities(page, drawn, "the line's own, replaced", &row.own);
        page.close().row_end();
    }
    page.close().close().close().row_end();
}

fn headings(page: &mut Markup) {
    page.open("thead").open("tr");
    page.element("th scope=\"col\"", "Schedule");
    page.element("th scope=\"col\" class=\"left\"", "Row");
    for i in 1..=SCHEDULES {
        page.element("th scope=\"col\"", &format!("Interval {i}"));
    }
    page.element("th scope=\"col\"", "Total");
    page.close().close().row_end();
}

/// A row's name, its five quantities and their sum.
fn quantities(page: &mut Markup, drawn: &Drawn, name: &str, row: &[u32; SCHEDULES]) {
    page.element("td class=\"left\"", name);
    let values = row.map(i64::from);
    for value in values.into_iter().chain([values.iter().sum()]) {
        page.element("td", &drawn.energy.write(value));
    }
}
