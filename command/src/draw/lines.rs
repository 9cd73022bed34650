//! The table of all lines' payments, with totals, adjusted totals and uplift below. Its first column chooses the line that is shown.

use super::markup::Markup;
use super::{decimals, put_money, side_name, Drawn};
use crate::layout::{BySchedule, SCHEDULES};
use mewikofu::BookLine;

pub fn put(page: &mut Markup, drawn: &Drawn) {
    page.open("section aria-labelledby=\"payments\"");
    page.element("h2 id=\"payments\"", "Payments of all lines");
    page.open("div class=\"scroll all\" tabindex=\"0\" role=\"region\" aria-label=\"Payments of all lines\"");
    table(page, drawn);
    page.close();
    page.open("p class=\"choice\"").open("label");
    choice(page, "all", false);
    page.words("show the steps of all lines").close().close();
    page.close().row_end();
}

fn table(page: &mut Markup, drawn: &Drawn) {
    let (book, lines) = (&drawn.day.book, &drawn.day.lines);
    let below = [
        ("Total", book.totals()),
        ("Adjusted total", book.adjusted()),
        ("Uplift", drawn.day.uplift),
    ];
    let payments = lines.iter().map(|line| line.entry.payments);
    let rows = payments.chain(below.map(|(_, row)| row));
    let places = decimals(rows.flat_map(|row| row.into_iter().chain([row.iter().sum()])));
    page.open("table class=\"lines\"").row_end();
    page.element(
        "caption",
        "Ancillary payments in dollars; below 0 is charged. Choose a line to see its steps.",
    );
    headings(page);
    page.open("tbody").row_end();
    for (k, line) in lines.iter().enumerate() {
        line_row(page, k, &line.entry, k == drawn.chosen, places);
    }
    page.close().open("tfoot").row_end();
    for (name, row) in below {
        page.open("tr");
        page.element("th scope=\"row\" colspan=\"5\"", name);
        amounts(page, &row, places);
        page.close().row_end();
    }
    page.close().close();
}

fn line_row(page: &mut Markup, k: usize, entry: &BookLine, chosen: bool, places: usize) {
    page.open("tr").open("th scope=\"row\"").open("label");
    choice(page, &k.to_string(), chosen);
    page.words(&k.to_string()).close().close();
    page.element("td", &entry.participant.to_string());
    page.element("td", &entry.point.to_string());
    page.element("td class=\"left\"", side_name(entry.side));
    page.element("td", &entry.steps.to_string());
    amounts(page, &entry.payments, places);
    page.close().row_end();
}

fn headings(page: &mut Markup) {
    page.open("thead").open("tr");
    for name in ["Line", "Participant", "Point"] {
        page.element("th scope=\"col\"", name);
    }
    page.element("th scope=\"col\" class=\"left\"", "Side");
    page.element("th scope=\"col\"", "Steps");
    for s in 1..=SCHEDULES {
        page.element("th scope=\"col\"", &format!("Schedule {s}"));
    }
    page.element("th scope=\"col\"", "Sum");
    page.close().close().row_end();
}

fn choice(page: &mut Markup, what: &str, chosen: bool) {
    let chosen = if chosen { " checked=\"checked\"" } else { "" };
    page.empty(&format!(
        "input type=\"radio\" name=\"line\" id=\"show-{what}\" autocomplete=\"off\"{chosen}"
    ));
    page.words(" ");
}

/// Five amounts and their sum.
fn amounts(page: &mut Markup, row: &BySchedule<i64>, places: usize) {
    for amount in row.iter().copied().chain([row.iter().sum()]) {
        put_money(page, amount, places);
    }
}
