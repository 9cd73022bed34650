//! A day as one page of HTML: a table of all lines' payments; of the chosen line its ad hoc rows, its rises and falls as bars with their payments, and its prices.
//! It has no script and needs nothing from outside. Where a browser doesn't know `:has`, all lines are shown.

mod axis;
mod changes;
mod lines;
mod markup;
mod prices;
mod rows;
mod settled;

use crate::accreditation;
use crate::ad_hoc;
use crate::amounts::{dollars, Energy, MONEY_PLACES, PRICE_PLACES};
use crate::arguments::Options;
use crate::excess;
use crate::figures::{Figures, Line};
use crate::layout::SCHEDULES;
use crate::lists::pulled_sentence;
use crate::outcome::{Problem, Result, Status};
use crate::values::counted;
use markup::Markup;
use mewikofu::{Cut, Side, View};
use std::fmt::Write as _;
use std::io::Write;

const SHEET: &str = include_str!("page.css");

pub fn run(options: &Options, out: &mut dyn Write) -> Result<Status> {
    let (input, day) = crate::figures::read(&options.files[0])?;
    let chosen = options.line.unwrap_or(0);
    if chosen >= day.lines.len() {
        return Err(crate::cut::no_line(&input, chosen));
    }
    let page = page(&input.name, &day, chosen)?;
    out.write_all(page.as_bytes())?;
    Ok(Status::Accepted)
}

/// What all parts of the page need.
struct Drawn<'a> {
    day: &'a Figures,
    cuts: Vec<Cut>,
    /// One unit of quantities for the whole page.
    energy: Energy,
    /// The line that is shown at first.
    chosen: usize,
}

impl Drawn<'_> {
    /// A number of MJ in the page's unit, with its name.
    fn quantity(&self, value: u32) -> String {
        format!(
            "{} {}",
            self.energy.write(i64::from(value)),
            self.energy.name()
        )
    }

    /// What no step of a line takes, as a sentence; nothing where there is none.
    fn excess_sentence(&self, line: &Line) -> String {
        excess::sentence(line, |value| self.quantity(value))
    }
}

/// The page of a day on which one of its lines is shown at first. It is made only if its figures are those of the book.
pub fn page(name: &str, day: &Figures, chosen: usize) -> Result<String> {
    let cuts = settled::cuts(day).map_err(|why| {
        Problem::failed(format!(
            "{name}: the page wouldn't be what was settled, so none is drawn: {why}"
        ))
    })?;
    let steps = day.lines.iter().flat_map(|line| &line.steps);
    let end = steps.map(|step| i64::from(step.end)).max().unwrap_or(0);
    let drawn = Drawn {
        day,
        cuts,
        energy: Energy::of_greatest(end),
        chosen,
    };
    let file = std::path::Path::new(name).file_name();
    let file = file.map_or(name.into(), |file| file.to_string_lossy());
    let title = format!("Gas day {file}");
    let mut page = Markup::with_start("<!DOCTYPE html>\n");
    head(&mut page, &title, day.lines.len());
    page.open("body").row_end();
    hatches(&mut page);
    page.open("header").element("h1", &title);
    page.element("p", &about(&drawn)).close().row_end();
    page.open("main").row_end();
    lines::put(&mut page, &drawn);
    legend(&mut page, &drawn);
    for (k, line) in day.lines.iter().enumerate() {
        put_line(&mut page, &drawn, k, line);
    }
    page.close().row_end();
    footer(&mut page);
    Ok(page.finish())
}

fn head(page: &mut Markup, title: &str, lines: usize) {
    page.open("html lang=\"en\"").open("head").row_end();
    page.empty("meta charset=\"utf-8\"");
    page.empty("meta name=\"viewport\" content=\"width=device-width, initial-scale=1\"");
    page.element("title", title).row_end();
    // One line is shown, or all of them.
    let mut sheet = format!("\n{SHEET}@supports selector(:has(a)) {{\n.line {{ display: none }}\n");
    for k in 0..lines {
        let _ = writeln!(
            sheet,
            "body:has(#show-{k}:checked) #line-{k} {{ display: block }}"
        );
    }
    sheet.push_str("body:has(#show-all:checked) .line { display: block }\n}\n");
    page.style(&sheet).close().row_end();
}

/// The patterns of the parts that aren't paid, which every drawing of the page refers to.
fn hatches(page: &mut Markup) {
    page.open("svg width=\"0\" height=\"0\" class=\"patterns\" aria-hidden=\"true\"");
    page.open("defs");
    let size = "width=\"6\" height=\"6\" patternUnits=\"userSpaceOnUse\"";
    page.open(&format!("pattern id=\"hedged\" {size}"));
    page.empty("path class=\"hatch\" d=\"M-1 1l2 -2M0 6l6 -6M5 7l2 -2\"");
    page.close();
    page.open(&format!("pattern id=\"not-accredited\" {size}"));
    page.empty("path class=\"hatch\" d=\"M0 0l6 6M0 6l6 -6\"");
    page.close();
    page.close().close().row_end();
}

/// Clawback, cap and units.
fn about(drawn: &Drawn) -> String {
    let market = &drawn.day.market;
    let clawback = if market.clawback { "on" } else { "off" };
    let marked = (0..SCHEDULES).filter(|&s| market.marks[s]);
    let marked: Vec<String> = marked.map(|s| (s + 1).to_string()).collect();
    let cap = dollars(i64::from(market.cap), PRICE_PLACES, 2);
    let cap = match &marked[..] {
        [] => "No schedule is capped.".to_string(),
        [one] => format!("Schedule {one} is capped at {cap} per GJ (APC)."),
        several => format!(
            "Schedules {} are capped at {cap} per GJ (APC).",
            several.join(", ")
        ),
    };
    let unit = match drawn.energy {
        Energy::GJ => "GJ (1 GJ is 1,000 MJ)",
        Energy::MJ => "MJ (1,000 MJ are 1 GJ)",
    };
    format!(
        "{}. Clawback is {clawback}. {cap} Quantities are in {unit}, prices in dollars per GJ, payments in dollars. \
         Lines and steps are counted from 0, schedules from 1.",
        counted(drawn.day.lines.len(), "line")
    )
}

/// Signs of the bars and of the prices.
fn legend(page: &mut Markup, drawn: &Drawn) {
    let bars = vec![
        ("rect class=\"rise\"", "rise, and what was paid for it"),
        ("rect class=\"fall\"", "fall, and what was charged for it"),
        ("rect class=\"free\"", "rise or fall with a payment of 0"),
        ("rect class=\"hedged\"", "hedged: not paid"),
        ("rect class=\"not-accredited\"", "not accredited: not paid"),
    ];
    let missing = match drawn.day.lines.iter().any(|line| !line.pulled().is_empty()) {
        true => "price past the bid's last step, or with the bid pulled (flag 1)",
        false => "price past the bid's last step (flag 1)",
    };
    let mut prices = vec![
        ("path class=\"price\"", "price of a step"),
        ("path class=\"price missing\"", missing),
        ("path class=\"market\"", "market price"),
    ];
    if drawn.day.market.marks.contains(&true) {
        prices.push(("path class=\"cap\"", "cap (APC)"));
        prices.push(("path class=\"uncapped\"", "price before the cap"));
    }
    prices.push((
        "rect class=\"on\"",
        "constrained on, from price to market price",
    ));
    prices.push(("rect class=\"free\"", "the same, rate 0 or not paid"));
    for entries in [bars, prices] {
        page.open("ul class=\"legend\"");
        for (sign, words) in entries {
            page.open("li");
            page.open("svg width=\"26\" height=\"12\" aria-hidden=\"true\"");
            match sign.starts_with("rect ") {
                true => page.empty(&format!(
                    "{sign} x=\"1\" y=\"1\" width=\"24\" height=\"10\""
                )),
                false => page.empty(&format!("{sign} d=\"M0 6h26\"")),
            };
            page.close().words(" ").words(words).close();
        }
        page.close().row_end();
    }
}

fn put_line(page: &mut Markup, drawn: &Drawn, k: usize, line: &Line) {
    page.open(&format!(
        "section class=\"line\" id=\"line-{k}\" aria-labelledby=\"name-{k}\""
    ));
    let entry = &line.entry;
    let heading = format!(
        "Line {k}: participant {}, point {}, {}",
        entry.participant,
        entry.point,
        side_name(entry.side)
    );
    page.element(&format!("h2 id=\"name-{k}\""), &heading);
    page.element("p", &line_words(drawn, line)).row_end();
    rows::put(page, drawn, k, line);
    changes::put(page, drawn, k, line);
    prices::put(page, drawn, k, line);
    page.close().row_end();
}

fn line_words(drawn: &Drawn, line: &Line) -> String {
    let accredited = accreditation::words(line.accreditation);
    let accredited = accredited[..1].to_uppercase() + &accredited[1..];
    let paid = match (0..SCHEDULES).filter(|&s| line.is_accredited(s)).count() {
        0 => ", so no step is paid",
        SCHEDULES => "",
        _ => ", so steps are paid only there",
    };
    let hedge = match line.hedge {
        0 => "No hedge.".to_string(),
        hedge => format!("Hedged up to {}.", drawn.quantity(hedge)),
    };
    let steps = counted(line.steps.len(), "step");
    let pulled = pulled_sentence(&line.pulled());
    let rows = ad_hoc_sentence(line);
    let excess = drawn.excess_sentence(line);
    format!("{accredited}{paid}. {hedge} {steps}.{pulled}{rows}{excess}")
}

/// In which schedules an ad hoc row is in force, as a sentence; nothing where none is.
fn ad_hoc_sentence(line: &Line) -> String {
    match ad_hoc::schedules(&line.ad_hoc) {
        none if none.is_empty() => none,
        schedules => format!(" An ad hoc operating row is in force in {schedules}."),
    }
}

/// The heading of schedule s, from 0, in a line's table and plots.
fn schedule_heading(line: &Line, s: usize) -> String {
    let pulled = if line.is_pulled(s) {
        ", bid pulled"
    } else {
        ""
    };
    format!("Schedule {}{pulled}", s + 1)
}

fn footer(page: &mut Markup) {
    page.open("footer").open("p");
    page.words(
        "Every figure is the proved settling's, uplift's, step view's or cutter's, of mewikofu ",
    );
    page.words(env!("CARGO_PKG_VERSION"));
    page.words("; the steps' payments were added up and are the book's. ");
    page.element("code", "mewikofu explain DAY --line K");
    page.words(" says why each payment is what it is.");
    page.close().close().row_end();
}

fn side_name(side: Side) -> &'static str {
    match side {
        Side::Injection => "injection",
        Side::Withdrawal => "withdrawal",
    }
}

/// Why a step isn't paid in a schedule.
#[derive(Clone, Copy)]
enum Unpaid {
    NotAccredited,
    Hedged,
}

impl Unpaid {
    /// None where the step is paid in schedule s, from 0.
    fn new(line: &Line, step: &View, s: usize) -> Option<Unpaid> {
        match (line.is_accredited(s), line.is_hedged(step)) {
            (false, _) => Some(Unpaid::NotAccredited),
            (true, true) => Some(Unpaid::Hedged),
            (true, false) => None,
        }
    }

    /// The class of its hatched parts.
    fn class(self) -> &'static str {
        match self {
            Unpaid::NotAccredited => "not-accredited",
            Unpaid::Hedged => "hedged",
        }
    }
}

/// Decimals with which all these amounts are written exactly, at least 2.
fn decimals(amounts: impl Iterator<Item = i64>) -> usize {
    let needed = |amount: i64| {
        let text = dollars(amount, MONEY_PLACES, 0);
        text.split_once('.').map_or(0, |(_, part)| part.len())
    };
    amounts.map(needed).fold(2, usize::max)
}

/// A cell with money, faint where it is 0.
fn put_money(page: &mut Markup, amount: i64, decimals: usize) {
    let tag = if amount == 0 {
        "td class=\"nil\""
    } else {
        "td"
    };
    page.element(tag, &dollars(amount, MONEY_PLACES, decimals));
}
