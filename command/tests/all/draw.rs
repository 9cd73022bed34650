//! The drawn page. Expected figures are the kept reports' and the reference implementation's.

use crate::draw_page::{points, read, Element};
use crate::{
    accredited_schedules, k10_accredited, k10_each_excess, k10_operating_excess, k10_pulled, run,
    run_with, sets_of_reschedules, stored, with_pulled, with_sets,
};
use mewikofu::Accreditation;
use mewikofu_command::draw::page;
use mewikofu_command::figures::Figures;
use mewikofu_command::make::make;
use mewikofu_command::outcome::Status;
use reference::generate::{
    ad_hoc_day, excess_day, small_ad_hoc_day, small_day, small_excess_day, valid_day,
};
use reference::layout::{signed, word, SCHEDULES};
use reference::line_part::line_part;
use reference::view::{DayView, View};
use std::collections::BTreeSet;

pub const EXAMPLES: &[&str] = &[
    "k10",
    "both-sides",
    "withdrawals",
    "rules",
    "accreditation",
    "pulled",
    "excess",
    "ad-hoc",
    "uplift",
    "open-rises",
    "winter",
];

pub fn example(name: &str) -> Vec<u8> {
    stored(&format!("examples/{name}.day"))
}

pub fn drawn(day: &[u8], line: usize) -> String {
    page("a day", &Figures::new(day).unwrap(), line).unwrap()
}

/// Example days, and generated ones.
fn days(count: u64) -> Vec<Vec<u8>> {
    let examples = EXAMPLES.iter().map(|name| example(name));
    let generated = (0..count).flat_map(|seed| {
        let days = match seed % 5 {
            0 => [excess_day(seed), small_excess_day(seed)],
            1 => return [ad_hoc_day(seed), small_ad_hoc_day(seed)],
            _ => [valid_day(seed), small_day(seed)],
        };
        let days = match seed % 2 {
            0 => days,
            _ => days.map(|day| with_sets(day, seed)),
        };
        match seed % 3 {
            0 => days.map(|day| with_pulled(day, seed)),
            _ => days,
        }
    });
    examples
        .chain([far_above(), far_below(), k10_each_excess()])
        .chain(generated)
        .collect()
}

/// The winter day with a bid of $800.
pub fn far_above() -> Vec<u8> {
    let text = String::from_utf8(stored("examples/winter.day.txt")).unwrap();
    make(text.replace("@$45.00", "@$800.00").as_bytes()).unwrap()
}

/// A market price of $800, and bids of $5 and $8 besides those near it.
pub fn far_below() -> Vec<u8> {
    let text = "[market]\nprice = $800 $802 $800 $800 $805\ncapped = no no no yes no\napc = $807\nclawback = no\n\
        [line]\nparticipant = 1\npoint = 1\nside = INJ\naccredited = yes\nhedge = 0\n\
        bid 1..4 = 1000@$5 2000@$8 5000@$810\nbid 5 = 2000@$5 4000@$809.5\npricing 1 = 2000 0 0 0 0\n\
        pricing 2 = 0 0 0 0\npricing 3 = 0 0 0\npricing 4 = 0 0\npricing 5 = 0\n\
        operating 1..5 = 4500 0 0 0 0\nactual = 4500 0 0 0 0\n";
    make(text.as_bytes()).unwrap()
}

fn lines_of(day: &[u8]) -> usize {
    word(day, 0) as usize
}

/// Each line's steps.
fn steps_of(day: &[u8]) -> Vec<Vec<View>> {
    let views = DayView::new(day);
    views
        .day
        .lines()
        .map(|line| views.line(line).collect())
        .collect()
}

/// A word of a line: 2 side, 3 accreditation, 4 hedge.
fn line_word(day: &[u8], line: usize, place: usize) -> u32 {
    word(line_part(day, line as u64), place)
}

/// A word of the market table: 0 to 4 prices, 5 to 9 cap marks, 10 the cap.
fn market_word(day: &[u8], place: usize) -> u32 {
    word(&day[word(day, 1) as usize..], place)
}

/// Whole units of a decimal number with commas, and perhaps $ and a sign, that has so many places.
fn units(text: &str, places: usize) -> i64 {
    let (sign, text) = match text.strip_prefix('-') {
        Some(text) => (-1, text),
        None => (1, text.strip_prefix('+').unwrap_or(text)),
    };
    let text = text.strip_prefix('$').unwrap_or(text);
    let (whole, decimals) = text.split_once('.').unwrap_or((text, ""));
    let groups: Vec<&str> = whole.split(',').collect();
    let is_grouped = groups[1..].iter().all(|group| group.len() == 3) && groups[0].len() <= 3;
    assert!(is_grouped && decimals.len() <= places, "{text}");
    sign * format!("{}{decimals:0<places$}", groups.concat())
        .parse::<i64>()
        .unwrap()
}

fn money(text: &str) -> i64 {
    assert!(text.trim_start_matches('-').starts_with('$'), "{text}");
    units(text, 7)
}

/// The report of a day as the table has it: rows of participant, point, side, steps and payments, then totals, adjusted totals and uplift.
type Report = (Vec<([u32; 4], Vec<i64>)>, [Vec<i64>; 3]);

fn shown(page: &Element) -> Report {
    let table = page.of_class("lines")[0];
    let payments = |cells: &[String]| {
        let amounts: Vec<i64> = cells.iter().map(|text| money(text)).collect();
        let (sum, amounts) = amounts.split_last().unwrap();
        assert_eq!((amounts.len(), *sum), (SCHEDULES, amounts.iter().sum()));
        amounts.to_vec()
    };
    let rows = table.rows("tbody").into_iter().enumerate().map(|(k, row)| {
        assert_eq!(row[0], k.to_string());
        let side = ["injection", "withdrawal"]
            .iter()
            .position(|name| *name == row[3]);
        let number = |text: &String| text.parse().unwrap();
        let key = [
            number(&row[1]),
            number(&row[2]),
            side.unwrap() as u32,
            number(&row[4]),
        ];
        (key, payments(&row[5..]))
    });
    let rows = rows.collect();
    let below = table.rows("tfoot");
    let names: Vec<&str> = below.iter().map(|row| row[0].as_str()).collect();
    assert_eq!(names, ["Total", "Adjusted total", "Uplift"]);
    (rows, [0, 1, 2].map(|k| payments(&below[k][1..])))
}

/// From the reference's book and uplift.
fn settled(day: &[u8]) -> Report {
    let mut book = vec![0; 96 + 56 * 64];
    assert_eq!(reference::settle::settle(day, &mut book), 0);
    let row = |k: usize| {
        let at = 96 + 56 * k;
        let key = std::array::from_fn(|place| word(&book[at..], place));
        (
            key,
            (0..SCHEDULES)
                .map(|s| signed(&book, at + 16 + 8 * s))
                .collect(),
        )
    };
    let pair = |offset: usize| {
        (0..SCHEDULES)
            .map(|s| signed(&book, 16 + 16 * s + offset))
            .collect()
    };
    let shares = reference::uplift::uplift(day).shares.to_vec();
    (
        (0..lines_of(day)).map(row).collect(),
        [pair(0), pair(8), shares],
    )
}

#[test]
fn payments_are_the_books() {
    for day in days(60) {
        assert_eq!(shown(&read(&drawn(&day, 0))), settled(&day));
    }
}

/// Those of the days worked out by hand, and of the other kept reports.
#[test]
fn payments_are_the_kept_reports() {
    for name in EXAMPLES {
        let page = read(&run(&["draw"], &example(name)).text());
        let (rows, [totals, adjusted, _]) = shown(&page);
        let mut report = format!("day {}\n", rows.len());
        let numbers = |amounts: &[i64]| {
            amounts
                .iter()
                .map(|amount| format!(" {amount}"))
                .collect::<String>()
        };
        for ([participant, point, side, steps], amounts) in &rows {
            let side = ["INJ", "WDR"][*side as usize];
            report += &format!("{participant} {point} {side} {steps}{}\n", numbers(amounts));
        }
        report += &format!(
            "total{}\nadjusted{}\n",
            numbers(&totals),
            numbers(&adjusted)
        );
        let kept = String::from_utf8(stored(&format!("examples/{name}.report"))).unwrap();
        assert_eq!(report, kept, "{name}");
    }
}

/// Hatched in a schedule, from 0, in which the line isn't accredited, or where the step ends at or below the hedge.
fn expected_hatch(day: &[u8], line: usize, step: &View, s: usize) -> Option<&'static str> {
    let accredited = accredited_schedules(line_word(day, line, 3)).contains(&(s + 1));
    match (accredited, step.upper <= line_word(day, line, 4)) {
        (false, _) => Some("not-accredited"),
        (true, true) => Some("hedged"),
        (true, false) => None,
    }
}

/// The schedules, from 1, in which a step's status says that it is paid.
fn paid_schedules(status: &str) -> Vec<usize> {
    let Some(list) = status.strip_prefix("paid in ") else {
        return if status == "paid" {
            (1..=5).collect()
        } else {
            Vec::new()
        };
    };
    let list = list.replace(" and ", ", ");
    let number = |text: &str| text.parse::<usize>().unwrap();
    let range = |range: &str| match range.split_once(" to ") {
        Some((first, last)) => number(first)..=number(last),
        None => number(range)..=number(range),
    };
    list.split(", ").flat_map(range).collect()
}

/// MJ of a place in the page's unit, which is 3 for GJ and 0 for MJ.
fn unit_places(page: &Element) -> usize {
    match page.whole_text().contains("Quantities are in GJ") {
        true => 3,
        false => 0,
    }
}

/// Each step's row: quantity, status, changes and payments; a bar for each change, hatched exactly in the schedules in which the step isn't paid.
#[test]
fn rises_and_falls() {
    let mut classes: Vec<String> = Vec::new();
    let mut partly_paid = 0;
    for day in days(25) {
        let page = read(&drawn(&day, 0));
        let places = unit_places(&page);
        for (line, steps) in steps_of(&day).into_iter().enumerate() {
            let table = page.by_id(&format!("line-{line}")).of_class("changes")[0];
            let body = table.named("tbody")[0];
            assert_eq!(body.children.len(), steps.len());
            let change = |step: &View, s: usize| {
                let before = if s == 0 {
                    0
                } else {
                    step.constrained_on[s - 1]
                };
                i64::from(step.constrained_on[s]) - i64::from(before)
            };
            let changes = steps
                .iter()
                .flat_map(|step| (0..SCHEDULES).map(move |s| change(step, s)));
            let longest = changes.map(i64::abs).max().unwrap();
            let mut sums = [[0; SCHEDULES]; 3];
            for (j, (row, step)) in body.children.iter().zip(&steps).enumerate() {
                let cells: Vec<String> = row.children.iter().map(Element::whole_text).collect();
                assert_eq!(cells[0], j.to_string());
                let (from, to) = cells[1].split_once(" to ").unwrap();
                assert_eq!(units(from, places), i64::from(step.upper - step.width));
                assert_eq!(units(to, places), i64::from(step.upper));
                let hatches: [_; SCHEDULES] =
                    std::array::from_fn(|s| expected_hatch(&day, line, step, s));
                let paid: Vec<usize> = (1..=SCHEDULES)
                    .filter(|s| hatches[s - 1].is_none())
                    .collect();
                assert_eq!(paid_schedules(&cells[2]), paid);
                if paid.is_empty() {
                    let hedged = hatches.contains(&Some("hedged"));
                    assert_eq!(cells[2], if hedged { "hedged" } else { "not accredited" });
                }
                partly_paid += usize::from(cells[2].starts_with("paid in "));
                assert_eq!(cells.len(), 3 + 2 * SCHEDULES);
                for s in 0..SCHEDULES {
                    let (cell, paid) = (&row.children[3 + 2 * s], &cells[4 + 2 * s]);
                    let change = change(step, s);
                    let bars = cell.named("path");
                    if change == 0 {
                        assert_eq!(
                            (cells[3 + 2 * s].as_str(), paid.as_str(), bars.len()),
                            ("", "", 0)
                        );
                        assert_eq!(step.finals[s], 0);
                        continue;
                    }
                    let text = &cells[3 + 2 * s];
                    assert!(text.starts_with(if change > 0 { '+' } else { '-' }));
                    assert_eq!((units(text, places), money(paid)), (change, step.finals[s]));
                    let [bar] = bars[..] else { panic!("one bar") };
                    let class = match (hatches[s], step.finals[s]) {
                        (Some(hatch), _) => hatch,
                        (None, 0) => "free",
                        (None, amount) if amount > 0 => "rise",
                        _ => "fall",
                    };
                    assert_eq!(bar.attribute("class"), class);
                    classes.push(class.to_string());
                    let length = points(bar.attribute("d"))[0][1].0;
                    let expected = 36.0 * change as f64 / longest as f64;
                    assert!(
                        (length - expected).abs() <= 1.0 && length.signum() == expected.signum()
                    );
                    sums[usize::from(step.finals[s] < 0)][s] += step.finals[s];
                    sums[2][s] += step.finals[s];
                }
            }
            let below = table.rows("tfoot");
            for (k, name) in ["Paid", "Charged", "Payment of the line"]
                .iter()
                .enumerate()
            {
                assert_eq!(below[k][0], *name);
                let amounts: Vec<i64> = (0..SCHEDULES)
                    .map(|s| money(&below[k][2 + 2 * s]))
                    .collect();
                assert_eq!(amounts, sums[k]);
            }
        }
    }
    assert!(partly_paid > 100, "{partly_paid}");
    for class in ["rise", "fall", "free", "hedged", "not-accredited"] {
        assert!(
            classes.iter().filter(|own| *own == class).count() > 50,
            "{class}"
        );
    }
}

/// Left end of a plot, and its width.
const LEFT: f64 = 92.0;
const PITCH: f64 = 222.0;
const PLOT: f64 = 198.0;

/// Places of prices, read off the labels of the axis.
struct PriceAxis {
    low: f64,
    high: f64,
    at_low: f64,
    at_high: f64,
}

impl PriceAxis {
    fn new(plots: &Element) -> PriceAxis {
        // The marked prices come first, from below; then labels of far prices.
        let labels = plots.named("text").into_iter();
        let labels =
            labels.filter(|label| label.attribute("x") == "84" && label.text.starts_with('$'));
        let places = labels.map(|label| (units(&label.text, 4) as f64, label.number("y") - 4.0));
        let places: Vec<(f64, f64)> = places.collect();
        let grid = points(plots.of_class("grid")[0].attribute("d"));
        let (first, last) = (places[0], places[grid.len() - 1]);
        assert!(grid.len() >= 2);
        for (line, place) in grid.iter().zip(&places) {
            assert!((line[0].1 - place.1).abs() < 0.2);
        }
        PriceAxis {
            low: first.0,
            high: last.0,
            at_low: first.1,
            at_high: last.1,
        }
    }

    /// Far prices stand beyond the ends.
    fn fits(&self, price: u32, y: f64) -> bool {
        let price = f64::from(price);
        if price > self.high {
            return y < self.at_high - 10.0;
        }
        if price < self.low {
            return y > self.at_low + 10.0;
        }
        let part = (price - self.low) / (self.high - self.low);
        (self.at_low + (self.at_high - self.at_low) * part - y).abs() < 0.3
    }
}

/// How often the price axis of a line is cut: where a bid or the cap lies above or below it, and below where it doesn't begin at 0.
fn expected_breaks(day: &[u8], line: usize, axis: &PriceAxis) -> usize {
    // Operating rows that aren't in force may be above the greatest break; ends and prices don't read them.
    let mut part = line_part(day, line as u64).to_vec();
    part[540..640].fill(0);
    let cut = reference::cut::cut(&part);
    assert_eq!(cut.number, 0);
    let bids = cut.prices.iter().flat_map(|row| &row[..cut.count as usize]);
    let cap = (5..10).any(|place| market_word(day, place) == 1);
    let prices = bids.copied().chain(cap.then_some(market_word(day, 10)));
    let prices: Vec<f64> = prices.map(f64::from).collect();
    let above = prices.iter().any(|&price| price > axis.high);
    let below = axis.low > 0.0 || prices.iter().any(|&price| price < axis.low);
    usize::from(above) + usize::from(below)
}

/// A schedule's heading in a line's table and plots, from the count of its bid.
fn expected_heading(day: &[u8], line: usize, s: usize) -> String {
    let pulled = match line_word(day, line, 5 + 23 * s) {
        0 => ", bid pulled",
        _ => "",
    };
    format!("Schedule {}{pulled}", s + 1)
}

/// Above the plot of a schedule are the excesses that aren't 0 there, operating first, each in a row of its own and none on the plots. Answers how many.
fn excess_words(plots: &Element, step: &View, places: usize) -> usize {
    let mut expected = Vec::new();
    for s in 0..SCHEDULES {
        for (name, row) in [
            ("operating excess ", step.excess.operating),
            ("pricing excess ", step.excess.pricing),
        ] {
            if row[s] > 0 {
                expected.push((s, name, i64::from(row[s])));
            }
        }
    }
    let found = plots.of_class("excess-words");
    assert_eq!(found.len(), expected.len());
    let top = points(plots.of_class("frame")[0].attribute("d"))[0][0].1;
    let mut rows = BTreeSet::new();
    for (words, &(s, name, value)) in found.iter().zip(&expected) {
        let text = words.text.strip_prefix(name).expect(name);
        let (quantity, unit) = text.split_once(' ').unwrap();
        assert_eq!(
            (units(quantity, places), unit == "GJ"),
            (value, places == 3)
        );
        assert_eq!(words.number("x"), LEFT + PITCH * s as f64);
        let y = words.number("y");
        assert!(y > 33.0 && y < top, "{y} {top}");
        rows.insert((y as u32, name));
    }
    // The rows of the two names are apart, and below the cap's.
    let below = plots.of_class("cap-words");
    let below = below.iter().map(|words| words.number("y") as u32);
    let mut heights: Vec<u32> = rows
        .into_iter()
        .map(|(y, _)| y)
        .chain(below.take(1))
        .collect();
    heights.sort_unstable();
    assert!(heights.windows(2).all(|pair| pair[0] + 12 < pair[1]));
    expected.len()
}

/// In each schedule's plot: step prices, market price, cap where it applies, hatched exactly the steps that aren't paid in it, and what is constrained on.
#[test]
fn price_plots() {
    let (mut hatched, mut filled, mut outlined, mut capped, mut broken, mut cut_down) =
        (0, 0, 0, 0, 0, 0);
    let (mut pulled, mut above) = (0, 0);
    for day in days(25) {
        let page = read(&drawn(&day, 0));
        let places = unit_places(&page);
        for (line, steps) in steps_of(&day).into_iter().enumerate() {
            let plots = page.by_id(&format!("line-{line}")).of_class("prices")[0];
            above += excess_words(plots, &steps[0], places);
            let axis = PriceAxis::new(plots);
            let end = f64::from(steps[steps.len() - 1].upper);
            let groups = plots.named("g");
            assert_eq!(groups.len(), SCHEDULES);
            for (s, plot) in groups.iter().enumerate() {
                let left = LEFT + PITCH * s as f64;
                let x = |quantity: u32| left + PLOT * f64::from(quantity) / end;
                let near = |one: f64, other: f64| (one - other).abs() < 0.2;
                let d = |class: &str| {
                    let found = plot.of_class(class);
                    assert!(found.len() <= 1, "{class}");
                    found
                        .first()
                        .map_or(Vec::new(), |one| points(one.attribute("d")))
                };
                let across = |class: &str, price: u32| {
                    let line = d(class);
                    assert!(near(line[0][0].0, left) && near(line[0][1].0, left + PLOT));
                    assert!(axis.fits(price, line[0][0].1), "{class}");
                };
                let market = market_word(&day, s);
                across("market", market);
                match market_word(&day, 5 + s) {
                    0 => assert!(
                        plot.of_class("cap").is_empty() && plot.of_class("uncapped").is_empty()
                    ),
                    _ => {
                        across("cap", market_word(&day, 10));
                        capped += 1;
                        cut_down += d("uncapped").len();
                    }
                }
                // The horizontal strokes, dashed where the flag is 1.
                let strokes = |path: &&&Element| {
                    let lines = points(path.attribute("d"));
                    let pairs = lines.into_iter().flat_map(|line| {
                        line.windows(2)
                            .map(|pair| (pair[0], pair[1]))
                            .collect::<Vec<_>>()
                    });
                    pairs
                        .filter(|(from, to)| from.1 == to.1)
                        .collect::<Vec<_>>()
                };
                let mut drawn: Vec<_> = Vec::new();
                for path in plot.of_class("price").iter() {
                    let missing = u32::from(path.attribute("class").contains("missing"));
                    drawn.extend(strokes(&path).into_iter().map(|stroke| (stroke, missing)));
                }
                drawn.sort_by(|one, other| one.0 .0 .0.total_cmp(&other.0 .0 .0));
                assert_eq!(drawn.len(), steps.len());
                let heading = expected_heading(&day, line, s);
                assert_eq!(plots.of_class("schedule")[s].text, heading);
                if heading.ends_with("pulled") {
                    assert!(drawn.iter().all(|(_, missing)| *missing == 1));
                    pulled += 1;
                }
                for (((from, to), missing), step) in drawn.into_iter().zip(&steps) {
                    assert_eq!(missing, step.flag[s]);
                    assert!(near(from.0, x(step.upper - step.width)) && near(to.0, x(step.upper)));
                    assert!(axis.fits(step.price[s], from.1));
                }
                let unpaid: Vec<_> = steps
                    .iter()
                    .filter_map(|step| Some((expected_hatch(&day, line, step, s)?, step.upper)))
                    .collect();
                let areas = plot.named("rect");
                match unpaid.last() {
                    None => assert!(areas.is_empty()),
                    Some((class, upper)) => {
                        assert_eq!((areas.len(), areas[0].attribute("class")), (1, *class));
                        assert!(near(areas[0].number("x"), left));
                        assert!(near(
                            areas[0].number("x") + areas[0].number("width"),
                            x(*upper)
                        ));
                        hatched += 1;
                    }
                }
                let (mut on, mut free) = (Vec::new(), Vec::new());
                for step in steps.iter().filter(|step| step.constrained_on[s] > 0) {
                    let beyond = match line_word(&day, line, 2) {
                        0 => step.price[s] > market,
                        _ => step.price[s] < market,
                    };
                    match beyond && expected_hatch(&day, line, step, s).is_none() {
                        true => on.push(step),
                        false => free.push(step),
                    }
                }
                for (class, expected) in [("on", &on), ("free", &free)] {
                    let areas = d(class);
                    assert_eq!(areas.len(), expected.len());
                    for (area, step) in areas.iter().zip(expected) {
                        let from = step.upper - step.width + step.msiq[s];
                        assert!(
                            near(area[0].0, x(from))
                                && near(area[1].0, x(from + step.constrained_on[s]))
                        );
                        assert!(
                            axis.fits(step.price[s], area[0].1) && axis.fits(market, area[2].1)
                        );
                    }
                }
                filled += on.len();
                outlined += free.len();
                let breaks = plot.of_class("break").len();
                assert_eq!(breaks, expected_breaks(&day, line, &axis));
                broken += breaks;
            }
        }
    }
    let counts = [hatched, filled, outlined, capped, cut_down, pulled, above];
    assert!(counts.iter().all(|&count| count > 100), "{counts:?}");
    assert!(broken >= 2 * SCHEDULES, "{broken}");
}

/// K10's rise in schedule 2 and fall in schedule 4, and what is said of the line, by accreditation.
#[test]
fn accreditation() {
    let cases = [
        (
            0,
            "Not accredited, so no step is paid.",
            "not accredited",
            ["not-accredited"; 2],
        ),
        (1, "Accredited.", "paid", ["rise", "fall"]),
        (
            32,
            "Accredited in no schedule, so no step is paid.",
            "not accredited",
            ["not-accredited"; 2],
        ),
        (
            34,
            "Accredited in schedule 2, so steps are paid only there.",
            "paid in 2",
            ["rise", "not-accredited"],
        ),
        (
            61,
            "Accredited in schedules 1 and 3 to 5, so steps are paid only there.",
            "paid in 1 and 3 to 5",
            ["not-accredited", "fall"],
        ),
        (
            63,
            "Accredited in schedules 1 to 5.",
            "paid",
            ["rise", "fall"],
        ),
    ];
    for (word, words, status, classes) in cases {
        let page = read(&drawn(&k10_accredited(word), 0));
        let line = page.by_id("line-0");
        assert_eq!(
            line.named("p")[0].text,
            format!("{words} No hedge. 2 steps.")
        );
        let body = line.of_class("changes")[0].named("tbody")[0];
        let bars: Vec<&str> = body
            .named("path")
            .iter()
            .map(|bar| bar.attribute("class"))
            .collect();
        assert_eq!(bars, classes, "{word}");
        assert_eq!(body.children[1].children[2].text, status);
        // Behind each plot, the whole of it where the line isn't accredited.
        for (s, plot) in line.named("g").iter().enumerate() {
            let areas: Vec<&str> = plot
                .named("rect")
                .iter()
                .map(|one| one.attribute("class"))
                .collect();
            match accredited_schedules(word).contains(&(s + 1)) {
                true => assert!(areas.is_empty(), "{word}"),
                false => assert_eq!(areas, ["not-accredited"], "{word}"),
            }
        }
    }
}

/// A pulled bid is told in the line's sentence, above its table's columns and above its plot, where its one price is dashed.
#[test]
fn pulled_bids() {
    for set in sets_of_reschedules() {
        let day = k10_pulled(&set);
        let page = read(&drawn(&day, 0));
        let line = page.by_id("line-0");
        let told = match &set[..] {
            [] => String::new(),
            [one] => format!(" The bid of schedule {one} was pulled."),
            [2, 3] => " The bids of schedules 2 and 3 were pulled.".to_string(),
            [2, 3, 4, 5] => " The bids of schedules 2 to 5 were pulled.".to_string(),
            _ => " The bids of schedules ".to_string(),
        };
        let said = &line.named("p")[0].text;
        let start = format!("Accredited. No hedge. 2 steps.{told}");
        assert!(said.starts_with(&start), "{said}");
        let words = line.named("desc")[0].whole_text();
        assert_eq!(words.contains("pulled"), !set.is_empty(), "{words}");
        assert!(words.contains(told.trim_end()), "{words}");
        let legend = page.of_class("legend")[1].whole_text();
        let sign = match set.is_empty() {
            true => "price past the bid's last step (flag 1)",
            false => "price past the bid's last step, or with the bid pulled (flag 1)",
        };
        assert!(legend.contains(sign), "{legend}");
        let table = line.of_class("changes")[0].of_class("schedule");
        let plots = line.of_class("prices")[0].of_class("schedule");
        for s in 0..SCHEDULES {
            let heading = expected_heading(&day, 0, s);
            assert_eq!((&table[s].text, &plots[s].text), (&heading, &heading));
            let plot = line.named("g")[s];
            let drawn: Vec<&str> = plot
                .of_class("price")
                .iter()
                .map(|path| path.attribute("class"))
                .collect();
            let due = match set.contains(&(s + 1)) {
                true => "price missing",
                false => "price",
            };
            assert_eq!(drawn, [due], "{set:?}");
        }
    }
}

/// What no step takes is told in the line's sentence, of its plots too, and above the plots of its schedules; bars and sums are those of the steps.
#[test]
fn excess() {
    let takes = "no step takes this excess, and it is neither constrained on nor paid.";
    for (day, words, plots) in [
        (
            k10_operating_excess(),
            format!("The operating total (by 500 MJ in schedule 2) is above the greatest break of the line's bids, 3,000 MJ: {takes}"),
            &["operating excess 500 MJ"][..],
        ),
        (
            k10_each_excess(),
            format!("The operating total (by 900 MJ in schedule 5), the pricing total (by 1 MJ in schedule 2 and 1,000 MJ in schedule 3) and the effective \
                     actual (by 700 MJ) are above the greatest break of the line's bids, 3,000 MJ: {takes}"),
            &["pricing excess 1 MJ", "pricing excess 1,000 MJ", "operating excess 900 MJ"],
        ),
    ] {
        let page = read(&drawn(&day, 0));
        let line = page.by_id("line-0");
        assert_eq!(line.named("p")[0].text, format!("Accredited. No hedge. 2 steps. {words}"));
        let told = line.named("desc")[0].whole_text();
        assert!(told.ends_with(&words), "{told}");
        let found = line.of_class("excess-words");
        let found: Vec<&str> = found.iter().map(|one| one.text.as_str()).collect();
        assert_eq!(found, plots);
    }
    let page = read(&drawn(&k10_operating_excess(), 0));
    let rows = page.by_id("line-0").of_class("changes")[0].rows("tbody");
    assert_eq!(
        rows[1][5..11],
        ["+2,000", "$4.00", "-1,000", "-$2.00", "-500", "-$1.00"]
    );
    let text = drawn(&example("k10"), 0);
    assert!(!text.contains(" excess "), "K10 has none");
}

/// Well-formed, with nothing from outside and no script; ids are there once, and what refers to them finds them.
#[test]
fn markup() {
    for day in days(15) {
        let last = lines_of(&day) - 1;
        let text = drawn(&day, last);
        for outside in [
            "http:",
            "https:",
            "//",
            "<script",
            "@import",
            "src=",
            "href=",
            "javascript",
        ] {
            assert!(!text.contains(outside), "{outside}");
        }
        let page = read(&text);
        let ids: Vec<&str> = page
            .all()
            .iter()
            .map(|one| one.attribute("id"))
            .filter(|id| !id.is_empty())
            .collect();
        let once: BTreeSet<&str> = ids.iter().copied().collect();
        assert_eq!(ids.len(), once.len());
        for one in page.all() {
            let named = one
                .attribute("aria-labelledby")
                .split(' ')
                .filter(|id| !id.is_empty());
            named.for_each(|id| assert!(once.contains(id), "{id}"));
        }
        for region in page.all() {
            let named = ["aria-label", "aria-labelledby"].map(|name| region.attribute(name));
            assert!(region.attribute("role") != "region" || named != ["", ""]);
        }
        let sheet = &page.named("style")[0].text;
        for part in sheet.split("url(#").skip(1) {
            assert!(once.contains(part.split_once(')').unwrap().0), "{part}");
        }
        assert!(page
            .named("th")
            .iter()
            .all(|one| ["col", "row", "colgroup"].contains(&one.attribute("scope"))));
        assert!(page
            .named("table")
            .iter()
            .all(|table| table.children[0].name == "caption"));
        for plots in page.of_class("prices") {
            let names: Vec<&str> = plots
                .children
                .iter()
                .take(2)
                .map(|one| one.name.as_str())
                .collect();
            assert_eq!(
                (plots.attribute("role"), &names[..]),
                ("img", &["title", "desc"][..])
            );
        }
        // One line is chosen, the one that was asked for.
        let chosen: Vec<&str> = page
            .named("input")
            .into_iter()
            .filter(|one| !one.attribute("checked").is_empty())
            .map(|one| one.attribute("id"))
            .collect();
        assert_eq!(chosen, [format!("show-{last}")]);
        for line in 0..=last {
            assert!(sheet.contains(&format!(
                "body:has(#show-{line}:checked) #line-{line} {{ display: block }}"
            )));
        }
    }
}

/// One unit for the whole page, said in the axes' names.
#[test]
fn one_unit() {
    for (name, unit, other) in [("winter", "GJ", "MJ"), ("both-sides", "MJ", "GJ")] {
        let page = read(&drawn(&example(name), 0));
        let names: Vec<String> = page
            .of_class("name")
            .iter()
            .map(|one| one.whole_text())
            .collect();
        assert_eq!(
            names
                .iter()
                .filter(|own| **own == format!("quantity along the steps, {unit}"))
                .count(),
            names.len() / 2
        );
        let headings: Vec<String> = page
            .named("th")
            .iter()
            .map(|one| one.whole_text())
            .collect();
        assert!(
            headings.contains(&format!("Quantity, {unit}"))
                && headings.contains(&format!("change, {unit}"))
        );
        assert!(!headings.iter().any(|text| text.ends_with(other)));
    }
}

/// The winter day with a bid of $800: the axis is cut near the market price, and the price stands beyond the mark.
#[test]
fn far_price() {
    let page = read(&drawn(&far_above(), 3));
    let breaks = |line: &str| page.by_id(line).of_class("break").len();
    assert_eq!((breaks("line-3"), breaks("line-4")), (SCHEDULES, 0));
    let plots = page.by_id("line-3").of_class("prices")[0];
    let labels: Vec<String> = plots
        .named("text")
        .iter()
        .map(|one| one.whole_text())
        .collect();
    for label in ["$0.00", "$40.00", "$800.00"] {
        assert!(labels.contains(&label.to_string()), "{label}");
    }
    assert!(!labels.contains(&"$100.00".to_string()));
    assert!(plots.whole_text().contains("The price axis is cut"));
    let plain = read(&drawn(&example("winter"), 3));
    assert!(plain.by_id("line-3").of_class("break").is_empty());
    let below = read(&drawn(&far_below(), 0));
    let plots = below.by_id("line-0").of_class("prices")[0];
    let labels: Vec<String> = plots
        .named("text")
        .iter()
        .map(|one| one.whole_text())
        .collect();
    for label in ["$800.00", "$810.00", "$5.00", "to $8.00"] {
        assert!(labels.contains(&label.to_string()), "{label}");
    }
    assert!(!labels.contains(&"$400.00".to_string()));
}

/// A page that isn't what was settled is not drawn.
#[test]
fn only_what_was_settled() {
    let day = example("winter");
    type Change = fn(&mut Figures);
    let changes: [(&str, Change); 12] = [
        ("line 1, steps in schedule 2: $50,400.0000001 in sum, and the book has $50,400.0000000", |day| {
            let step = day.lines[1].steps.iter_mut().find(|step| step.finals[1] > 0);
            step.unwrap().finals[1] += 1;
        }),
        ("lines in schedule 4: $107,820.0000001 in sum, and the book has $107,820.0000000", |day| day.lines[3].entry.payments[3] += 1),
        ("schedule 1: the uplift is 1 units, which isn't its share of its group's adjusted totals", |day| day.uplift[0] += 1),
        ("line 3, step 0, schedule 4: $0.0000001 for a change of 1500000 MJ on a step that is not paid", |day| day.lines[3].steps[0].finals[3] += 1),
        ("line 6, step 1, schedule 3: $0.0000001 for a change of 0 MJ on a step that is paid", |day| day.lines[6].steps[1].finals[2] += 1),
        ("line 1, step 2, schedule 2: $50,400.0000000 for a change of 14000000 MJ on a step that is not paid", |day| {
            day.lines[1].accreditation = Accreditation::In([true, false, true, true, true]);
        }),
        ("line 2, excess: not the same in the views of all steps", |day| day.lines[2].steps[1].excess.actual += 1),
        ("line 4, operating quantities in schedule 5: 2500001 MJ with the excess, and the line has 2500000 MJ", |day| {
            day.lines[4].steps[0].excess.operating[4] += 1;
        }),
        ("line 4, pricing quantities in schedule 2: 1 MJ with the excess, and the line has 0 MJ", |day| day.lines[4].steps[0].pricing[1] += 1),
        ("line 4, effective actuals: 2500001 MJ with the excess, and the line has 2500000 MJ", |day| day.lines[4].steps[0].actual += 1),
        ("line 0, ends: the views' aren't the cutter's", |day| day.lines[0].steps[0].end += 1),
        ("line 4, step 0, schedule 1: the view's price is $34.0001, the cutter's $34.0000", |day| day.lines[4].steps[0].price[0] += 1),
    ];
    for (why, change) in changes {
        let mut figures = Figures::new(&day).unwrap();
        change(&mut figures);
        let problem = page("w.day", &figures, 0).unwrap_err();
        assert_eq!(problem.status, Status::Failed);
        assert_eq!(
            problem.message,
            format!("w.day: the page wouldn't be what was settled, so none is drawn: {why}")
        );
    }
}

#[test]
fn chosen_line() {
    let chosen = run(&["draw", "--line", "4"], &example("both-sides")).text();
    let page = read(&chosen);
    assert_eq!(page.named("h1")[0].text, "Gas day standard input");
    assert_eq!(page.by_id("show-4").attribute("checked"), "checked");
    let message = run(&["draw", "--line", "6"], &example("both-sides")).failure();
    assert_eq!(
        message,
        "refused 16: the day has no line 6: it has 6 lines, counted from 0\n"
    );
    let refused = run(&["draw"], &example("refused")).failure();
    assert!(refused.starts_with("refused 9: "), "{refused}");
    let path = concat!(env!("CARGO_MANIFEST_DIR"), "/../examples/k10.day");
    let page = read(&run_with(&["draw", path], &[]).text());
    assert_eq!(page.named("title")[0].text, "Gas day k10.day");
}

/// A file's name is escaped.
#[test]
fn any_name() {
    let day = example("k10");
    let page = read(&page("<b>&amp;\".day", &Figures::new(&day).unwrap(), 0).unwrap());
    assert_eq!(page.named("h1")[0].text, "Gas day <b>&amp;\".day");
}

/// 64 lines of 56 or 55 steps that all rise or fall in every schedule, with long numbers.
pub fn largest_day() -> Vec<u8> {
    let mut text =
        "[market]\nprice = 1 1 1 1 1\ncapped = no no no no no\napc = 0\nclawback = yes\n"
            .to_string();
    for k in 0..64 {
        text += &format!(
            "[line]\nparticipant = {}\npoint = 4294967295\nside = INJ\naccredited = yes\n",
            u32::MAX - k
        );
        text += &format!("hedge = {}\n", if k % 2 == 0 { 100_000_007 } else { 0 });
        for s in 0..5 {
            // Each bid has ends of its own; together they go up to 199,999,999.
            let slot = |j: u32| {
                format!(
                    " {}@{}",
                    199_999_999 - 3_636_361 * (5 * (10 - j) + s),
                    9_000_007 + 90_001 * j
                )
            };
            text += &format!("bid {} ={}\n", s + 1, (0..11).map(slot).collect::<String>());
        }
        for s in 0..5 {
            let total = if s % 2 == 0 { 199_999_999 } else { 0 };
            text += &format!(
                "pricing {} ={}\noperating {} = {total} 0 0 0 0\n",
                s + 1,
                " 0".repeat(5 - s),
                s + 1
            );
        }
        text += "actual = 199999999 0 0 0 0\n";
    }
    make(text.as_bytes()).unwrap()
}

#[test]
fn size() {
    let day = largest_day();
    let text = drawn(&day, 63);
    let page = read(&text);
    let bars = page
        .of_class("changes")
        .into_iter()
        .map(|table| table.named("tbody")[0].named("path").len());
    assert_eq!(bars.sum::<usize>(), 32 * (56 + 55) * SCHEDULES);
    assert_eq!(shown(&page), settled(&day));
    assert!(text.len() < 3_000_000, "{}", text.len());
}
