//! An explanation as a text: lines, schedules and steps, and what nothing is paid for.

use super::reason::{Reason, Rule};
use super::sentences::{
    accredited_here, change_words, money, payment_words, price_words, quantity_words, side_words,
};
use super::{totals, uplift, Explained, Wanted};
use crate::accreditation;
use crate::ad_hoc;
use crate::amounts::{gj, price};
use crate::excess;
use crate::figures::{Figures, Line};
use crate::layout::SCHEDULES;
use crate::lists::{joined, number_words, pulled_sentence};
use crate::uplift::Uplift;
use crate::values::counted;

const WIDTH: usize = 100;

/// A text of paragraphs, each so far from the left.
#[derive(Default)]
struct Text {
    text: String,
}

impl Text {
    fn put(&mut self, indent: usize, paragraph: &str) {
        let mut column = 0;
        for word in paragraph.split(' ') {
            let length = word.chars().count();
            if column == 0 {
                self.text.push_str(&" ".repeat(indent));
                column = indent;
            } else if column + 1 + length > WIDTH {
                self.text.push('\n');
                self.text.push_str(&" ".repeat(indent));
                column = indent;
            } else {
                self.text.push(' ');
                column += 1;
            }
            self.text.push_str(word);
            column += length;
        }
        self.text.push('\n');
    }

    fn gap(&mut self) {
        self.text.push('\n');
    }
}

pub fn text(name: &str, explained: &Explained, wanted: &Wanted) -> String {
    let day = explained.day;
    let mut text = Text::default();
    text.put(
        0,
        &format!(
            "{name}: a gas day of {}. {}",
            counted(day.lines.len(), "line"),
            market(day)
        ),
    );
    text.put(
        0,
        "Quantities are in GJ (1 GJ is 1,000 MJ) and prices in dollars per GJ. Lines and steps are counted from 0, schedules from 1.",
    );
    for (k, line) in day.lines.iter().enumerate() {
        let of_line = || {
            explained
                .reasons
                .iter()
                .filter(|reason| reason.line == k && wanted.has(reason))
        };
        // Without a line named, lines that nothing is paid for are left to one sentence, and one for their ad hoc rows and excess.
        let shown =
            wanted.line == Some(k) || (wanted.line.is_none() && of_line().any(Reason::is_payment));
        if shown {
            text.gap();
            put_line(&mut text, k, line, &of_line().collect::<Vec<_>>(), wanted);
        }
    }
    if wanted.line.is_none() {
        put_rest(&mut text, explained, wanted);
    }
    text.text
}

/// Clawback and cap.
fn market(day: &Figures) -> String {
    let clawback = if day.market.clawback { "on" } else { "off" };
    let capped: Vec<usize> = (0..SCHEDULES)
        .filter(|&s| day.market.marks[s])
        .map(|s| s + 1)
        .collect();
    let cap = match capped.len() {
        0 => "No schedule is capped.".to_string(),
        1 => format!(
            "Schedule {} is capped at {}.",
            capped[0],
            price(day.market.cap)
        ),
        _ => format!(
            "Schedules {} are capped at {}.",
            joined(&capped.iter().map(usize::to_string).collect::<Vec<_>>()),
            price(day.market.cap)
        ),
    };
    format!("Clawback is {clawback}. {cap}")
}

/// Steps in words, those in a row as `3 to 7`.
fn steps(numbers: &[usize]) -> String {
    let name = if numbers.len() == 1 { "Step" } else { "Steps" };
    format!("{name} {}", number_words(numbers))
}

fn put_line(text: &mut Text, k: usize, line: &Line, reasons: &[&Reason], wanted: &Wanted) {
    let entry = &line.entry;
    let accredited = accreditation::words(line.accreditation);
    let hedge = match line.hedge {
        0 => "no hedge".to_string(),
        hedge => format!("hedge {}", gj(hedge)),
    };
    let (participant, point, side) = (entry.participant, entry.point, side_words(entry.side));
    let size = counted(line.steps.len(), "step");
    let pulled = pulled_sentence(&line.pulled());
    let rows = ad_hoc::sentences(&line.ad_hoc, gj);
    let excess = excess::sentence(line, gj);
    text.put(0, &format!("Line {k}: participant {participant}, point {point}, {side}, {accredited}, {hedge}, {size}.{pulled}{rows}{excess}"));
    if wanted.schedule.is_none() && wanted.step.is_none() {
        let payments: Vec<String> = entry.payments.iter().map(|&one| money(one)).collect();
        let (sum, all) = (sum_of(&payments), entry.payments.iter().sum());
        let paid = is_paid(all);
        text.put(
            0,
            &format!("Over the five schedules it {paid}: {sum} = {}.", money(all)),
        );
    }
    for s in (0..SCHEDULES).filter(|&s| wanted.schedule.is_none_or(|wanted| wanted == s)) {
        let of_schedule: Vec<&Reason> = reasons
            .iter()
            .copied()
            .filter(|reason| reason.s == s)
            .collect();
        text.gap();
        put_schedule(text, s, entry.payments[s], &of_schedule, wanted);
    }
}

/// `$1.00 + $2.00 - $0.50`.
fn sum_of(amounts: &[String]) -> String {
    let mut text = String::new();
    for amount in amounts {
        match (text.is_empty(), amount.strip_prefix('-')) {
            (true, _) => text.push_str(amount),
            (false, Some(amount)) => text.push_str(&format!(" - {amount}")),
            (false, None) => text.push_str(&format!(" + {amount}")),
        }
    }
    text
}

fn is_paid(amount: i64) -> String {
    match amount {
        0 => "is paid nothing".to_string(),
        1.. => format!("is paid {}", money(amount)),
        _ => format!("is charged {}", money(-amount)),
    }
}

fn put_schedule(text: &mut Text, s: usize, payment: i64, reasons: &[&Reason], wanted: &Wanted) {
    text.put(
        2,
        &format!("Schedule {}: the line {}.", s + 1, is_paid(payment)),
    );
    let told = |reason: &Reason| reason.is_payment() || wanted.step.is_some();
    for reason in reasons.iter().filter(|reason| told(reason)) {
        text.gap();
        put_reason(text, reason);
    }
    let amounts: Vec<&&Reason> = reasons.iter().filter(|reason| told(reason)).collect();
    put_unpaid(
        text,
        &reasons
            .iter()
            .copied()
            .filter(|reason| !told(reason))
            .collect::<Vec<_>>(),
        !amounts.is_empty(),
    );
    if wanted.step.is_none() && amounts.len() > 1 {
        let amounts: Vec<String> = amounts.iter().map(|reason| money(reason.paid)).collect();
        text.gap();
        text.put(
            4,
            &format!(
                "In all: {} = {}, as the book has it.",
                sum_of(&amounts),
                money(payment)
            ),
        );
    }
}

/// The steps that nothing is paid for, by why.
fn put_unpaid(text: &mut Text, reasons: &[&Reason], gap: bool) {
    let mut groups: Vec<(String, Vec<usize>)> = Vec::new();
    for reason in reasons {
        let why = why_unpaid(reason);
        match groups.iter_mut().find(|(other, _)| *other == why) {
            Some((_, steps)) => steps.push(reason.step),
            None => groups.push((why, vec![reason.step])),
        }
    }
    if gap && !groups.is_empty() {
        text.gap();
    }
    for (why, numbers) in groups {
        text.put(4, &format!("{}: {why}.", steps(&numbers)));
    }
}

fn why_unpaid(reason: &Reason) -> String {
    let why = match reason.rule {
        Rule::NotAccredited => {
            let accredited = accredited_here(reason);
            return format!("the line isn't {accredited}, so no step of it is paid");
        }
        Rule::Hedged => "hedged, so not paid",
        _ if reason.rise == 0 && reason.fall == 0 => {
            "the quantity constrained on doesn't change, so there is nothing to pay"
        }
        _ => "the quantity constrained on changes, but the rate is $0",
    };
    why.to_string()
}

fn put_reason(text: &mut Text, reason: &Reason) {
    let (from, to) = (gj(reason.lower_end()), gj(reason.view.end));
    let (step, s) = (reason.step, reason.s + 1);
    text.put(
        4,
        &format!(
            "Step {step}, from {from} to {to}, {} in schedule {s}.",
            is_paid(reason.paid)
        ),
    );
    for sentence in [
        price_words(reason),
        quantity_words(reason),
        change_words(reason),
    ] {
        text.put(6, &sentence);
    }
    for sentence in payment_words(reason) {
        text.put(6, &sentence);
    }
}

/// The lines that weren't explained, and the day's totals and uplift.
fn put_rest(text: &mut Text, explained: &Explained, wanted: &Wanted) {
    let day = explained.day;
    let paid = |k: usize| {
        explained
            .reasons
            .iter()
            .any(|reason| reason.line == k && wanted.has(reason) && reason.is_payment())
    };
    let unpaid: Vec<usize> = (0..day.lines.len()).filter(|&k| !paid(k)).collect();
    if !unpaid.is_empty() {
        text.gap();
        text.put(
            0,
            &format!(
                "{}: nothing is paid (--line says why).",
                steps(&unpaid).replacen("Step", "Line", 1)
            ),
        );
        for k in unpaid {
            let line = &day.lines[k];
            for row in ad_hoc::statements(&line.ad_hoc, gj) {
                text.put(0, &format!("In line {k}, {row}"));
            }
            if let Some(excess) = excess::statement(line, gj) {
                text.put(0, &format!("In line {k} {excess}"));
            }
        }
    }
    if wanted.schedule.is_none() {
        put_totals(text, day);
        put_uplift(text, &explained.uplift);
    }
}

fn put_totals(text: &mut Text, day: &Figures) {
    text.gap();
    text.put(
        0,
        "Totals of all lines, and as adjusted so that no schedule is left short:",
    );
    for sentence in totals::sentences(day) {
        text.put(2, &sentence);
    }
}

fn put_uplift(text: &mut Text, uplift: &Uplift) {
    text.gap();
    text.put(
        0,
        "Uplift of each schedule, its share of the adjusted totals of its group, a longest run of neighbouring schedules whose totals are all above \
         $0 or all below $0:",
    );
    for (indent, sentence) in uplift::sentences(uplift) {
        text.put(2 + indent, &sentence);
    }
}
