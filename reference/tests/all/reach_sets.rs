//! That the generated days and lines with accreditation by schedule (02 F-7) reach what the others don't.

use crate::kept::entries;
use crate::reach::{accepted, unhedged, Kind, Met};
use crate::set_days;
use reference::layout::*;
use reference::matching::pair;
use reference::refusal::cut_number;
use reference::view::{DayView, View};
use std::collections::BTreeSet;

const MIXED: &str = "0, 1 and sets in one day";
const NEGATIVE: &str = "payments add up to less than 0";
/// Those by side are of an injection, then of a withdrawal.
const CHARGED: [&str; 2] = [
    "INJ: a charge for rises that weren't paid",
    "WDR: a charge for rises that weren't paid",
];
const NOT_CHARGED: [&str; 2] = [
    "INJ: no charge for a paid rise",
    "WDR: no charge for a paid rise",
];
const SHARE: [&str; 2] = [
    "INJ: a share of T on a step paid in some schedules",
    "WDR: a share of T on a step paid in some schedules",
];
const OWN_BASE: [&str; 2] = [
    "INJ: B of paid steps alone decides",
    "WDR: B of paid steps alone decides",
];

/// A line's set is neither empty nor full.
pub fn has_some(line: Line) -> bool {
    (EMPTY_SET + 1..FULL_SET).contains(&line.word(ACCREDITATION))
}

/// One side's unhedged steps, each with its line.
type SideSteps<'a> = [(Line<'a>, View)];

fn change(v: &View, s: usize) -> i128 {
    i128::from(v.constrained_on[s]) - i128::from(v.constrained_on[s - 1])
}

/// The greater of rises and falls in schedule s, over the steps of some lines.
fn base(steps: &SideSteps, s: usize, of: fn(Line, usize) -> bool) -> i128 {
    let changes = || steps.iter().filter(|(line, _)| of(*line, s));
    let rises: i128 = changes().map(|(_, v)| change(v, s).max(0)).sum();
    let falls: i128 = changes().map(|(_, v)| (-change(v, s)).max(0)).sum();
    rises.max(falls)
}

/// Where T times D / B decides a final payment.
fn note_shares(met: &mut Met, steps: &SideSteps, s: usize) {
    let total: i128 = steps.iter().map(|(_, v)| i128::from(v.revised[s])).sum();
    let paid = base(steps, s, |line, s| line.accredited(s));
    let all = base(steps, s, |_, _| true);
    for (line, v) in steps {
        let kinds = [v.initial, v.revised, v.finals];
        let [initial, revised, found] = kinds.map(|kind| i128::from(kind[s]));
        if v.flag[s] == 1 || initial >= 0 || total <= 0 || found == revised {
            continue;
        }
        let with_base = |base| initial.max(revised - total * -change(v, s) / base);
        assert_eq!(found, with_base(paid));
        let side = line.side() as usize;
        met.note(SHARE[side], has_some(*line) && found > initial);
        met.note(OWN_BASE[side], found != with_base(all));
    }
}

/// Falls charged though the line isn't accredited in the schedules of the matched rises, and the other way round.
fn note_matches(met: &mut Met, line: Line, market: &Market, v: &View) {
    let side = line.side() as usize;
    for s in 1..SCHEDULES {
        let mut matched = (0..s).filter(|&r| v.matches[pair(r, s)] > 0);
        let unpaid = matched.clone().all(|r| !line.accredited(r));
        met.note(CHARGED[side], unpaid && v.finals[s] < 0);
        let paid = matched.any(|r| v.finals[r] > 0);
        let has_rate = line.side().rate(v.price[s], market.prices[s]) > 0;
        met.note(NOT_CHARGED[side], paid && has_rate && !line.accredited(s));
    }
}

fn note_day(met: &mut Met, day: &[u8]) {
    let views = DayView::new(day);
    let has = |word| views.day.lines().any(|l| l.word(ACCREDITATION) == word);
    met.note(MIXED, has(0) && has(1) && views.day.lines().any(has_some));
    let mut sum = 0;
    for side in [Side::Injection, Side::Withdrawal] {
        let lines = views.day.lines().filter(|line| line.side() == side);
        let steps = |line| unhedged(&views, line).into_iter().map(move |v| (line, v));
        let steps: Vec<(Line, View)> = lines.flat_map(steps).collect();
        for (line, v) in &steps {
            note_matches(met, *line, &views.day.market, v);
            sum += v.finals.iter().sum::<i64>();
        }
        if views.day.market.clawback {
            (1..SCHEDULES).for_each(|s| note_shares(met, &steps, s));
        }
    }
    met.note(NEGATIVE, sum < 0);
}

fn check_days(days: &[Vec<u8>]) {
    let mut met = Met::default();
    days.iter().for_each(|day| note_day(&mut met, day));
    let by_side = [CHARGED, NOT_CHARGED, SHARE, OWN_BASE];
    let wanted = [&[MIXED, NEGATIVE], by_side.as_flattened()].concat();
    assert_eq!(met.missing(&wanted), [""; 0]);
    let lines = days
        .iter()
        .flat_map(|day| day[day_length(0)..].chunks(LINE_BYTES));
    check_sizes(lines);
}

/// Sets of every size, the empty and the full one among them, on both sides.
fn check_sizes<'a>(lines: impl Iterator<Item = &'a [u8]>) {
    let sets = lines.filter(|line| word(line, ACCREDITATION) >= EMPTY_SET);
    let size = |line: &[u8]| (word(line, ACCREDITATION) - EMPTY_SET).count_ones();
    let met: BTreeSet<(u32, u32)> = sets.map(|line| (word(line, SIDE), size(line))).collect();
    let all = (0..2).flat_map(|side| (0..=5).map(move |size| (side, size)));
    assert!(met.into_iter().eq(all));
}

#[test]
fn set_days_reach() {
    check_days(&set_days().collect::<Vec<_>>());
}

/// The days with sets that the programs `check_settle` and `check_steps` are run on.
#[test]
fn kept_days_reach() {
    for program in ["check_settle", "check_steps"] {
        let days = accepted(program, Kind::Sets);
        assert!(days.len() >= 60, "{program}");
        check_days(&days);
    }
}

/// The lines that `check_cut` is run on, and the accreditations that are refused there.
#[test]
fn kept_lines_reach() {
    let lines = entries("check_cut");
    let (accepted, refused): (Vec<_>, Vec<_>) =
        lines.iter().partition(|line| cut_number(line) == 0);
    check_sizes(accepted.into_iter().map(Vec::as_slice));
    let refused = refused.iter().filter(|line| cut_number(line) == 6);
    let words: BTreeSet<u32> = refused.map(|line| word(line, ACCREDITATION)).collect();
    assert!(words.is_superset(&[2, 3, 16, 31, 64, 0x8000_0021, u32::MAX].into()));
}
