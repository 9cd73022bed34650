//! A second computation, slow and close to the sentences of documents 01 and 02, and its comparison with the first.

use crate::{book_of, excess_days, law_days};
use reference::view::{DayView, Excess, View};
use std::collections::BTreeSet;

pub type Five = [i128; 5];

pub fn five(f: impl Fn(usize) -> i128) -> Five {
    std::array::from_fn(f)
}

/// A day's words in the old layout: 16 of header and market table, then 165 of each line. Ad hoc rows are written over
/// the lines' own, in the order of their order numbers.
fn words(day: &[u8]) -> Vec<i128> {
    let word = |four: &[u8]| u32::from_le_bytes(four.try_into().unwrap()).into();
    let words: Vec<i128> = day.chunks(4).map(word).collect();
    if words[1] == 16 {
        return words;
    }
    let (before, records) = words.split_at(words[5] as usize / 4);
    let mut old = [&before[..4], &before[6..]].concat();
    let mut records: Vec<&[i128]> = records.chunks(8).collect();
    records.sort_by_key(|record| record[2]);
    for record in records {
        let row = 16 + 165 * record[0] as usize + 135 + 5 * (record[1] as usize - 1);
        old[row..row + 5].copy_from_slice(&record[3..]);
    }
    old
}

fn breaks(line: &[i128]) -> BTreeSet<i128> {
    let used = |bid: &[i128]| bid[1..=bid[0] as usize].to_vec();
    line[5..120].chunks(23).flat_map(used).collect()
}

/// M.
fn greatest_break(line: &[i128]) -> i128 {
    *breaks(line).last().unwrap()
}

fn ends(line: &[i128]) -> BTreeSet<i128> {
    let mut ends = breaks(line);
    if line[4] != 0 {
        ends.insert(line[4]);
    }
    ends
}

/// Uncapped price and flag in schedule s.
fn price(line: &[i128], s: usize, upper: i128) -> (i128, bool) {
    let bids: Vec<&[i128]> = line[5..120].chunks(23).collect();
    let count = |bid: usize| bids[bid][0] as usize;
    match (0..count(s)).find(|k| bids[s][1 + k] >= upper) {
        Some(k) => (bids[s][12 + k], false),
        None => {
            let nearest = (0..=s).filter(|&bid| count(bid) > 0).max().unwrap();
            (bids[nearest][12 + count(nearest) - 1], true)
        }
    }
}

fn pricing_total(line: &[i128], s: usize) -> i128 {
    let row_start = |row: usize| (0..row).map(|before| 5 - before).sum::<usize>();
    let entry = |row: usize, i: usize| line[120 + row_start(row) + i - row];
    (0..5).map(|i| entry(s.min(i), i)).sum()
}

fn matches(c: Five) -> [Five; 5] {
    let before = |s: usize| if s == 0 { 0 } else { c[s - 1] };
    let rise = |s| 0.max(c[s] - before(s));
    let fall = |s| 0.max(before(s) - c[s]);
    let mut m = [[0; 5]; 5];
    for s in 1..5 {
        for r in (0..s).rev() {
            let made: i128 = (r + 1..s).map(|later| m[later][s]).sum();
            let taken: i128 = (r + 1..s).map(|earlier| m[r][earlier]).sum();
            m[r][s] = (fall(s) - made).min(rise(r) - taken);
        }
    }
    m
}

/// The totals of a line: of the operating and pricing quantities of each schedule, and the effective actual.
struct Totals {
    operating: Five,
    pricing: Five,
    actual: i128,
}

impl Totals {
    fn of(line: &[i128]) -> Totals {
        Totals {
            operating: five(|s| line[135 + 5 * s..140 + 5 * s].iter().sum()),
            pricing: five(|s| pricing_total(line, s)),
            actual: (0..5).map(|i| line[155 + i].min(line[160 + i])).sum(),
        }
    }

    /// What `to` makes of each.
    fn each(&self, to: impl Fn(i128) -> i128) -> Totals {
        Totals {
            operating: self.operating.map(&to),
            pricing: self.pricing.map(&to),
            actual: to(self.actual),
        }
    }
}

struct Terms<'a> {
    market: &'a [i128],
    line: &'a [i128],
    totals: Totals,
}

impl Terms<'_> {
    fn withdrawal(&self) -> bool {
        self.line[2] == 1
    }

    /// Price less market price, reversed for withdrawals.
    fn rate(&self, price: i128, s: usize) -> i128 {
        let above = price - self.market[s];
        0.max(if self.withdrawal() { -above } else { above })
    }

    fn prices(&self, upper: i128) -> [(i128, bool); 5] {
        std::array::from_fn(|s| {
            let (price, flag) = price(self.line, s, upper);
            let capped = self.market[5 + s] == 1;
            (
                if capped {
                    price.min(self.market[10])
                } else {
                    price
                },
                flag,
            )
        })
    }

    fn msiq(&self, prices: &Five, pricing: &Five, s: usize) -> i128 {
        if s == 4 || self.rate(prices[s], s) > 0 {
            pricing[s]
        } else {
            pricing[s].min(self.msiq(prices, pricing, s + 1))
        }
    }

    /// Initial, revised and modified payments of a step that is paid in all schedules.
    fn payments(&self, p: &Five, c: &Five, m: &[Five; 5]) -> [Five; 3] {
        let rate = five(|s| self.rate(p[s], s));
        let initial = five(|s| (c[s] - if s == 0 { 0 } else { c[s - 1] }) * rate[s]);
        let or = |s: usize, sum: i128| if initial[s] >= 0 { initial[s] } else { -sum };
        let milder = |r: usize, s: usize| {
            if self.withdrawal() {
                p[r].max(p[s])
            } else {
                p[r].min(p[s])
            }
        };
        let revised = |s| (0..s).map(|r| m[r][s] * self.rate(milder(r, s), s)).sum();
        let modified = |s| (0..s).map(|r| m[r][s] * rate[r]).sum();
        [
            initial,
            five(|s| or(s, revised(s))),
            five(|s| or(s, modified(s))),
        ]
    }

    /// The view of a step, its matches and payments still 0.
    fn quantities(&self, lower: i128, upper: i128) -> View {
        let on_step = self.totals.each(|q| 0.max(q.min(upper) - lower));
        let most = greatest_break(self.line);
        let excess = self.totals.each(|q| 0.max(q - most));
        let prices = self.prices(upper);
        let p = prices.map(|(price, _)| price);
        let (o, e, a) = (on_step.operating, on_step.pricing, on_step.actual);
        let agino_5 = 0.max(o[4] - a);
        let agino = five(|s| 0.max(agino_5 - (o[4] - o[s..].iter().min().unwrap())));
        let msiq = five(|s| self.msiq(&p, &e, s));
        let c = five(|s| 0.max(o[s] - agino[s] - msiq[s]));
        let small = |values: Five| values.map(|x| x as u32);
        View {
            upper: upper as u32,
            width: (upper - lower) as u32,
            price: small(p),
            flag: prices.map(|(_, flag)| flag.into()),
            operating: small(o),
            pricing: small(e),
            actual: a as u32,
            agino: small(agino),
            msiq: small(msiq),
            constrained_on: small(c),
            excess: Excess {
                operating: small(excess.operating),
                pricing: small(excess.pricing),
                actual: excess.actual as u32,
            },
            ..View::default()
        }
    }

    /// 0 is never, 1 always; otherwise the word less 32 is a sum of different powers of two, one for each schedule.
    fn is_accredited(&self, s: usize) -> bool {
        const POWERS: [i128; 5] = [1, 2, 4, 8, 16];
        match self.line[3] {
            0 => false,
            1 => true,
            word => (word - 32) / POWERS[s] % 2 == 1,
        }
    }

    /// For each schedule whether the step is paid in it.
    fn paid(&self, view: &View) -> [bool; 5] {
        let unhedged = i128::from(view.upper) > self.line[4];
        std::array::from_fn(|s| unhedged && self.is_accredited(s))
    }

    /// The view of a step, its final payments still 0.
    fn step(&self, lower: i128, upper: i128) -> View {
        let mut view = self.quantities(lower, upper);
        let c = view.constrained_on.map(i128::from);
        let m = matches(c);
        let order = [
            (0, 1),
            (0, 2),
            (1, 2),
            (0, 3),
            (1, 3),
            (2, 3),
            (0, 4),
            (1, 4),
            (2, 4),
            (3, 4),
        ];
        view.matches = order.map(|(r, s)| m[r][s] as u32);
        let paid = self.paid(&view);
        let payments = self.payments(&view.price.map(i128::from), &c, &m);
        let if_paid = |kind: Five| five(|s| if paid[s] { kind[s] } else { 0 });
        let payments = payments.map(|kind| if_paid(kind).map(|x| x as i64));
        [view.initial, view.revised, view.modified] = payments;
        view
    }
}

pub fn change(view: &View, s: usize) -> i128 {
    let c = view.constrained_on.map(i128::from);
    c[s] - if s == 0 { 0 } else { c[s - 1] }
}

/// Fills in the final payments of one side's steps in schedule s; each step comes with where it is paid.
fn put_finals(clawback: bool, steps: &mut [([bool; 5], &mut View)], s: usize) {
    let total: i128 = steps.iter().map(|(_, v)| i128::from(v.revised[s])).sum();
    let differs = steps.iter().any(|(_, v)| v.revised[s] != v.initial[s]);
    let paid = || steps.iter().filter(|(paid, _)| paid[s]);
    let rises: i128 = paid().map(|(_, v)| change(v, s).max(0)).sum();
    let falls: i128 = paid().map(|(_, v)| (-change(v, s)).max(0)).sum();
    for (_, v) in steps.iter_mut() {
        let (initial, revised) = (i128::from(v.initial[s]), i128::from(v.revised[s]));
        v.finals[s] = if s == 0 || !clawback {
            v.initial[s]
        } else if v.flag[s] == 1 {
            v.modified[s]
        } else if total > 0 && initial < 0 && differs {
            initial.max(revised - total * -change(v, s) / rises.max(falls)) as i64
        } else {
            v.revised[s]
        };
    }
}

/// The views of all steps, where each line has these totals.
fn views(day: &[i128], totals: fn(&[i128]) -> Totals) -> Vec<Vec<View>> {
    let terms = |line| Terms {
        market: &day[4..16],
        line,
        totals: totals(line),
    };
    let lines: Vec<Terms> = day[16..].chunks(165).map(terms).collect();
    let steps_of = |line: &Terms| {
        let mut lower = 0;
        let step = |upper| line.step(std::mem::replace(&mut lower, upper), upper);
        ends(line.line).into_iter().map(step).collect()
    };
    let mut views: Vec<Vec<View>> = lines.iter().map(steps_of).collect();
    for withdrawal in [false, true] {
        let mut steps: Vec<([bool; 5], &mut View)> = Vec::new();
        for (line, views) in lines.iter().zip(&mut views) {
            if line.withdrawal() == withdrawal {
                steps.extend(views.iter_mut().map(|view| (line.paid(view), view)));
            }
        }
        (0..5).for_each(|s| put_finals(day[15] == 1, &mut steps, s));
    }
    views
}

pub fn adjusted(t: &Five) -> Five {
    let mut a = [0; 5];
    for s in 0..5 {
        a[s] = if s == 0 || t[s] >= 0 {
            0.max((s..5).map(|end| t[s..=end].iter().sum()).min().unwrap())
        } else {
            0.min(t[s] + (0..s).map(|earlier| t[earlier] - a[earlier]).sum::<i128>())
        };
    }
    a
}

fn payment(steps: &[View], s: usize) -> i128 {
    steps.iter().map(|v| i128::from(v.finals[s])).sum()
}

fn totals(views: &[Vec<View>]) -> Five {
    five(|s| views.iter().map(|steps| payment(steps, s)).sum())
}

/// Totals and adjusted totals of a day without fault.
pub fn totals_and_adjusted(day: &[u8]) -> [Five; 2] {
    let totals = totals(&views(&words(day), Totals::of));
    [totals, adjusted(&totals)]
}

fn book(day: &[i128], views: &[Vec<View>]) -> Vec<u8> {
    let n = views.len() as u32;
    let totals = totals(views);
    let signed = |x: i128| i64::try_from(x).unwrap().to_le_bytes();
    let mut book: Vec<u8> = [n, 16, 96, 96 + 56 * n]
        .into_iter()
        .flat_map(u32::to_le_bytes)
        .collect();
    for (t, a) in totals.into_iter().zip(adjusted(&totals)) {
        book.extend([signed(t), signed(a)].as_flattened());
    }
    for (line, steps) in day[16..].chunks(165).zip(views) {
        let head = [line[0], line[1], line[2], steps.len() as i128];
        book.extend(head.into_iter().flat_map(|x| (x as u32).to_le_bytes()));
        book.extend((0..5).flat_map(|s| signed(payment(steps, s))));
    }
    book
}

#[test]
fn second_computation_agrees() {
    for day in law_days() {
        let words = words(&day);
        let second = views(&words, Totals::of);
        let first = DayView::new(&day);
        for (line, steps) in first.day.lines().zip(&second) {
            assert_eq!(&first.line(line).collect::<Vec<View>>(), steps);
        }
        assert_eq!(book_of(&day), book(&words, &second));
    }
}

/// "Never constrained on and never paid" (02 F-2): but for the excess all figures, and the book, are those of totals of
/// M where they are above it.
#[test]
fn figures_are_those_of_totals_up_to_m() {
    let up_to_most = |line: &[i128]| {
        let most = greatest_break(line);
        Totals::of(line).each(|q| q.min(most))
    };
    for day in excess_days() {
        let words = words(&day);
        let second = views(&words, up_to_most);
        let first = DayView::new(&day);
        for (line, steps) in first.day.lines().zip(&second) {
            let without_excess = |v| View {
                excess: Excess::default(),
                ..v
            };
            let found: Vec<View> = first.line(line).map(without_excess).collect();
            assert_eq!(&found, steps);
        }
        assert_eq!(book_of(&day), book(&words, &second));
    }
}
