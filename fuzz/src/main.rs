//! Compares the proved archive with the reference implementation on mutated days. Seed and iteration give the same input again.

mod compare;
mod interface;
mod met;
mod mutate;
mod random;
mod records;

use compare::{Call, Compare, Numbers, MOST_ROOM};
use met::MET;
use mewikofu::Refusal;
use random::Random;
use reference::generate::*;
use reference::layout::*;
use std::panic::{catch_unwind, AssertUnwindSafe};
use std::process::ExitCode;
use std::time::Instant;

const USAGE: &str = "usage: fuzz SEED ITERATIONS | fuzz one SEED ITERATION | fuzz file DAY
The first compares so many mutated days and prints how often each number was answered.
The second does the round that the iteration is in up to it. The third asks a file everything.";

/// Each round draws its own days from seed and round, so that an iteration is found again fast.
const ROUND: u64 = 4096;
const DAYS: usize = 48;

fn main() -> ExitCode {
    let arguments: Vec<String> = std::env::args().skip(1).collect();
    let words: Vec<&str> = arguments.iter().map(String::as_str).collect();
    let passed = match words[..] {
        ["one", seed, iteration] => match (seed.parse(), iteration.parse::<u64>()) {
            (Ok(seed), Ok(iteration)) => run(seed, iteration / ROUND * ROUND..iteration + 1),
            _ => usage(),
        },
        ["file", name] => file(name),
        [seed, iterations] => match (seed.parse(), iterations.parse()) {
            (Ok(seed), Ok(iterations)) => run(seed, 0..iterations),
            _ => usage(),
        },
        _ => usage(),
    };
    match passed {
        true => ExitCode::SUCCESS,
        false => ExitCode::FAILURE,
    }
}

fn usage() -> bool {
    eprintln!("{USAGE}");
    false
}

/// How often each number from 0 on was answered.
type Answers = [u64; Refusal::ALL.len() + 1];

#[derive(Default)]
struct Counts {
    settle: Answers,
    uplift: Answers,
    cut: Answers,
    view: Answers,
    line_views: Answers,
    part: Answers,
    met: [u64; MET.len()],
}

/// The places of docs/REFUSALS.md that a call checks.
const SETTLE: &[&str] = &[
    "header",
    "market",
    "ad hoc records",
    "each line",
    "all lines",
    "book",
];
const UPLIFT: &[&str] = &[
    "header",
    "market",
    "ad hoc records",
    "each line",
    "all lines",
];
const VIEW: &[&str] = &[
    "header",
    "market",
    "ad hoc records",
    "each line",
    "all lines",
    "view",
];
const CUT: &[&str] = &["cutter", "each line"];
const PART: &[&str] = &["header", "line part"];

/// 0 and the numbers of these places.
fn numbers(places: &[&str]) -> Vec<usize> {
    let of_places = |refusal: &Refusal| refusal.place().split(", ").any(|p| places.contains(&p));
    let refusals = Refusal::ALL.into_iter().filter(of_places);
    [0].into_iter()
        .chain(refusals.map(|refusal| refusal.number() as usize))
        .collect()
}

impl Counts {
    fn add(&mut self, numbers: &Numbers) {
        self.settle[numbers.settle as usize] += 1;
        self.uplift[numbers.uplift as usize] += 1;
        self.cut[numbers.cut as usize] += 1;
        self.view[numbers.view as usize] += 1;
        self.line_views[numbers.line_views as usize] += 1;
        self.part[numbers.part as usize] += 1;
        for (count, met) in self.met.iter_mut().zip(numbers.met) {
            *count += u64::from(met);
        }
    }

    /// The counts, and whether each call answered all numbers of its places and no other, and all of `MET` was met.
    fn print(&self) -> bool {
        // No step is asked for, so none is missing.
        let mut line_views = numbers(VIEW);
        line_views.retain(|&number| number != Refusal::NoStep.number() as usize);
        let all = [
            ("settle", &self.settle, numbers(SETTLE)),
            ("uplift", &self.uplift, numbers(UPLIFT)),
            ("view", &self.view, numbers(VIEW)),
            ("line views", &self.line_views, line_views),
            ("cut", &self.cut, numbers(CUT)),
            ("line part", &self.part, numbers(PART)),
        ];
        let mut reached = true;
        for (name, counts, numbers) in all {
            let text: Vec<String> = (0..counts.len())
                .filter(|k| counts[*k] > 0 || numbers.contains(k))
                .map(|k| format!("{k}: {}", counts[k]))
                .collect();
            println!("{name}: {}", text.join(", "));
            reached &= (0..counts.len()).all(|k| (counts[k] > 0) == numbers.contains(&k));
        }
        for (what, count) in MET.iter().zip(self.met) {
            println!("{what}: {count}");
        }
        reached && self.met.iter().all(|&count| count > 0)
    }
}

fn run(seed: u64, iterations: std::ops::Range<u64>) -> bool {
    let start = Instant::now();
    let mut compare = Compare::new();
    let mut counts = Counts::default();
    let mut days = Vec::new();
    let mut day = Vec::new();
    for iteration in iterations.clone() {
        if iteration % ROUND == 0 {
            days = draw_days(seed, iteration / ROUND);
        }
        let mut random = Random::new(seed, iteration + 1);
        day.clear();
        day.extend(&days[random.below(DAYS)]);
        mutate::mutate(&mut day, &mut random);
        let call = draw_call(&day, &mut random);
        let compared = catch_unwind(AssertUnwindSafe(|| compare.all(&day, &call)));
        let numbers = match compared.unwrap_or_else(|_| Err("a panic".to_string())) {
            Ok(numbers) => numbers,
            Err(what) => return difference(seed, iteration, &day, &call, &what),
        };
        counts.add(&numbers);
        let kept = random.below(DAYS);
        if numbers.view == 0 && random.one_in(4) && mutate::lines(&day) <= 5 {
            days[kept].clone_from(&day);
        }
        if (iteration + 1) % 1_000_000 == 0 {
            eprintln!(
                "{} in {:.0} s",
                iteration + 1,
                start.elapsed().as_secs_f64()
            );
        }
    }
    let count = iterations.end - iterations.start;
    let seconds = start.elapsed().as_secs_f64();
    println!(
        "{count} executions, {seconds:.1} s, {:.0} a second, no difference",
        count as f64 / seconds
    );
    if !counts.print() && count >= 100_000 {
        println!("failed: a call didn't answer exactly the numbers of its places, or a kind of answer was never met");
        return false;
    }
    true
}

/// Prints a difference and writes the day to a file.
fn difference(seed: u64, iteration: u64, day: &[u8], call: &Call, what: &str) -> bool {
    let name = format!("found/{seed}-{iteration}.day");
    let written = std::fs::create_dir_all("found").and_then(|()| std::fs::write(&name, day));
    println!("difference at seed {seed} iteration {iteration}: {what}");
    println!("asked: {call:?}");
    println!("input in fuzz/{name}: {written:?}; again: fuzz one {seed} {iteration}");
    false
}

/// The days that a round's mutations begin with. Most have few lines, so that a run tries many.
fn draw_days(seed: u64, round: u64) -> Vec<Vec<u8>> {
    let mut random = Random::new(!seed, round + 1);
    let mut days: Vec<Vec<u8>> = (2..DAYS).map(|_| draw_day(&mut random)).collect();
    days.push(match random.below(3) {
        0 => reference::k10::k10(),
        1 => reference::k3_to_k7::k3_to_k7(),
        _ => reference::table1::day(),
    });
    days.push(valid_day(random.next()));
    days
}

fn draw_day(random: &mut Random) -> Vec<u8> {
    let seed = random.next();
    let mut day = match random.below(96) {
        0 | 1 => damaged_day(seed),
        2 => set_fault_day(seed),
        3 => pulled_fault_day(seed),
        4 => excess_fault_day(seed),
        5..8 => ad_hoc_fault_day(seed),
        8 => ad_hoc_damaged_day(seed),
        9 => uplift_fault_day(seed),
        10..14 => valid_day(seed),
        14..18 => set_day(seed),
        18..22 => pulled_day(seed),
        22..24 => excess_day(seed),
        24..26 => over_delivery_day(seed),
        26..33 => small_day(seed),
        33..40 => small_set_day(seed),
        40..47 => small_pulled_day(seed),
        47..51 => small_excess_day(seed),
        51..54 => small_over_delivery_day(seed),
        54..66 => ad_hoc_day(seed),
        66..86 => small_ad_hoc_day(seed),
        // All its lines are needed for its totals, and each has one step.
        _ => return uplift_day(seed),
    };
    records::keep_lines(&mut day, 1 + random.below(4));
    if mutate::lines(&day) > 0 && random.one_in(3) {
        mutate::scatter(&mut day, random);
    }
    day
}

/// A number below n most of the time, else one around n or far above.
fn draw_place(n: usize, random: &mut Random) -> usize {
    let huge = random.next() as usize;
    match random.below(10) {
        0 => n,
        1 => n.saturating_sub(1),
        2 => random.pick(&[
            n + 1,
            64,
            65,
            1 << 32,
            usize::MAX,
            usize::MAX - 1,
            (1 << 32) + n,
            huge,
        ]),
        _ => random.below(n),
    }
}

fn draw_call(day: &[u8], random: &mut Random) -> Call {
    let n = mutate::lines(day);
    let least = book_length(n.min(MOST_LINES));
    let room = match random.below(12) {
        0 => least - 1,
        1..4 => least + 1 + random.below(64),
        4 => random.pick(&[0, 1, 95, 96, least - 56, MOST_ROOM]),
        _ => least,
    };
    let line = draw_place(n, random);
    let cut = match line < n && !random.one_in(10) {
        true => records::line_at(day, line)..records::line_at(day, line + 1),
        false => {
            let start = random.below(day.len() + 1);
            let length = random.pick(&[0, 659, 660, 661, 1320]);
            start..(start + length).min(day.len())
        }
    };
    let steps = match day.get(cut.clone()) {
        Some(bytes) => reference::cut::cut(bytes).count as usize,
        None => 0,
    };
    Call {
        room,
        cut,
        line,
        step: draw_place(steps, random),
        part: draw_place(n, random),
    }
}

/// Every length of a book around the limit, every line and step, and places beyond.
fn file(name: &str) -> bool {
    let day = match std::fs::read(name) {
        Ok(day) => day,
        Err(error) => {
            eprintln!("{name}: {error}");
            return false;
        }
    };
    let n = mutate::lines(&day).min(MOST_LINES + 1);
    let least = book_length(n.min(MOST_LINES));
    let mut compare = Compare::new();
    let mut count = 0;
    for line in (0..=n).chain([usize::MAX]) {
        let cut = match line < n {
            true => records::line_at(&day, line)..records::line_at(&day, line + 1),
            false => 0..day.len().min(LINE_BYTES),
        };
        for step in (0..=MOST_STEPS).chain([usize::MAX]) {
            let room = least - 1 + step.min(65);
            let call = Call {
                room,
                cut: cut.clone(),
                line,
                step,
                part: line,
            };
            if let Err(what) = compare.all(&day, &call) {
                println!("difference: {what}\nasked: {call:?}");
                return false;
            }
            count += 1;
        }
    }
    println!("{count} calls of each function, no difference");
    true
}
