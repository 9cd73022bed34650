//! The files kept under crates: what this program makes for the other implementation's programs to be run on and held
//! to.

use crate::programs::run;
use crate::K10_REPORT;
use reference::cut::cut;
use reference::generate::{
    ad_hoc_fault_kinds, excess_fault_kinds, pulled_fault_kinds, uplift_fault_kinds,
};
use reference::layout::{MOST_STEPS, SIDE};
use reference::line_part::line_part;
use reference::pack;
use reference::refusal::line_part_number;
use reference::table1;
use std::collections::BTreeSet;
use std::fmt::Write;
use std::path::{Path, PathBuf};

/// A path of the repository.
fn at_root(path: &str) -> PathBuf {
    Path::new(env!("CARGO_MANIFEST_DIR")).join("..").join(path)
}

/// A file of the repository.
fn stored(path: &str) -> Vec<u8> {
    std::fs::read(at_root(path)).unwrap()
}

/// The days of a folder of the repository, refused ones too.
pub fn days_in(folder: &str) -> Vec<Vec<u8>> {
    let files = std::fs::read_dir(at_root(folder)).unwrap();
    let paths = files.map(|file| file.unwrap().path());
    let days = paths.filter(|path| path.extension().is_some_and(|ending| ending == "day"));
    days.map(|path| std::fs::read(path).unwrap()).collect()
}

/// A file beside a crate's sources.
pub fn kept(crate_name: &str, file: &str) -> Vec<u8> {
    stored(&format!("crates/{crate_name}/{file}"))
}

/// The days or lines that a program is run on.
pub fn entries(program: &str) -> Vec<Vec<u8>> {
    let pack = kept(program, "stdin");
    let mut pack = &pack[..];
    std::iter::from_fn(|| pack::read(&mut pack).unwrap()).collect()
}

/// What the program writes for these commands, one after another.
fn made(commands: &[&str]) -> Vec<u8> {
    let words = |command: &&str| run(&command.split(' ').collect::<Vec<_>>(), &[]);
    commands.iter().flat_map(words).collect()
}

/// The numbers of a pack of days, each on a line.
fn numbers(pack: &[u8]) -> String {
    String::from_utf8(run(&["expect", "number"], pack)).unwrap()
}

fn assert_all_numbers(pack: &[u8], wanted: impl IntoIterator<Item = u32>) {
    let numbers = numbers(pack);
    for number in wanted {
        let line = number.to_string();
        assert!(numbers.lines().any(|l| l == line), "no {number}");
    }
}

/// The numbers of days at a limit that pulled bids have, and of those with totals around M + 1,000.
const PULLED_NUMBERS: [u32; 9] = [0, 6, 7, 8, 9, 10, 11, 13, 14];
const EXCESS_NUMBERS: [u32; 8] = [0, 6, 8, 10, 11, 12, 13, 14];

/// The numbers of a day's file, as days with ad hoc records have them all.
fn file_numbers() -> impl Iterator<Item = u32> {
    (0..=14).chain(19..=21)
}

/// The packs have all kinds of fault: of days by seeds in a row, of lines by every third seed. `check_steps` leaves out
/// the last 22 of pulled bids, their slots.
#[test]
fn kinds_of_fault() {
    assert_eq!(pulled_fault_kinds(), [64, 186 / 3]);
    assert_eq!(excess_fault_kinds(), [33, 93 / 3]);
    assert_eq!(ad_hoc_fault_kinds(), 119);
    assert_eq!(uplift_fault_kinds(), 110);
}

#[test]
fn examples() {
    let made: [(&str, &[&str]); 4] = [
        ("k10", &["k10"]),
        ("both-sides", &["day", "37", "valid"]),
        ("withdrawals", &["day", "53", "valid"]),
        ("refused", &["day", "100", "damaged"]),
    ];
    for (name, arguments) in made {
        let day = run(arguments, &[]);
        assert!(stored(&format!("examples/{name}.day")) == day, "{name}");
        let report = run(&["settle"], &day);
        assert_eq!(stored(&format!("examples/{name}.report")), report, "{name}");
    }
}

/// The worked days, whose report and steps were worked out by hand, and the winter day, whose report was.
#[test]
fn worked_by_hand() {
    for name in [
        "rules",
        "accreditation",
        "pulled",
        "excess",
        "ad-hoc",
        "uplift",
        "open-rises",
        "winter",
    ] {
        assert_stored(name, "settle", "report");
        assert_stored(name, "steps", "steps");
    }
    for name in ["uplift", "open-rises"] {
        assert_stored(name, "uplift", "uplift");
    }
}

/// The program prints the example day's file of this ending.
fn assert_stored(name: &str, program: &str, ending: &str) {
    let day = stored(&format!("examples/{name}.day"));
    let file = format!("examples/{name}.{ending}");
    let text = |bytes| String::from_utf8(bytes).unwrap();
    let found = text(run(&[program], &day));
    assert_eq!(text(stored(&file)), found, "{file}");
}

#[test]
fn day_numbers() {
    let damaged = made(&["days 4608 57 damaged"]);
    let sets = made(&["accreditations", "days 0 34 set-faults"]);
    let pulled = made(&["pulled", "days 0 64 pulled-faults"]);
    let excess = made(&["excess", "days 0 33 excess-faults", "excess withdrawals"]);
    let ad_hoc = made(&[
        "ad-hoc",
        "ad-hoc withdrawals",
        "ad-hoc-lengths",
        "days 0 119 ad-hoc-faults",
        "days 616 44 ad-hoc-damaged",
        "ad-hoc-long",
    ]);
    let edges = made(&["edges"]);
    let packs = [&edges[..], &damaged, &sets, &pulled, &excess, &ad_hoc];
    let pack = packs.concat();
    assert!(kept("check_day_numbers", "stdin") == pack);
    assert!(kept("check_day_numbers", "stdout") == numbers(&pack).as_bytes());
    assert_all_numbers(&damaged, 0..=14);
    assert_all_numbers(&sets, [0, 5, 6, 13, 14]);
    assert_all_numbers(&pulled, PULLED_NUMBERS);
    assert_all_numbers(&excess, EXCESS_NUMBERS);
    assert_all_numbers(&ad_hoc, file_numbers());
}

#[test]
fn settle() {
    let day = run(&["k10"], &[]);
    assert!(kept("settle", "stdin") == day);
    assert_eq!(kept("settle", "stdout"), K10_REPORT.as_bytes());
}

/// The days with ad hoc records that `check_settle` is run on.
const AD_HOC: [&str; 7] = [
    "ad-hoc",
    "ad-hoc withdrawals",
    "ad-hoc-lengths",
    "days 20 16 ad-hoc",
    "days 20 30 small-ad-hoc",
    "days 0 119 ad-hoc-faults",
    "days 528 44 ad-hoc-damaged",
];

/// Days of 1 to 64 lines, valid and damaged, with every refusal that a file can have; then days with sets, with pulled
/// bids, with totals above M and with ad hoc records.
#[test]
fn settle_days() {
    let mixed = made(&["days 1 240 mixed"]);
    let sets = made(&[
        "accreditations",
        "days 810 48 sets",
        "days 64 64 small-sets",
        "days 0 34 set-faults",
    ]);
    let pulled = made(&[
        "days 260 36 pulled",
        "days 630 30 small-pulled",
        "days 0 64 pulled-faults",
    ]);
    let excess = made(&[
        "excess",
        "days 1380 24 excess",
        "days 1380 24 small-excess",
        "days 0 33 excess-faults",
        "excess withdrawals",
        "days 1386 24 over-delivery",
        "days 545 24 small-over-delivery",
    ]);
    let ad_hoc = made(&AD_HOC);
    let packs = [&mixed[..], &sets, &pulled, &excess, &ad_hoc];
    assert!(kept("check_settle", "stdin") == packs.concat());
    let reports = packs.map(|pack| run(&["expect", "settle"], pack));
    assert!(kept("check_settle", "stdout") == reports.concat());
    assert_all_numbers(&mixed, 1..=14);
    assert_all_numbers(&sets, [0, 5, 6, 13, 14]);
    assert_all_numbers(&pulled, PULLED_NUMBERS);
    assert_all_numbers(&excess, EXCESS_NUMBERS);
    assert_all_numbers(&ad_hoc, file_numbers());
    for reports in reports {
        let reports = String::from_utf8(reports).unwrap();
        for count in [1, 64] {
            let line = format!("day {count}");
            assert!(reports.lines().any(|l| l == line), "no {line}");
        }
    }
}

/// Days for uplift by schedule, damaged ones of every number, then days of other kinds.
#[test]
fn uplift() {
    let days = made(&["uplift-rows", "uplift-limits", "days 0 128 uplift"]);
    let faults = made(&["days 0 110 uplift-faults"]);
    let others = made(&[
        "days 2300 32 small-sets",
        "days 2550 16 small-pulled",
        "days 7980 16 small-excess",
        "days 500 24 small-ad-hoc",
    ]);
    let pack = [&days[..], &faults, &others].concat();
    assert!(kept("check_uplift", "stdin") == pack);
    assert!(kept("check_uplift", "stdout") == run(&["expect", "uplift"], &pack));
    assert_eq!(numbers(&days), "0\n".repeat(62 + 18 + 128));
    assert_eq!(numbers(&others), "0\n".repeat(32 + 16 + 16 + 24));
    assert_all_numbers(&faults, file_numbers());
    // As the other programs that read days of up to 65,536 bytes.
    assert!(entries("check_uplift")
        .iter()
        .all(|day| day.len() <= 65_536));
}

/// Sides with counts of steps, and numbers, of a pack of lines.
fn counts_and_numbers(mut pack: &[u8]) -> (BTreeSet<(u8, u32)>, BTreeSet<u32>) {
    let (mut counts, mut numbers) = (BTreeSet::new(), BTreeSet::new());
    while let Some(line) = pack::read(&mut pack).unwrap() {
        let answer = cut(&line);
        match answer.number {
            0 => counts.insert((line[4 * SIDE], answer.count)),
            number => numbers.insert(number),
        };
    }
    (counts, numbers)
}

/// Lines of both sides with every count of steps, and every refusal of a line; then lines with sets, with pulled bids,
/// with totals above M and of days with ad hoc records.
#[test]
fn cut_lines() {
    let lines = made(&["lines 1 1000"]);
    let sets = made(&["lines 1 96 sets"]);
    let pulled = made(&["lines 1 186 pulled"]);
    let excess = made(&[
        "lines 1 93 excess",
        "excess-lines",
        "excess-lines withdrawals",
    ]);
    let ad_hoc = made(&["lines 1 48 ad-hoc"]);
    let pack = [&lines[..], &sets, &pulled, &excess, &ad_hoc].concat();
    assert!(kept("check_cut", "stdin") == pack);
    assert!(kept("check_cut", "stdout") == run(&["expect", "cut"], &pack));
    assert_eq!(counts_and_numbers(&sets).1, [6, 18].into());
    let refused = [&pulled, &excess].map(|pack| counts_and_numbers(pack).1);
    assert_eq!(refused[0], [6, 7, 8, 9, 10, 11, 13, 18].into());
    assert_eq!(refused[1], [6, 8, 10, 11, 12, 13, 18].into());
    assert_eq!(counts_and_numbers(&ad_hoc).1, [12].into());
    let (counts, numbers) = counts_and_numbers(&lines);
    // A withdrawal has no hedge, so its steps are at most 55.
    let most = MOST_STEPS as u32;
    let injections = (1..=most).map(|count| (0, count));
    let withdrawals = (1..most).map(|count| (1, count));
    assert!(counts.into_iter().eq(injections.chain(withdrawals)));
    assert!(numbers.into_iter().eq((6..=13).chain([18])));
}

/// K1 and K2: FD Table 1's line, through the program.
#[test]
fn cut_table1() {
    assert_eq!(kept("cut", "stdin"), table1::line());
    assert_eq!(kept("cut", "stdout"), run(&["cut"], &table1::line()));
}

#[test]
fn steps() {
    let day = run(&["k3-to-k7"], &[]);
    assert!(kept("steps", "stdin") == day);
    assert!(kept("steps", "stdout") == run(&["steps"], &day));
}

/// Days without fault, and damaged ones of every number; then days with sets, with pulled bids, with totals above M and
/// with ad hoc records.
#[test]
fn steps_days() {
    let small = made(&["days 2300 96 small"]);
    let damaged = made(&["days 7476 55 damaged"]);
    let sets = made(&["days 2300 72 small-sets"]);
    let set_faults = made(&["days 0 34 set-faults"]);
    let pulled = made(&["days 2550 30 small-pulled"]);
    let pulled_faults = made(&["days 0 42 pulled-faults"]);
    let excess = made(&["days 7980 30 small-excess"]);
    let excess_limits = made(&["excess", "days 0 33 excess-faults", "excess withdrawals"]);
    let over_delivery = made(&["days 2497 24 small-over-delivery"]);
    let ad_hoc = made(&["days 500 36 small-ad-hoc"]);
    let ad_hoc_limits = made(&[
        "ad-hoc",
        "ad-hoc withdrawals",
        "days 0 119 ad-hoc-faults",
        "days 528 44 ad-hoc-damaged",
        "ad-hoc-long",
    ]);
    let with_sets = [&sets[..], &set_faults].concat();
    let with_pulled = [&pulled[..], &pulled_faults].concat();
    let with_excess = [&excess[..], &excess_limits, &over_delivery].concat();
    let with_ad_hoc = [&ad_hoc[..], &ad_hoc_limits].concat();
    let for_01 = [&small[..], &damaged].concat();
    let packs = [for_01, with_sets, with_pulled, with_excess, with_ad_hoc];
    let pack = packs.concat();
    assert!(kept("check_steps", "stdin") == pack);
    assert!(kept("check_steps", "stdout") == run(&["expect", "steps"], &pack));
    assert_eq!(numbers(&small), "0\n".repeat(96));
    assert_eq!(numbers(&sets), "0\n".repeat(72));
    assert_eq!(numbers(&pulled), "0\n".repeat(30));
    assert_eq!(numbers(&excess), "0\n".repeat(30));
    assert_eq!(numbers(&over_delivery), "0\n".repeat(24));
    assert_eq!(numbers(&ad_hoc), "0\n".repeat(36));
    assert_all_numbers(&damaged, 0..=14);
    assert_all_numbers(&set_faults, [0, 5, 6, 13, 14]);
    assert_all_numbers(&pulled_faults, PULLED_NUMBERS);
    assert_all_numbers(&excess_limits, EXCESS_NUMBERS);
    assert_all_numbers(&ad_hoc_limits, file_numbers());
}

/// The parts that `check_line_parts` prints, of its day and of parts of its buffer that are refused as days.
#[test]
fn line_parts() {
    let day = kept("check_line_parts", "stdin");
    assert_eq!(day, run(&["day", "16", "valid"], &[]));
    let mut space = day.clone();
    space.resize(4096, 0);
    let n = u64::from(day[0]);
    let mut shown = String::new();
    for k in [0, 1, n - 1, n, n + 1, 1 << 63, u64::MAX] {
        show(&mut shown, &day, k);
    }
    for length in [0, 63, 64] {
        show(&mut shown, &space[..length], 0);
    }
    show(&mut shown, &space[1..], u64::MAX);
    assert_eq!(kept("check_line_parts", "stdout"), shown.as_bytes());
}

fn show(out: &mut String, day: &[u8], k: u64) {
    let part = line_part(day, k);
    write!(out, "{k} {} {}", line_part_number(day, k), part.len()).unwrap();
    for byte in part.iter().take(4) {
        write!(out, " {byte}").unwrap();
    }
    out.push('\n');
}
