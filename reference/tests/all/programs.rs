//! The program, run as a process.

use crate::K10_REPORT;
use reference::generate::{ad_hoc_long_days, damaged_day, valid_day};
use reference::report::{settle_report, steps_report};
use std::io::Write;
use std::process::{Command, Stdio};

/// Standard output for the arguments and standard input.
pub fn run(arguments: &[&str], input: &[u8]) -> Vec<u8> {
    let mut child = Command::new(env!("CARGO_BIN_EXE_reference"))
        .args(arguments)
        .stdin(Stdio::piped())
        .stdout(Stdio::piped())
        .spawn()
        .unwrap();
    let mut stdin = child.stdin.take().unwrap();
    let input = input.to_vec();
    // A program may stop reading before the end of a long input.
    let writer = std::thread::spawn(move || stdin.write_all(&input).is_ok());
    let output = child.wait_with_output().unwrap();
    writer.join().unwrap();
    assert!(output.status.success());
    output.stdout
}

#[test]
fn k10_through_the_program() {
    let report = run(&["settle"], &run(&["k10"], &[]));
    assert_eq!(report, K10_REPORT.as_bytes());
}

#[test]
fn refusals_and_long_input() {
    assert_eq!(run(&["settle"], &[]), b"refused 1\n");
    assert_eq!(run(&["steps"], &[0; 64]), b"refused 2\n");
    assert_eq!(run(&["cut"], &[0; 661]), b"refused 18\n");
    let mut day = valid_day(1);
    day.resize(70_000, 0);
    assert_eq!(run(&["settle"], &day), b"refused 3\n");
    let long = &ad_hoc_long_days()[0];
    assert_eq!(long.len(), 65_544);
    assert_eq!(run(&["settle"], long), b"refused 19\n");
    assert_eq!(run(&["steps"], long), b"refused 19\n");
}

#[test]
fn packs() {
    let days: Vec<Vec<u8>> = vec![valid_day(40), damaged_day(41), valid_day(42)];
    let mut pack = Vec::new();
    for day in &days {
        reference::pack::write(&mut pack, day).unwrap();
    }
    assert_eq!(run(&["days", "40", "3", "mixed"], &[]), pack);
    assert_eq!(run(&["day", "41", "damaged"], &[]), days[1]);
    let settled: String = days.iter().map(|day| settle_report(day)).collect();
    assert_eq!(run(&["expect", "settle"], &pack), settled.as_bytes());
    let steps: String = days.iter().map(|day| steps_report(day)).collect();
    assert_eq!(run(&["expect", "steps"], &pack), steps.as_bytes());
}
