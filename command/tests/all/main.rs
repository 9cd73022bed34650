//! Tests of the command. Expected figures are document 01's and the reference implementation's.

mod ad_hoc;
mod book;
mod check;
mod draw;
mod draw_browser;
mod draw_page;
mod explain;
mod make;
mod many;
mod readme;
mod show;
mod status;
mod tables;
mod texts;
mod uplift;

use reference::layout::put_word;
use reference::refusal::cut_number;
use std::io::Write;
use std::path::Path;
use std::process::{Command, Stdio};

/// What a run of the program gives.
struct Run {
    status: i32,
    out: Vec<u8>,
    message: String,
}

impl Run {
    /// Standard output of a run that went well.
    fn output(self) -> Vec<u8> {
        assert_eq!((self.status, self.message.as_str()), (0, ""));
        self.out
    }

    fn text(self) -> String {
        String::from_utf8(self.output()).unwrap()
    }

    /// The message of a run that refused its input with status 1 and wrote nothing.
    fn failure(self) -> String {
        assert_eq!(self.status, 1, "{}", self.message);
        assert!(self.out.is_empty());
        let message = self.message.strip_prefix("mewikofu: standard input: ");
        message.expect("the file's name comes first").to_string()
    }
}

/// Runs the program on its standard input.
fn run(arguments: &[&str], input: &[u8]) -> Run {
    run_with(&[arguments, &["-"]].concat(), input)
}

fn program() -> Command {
    Command::new(env!("CARGO_BIN_EXE_mewikofu"))
}

fn run_with(arguments: &[&str], input: &[u8]) -> Run {
    let mut child = program()
        .args(arguments)
        .stdin(Stdio::piped())
        .stdout(Stdio::piped())
        .stderr(Stdio::piped())
        .spawn()
        .unwrap();
    let mut stdin = child.stdin.take().unwrap();
    let input = input.to_vec();
    // A program that doesn't read its input closes the pipe.
    let writer = std::thread::spawn(move || drop(stdin.write_all(&input)));
    let output = child.wait_with_output().unwrap();
    writer.join().unwrap();
    Run {
        status: output.status.code().unwrap(),
        out: output.stdout,
        message: String::from_utf8(output.stderr).unwrap(),
    }
}

/// A file of the repository.
fn stored(path: &str) -> Vec<u8> {
    let root = Path::new(env!("CARGO_MANIFEST_DIR")).join("..");
    std::fs::read(root.join(path)).unwrap()
}

fn example_text() -> String {
    String::from_utf8(stored("command/example.day.txt")).unwrap()
}

/// K10's day with an accreditation word.
fn k10_accredited(word: u32) -> Vec<u8> {
    let mut day = stored("examples/k10.day");
    put_word(&mut day[64..], 3, word);
    day
}

/// Accreditation words up to the first that is too large, larger ones with the bits of a proper one, and the largest.
fn accreditation_words() -> impl Iterator<Item = u32> {
    let large = (6..32).flat_map(|bit| [1 << bit, (1 << bit) + 1, (1 << bit) + 61]);
    (0..=64).chain(large).chain([u32::MAX])
}

/// The schedules, from 1, in which a proper word holds.
fn accredited_schedules(word: u32) -> Vec<usize> {
    let holds = |s: &usize| word == 1 || (word >= 32 && word >> (s - 1) & 1 == 1);
    (1..=5).filter(holds).collect()
}

/// The day with sets of schedules as accreditation, all 32 of them by and by; every eighth line keeps its own.
fn with_sets(mut day: Vec<u8>, seed: u64) -> Vec<u8> {
    let lines = day[64..].chunks_exact_mut(660).enumerate();
    for (k, line) in lines.filter(|(k, _)| k % 8 != 7) {
        put_word(line, 3, 32 + (7 * seed as u32 + 11 * k as u32) % 32);
    }
    day
}

/// Makes the bid of schedule s, from 1, a pulled one: its count and its slots are 0.
fn pull(line: &mut [u8], s: usize) {
    line[20 + 92 * (s - 1)..20 + 92 * s].fill(0);
}

/// K10's day with the bids of these schedules pulled.
fn k10_pulled(schedules: &[usize]) -> Vec<u8> {
    let mut day = stored("examples/k10.day");
    schedules.iter().for_each(|&s| pull(&mut day[64..], s));
    day
}

/// Places of words in a line; schedules and intervals count from 1, a pricing row has the intervals from its schedule on.
fn pricing_word(s: usize, interval: usize) -> usize {
    [120, 125, 129, 132, 134][s - 1] + interval - s
}

fn operating_word(s: usize, interval: usize) -> usize {
    130 + 5 * s + interval - 1
}

fn actual_word(interval: usize) -> usize {
    159 + interval
}

/// K10's day, whose greatest break is 3,000, with words of its line put.
fn k10_with(words: &[(usize, u32)]) -> Vec<u8> {
    let mut day = stored("examples/k10.day");
    for &(place, value) in words {
        put_word(&mut day[64..], place, value);
    }
    day
}

/// K10's day with an operating total of 3,500 in schedule 2: 500 above the greatest break.
fn k10_operating_excess() -> Vec<u8> {
    k10_with(&[(operating_word(2, 2), 2_500)])
}

/// K10's day with excess of each kind: operating 900 in schedule 5, pricing 1 in schedule 2 and 1,000 in schedule 3, effective actual 700.
fn k10_each_excess() -> Vec<u8> {
    k10_with(&[
        (operating_word(5, 1), 2_000),
        (operating_word(5, 2), 1_900),
        (actual_word(1), 200_000_000),
        (actual_word(2), 1_700),
        (pricing_word(2, 5), 2_001),
        (pricing_word(3, 5), 3_000),
    ])
}

/// Days with the figures of a third implementation, by request.
const WORKED: [&str; 6] = ["F-2-1", "F-2-2", "F-2-3", "F-5-1", "F-5-2", "F-5-3"];

fn worked(name: &str, ending: &str) -> Vec<u8> {
    stored(&format!("reference/tests/worked/{name}.{ending}"))
}

/// The sets of the schedules 2 to 5.
fn sets_of_reschedules() -> impl Iterator<Item = Vec<usize>> {
    (0..16).map(|set| (2..=5).filter(|s| set >> (s - 2) & 1 == 1).collect())
}

/// The day with bids pulled, by the sets of the schedules 2 to 5 in turn; but not a bid without which the line would be refused, since its totals or
/// its hedge are above the breaks of the others.
fn with_pulled(mut day: Vec<u8>, seed: u64) -> Vec<u8> {
    let sets: Vec<_> = sets_of_reschedules().collect();
    for (k, line) in day[64..].chunks_exact_mut(660).enumerate() {
        for &s in &sets[(5 * seed as usize + 3 * k) % 16] {
            let mut pulled = line.to_vec();
            pull(&mut pulled, s);
            if cut_number(&pulled) == 0 {
                line.copy_from_slice(&pulled);
            }
        }
    }
    day
}

/// How many generated days a test takes: so many, or those that MEWIKOFU_DAYS in the environment says.
fn days(usual: u64) -> u64 {
    let wanted = std::env::var("MEWIKOFU_DAYS").ok();
    wanted.map_or(usual, |wanted| wanted.parse().expect("a number of days"))
}
