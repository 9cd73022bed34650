//! Times the functions of the archives beside the reference's, on the same days in one run, and counts their instructions.

mod calls;
mod clock;
mod cutting;
mod hard;
mod instructions;
mod market;
#[cfg(older)]
mod older;
mod proved;
mod settling;
mod sorted;
mod streams;
mod tables;
mod timing;
mod viewing;

use calls::CALLS;
use reference::layout::MOST_LINES;
use std::path::Path;
use std::process::ExitCode;
use streams::Stream;

const USAGE: &str = "usage: bench [TABLE..]             prints the tables; TABLE: settle, cut, views, others
       bench days FOLDER COUNT     writes market-like days of 1 to 64 lines into a folder
       bench pass CALL BY STREAM   makes one pass, for a count of instructions
STREAM: KIND CLAWBACK LINES (hard on 64), SIDE STEPS (INJ 56) or market, the lines of market-like days";

fn main() -> ExitCode {
    let arguments: Vec<String> = std::env::args().skip(1).collect();
    let arguments: Vec<&str> = arguments.iter().map(String::as_str).collect();
    match run(&arguments) {
        Some(()) => ExitCode::SUCCESS,
        None => {
            eprintln!("{USAGE}");
            ExitCode::from(2)
        }
    }
}

fn run(arguments: &[&str]) -> Option<()> {
    match arguments {
        ["pass", call, by, words @ ..] => {
            let call = CALLS.iter().find(|of| of.name == *call)?;
            instructions::pass(call, call.pass(by)?, &Stream::of_words(words)?);
        }
        ["days", folder, count] => write_days(Path::new(folder), count.parse().ok()?),
        [] => tables::NAMES.iter().for_each(|name| tables::print(name)),
        names if names.iter().all(|name| tables::NAMES.contains(name)) => {
            names.iter().for_each(|name| tables::print(name));
        }
        _ => return None,
    }
    Some(())
}

/// Market-like days with clawback on, of which the first has one line, the next two, and so on up to 64, then one again.
fn write_days(folder: &Path, count: usize) {
    for k in 0..count {
        let day = market::day(k as u64, 1 + k % MOST_LINES, true);
        let file = folder.join(format!("{k:04}.day"));
        std::fs::write(file, day).expect("the folder takes the days");
    }
}
