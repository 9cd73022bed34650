//! Settles the day files named on the command line.
//! Ends with 0 where all days are settled, 1 where one is refused, 2 where a file can't be read or the output can't be written.

use std::io::Write;
use std::process::ExitCode;

fn main() -> ExitCode {
    let files: Vec<String> = std::env::args().skip(1).collect();
    if files.is_empty() {
        eprintln!("usage: settle DAY..");
        return ExitCode::from(2);
    }
    let statuses = files.iter().map(|file| {
        settle(file).unwrap_or_else(|error| {
            eprintln!("{file}: {error}");
            2
        })
    });
    ExitCode::from(statuses.max().unwrap_or(0))
}

/// Prints a day's totals and uplift; the exit status for it.
fn settle(file: &str) -> std::io::Result<u8> {
    let day = std::fs::read(file)?;
    match mewikofu::settle(&day).and_then(|book| Ok((book, mewikofu::uplift(&day)?))) {
        Ok((book, uplift)) => {
            let (totals, adjusted) = (book.totals(), book.adjusted());
            // println! would stop the program where the output can't be written.
            writeln!(
                std::io::stdout(),
                "{file}: totals {totals:?}, adjusted {adjusted:?}, uplift {uplift:?}"
            )?;
            Ok(0)
        }
        Err(refusal) => {
            eprintln!("{file}: {refusal}");
            Ok(1)
        }
    }
}
