//! The command `mewikofu`, for settlement teams. Every figure comes from the proved archives by bindings/rust; this crate reads, writes and says them.

pub mod accreditation;
pub mod ad_hoc;
pub mod amounts;
pub mod arguments;
pub mod book;
pub mod check;
pub mod cut;
pub mod days;
pub mod draw;
pub mod excess;
pub mod explain;
pub mod figures;
pub mod form;
pub mod input;
pub mod layout;
pub mod lists;
pub mod make;
pub mod many;
pub mod outcome;
pub mod output;
pub mod refusals;
pub mod settle;
pub mod show;
pub mod start;
pub mod steps;
pub mod tables;
pub mod uplift;
pub mod values;

use arguments::Options;
use outcome::{Problem, Result, Status};
use std::ffi::OsString;
use std::io::{self, BufWriter, Write};

/// Does what the arguments ask and answers the exit status.
pub fn run(arguments: impl IntoIterator<Item = OsString>) -> Status {
    if start::was_closed(1) {
        return Problem::failed("standard output is closed").report();
    }
    let mut out = BufWriter::new(io::stdout().lock());
    let answered = answer(arguments, &mut out).and_then(|status| {
        out.flush()?;
        Ok(status)
    });
    // What is left after a failed write would be tried again where the buffer is dropped.
    let _ = out.into_parts();
    answered.unwrap_or_else(|problem| problem.report())
}

fn answer(arguments: impl IntoIterator<Item = OsString>, out: &mut dyn Write) -> Result<Status> {
    let matches = match arguments::command().try_get_matches_from(arguments) {
        Ok(matches) => matches,
        Err(error) if error.use_stderr() => {
            let _ = error.print();
            return Ok(Status::Failed);
        }
        Err(help) => {
            write!(out, "{}", help.render())?;
            return Ok(Status::Accepted);
        }
    };
    let Some((name, matches)) = matches.subcommand() else {
        return Ok(Status::Failed);
    };
    let options = Options::new(matches);
    match name {
        "settle" => settle::run(&options, out),
        "uplift" => uplift::run(&options, out),
        "steps" => steps::run(&options, out),
        "cut" => cut::run(&options, out),
        "check" => check::run(&options, out),
        "explain" => explain::run(&options, out),
        "show" => show::run(&options, out),
        "make" => make::run(&options, out),
        "book" => book::run(&options, out),
        "draw" => draw::run(&options, out),
        _ => completion(
            matches.get_one::<clap_complete::Shell>("shell").copied(),
            out,
        ),
    }
}

fn completion(shell: Option<clap_complete::Shell>, out: &mut dyn Write) -> Result<Status> {
    let Some(shell) = shell else {
        return Ok(Status::Failed);
    };
    let mut text = Vec::new();
    clap_complete::generate(shell, &mut arguments::command(), "mewikofu", &mut text);
    out.write_all(&text)?;
    Ok(Status::Accepted)
}
