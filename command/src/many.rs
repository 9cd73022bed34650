//! Days worked out on all cores, and their books written beside them.

use crate::arguments::{Books, Options};
use crate::input::{read_day, shown, Input};
use crate::outcome::{Problem, Result, Status};
use crate::refusals::{explain_day, Explained};
use crate::uplift::Uplift;
use indicatif::{ProgressBar, ProgressStyle};
use mewikofu::{Book, Refusal};
use rayon::prelude::*;
use serde_json::{json, Value};
use std::collections::{BTreeMap, BTreeSet};
use std::ffi::OsString;
use std::fs;
use std::path::{Path, PathBuf};

/// Why a day has no answer.
pub struct Stop {
    /// The refusal's number; none for an input or output error, or figures that don't fit together.
    pub number: Option<u32>,
    pub status: Status,
    pub message: String,
    pub explained: Option<Explained>,
}

impl Stop {
    /// For a table's cell.
    pub fn short(&self) -> String {
        match self.number {
            Some(number) => format!("refused {number}"),
            None => "not read".to_string(),
        }
    }

    pub fn json(&self, name: &str) -> Value {
        match &self.explained {
            Some(explained) => crate::check::refused_json(name, explained),
            None => json!({ "file": name, "error": self.message }),
        }
    }
}

impl From<Problem> for Stop {
    fn from(
        Problem {
            status, message, ..
        }: Problem,
    ) -> Stop {
        Stop {
            number: None,
            status,
            message,
            explained: None,
        }
    }
}

/// A file and what was worked out of it.
pub struct Settled<T> {
    pub name: String,
    pub answer: Answered<T>,
}

type Answered<T> = std::result::Result<T, Stop>;

/// The books of the files, written where that is asked.
pub fn settle(options: &Options) -> Result<Vec<Settled<Book>>> {
    let books = book_paths(options)?;
    Ok(each_day(&options.files, |k, input| {
        let book = book_of(input)?;
        if let Some(path) = &books[k] {
            replace(path, book.as_bytes())?;
        }
        Ok(book)
    }))
}

/// The uplift of the files.
pub fn uplift(options: &Options) -> Vec<Settled<Uplift>> {
    each_day(&options.files, |_, input| {
        let book = book_of(input)?;
        let shares = mewikofu::uplift(&input.bytes).map_err(|refusal| refused(input, refusal))?;
        let uplift = Uplift::new(&book, shares);
        uplift.map_err(|why| Stop::from(Problem::failed(format!("{}: {why}", input.name))))
    })
}

/// The files with their numbers from 0, in their order; refused ones and unreadable ones keep their places.
fn each_day<T: Send>(
    files: &[OsString],
    work: impl Fn(usize, &Input) -> Answered<T> + Sync,
) -> Vec<Settled<T>> {
    let bar = progress(files.len());
    let one = |(k, file): (usize, &OsString)| {
        let read = read_day(file).map_err(Stop::from);
        let settled = Settled {
            name: shown(file),
            answer: read.and_then(|input| work(k, &input)),
        };
        bar.inc(1);
        settled
    };
    let settled = files.par_iter().enumerate().map(one).collect();
    bar.finish_and_clear();
    settled
}

/// Shown on a terminal only.
fn progress(files: usize) -> ProgressBar {
    if files < 2 {
        return ProgressBar::hidden();
    }
    let style = ProgressStyle::with_template("{bar:40} {pos} of {len} days, {eta} left");
    let bar = ProgressBar::new(files as u64);
    match style {
        Ok(style) => bar.with_style(style),
        Err(_) => bar,
    }
}

fn book_of(input: &Input) -> Answered<Book> {
    mewikofu::settle(&input.bytes).map_err(|refusal| refused(input, refusal))
}

fn refused(input: &Input, refusal: Refusal) -> Stop {
    match explain_day(input, refusal) {
        Ok(explained) => Stop {
            number: Some(refusal.number()),
            status: Status::Refused,
            message: explained.first(),
            explained: Some(explained),
        },
        Err(problem) => Stop {
            number: Some(refusal.number()),
            ..Stop::from(problem)
        },
    }
}

/// Where each file's book goes. Two that would be written over one another are a wrong usage.
fn book_paths(options: &Options) -> Result<Vec<Option<PathBuf>>> {
    if options.books == Books::None {
        return Ok(vec![None; options.files.len()]);
    }
    let days: BTreeSet<PathBuf> = options
        .files
        .iter()
        .map(|day| canonical(Path::new(day)))
        .collect();
    let mut taken = BTreeMap::new();
    let mut paths = Vec::new();
    for file in &options.files {
        if file == "-" {
            return Err(Problem::failed(
                "a day from standard input has no place for its book; name its file",
            ));
        }
        let beside = Path::new(file).with_extension("book");
        let path = match &options.books {
            Books::In(folder) => folder.join(beside.file_name().unwrap_or_default()),
            _ => beside,
        };
        if days.contains(&canonical(&path)) {
            let book = path.display();
            return Err(Problem::failed(format!(
                "the book {book} would be written over a day"
            )));
        }
        if let Some(other) = taken.insert(path.clone(), file) {
            let (one, two) = (Path::new(other).display(), Path::new(file).display());
            return Err(Problem::failed(format!(
                "{one} and {two} would both have the book {}",
                path.display()
            )));
        }
        paths.push(Some(path));
    }
    Ok(paths)
}

/// One name for a file, or the name given where there is no such file.
pub fn canonical(path: &Path) -> PathBuf {
    path.canonicalize().unwrap_or_else(|_| path.to_path_buf())
}

/// Written under another name and renamed, so that a book is there whole or not at all.
pub fn replace(path: &Path, bytes: &[u8]) -> Result<()> {
    let mut name = path.as_os_str().to_owned();
    name.push(format!(".{}.part", std::process::id()));
    let part = PathBuf::from(name);
    let written = fs::write(&part, bytes).and_then(|()| fs::rename(&part, path));
    written.map_err(|error| {
        let _ = fs::remove_file(&part);
        Problem::failed(format!("{}: {error}", path.display()))
    })
}

/// The worst status. Every refusal and error is said on standard error, refusals not where the answer has them itself.
pub fn status<T>(settled: &[Settled<T>], said: bool) -> Status {
    let mut worst = Status::Accepted;
    for day in settled {
        if let Err(stop) = &day.answer {
            if stop.status == Status::Failed {
                Problem::failed(stop.message.clone()).report();
            } else if !said {
                Problem::refused(format!("{}: {}", day.name, stop.message)).report();
            }
            worst = worst.max(stop.status);
        }
    }
    worst
}
