//! Reading: file names or `-` for standard input, never more bytes than the command has use for.

use crate::layout::word;
use crate::outcome::{Problem, Result};
use std::ffi::OsStr;
use std::fs::File;
use std::io::{self, Read};
use std::path::{Path, PathBuf};

/// Of a line, a book and most days so many bytes are read at most. The longest accepted day has 44,360.
pub const MOST_DAY: usize = 65_536;

/// Bytes of the header's words up to the length.
const LENGTH_END: usize = 16;

/// No text of a day is longer.
const MOST_TEXT: usize = 16 << 20;

/// What was read of one file.
pub struct Input {
    /// As the messages name it.
    pub name: String,
    /// None for standard input.
    pub path: Option<PathBuf>,
    pub bytes: Vec<u8>,
    /// Whether the file was longer than is read of such a file. Its bytes are then one more than that, so that they are no file of the greatest length.
    pub more: bool,
}

/// A day. A header may bear out a length above `MOST_DAY`, as one with more than 64 ad hoc records does, so it is read up to there: where the file is
/// longer, its length isn't the header's, and that of the bytes isn't either.
pub fn read_day(name: &OsStr) -> Result<Input> {
    read(name, |first| match first.len() < LENGTH_END {
        true => MOST_DAY,
        false => MOST_DAY.max(word(first, 3) as usize),
    })
}

/// A line or a book.
pub fn read_part(name: &OsStr) -> Result<Input> {
    read(name, |_| MOST_DAY)
}

/// A text; one that is longer than any day's isn't taken.
pub fn read_text(name: &OsStr) -> Result<Input> {
    let input = read(name, |_| MOST_TEXT)?;
    match input.more {
        false => Ok(input),
        true => Err(Problem::failed(format!(
            "{}: more than {MOST_TEXT} bytes, and no day's text has so many",
            input.name
        ))),
    }
}

/// A file as messages and tables name it.
pub fn shown(name: &OsStr) -> String {
    match name == "-" {
        true => "standard input".to_string(),
        false => Path::new(name).display().to_string(),
    }
}

/// `most` answers how many bytes there are use for, from the first ones of the file.
fn read(name: &OsStr, most: fn(&[u8]) -> usize) -> Result<Input> {
    let path = (name != "-").then(|| PathBuf::from(name));
    let shown = shown(name);
    let read = match &path {
        Some(path) => File::open(path).and_then(|file| read_up_to(file, most)),
        None if crate::start::was_closed(0) => Err(io::Error::other("it is closed")),
        None => read_up_to(io::stdin().lock(), most),
    };
    match read {
        Ok((bytes, more)) => Ok(Input {
            name: shown,
            path,
            bytes,
            more,
        }),
        Err(error) => Err(Problem::failed(format!("{shown}: {error}"))),
    }
}

/// The first bytes and one more, and whether there is that one.
fn read_up_to(mut from: impl Read, most: fn(&[u8]) -> usize) -> io::Result<(Vec<u8>, bool)> {
    let mut bytes = Vec::new();
    from.by_ref()
        .take(LENGTH_END as u64)
        .read_to_end(&mut bytes)?;
    let most = most(&bytes);
    let rest = most + 1 - bytes.len();
    from.take(rest as u64).read_to_end(&mut bytes)?;
    let more = bytes.len() > most;
    Ok((bytes, more))
}
