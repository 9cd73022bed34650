//! How a run ends: 0 accepted, 1 refused, 2 usage, input or output error, or figures that don't fit together.

use std::io;
use std::process::ExitCode;

/// The worst of several is the run's.
#[derive(Clone, Copy, Debug, PartialEq, Eq, PartialOrd, Ord)]
pub enum Status {
    Accepted = 0,
    /// Refused by the table, or not what the command reads.
    Refused = 1,
    Failed = 2,
}

impl From<Status> for ExitCode {
    fn from(status: Status) -> ExitCode {
        ExitCode::from(status as u8)
    }
}

/// Why a file, or the run, ends early.
#[derive(Clone, Debug, PartialEq, Eq)]
pub struct Problem {
    pub status: Status,
    pub message: String,
    /// Whether the other files aren't looked at either: standard output is gone.
    pub last: bool,
}

pub type Result<T> = std::result::Result<T, Problem>;

impl Problem {
    pub fn refused(message: impl Into<String>) -> Problem {
        Problem {
            status: Status::Refused,
            message: message.into(),
            last: false,
        }
    }

    pub fn failed(message: impl Into<String>) -> Problem {
        Problem {
            status: Status::Failed,
            message: message.into(),
            last: false,
        }
    }

    /// Says it on standard error. If that is closed too, the status is all there is.
    pub fn report(&self) -> Status {
        use io::Write;
        let _ = writeln!(io::stderr(), "mewikofu: {}", self.message);
        self.status
    }
}

/// An error of standard output.
impl From<io::Error> for Problem {
    fn from(error: io::Error) -> Problem {
        Problem {
            last: true,
            ..Problem::failed(format!("standard output: {error}"))
        }
    }
}

/// One file after another; a file's problem is said and the rest go on.
pub fn each<T>(files: &[T], mut file: impl FnMut(&T) -> Result<()>) -> Result<Status> {
    let mut worst = Status::Accepted;
    for one in files {
        match file(one) {
            Ok(()) => {}
            Err(problem) if problem.last => return Err(problem),
            Err(problem) => worst = worst.max(problem.report()),
        }
    }
    Ok(worst)
}
