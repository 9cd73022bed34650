//! The command line: what can be asked, its help, and what was asked. Help, completion and man pages are all made from `command()`.

use crate::days::Rows;
use crate::layout::SCHEDULES;
use crate::output::{Format, Unit};
use clap::{value_parser, Arg, ArgAction, ArgGroup, ArgMatches, Command};
use std::ffi::OsString;
use std::path::PathBuf;

/// Where books are written.
#[derive(Clone, Debug, PartialEq, Eq)]
pub enum Books {
    None,
    Beside,
    In(PathBuf),
}

/// What was asked; each command reads what concerns it.
pub struct Options {
    pub files: Vec<OsString>,
    pub format: Format,
    pub unit: Unit,
    pub rows: Rows,
    pub books: Books,
    /// Lines and steps count from 0, schedules from 1.
    pub line: Option<usize>,
    pub step: Option<usize>,
    pub schedule: Option<usize>,
    pub all: bool,
    pub check: bool,
    pub output: Option<PathBuf>,
}

const ABOUT: &str =
    "Settles gas days with the proved engine, and explains, shows, makes and draws them";

const AFTER: &str = "\
A FILE named - is standard input. Lines and steps are counted from 0, as the programs settle and \
steps print them, and schedules from 1.

Exit status: 0 accepted; 1 refused, or not what the command reads; 2 usage, input or output error, \
or figures that don't fit together. With several files the worst of them counts.";

const SETTLE: &str = "\
Settles days. Of one day it prints the report, as the proved program `settle` does: each line's \
participant, point, side, steps and five payments, then totals and adjusted totals, in units of \
$0.0000001. Of several days it prints one row for each, in dollars, worked out on all cores; a day \
that is refused is reported and the rest go on.";

const UPLIFT: &str = "\
Says each schedule's uplift. A group is a longest run of neighbouring schedules whose totals are all \
above 0 or all below 0; its adjusted totals are shared out among its schedules as their totals are. \
Of one day it prints first what the proved program `uplift` does, the five shares in units of \
$0.0000001; then for each schedule its total, its adjusted total, the schedules of its group, its \
exact share (its total times the group's adjusted totals over the group's totals, cut off after four \
decimals of a unit) and its uplift; then the sums. Of several days it prints one row for each with \
the five shares, worked out on all cores; a day that is refused is reported and the rest go on.";

const STEPS: &str = "\
Prints every figure of every step, as the proved program `steps` does. After `line K` come \
participant, point, side and step count; after `step J` the upper end, the width and the effective \
actual A; then a row for each schedule: price, flag, O, E, AGINO, MSIQ, C, and the initial, \
revised, modified and final payment; then the ten matches m(1,2) m(1,3) m(2,3) m(1,4) .. m(4,5). \
After a line's last step come `excess pricing` and five quantities, `operating` and five, `actual` \
and one: what no step takes of its pricing totals, its operating totals and its effective actual.";

const CUT: &str = "\
Cuts a line's bids at every break and at the hedge, as the proved program `cut` does: each step's \
upper end and its five uncapped prices, then for each schedule the word of missing-price flags and \
how many are set. The cutter reads the line's own operating rows and no ad hoc record, so it may \
refuse, with 12, a line of a day that is accepted.";

const CHECK: &str = "\
Says of each day `accepted`, with each total above the greatest break of its line's bids, or the \
refusal: its number, which is the proved code's, and in words the line, bid, slot or ad hoc record, \
value and limit, which are the command's own finding.";

const EXPLAIN: &str = "\
Says in sentences why each payment of a day is what it is: the step's ends and prices, its \
quantities, its rise or fall and what that is matched with, the rate, whether it is paid, which \
rule of the final payment was taken and its arithmetic, and the sum up to the line's payment. \
Without --line all lines with a payment are explained, then totals, adjusted totals and uplift. Every figure is the proved code's; the \
arithmetic between them is worked out again and compared.";

const SHOW: &str = "\
Prints day files as text, from which `make` makes the same bytes. The table (--csv) has one row \
for each line of a day, then one for each ad hoc record.";

const MAKE: &str = "\
Makes the day file that a text says, also one that settling refuses: then the refusal is said and \
the exit status is 1.";

const BOOK: &str = "\
Prints book files, which `settle --books` writes: totals, adjusted totals and each line's payments.";

const DRAW: &str = "\
Draws a day as one page of HTML, which needs nothing but the file: a table of all lines' payments, \
with totals, adjusted totals and uplift; \
of the chosen line the ad hoc rows in force, its steps' rises and falls as bars with what was paid \
or charged, and its prices beside market price and cap. On the page another line can be chosen.";

const UNITS: &str = "\
Prices in whole units of $0.0001 per GJ and money in whole units of $0.0000001, as JSON always has \
them, instead of dollars";

pub fn command() -> Command {
    Command::new("mewikofu")
        .version(env!("CARGO_PKG_VERSION"))
        .about(ABOUT)
        .after_help(AFTER)
        .propagate_version(true)
        .max_term_width(100)
        .subcommand_required(true)
        .subcommands([
            settle(),
            uplift(),
            steps(),
            cut(),
            check(),
            explain(),
            show(),
            make(),
            book(),
            draw(),
        ])
        .subcommand(completion())
}

fn sub(name: &'static str, about: &'static str, long: &'static str) -> Command {
    Command::new(name)
        .about(about)
        .long_about(long)
        .after_help(AFTER)
}

fn file(what: &'static str, help: &'static str) -> Arg {
    Arg::new("files")
        .value_name(what)
        .help(help)
        .required(true)
        .value_parser(value_parser!(OsString))
}

fn files(what: &'static str, help: &'static str) -> Arg {
    file(what, help).action(ArgAction::Append).num_args(1..)
}

fn flag(name: &'static str, help: &'static str) -> Arg {
    Arg::new(name)
        .long(name)
        .help(help)
        .action(ArgAction::SetTrue)
}

fn index(name: &'static str, value: &'static str, help: &'static str) -> Arg {
    Arg::new(name)
        .long(name)
        .value_name(value)
        .help(help)
        .value_parser(value_parser!(usize))
}

fn path(name: &'static str, value: &'static str, help: &'static str) -> Arg {
    Arg::new(name)
        .long(name)
        .value_name(value)
        .help(help)
        .value_parser(value_parser!(PathBuf))
}

/// `--csv` or `--json`.
fn formats() -> [Arg; 2] {
    [
        flag("csv", "A table with a header row, for a spreadsheet").conflicts_with("json"),
        flag("json", "JSON, one object for each file"),
    ]
}

/// A command on days that has a row for each of them, or by the flag `whole` all there is of each.
fn of_days(command: Command, whole: &'static str, help: &'static str) -> Command {
    command
        .arg(files("DAY", "Day files"))
        .args(formats())
        .arg(flag("units", UNITS))
        .arg(flag(
            "days",
            "One row for each day, also where there is only one",
        ))
        .arg(flag(whole, help))
        .group(ArgGroup::new("rows").args(["days", whole]))
}

fn settle() -> Command {
    let lines = "Each day's whole book, also where there are several";
    let about = "Settles days: the report of one, or a table of many";
    of_days(sub("settle", about, SETTLE), "lines", lines)
        .arg(flag(
            "books",
            "Write each day's book beside it, with the ending .book",
        ))
        .arg(path(
            "books-in",
            "FOLDER",
            "Write the books into this folder",
        ))
        .group(ArgGroup::new("written").args(["books", "books-in"]))
}

fn uplift() -> Command {
    let schedules = "A row for each schedule of each day, also where there are several";
    let about = "Says each schedule's share of the adjusted totals";
    of_days(sub("uplift", about, UPLIFT), "schedules", schedules)
}

fn steps() -> Command {
    sub("steps", "Prints every figure of every step of a day", STEPS)
        .arg(files("DAY", "Day files"))
        .args(formats())
        .arg(flag("units", UNITS))
}

fn cut() -> Command {
    sub("cut", "Prints the steps of one line", CUT)
        .arg(files(
            "FILE",
            "Files of one line's 660 bytes; with --line day files",
        ))
        .arg(index("line", "K", "Cut line K, from 0, of a day"))
        .args(formats())
        .arg(flag("units", UNITS))
}

fn check() -> Command {
    sub(
        "check",
        "Says whether days are accepted, and if not why",
        CHECK,
    )
    .arg(files("DAY", "Day files"))
    .arg(flag(
        "all",
        "Every fault of the file and not only the first",
    ))
    .args(formats())
}

fn explain() -> Command {
    let schedule = Arg::new("schedule")
        .long("schedule")
        .value_name("S")
        .help("Only schedule S, 1 to 5")
        .value_parser(value_parser!(u64).range(1..=SCHEDULES as u64));
    sub("explain", "Says why a payment is what it is", EXPLAIN)
        .arg(file("DAY", "A day file"))
        .arg(index("line", "K", "Only line K, from 0"))
        .arg(index("step", "J", "Only step J, from 0, of that line").requires("line"))
        .arg(schedule)
        .args(formats())
        .arg(flag("units", UNITS).requires("csv"))
}

fn show() -> Command {
    sub("show", "Prints days as text, as a table or as JSON", SHOW)
        .arg(files("DAY", "Day files"))
        .args(formats())
        .arg(flag("units", UNITS))
}

fn make() -> Command {
    sub("make", "Makes a day file from text, a table or JSON", MAKE)
        .arg(file("TEXT", "The text of a day"))
        .arg(flag("csv", "It is a table with a row for each line").conflicts_with("json"))
        .arg(flag("json", "It is JSON"))
        .arg(path("output", "DAY", "Write the day to this file").short('o'))
        .arg(flag("check", "Write no day, but say whether it is accepted").conflicts_with("output"))
        .arg(flag("all", "With --check: every fault and not only the first").requires("check"))
}

fn book() -> Command {
    sub("book", "Prints a book", BOOK)
        .arg(files("BOOK", "Book files"))
        .args(formats())
        .arg(flag("units", UNITS))
}

fn draw() -> Command {
    sub("draw", "Draws a day as a page of HTML", DRAW)
        .arg(file("DAY", "A day file"))
        .arg(index(
            "line",
            "K",
            "Show line K, from 0, at first [default: 0]",
        ))
}

fn completion() -> Command {
    Command::new("completion")
        .about("Prints what a shell needs to complete this command's arguments")
        .arg(
            Arg::new("shell")
                .required(true)
                .value_parser(value_parser!(clap_complete::Shell)),
        )
}

impl Options {
    pub fn new(matches: &ArgMatches) -> Options {
        let files = matches.try_get_many::<OsString>("files").ok().flatten();
        let files: Vec<OsString> = files.map_or(Vec::new(), |files| files.cloned().collect());
        let set = |name: &str| {
            matches
                .try_get_one::<bool>(name)
                .ok()
                .flatten()
                .copied()
                .unwrap_or(false)
        };
        let number = |name: &str| matches.try_get_one::<usize>(name).ok().flatten().copied();
        let path = |name: &str| matches.try_get_one::<PathBuf>(name).ok().flatten().cloned();
        let format = match (set("csv"), set("json")) {
            (true, _) => Format::Csv,
            (_, true) => Format::Json,
            _ => Format::Text,
        };
        let rows = match (set("days"), set("lines") || set("schedules")) {
            (true, _) => Rows::Days,
            (_, true) => Rows::Whole,
            _ if files.len() == 1 => Rows::Whole,
            _ => Rows::Days,
        };
        let books = match (path("books-in"), set("books")) {
            (Some(folder), _) => Books::In(folder),
            (None, true) => Books::Beside,
            (None, false) => Books::None,
        };
        Options {
            files,
            format,
            unit: if set("units") {
                Unit::Units
            } else {
                Unit::Dollars
            },
            rows,
            books,
            line: number("line"),
            step: number("step"),
            schedule: matches
                .try_get_one::<u64>("schedule")
                .ok()
                .flatten()
                .map(|&s| s as usize),
            all: set("all"),
            check: set("check"),
            output: path("output"),
        }
    }
}
