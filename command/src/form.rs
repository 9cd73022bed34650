//! The text form: its sections, their keys, and the words of the day file that each key gives.

use crate::layout::*;
use crate::output::Format;

/// A text has at most so many lines, and so many ad hoc records: more than a day may have, so that the refusal can be tried.
pub const MOST_TEXT_LINES: usize = 99;
pub const MOST_TEXT_RECORDS: usize = 99;

/// What stands for a bid without steps, which is a pulled one, for a set without schedules, and as the line of an ad hoc section for no record.
pub const NONE: &str = "none";

/// How a pulled bid is written, to stand after a message on the bid of a schedule, from 0; nothing where that can't be pulled.
pub fn pulled_hint(bid: usize, format: Format) -> String {
    match (can_be_pulled(bid), format) {
        (false, _) => String::new(),
        (true, Format::Json) => "; a pulled bid is []".to_string(),
        (true, _) => format!("; a pulled bid is '{NONE}'"),
    }
}

#[derive(Clone, Copy, Debug, PartialEq, Eq)]
pub enum Section {
    Header,
    Market,
    Line,
    AdHoc,
}

/// How a key's values are written.
#[derive(Clone, Copy, Debug, PartialEq, Eq)]
pub enum Kind {
    Number,
    Price,
    YesNo,
    Accreditation,
    Side,
    Bid,
}

/// One key of a section.
#[derive(Clone, Copy, Debug, PartialEq, Eq)]
pub struct Field {
    pub name: &'static str,
    /// 1 to 5, for a key that has one row for each schedule.
    pub schedule: Option<usize>,
    /// Word place of the first value in the header, the market table, the line or the ad hoc record.
    pub place: usize,
    pub words: usize,
    pub kind: Kind,
    pub required: bool,
}

impl Section {
    pub const ALL: [Section; 4] = [
        Section::Header,
        Section::Market,
        Section::Line,
        Section::AdHoc,
    ];

    pub fn heading(self) -> &'static str {
        match self {
            Section::Header => "[header]",
            Section::Market => "[market]",
            Section::Line => "[line]",
            Section::AdHoc => "[ad hoc]",
        }
    }

    /// The section's keys, in the order in which they are shown.
    pub fn fields(self) -> Vec<Field> {
        match self {
            Section::Header => header_fields(),
            Section::Market => market_fields(),
            Section::Line => line_fields(),
            Section::AdHoc => ad_hoc_fields(),
        }
    }

    /// How often the section may stand in a text.
    pub fn most(self) -> usize {
        match self {
            Section::Header | Section::Market => 1,
            Section::Line => MOST_TEXT_LINES,
            Section::AdHoc => MOST_TEXT_RECORDS,
        }
    }
}

impl Field {
    /// The key as written, with its schedule.
    pub fn key(&self) -> String {
        match self.schedule {
            Some(schedule) => format!("{} {schedule}", self.name),
            None => self.name.to_string(),
        }
    }
}

fn single(name: &'static str, place: usize, kind: Kind) -> Field {
    row(name, place, 1, kind)
}

fn row(name: &'static str, place: usize, words: usize, kind: Kind) -> Field {
    Field {
        name,
        schedule: None,
        place,
        words,
        kind,
        required: true,
    }
}

/// One row for each schedule; `row` has the place and the words of schedule s, from 0.
fn rows(name: &'static str, kind: Kind, row: fn(usize) -> (usize, usize)) -> Vec<Field> {
    let field = |s| {
        let (place, words) = row(s);
        Field {
            name,
            schedule: Some(s + 1),
            place,
            words,
            kind,
            required: true,
        }
    };
    (0..SCHEDULES).map(field).collect()
}

/// The last two are those of a header with ad hoc records.
fn header_fields() -> Vec<Field> {
    const NAMES: [&str; AD_HOC_MARKET_OFFSET / 4] = [
        "lines",
        "market_offset",
        "lines_offset",
        "length",
        "records",
        "records_offset",
    ];
    let field = |(place, name)| Field {
        required: !is_ad_hoc_word(place),
        ..single(name, place, Kind::Number)
    };
    NAMES.into_iter().enumerate().map(field).collect()
}

/// Whether only a header with ad hoc records has a word at this place.
pub const fn is_ad_hoc_word(place: usize) -> bool {
    place >= MARKET_OFFSET / 4
}

fn market_fields() -> Vec<Field> {
    vec![
        row("price", MARKET_PRICE, SCHEDULES, Kind::Price),
        row("capped", CAP_MARK, SCHEDULES, Kind::YesNo),
        single("apc", PRICE_CAP, Kind::Price),
        single("clawback", CLAWBACK, Kind::YesNo),
    ]
}

fn line_fields() -> Vec<Field> {
    let heading = vec![
        single("participant", PARTICIPANT, Kind::Number),
        single("point", POINT, Kind::Number),
        single("side", SIDE, Kind::Side),
        single("accredited", ACCREDITATION, Kind::Accreditation),
        single("hedge", HEDGE, Kind::Number),
    ];
    let actual = row("actual", actual_place(0), SCHEDULES, Kind::Number);
    let pricing = |s| (pricing_place(s, s), SCHEDULES - s);
    let operating = |s| (operating_place(s, 0), SCHEDULES);
    [
        heading,
        rows("bid", Kind::Bid, |s| (count_place(s), BID_WORDS)),
        counts(),
        rows("pricing", Kind::Number, pricing),
        rows("operating", Kind::Number, operating),
        vec![actual],
    ]
    .concat()
}

fn ad_hoc_fields() -> Vec<Field> {
    let quantities = row("operating", AD_HOC_QUANTITIES, SCHEDULES, Kind::Number);
    vec![
        single("line", AD_HOC_LINE, Kind::Number),
        single("schedule", AD_HOC_SCHEDULE, Kind::Number),
        single("order", AD_HOC_ORDER, Kind::Number),
        quantities,
    ]
}

/// A bid's count where it isn't that of the bid's steps. These come after the bids, which write the count too.
fn counts() -> Vec<Field> {
    let mut fields = rows("count", Kind::Number, |s| (count_place(s), 1));
    for field in &mut fields {
        field.required = false;
    }
    fields
}

/// A schedule or a range of them, as in `2` and `2..4`.
pub fn read_schedules(text: &str) -> Result<(usize, usize), String> {
    let (first, last) = text.split_once("..").unwrap_or((text, text));
    match (read_schedule(first.trim()), read_schedule(last.trim())) {
        (Some(first), Some(last)) if first <= last => Ok((first, last)),
        (Some(first), Some(last)) => Err(format!(
            "'{text}' falls; a range of schedules rises, such as {last}..{first}"
        )),
        _ => Err(format!(
            "'{text}' is no schedule; they are 1 to 5, or a range such as 2..4"
        )),
    }
}

fn read_schedule(text: &str) -> Option<usize> {
    let is_digits = text.bytes().all(|byte| byte.is_ascii_digit());
    let schedule = text.parse().ok().filter(|_| is_digits);
    schedule.filter(|s| (1..=SCHEDULES).contains(s))
}
