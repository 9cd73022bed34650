//! Days as JSON, there and back.

use super::{layout, lines, not_said};
use crate::accreditation::{named, word_of};
use crate::ad_hoc::{self, Record};
use crate::arguments::Options;
use crate::form::{pulled_hint, Kind};
use crate::input::read_day;
use crate::layout::*;
use crate::outcome::{each, Result, Status};
use crate::output::{put_json, Format};
use crate::values::read_value;
use mewikofu::Accreditation;
use serde_json::{json, Map, Value};
use std::io::Write;

/// Or where and what is wrong.
type Read<T> = std::result::Result<T, String>;

pub fn show(options: &Options, out: &mut dyn Write) -> Result<Status> {
    each(&options.files, |file| {
        let input = read_day(file)?;
        let layout = layout(&input.bytes);
        let value = layout.map(|layout| day_json(&input.name, &input.bytes, &layout));
        match value.filter(|value| make_value(value).as_ref() == Ok(&input.bytes)) {
            Some(value) => put_json(out, &value, options.files.len() == 1),
            None => Err(not_said(&input)),
        }
    })
}

/// Quantities in MJ, prices in $0.0001 per GJ. Pricing row s is for the intervals s to 5.
fn day_json(name: &str, day: &[u8], layout: &Layout) -> Value {
    let market = layout.market(day);
    let capped: Vec<Value> = (0..SCHEDULES)
        .map(|s| yes_no(word(market, CAP_MARK + s)))
        .collect();
    let market = json!({
        "price": five(&|s| MARKET_PRICE + s, market), "capped": capped,
        "apc": word(market, PRICE_CAP), "clawback": yes_no(word(market, CLAWBACK)),
    });
    let lines: Vec<Value> = lines(day, layout).map(line_json).collect();
    let mut value =
        json!({ "file": name, "price_unit": PRICE_UNIT, "market": market, "lines": lines });
    if layout.records.is_some() {
        let records = ad_hoc::records(day, layout);
        value[AD_HOC] = records.iter().map(record_json).collect();
    }
    value
}

/// The five words that stand so.
fn five(place: &dyn Fn(usize) -> usize, bytes: &[u8]) -> Vec<u32> {
    (0..SCHEDULES).map(|s| word(bytes, place(s))).collect()
}

fn line_json(line: &[u8]) -> Value {
    let bid = |s: usize| -> Vec<Value> {
        let count = (word(line, count_place(s)) as usize).min(BID_SLOTS);
        (0..count).map(|k| json!({ "break": word(line, break_place(s, k)), "price": word(line, price_place(s, k)) })).collect()
    };
    let pricing = |s: usize| -> Vec<u32> {
        (s..SCHEDULES)
            .map(|i| word(line, pricing_place(s, i)))
            .collect()
    };
    json!({
        "participant": word(line, PARTICIPANT), "point": word(line, POINT), "side": side_name(word(line, SIDE)),
        "accredited": accredited(word(line, ACCREDITATION)), "hedge": word(line, HEDGE),
        "bids": (0..SCHEDULES).map(bid).collect::<Vec<_>>(),
        "pricing": (0..SCHEDULES).map(pricing).collect::<Vec<_>>(),
        "operating": (0..SCHEDULES).map(|s| five(&|i| operating_place(s, i), line)).collect::<Vec<_>>(),
        "actual": five(&actual_place, line),
    })
}

/// The name of the array of ad hoc records; a day without it is in the layout without them.
const AD_HOC: &str = "ad_hoc";

/// Line from 0, schedule from 1, as in the file.
fn record_json(record: &Record) -> Value {
    let Record {
        line,
        schedule,
        order,
        quantities,
    } = record;
    json!({ "line": line, "schedule": schedule, "order": order, "operating": quantities })
}

const PRICE_UNIT: &str = "$0.0001/GJ";

fn yes_no(word: u32) -> Value {
    match word {
        0 => false.into(),
        1 => true.into(),
        other => other.into(),
    }
}

/// A set is an array of its schedules, from 1.
fn accredited(word: u32) -> Value {
    match Accreditation::of_word(word) {
        Some(Accreditation::In(set)) => named(set).into(),
        _ => yes_no(word),
    }
}

/// The day that JSON says.
pub fn make(text: &[u8]) -> Read<Vec<u8>> {
    let value: Value = serde_json::from_slice(text).map_err(|error| error.to_string())?;
    make_value(&value)
}

fn make_value(value: &Value) -> Read<Vec<u8>> {
    let day = Part {
        value,
        path: String::new(),
    };
    let fields = day.fields(&["market", "lines"], &["file", "price_unit", AD_HOC])?;
    if let Some(unit) = fields.get("price_unit").filter(|unit| **unit != PRICE_UNIT) {
        return Err(format!("price_unit: {unit} isn't \"{PRICE_UNIT}\""));
    }
    let lines = day.part("lines");
    let count = lines.value.as_array().map_or(0, Vec::len);
    if !(1..=MOST_LINES).contains(&count) {
        return Err(format!("lines: a day has 1 to 64 lines, not {count}"));
    }
    let records = match fields.contains_key(AD_HOC) {
        true => Some(day.part(AD_HOC).records()?),
        false => None,
    };
    let layout = Layout {
        lines: count,
        records: records.as_ref().map(Vec::len),
    };
    let mut bytes = layout.empty_day();
    put_market(&mut bytes[layout.market_at()..], &day.part("market"))?;
    for (k, line) in lines.items(count)?.iter().enumerate() {
        put_line(&mut bytes[layout.line_at(k)..], line)?;
    }
    for (j, record) in records.iter().flatten().enumerate() {
        put_record(&mut bytes[layout.record_at(j)..], record)?;
    }
    Ok(bytes)
}

fn put_market(bytes: &mut [u8], market: &Part) -> Read<()> {
    market.fields(&["price", "capped", "apc", "clawback"], &[])?;
    let (price, capped) = (market.part("price"), market.part("capped"));
    price.put_row(bytes, MARKET_PRICE, SCHEDULES, Kind::Price)?;
    capped.put_row(bytes, CAP_MARK, SCHEDULES, Kind::YesNo)?;
    put_word(bytes, PRICE_CAP, market.part("apc").word(Kind::Price)?);
    put_word(bytes, CLAWBACK, market.part("clawback").word(Kind::YesNo)?);
    Ok(())
}

fn put_record(bytes: &mut [u8], record: &Part) -> Read<()> {
    record.fields(&["line", "schedule", "order", "operating"], &[])?;
    for (place, name) in [
        (AD_HOC_LINE, "line"),
        (AD_HOC_SCHEDULE, "schedule"),
        (AD_HOC_ORDER, "order"),
    ] {
        put_word(bytes, place, record.part(name).word(Kind::Number)?);
    }
    let quantities = record.part("operating");
    quantities.put_row(bytes, AD_HOC_QUANTITIES, SCHEDULES, Kind::Number)
}

fn put_line(bytes: &mut [u8], line: &Part) -> Read<()> {
    let names = [
        "participant",
        "point",
        "side",
        "accredited",
        "hedge",
        "bids",
        "pricing",
        "operating",
        "actual",
    ];
    line.fields(&names, &[])?;
    let kinds = [
        Kind::Number,
        Kind::Number,
        Kind::Side,
        Kind::Accreditation,
        Kind::Number,
    ];
    for (place, (name, kind)) in names.iter().zip(kinds).enumerate() {
        put_word(bytes, place, line.part(name).word(kind)?);
    }
    for (s, bid) in line.part("bids").items(SCHEDULES)?.iter().enumerate() {
        let Some(count) = bid.value.as_array().map(Vec::len) else {
            let hint = pulled_hint(s, Format::Json);
            return Err(format!("{}: not an array of steps{hint}", bid.path));
        };
        if count > BID_SLOTS {
            return Err(format!("{}: {count} steps; at most {BID_SLOTS}", bid.path));
        }
        put_word(bytes, count_place(s), count as u32);
        for (k, step) in bid.items(count)?.iter().enumerate() {
            step.fields(&["break", "price"], &[])?;
            put_word(
                bytes,
                break_place(s, k),
                step.part("break").word(Kind::Number)?,
            );
            put_word(
                bytes,
                price_place(s, k),
                step.part("price").word(Kind::Price)?,
            );
        }
    }
    for (s, row) in line.part("pricing").items(SCHEDULES)?.iter().enumerate() {
        row.put_row(bytes, pricing_place(s, s), SCHEDULES - s, Kind::Number)?;
    }
    for (s, row) in line.part("operating").items(SCHEDULES)?.iter().enumerate() {
        row.put_row(bytes, operating_place(s, 0), SCHEDULES, Kind::Number)?;
    }
    line.part("actual")
        .put_row(bytes, actual_place(0), SCHEDULES, Kind::Number)
}

/// A value and its path, such as `lines[2].bids[0]`.
struct Part<'a> {
    value: &'a Value,
    path: String,
}

impl<'a> Part<'a> {
    /// The object's fields: the needed ones are there, others aren't unless they may be.
    fn fields(&self, needed: &[&str], other: &[&str]) -> Read<&'a Map<String, Value>> {
        let at = if self.path.is_empty() {
            "the day"
        } else {
            &self.path
        };
        let fields = self
            .value
            .as_object()
            .ok_or_else(|| format!("{at}: not an object"))?;
        if let Some(name) = needed.iter().find(|name| !fields.contains_key(**name)) {
            return Err(format!("{at}: has no \"{name}\""));
        }
        match fields
            .keys()
            .find(|key| !needed.contains(&key.as_str()) && !other.contains(&key.as_str()))
        {
            Some(key) => Err(format!("{at}: unknown \"{key}\"")),
            None => Ok(fields),
        }
    }

    fn part(&self, name: &str) -> Part<'a> {
        let path = if self.path.is_empty() {
            name.to_string()
        } else {
            format!("{}.{name}", self.path)
        };
        Part {
            value: &self.value[name],
            path,
        }
    }

    fn items(&self, count: usize) -> Read<Vec<Part<'a>>> {
        match self.value.as_array() {
            Some(items) if items.len() == count => {
                let part = |(k, value)| Part {
                    value,
                    path: format!("{}[{k}]", self.path),
                };
                Ok(items.iter().enumerate().map(part).collect())
            }
            Some(items) => Err(format!(
                "{}: needs {count} values, not {}",
                self.path,
                items.len()
            )),
            None => Err(format!("{}: not an array", self.path)),
        }
    }

    /// The items of the array of ad hoc records.
    fn records(&self) -> Read<Vec<Part<'a>>> {
        let count = self.value.as_array().map_or(0, Vec::len);
        match count <= MOST_AD_HOC {
            true => self.items(count),
            false => Err(format!(
                "{}: a day has at most {MOST_AD_HOC} ad hoc records, not {count}",
                self.path
            )),
        }
    }

    /// A number of 32 bits; true, false, a set of schedules, "INJ" and "WDR" where they are meant.
    fn word(&self, kind: Kind) -> Read<u32> {
        match (self.value, kind) {
            (Value::Bool(value), Kind::YesNo | Kind::Accreditation) => Ok(u32::from(*value)),
            (Value::Array(items), Kind::Accreditation) => self.set(items.len()),
            (Value::String(text), Kind::Side) => {
                read_value(kind, text).map_err(|message| format!("{}: {message}", self.path))
            }
            (value, _) => {
                let word = value.as_u64().and_then(|value| u32::try_from(value).ok());
                let taken = match kind {
                    Kind::Accreditation => {
                        "true, false, an array of schedules or a whole number of 32 bits"
                    }
                    _ => "a whole number of 32 bits",
                };
                word.ok_or_else(|| format!("{}: {value} isn't {taken}", self.path))
            }
        }
    }

    /// The word of a set of so many schedules.
    fn set(&self, count: usize) -> Read<u32> {
        let items = self.items(count)?;
        let named: Vec<usize> = items.iter().map(Part::schedule).collect::<Read<_>>()?;
        word_of(&named).map_err(|message| format!("{}: {message}", self.path))
    }

    fn schedule(&self) -> Read<usize> {
        let number = self.value.as_u64().map(|number| number as usize);
        let schedule = number.filter(|number| (1..=SCHEDULES).contains(number));
        schedule.ok_or_else(|| {
            format!(
                "{}: {} is no schedule; they are 1 to 5",
                self.path, self.value
            )
        })
    }

    fn put_row(&self, bytes: &mut [u8], place: usize, count: usize, kind: Kind) -> Read<()> {
        for (k, item) in self.items(count)?.iter().enumerate() {
            put_word(bytes, place + k, item.word(kind)?);
        }
        Ok(())
    }
}
