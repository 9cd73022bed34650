//! Single values of the text form, read into words and written from them.

use crate::accreditation::{read_set, write_set};
use crate::amounts::PRICE_PLACES;
use crate::form::{pulled_hint, Field, Kind, NONE};
use crate::layout::BID_SLOTS;
use crate::output::{Format, Unit};
use mewikofu::Accreditation;

type Read<T> = Result<T, String>;

/// The words of a key's values.
pub fn read_words(field: &Field, text: &str) -> Read<Vec<u32>> {
    if field.kind == Kind::Bid {
        return read_bid(field, text);
    }
    let values: Vec<&str> = match field.kind {
        // A set may have spaces in it.
        Kind::Accreditation if !text.trim().is_empty() => vec![text.trim()],
        _ => text.split_whitespace().collect(),
    };
    if values.len() != field.words {
        let (key, needed) = (field.key(), counted(field.words, "value"));
        return Err(format!("'{key}' needs {needed}, not {}", values.len()));
    }
    values.iter().map(|v| read_value(field.kind, v)).collect()
}

pub fn read_value(kind: Kind, text: &str) -> Read<u32> {
    match (kind, text) {
        (Kind::YesNo | Kind::Accreditation, "no") | (Kind::Side, "INJ") => Ok(0),
        (Kind::YesNo | Kind::Accreditation, "yes") | (Kind::Side, "WDR") => Ok(1),
        (Kind::YesNo, _) if !is_number(text) => Err(format!("'{text}' is not yes, no or a number")),
        (Kind::Accreditation, _) if !is_number(text) => read_set(text),
        (Kind::Side, _) if !is_number(text) => Err(format!("'{text}' is not INJ, WDR or a number")),
        (Kind::Price | Kind::Bid, _) => read_price(text),
        _ => read_number(text),
    }
}

pub fn counted(number: usize, thing: &str) -> String {
    let ending = if number == 1 { "" } else { "s" };
    format!("{number} {thing}{ending}")
}

/// Digits, with an underscore between two of them where one likes.
fn is_number(text: &str) -> bool {
    text.split('_').all(is_digits)
}

fn is_digits(text: &str) -> bool {
    !text.is_empty() && text.bytes().all(|byte| byte.is_ascii_digit())
}

fn too_large(text: &str) -> String {
    format!("{text} is too large for a word (at most {})", u32::MAX)
}

fn read_number(text: &str) -> Read<u32> {
    if text.starts_with('$') {
        return Err(format!("'{text}' is in dollars, but stands for no price"));
    }
    if !is_number(text) {
        return Err(format!("'{text}' is not a whole number"));
    }
    let digits = text.replace('_', "");
    digits.parse().map_err(|_| too_large(text))
}

/// A price in price units, or after a dollar sign in dollars.
fn read_price(text: &str) -> Read<u32> {
    match text.strip_prefix('$') {
        Some(dollars) => read_dollars(text, dollars),
        None => read_number(text),
    }
}

/// Exact, since a price unit is $0.0001 and at most four decimals are read.
fn read_dollars(text: &str, dollars: &str) -> Read<u32> {
    let (whole, decimals) = dollars.split_once('.').unwrap_or((dollars, "0"));
    if !is_number(whole) || !is_digits(decimals) {
        return Err(format!("'{text}' is not an amount in dollars"));
    }
    if decimals.len() > PRICE_PLACES {
        return Err(format!(
            "{text} has more than four decimals; a price unit is $0.0001"
        ));
    }
    let digits = format!("{whole}{decimals:0<PRICE_PLACES$}").replace('_', "");
    digits.parse().map_err(|_| too_large(text))
}

/// What a bid's step looks like.
const STEP: &str = "break@price, such as 1000@20000";

/// Rows of break@price, or `none`: the count, 11 breaks and 11 prices.
fn read_bid(field: &Field, text: &str) -> Read<Vec<u32>> {
    let key = field.key();
    let hint = pulled_hint(field.schedule.map_or(0, |s| s - 1), Format::Text);
    let spaced = text.replace('@', " @ ");
    let tokens: Vec<&str> = spaced.split_whitespace().collect();
    if tokens.is_empty() {
        return Err(format!("'{key}' has no value; a step is {STEP}{hint}"));
    }
    let tokens = if tokens == [NONE] { &[] } else { &tokens[..] };
    let count = tokens.len().div_ceil(3);
    if count > BID_SLOTS {
        return Err(format!("'{key}' has {count} steps; at most {BID_SLOTS}"));
    }
    let mut words = vec![0; 1 + 2 * BID_SLOTS];
    words[0] = count as u32;
    for (slot, step) in tokens.chunks(3).enumerate() {
        let &[end, "@", price] = step else {
            // A single word may be meant for a pulled bid.
            let hint = if tokens.len() == 1 { &hint } else { "" };
            return Err(format!("'{}' is not {STEP}{hint}", step.join(" ")));
        };
        words[1 + slot] = read_number(end)?;
        words[1 + BID_SLOTS + slot] = read_price(price)?;
    }
    Ok(words)
}

/// A value as the form writes it.
pub fn write_value(kind: Kind, value: u32, unit: Unit) -> String {
    match (kind, value) {
        (Kind::YesNo | Kind::Accreditation, 0) => "no".to_string(),
        (Kind::YesNo | Kind::Accreditation, 1) => "yes".to_string(),
        (Kind::Accreditation, _) => write_accreditation(value),
        (Kind::Side, 0) => "INJ".to_string(),
        (Kind::Side, 1) => "WDR".to_string(),
        (Kind::Price | Kind::Bid, _) if unit == Unit::Dollars => {
            let one = 10_u32.pow(PRICE_PLACES as u32);
            format!("${}.{:0PRICE_PLACES$}", value / one, value % one)
        }
        _ => value.to_string(),
    }
}

/// A set of schedules, or an improper word as a number.
fn write_accreditation(word: u32) -> String {
    match Accreditation::of_word(word) {
        Some(Accreditation::In(set)) => write_set(set),
        _ => word.to_string(),
    }
}

/// A bid as rows of break@price: the slots that its count names and those up to the last that isn't 0.
pub fn write_bid(words: &[u32], unit: Unit) -> String {
    let steps = listed_steps(words);
    if steps == 0 {
        return NONE.to_string();
    }
    let step = |slot| {
        let price = write_value(Kind::Price, words[1 + BID_SLOTS + slot], unit);
        format!("{}@{price}", words[1 + slot])
    };
    let rows: Vec<String> = (0..steps).map(step).collect();
    rows.join(" ")
}

/// How many slots of a bid are listed.
pub fn listed_steps(words: &[u32]) -> usize {
    let count = words[0] as usize;
    let named = if count <= BID_SLOTS { count } else { 0 };
    let filled = |&slot: &usize| words[1 + slot] != 0 || words[1 + BID_SLOTS + slot] != 0;
    let last = (0..BID_SLOTS).rev().find(filled);
    named.max(last.map_or(0, |slot| slot + 1))
}
