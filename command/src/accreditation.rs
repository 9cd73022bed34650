//! A line's accreditation: a set of schedules as text, such as `in 1,3..5`, and any accreditation in words. Schedules count from 1 here.

use crate::form::{read_schedules, NONE};
use crate::layout::{BySchedule, SCHEDULES};
use crate::lists::{ranges, schedule_words};
use mewikofu::Accreditation;

type Read<T> = Result<T, String>;

pub fn write_set(set: BySchedule<bool>) -> String {
    match &named(set)[..] {
        [] => format!("in {NONE}"),
        named => format!("in {}", ranges(named, "..").join(",")),
    }
}

/// The word of a set. Without `in` it has a comma or a range, since a single number is the word itself.
pub fn read_set(text: &str) -> Read<u32> {
    let (first, rest) = text.split_once(char::is_whitespace).unwrap_or((text, ""));
    match (first, rest.trim()) {
        ("in", "") => Err(format!(
            "'in' needs schedules, such as 'in 1,3..5'; the empty set is 'in {NONE}'"
        )),
        ("in", NONE) => word_of(&[]),
        ("in", list) => read_list(list),
        _ if text.contains(',') || text.contains("..") => read_list(text),
        _ => Err(format!(
            "'{text}' is not yes, no, a number or a set of schedules, such as 'in 1,3..5'"
        )),
    }
}

/// Schedules and ranges of them, in any order.
fn read_list(list: &str) -> Read<u32> {
    let mut named = Vec::new();
    for range in list.split(',') {
        if range.trim().is_empty() {
            return Err(format!(
                "'{list}' has an empty item, where a schedule or a range such as 2..4 must stand"
            ));
        }
        let (first, last) = read_schedules(range.trim())?;
        named.extend(first..=last);
    }
    word_of(&named)
}

/// The word of the set that has these schedules, each named once.
pub fn word_of(named: &[usize]) -> Read<u32> {
    let mut set = [false; SCHEDULES];
    for &schedule in named {
        if std::mem::replace(&mut set[schedule - 1], true) {
            return Err(format!("schedule {schedule} is named twice"));
        }
    }
    Ok(Accreditation::In(set).word())
}

/// The schedules that a set has.
pub fn named(set: BySchedule<bool>) -> Vec<usize> {
    (1..=SCHEDULES).filter(|s| set[s - 1]).collect()
}

/// `not accredited`, `accredited`, `accredited in schedules 1 and 3 to 5`.
pub fn words(accreditation: Accreditation) -> String {
    let set = match accreditation {
        Accreditation::No => return "not accredited".to_string(),
        Accreditation::Yes => return "accredited".to_string(),
        Accreditation::In(set) => named(set),
    };
    match &set[..] {
        [] => "accredited in no schedule".to_string(),
        set => format!("accredited in {}", schedule_words(set)),
    }
}
