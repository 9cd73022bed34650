//! Lists for a reader: words one after another, and numbers with those in a row as a range.

/// `1`, `1 and 2`, `1, 2 and 4`.
pub fn joined(words: &[String]) -> String {
    match words {
        [] => String::new(),
        [one] => one.clone(),
        [first @ .., last] => format!("{} and {last}", first.join(", ")),
    }
}

/// First and last of each run of rising numbers. Two in a row are two numbers.
fn runs(numbers: &[usize]) -> Vec<(usize, usize)> {
    let mut runs: Vec<(usize, usize)> = Vec::new();
    for &number in numbers {
        match runs.last_mut() {
            Some((_, last)) if *last + 1 == number => *last = number,
            _ => runs.push((number, number)),
        }
    }
    let apart = |(first, last)| match last - first {
        1 => vec![(first, first), (last, last)],
        _ => vec![(first, last)],
    };
    runs.into_iter().flat_map(apart).collect()
}

/// Each run as its number, or as first and last with a word between them.
pub fn ranges(numbers: &[usize], between: &str) -> Vec<String> {
    let range = |(first, last): (usize, usize)| match first == last {
        true => first.to_string(),
        false => format!("{first}{between}{last}"),
    };
    runs(numbers).into_iter().map(range).collect()
}

/// `3`, `1, 2 and 4 to 7`.
pub fn number_words(numbers: &[usize]) -> String {
    joined(&ranges(numbers, " to "))
}

/// `schedule 3`, `schedules 1 and 3 to 5`.
pub fn schedule_words(schedules: &[usize]) -> String {
    let name = if schedules.len() == 1 {
        "schedule"
    } else {
        "schedules"
    };
    format!("{name} {}", number_words(schedules))
}

/// `bid of schedule 3 was pulled`, `bids of schedules 3 to 5 were pulled`.
pub fn pulled_words(schedules: &[usize]) -> String {
    let (bids, were) = if schedules.len() == 1 {
        ("bid", "was")
    } else {
        ("bids", "were")
    };
    format!("{bids} of {} {were} pulled", schedule_words(schedules))
}

/// ` The bid of schedule 3 was pulled.`, to stand after other sentences; nothing where none was.
pub fn pulled_sentence(schedules: &[usize]) -> String {
    match schedules {
        [] => String::new(),
        pulled => format!(" The {}.", pulled_words(pulled)),
    }
}
