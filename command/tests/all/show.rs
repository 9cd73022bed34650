//! From day files to text and back.

use crate::{
    accreditation_words, accredited_schedules, example_text, k10_accredited, k10_pulled, pull, run,
    sets_of_reschedules, stored, with_pulled,
};
use mewikofu_command::make::make;
use mewikofu_command::output::Unit;
use mewikofu_command::show::show;
use reference::generate::{damaged_day, edge_days, excess_day, valid_day};
use reference::layout::{put_word, word};
use reference::refusal::day_number;
use std::collections::BTreeSet;

/// In the layout without ad hoc records, or by the header's counts in the one with them.
fn has_shape(day: &[u8]) -> bool {
    let Some(bytes) = day.len().checked_sub(64) else {
        return false;
    };
    let [lines, records] = [0, 4].map(|place| word(day, place) as usize);
    let has_records = day.len() == 72 + 660 * lines + 32 * records && lines.max(records) <= 99;
    (bytes.is_multiple_of(660) && bytes <= 660 * 99) || has_records
}

/// Shows a day in both units, makes it again and compares; a day of another shape isn't shown.
fn round_trip(day: &[u8]) {
    for unit in [Unit::Units, Unit::Dollars] {
        match show(day, unit) {
            Ok(text) => {
                assert!(make(text.as_bytes()).unwrap() == day, "{text}");
            }
            Err(_) => assert!(!has_shape(day), "{} bytes", day.len()),
        }
    }
}

#[test]
fn valid_days() {
    (0..500).map(valid_day).for_each(|day| round_trip(&day));
    (0..200).map(excess_day).for_each(|day| round_trip(&day));
}

/// Damaged days with each number that a file can have except 1, whose shape can't be shown.
#[test]
fn damaged_days() {
    let days: Vec<Vec<u8>> = (0..2000).map(damaged_day).collect();
    days.iter().for_each(|day| round_trip(day));
    let shown: Vec<&Vec<u8>> = days.iter().filter(|day| has_shape(day)).collect();
    let numbers: BTreeSet<u32> = shown.iter().map(|day| day_number(day)).collect();
    assert!(shown.len() >= 500);
    assert!(numbers.into_iter().eq([0].into_iter().chain(2..=14)));
}

/// Every length from 0 to 800, each word of K10's day as 0xFFFFFFFF, 65 lines.
#[test]
fn edges() {
    edge_days().into_iter().for_each(|day| round_trip(&day));
}

/// Any word at any place.
#[test]
fn single_words() {
    let k10 = stored("examples/k10.day");
    for place in 0..k10.len() / 4 {
        for value in [0, 1, 2, 3, 11, 12, 10_000, 123_456_789, u32::MAX] {
            let mut day = k10.clone();
            put_word(&mut day, place, value);
            round_trip(&day);
        }
    }
}

/// Every accreditation word is shown and made again; a set names its schedules, neighbours of three and more as a range.
#[test]
fn accreditation() {
    for word in accreditation_words() {
        let day = k10_accredited(word);
        round_trip(&day);
        let text = show(&day, Unit::Dollars).unwrap();
        let row = text.lines().find(|row| row.starts_with("accredited = "));
        let value = row.unwrap().strip_prefix("accredited = ").unwrap();
        let schedules = accredited_schedules(word);
        let expected = match word {
            0 => "no".to_string(),
            1 => "yes".to_string(),
            32 => "in none".to_string(),
            33..=63 => {
                let list: Vec<String> = schedules.iter().map(usize::to_string).collect();
                let list = format!("in {}", list.join(","));
                // The longest first.
                let ranges = ["1,2,3,4,5", "1,2,3,4", "2,3,4,5", "1,2,3", "2,3,4", "3,4,5"];
                ranges.iter().fold(list, |list, range| {
                    let short = format!("{}..{}", &range[..1], &range[range.len() - 1..]);
                    list.replace(range, &short)
                })
            }
            other => other.to_string(),
        };
        assert_eq!(value, expected, "{word}");
    }
    let shown = |word| {
        let text = show(&k10_accredited(word), Unit::Units).unwrap();
        let row = text.lines().find(|row| row.starts_with("accredited"));
        row.unwrap().to_string()
    };
    assert_eq!(shown(35), "accredited = in 1,2");
    assert_eq!(shown(61), "accredited = in 1,3..5");
    assert_eq!(shown(63), "accredited = in 1..5");
}

/// A pulled bid is shown as such, one with a slot that isn't 0 by its steps and its count.
#[test]
fn pulled_bids() {
    for set in sets_of_reschedules() {
        let day = k10_pulled(&set);
        round_trip(&day);
        let text = show(&day, Unit::Units).unwrap();
        for s in 1..=5 {
            let bid = match set.contains(&s) {
                true => "none",
                false => "1000@20000 3000@50000",
            };
            assert!(text.contains(&format!("\nbid {s} = {bid}\n")), "{text}");
        }
        assert!(!text.contains("count"), "{text}");
        for place in (0..23 * 5).map(|place| 5 + place) {
            let mut day = day.clone();
            put_word(&mut day[64..], place, 7);
            round_trip(&day);
        }
    }
    (0..200).for_each(|seed| round_trip(&with_pulled(valid_day(seed), seed)));
    let mut day = k10_pulled(&[2, 4]);
    put_word(&mut day[64..], 28 + 12, 9);
    put_word(&mut day[64..], 74, 2);
    pull(&mut day[64..], 1);
    round_trip(&day);
    let text = show(&day, Unit::Units).unwrap();
    for rows in [
        "\nbid 1 = none\nbid 2 = 0@9\n",
        "\nbid 4 = 0@0 0@0\n",
        "\ncount 2 = 0\npricing 1",
    ] {
        assert!(text.contains(rows), "{rows}\n{text}");
    }
}

/// K10's day as shown has the rows of the example without its comments, one schedule a row.
#[test]
fn k10() {
    let text = run(&["show", "--units"], &stored("examples/k10.day")).text();
    let rows: Vec<&str> = text.lines().filter(|row| !row.starts_with('#')).collect();
    for row in [
        "price = 30000 30000 30000 30000 30000",
        "clawback = no",
        "participant = 7",
        "side = INJ",
        "accredited = yes",
        "bid 5 = 1000@20000 3000@50000",
        "pricing 1 = 1000    0    0    0    0",
        "pricing 2 =         0    0    0    0",
        "operating 3 = 1000 1000    0    0    0",
        "actual = 1000  500    0    0    0",
    ] {
        assert!(rows.contains(&row), "{row}\n{text}");
    }
    assert!(!text.contains("[header]") && !text.contains("count"));
    let dollars = run(&["show"], &stored("examples/k10.day")).text();
    assert!(dollars.contains("price = $3.0000 $3.0000 $3.0000 $3.0000 $3.0000\n"));
    assert!(dollars.contains("bid 1 = 1000@$2.0000 3000@$5.0000\n"));
    assert_eq!(make(dollars.as_bytes()), make(example_text().as_bytes()));
}

/// What only a refused day has: other header words, counts and slots beyond a bid's steps.
#[test]
fn refused_parts() {
    let mut day = stored("examples/k10.day");
    put_word(&mut day, 1, 20);
    let line = &mut day[64..];
    put_word(line, 2, 1);
    put_word(line, 5, 3);
    put_word(line, 28, 1);
    put_word(line, 51, 4_294_967_295);
    let text = run(&["show", "--units"], &day).text();
    for row in [
        "[header]\nlines = 1\nmarket_offset = 20\nlines_offset = 64\nlength = 724\n",
        "\nside = WDR\n",
        "\nbid 1 = 1000@20000 3000@50000 0@0\n",
        "\nbid 2 = 1000@20000 3000@50000\n",
        "\ncount 2 = 1\ncount 3 = 4294967295\n",
    ] {
        assert!(text.contains(row), "{row}\n{text}");
    }
    assert!(!text.contains("count 1"));
}

#[test]
fn files_of_another_shape() {
    let cases = [
        (0, "0 bytes"),
        (1, "1 byte"),
        (63, "63 bytes"),
        (723, "723 bytes"),
    ];
    let more = [(64 + 660 * 100, "more than 65536 bytes")];
    for (length, size) in cases.into_iter().chain(more) {
        let message = run(&["show"], &vec![0; length]).failure();
        let lines = "660 for each of at most 99 lines";
        let records = "32 for each of at most 99 ad hoc records";
        let shape = format!("its bytes must be 64 and {lines}, or 72, {lines} and {records}");
        assert_eq!(
            message,
            format!("a file of {size} can't be shown: {shape}\n")
        );
    }
}
