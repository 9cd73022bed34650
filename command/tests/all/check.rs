//! Refusals in words.

use crate::draw::{example, EXAMPLES};
use crate::{
    accreditation_words, actual_word, days, example_text, k10_accredited, k10_each_excess,
    k10_pulled, k10_with, operating_word, pricing_word, pull, run, sets_of_reschedules, stored,
    with_pulled, with_sets,
};
use mewikofu::Refusal;
use mewikofu_command::amounts::grouped;
use mewikofu_command::excess;
use mewikofu_command::figures::Figures;
use mewikofu_command::input::Input;
use mewikofu_command::outcome::Status;
use mewikofu_command::refusals::{cut_faults, day_faults, explain_day};
use reference::generate::{
    damaged_day, damaged_day_and_number, damaged_line, edge_days, excess_day, excess_fault_day,
    excess_fault_line, small_excess_day, valid_day,
};
use reference::layout::put_word;
use std::collections::{BTreeMap, BTreeSet};

/// What `check` says of a refused day.
fn refused(arguments: &[&str], day: &[u8]) -> String {
    let run = run(arguments, day);
    assert_eq!((run.status, run.message.as_str()), (1, ""));
    let text = String::from_utf8(run.out).unwrap();
    text.strip_prefix("standard input: ").unwrap().to_string()
}

#[test]
fn accepted() {
    let text = run(&["make", "--check"], example_text().as_bytes()).text();
    assert_eq!(text, "standard input: accepted\n");
    let with_excess = ["excess", "ad-hoc", "open-rises"];
    for name in EXAMPLES.iter().filter(|name| !with_excess.contains(name)) {
        assert_eq!(
            run(&["check"], &example(name)).text(),
            "standard input: accepted\n"
        );
    }
}

/// Of an accepted day the text says what is above a greatest break; table and JSON say the same as of any accepted day.
#[test]
fn excess_of_accepted_days() {
    let said = run(&["check", "--all"], &k10_each_excess()).text();
    let words = "the operating total (by 900 MJ in schedule 5), the pricing total (by 1 MJ in schedule 2 and 1,000 MJ in schedule 3) \
                 and the effective actual (by 700 MJ) are above the greatest break of the line's bids, 3,000 MJ";
    assert_eq!(said, format!("standard input: accepted; line 0: {words}\n"));
    for format in ["--csv", "--json"] {
        let said = run(&["check", format], &k10_each_excess()).text();
        let without = run(&["check", format], &stored("examples/k10.day")).text();
        assert_eq!(said, without);
    }
    // The views of all lines.
    let mut counts = [0; 2];
    let days = (0..40).flat_map(|seed| [excess_day(seed), small_excess_day(seed), valid_day(seed)]);
    for day in days.chain(["excess", "ad-hoc", "open-rises"].map(example)) {
        let figures = Figures::new(&day).unwrap();
        let mut expected = String::from("standard input: accepted");
        for (k, line) in figures.lines.iter().enumerate() {
            let words = excess::statement(line, |value| format!("{} MJ", grouped(value.into())));
            counts[usize::from(words.is_some())] += 1;
            if let Some(words) = words {
                let (above, _) = words.split_once(": no step takes").unwrap();
                expected += &format!("; line {k}: {above}");
            }
        }
        assert_eq!(run(&["check"], &day).text(), format!("{expected}\n"));
    }
    assert!(counts.iter().all(|&count| count > 100), "{counts:?}");
}

/// Damaged days whose number is known beforehand are refused in the words of docs/REFUSALS.md.
#[test]
fn each_number() {
    let table = String::from_utf8(stored("docs/REFUSALS.md")).unwrap();
    let days: BTreeMap<u32, Vec<u8>> = (0..1_000)
        .map(damaged_day_and_number)
        .filter_map(|(day, number)| Some((number.filter(|&n| n > 0)?, day)))
        .collect();
    assert!((1..=14).all(|number| days.contains_key(&number)));
    for (number, day) in days {
        let start = format!("| {number} | ");
        let row = table.lines().find_map(|line| line.strip_prefix(&start));
        let cells: Vec<&str> = row.expect("a row of the number").split(" | ").collect();
        let words = cells[3].trim_end_matches(" |");
        let expected = format!("refused {number}: {words}: ");
        let text = refused(&["check"], &day);
        assert!(text.starts_with(&expected), "{text}");
        if (6..=13).contains(&number) {
            assert!(text[expected.len()..].starts_with("line "), "{text}");
        }
    }
}

/// The day with a bid of each line pulled, also one of schedule 1 or one that the line needs; of some all slots, of some the count alone.
fn pulled_anyhow(mut day: Vec<u8>, seed: u64) -> Vec<u8> {
    let lines = day.get_mut(64..).unwrap_or(&mut []);
    for (k, line) in lines.chunks_exact_mut(660).enumerate() {
        let draw = seed as usize + 7 * k;
        match draw % 3 {
            0 => put_word(line, 5 + 23 * (draw % 5), 0),
            _ => pull(line, 1 + draw % 5),
        }
    }
    day
}

/// Bids of the schedules 2 to 5 can be pulled, and no other.
#[test]
fn pulled_bids() {
    for set in sets_of_reschedules() {
        let said = run(&["check"], &k10_pulled(&set)).text();
        assert_eq!(said, "standard input: accepted\n", "{set:?}");
        let first = [&[1], &set[..]].concat();
        let said = refused(&["check"], &k10_pulled(&first));
        assert!(said.starts_with("refused 7: "), "{said}");
    }
}

/// Each slot of a pulled bid must be 0, and what is found is said of it in tables and JSON too.
#[test]
fn slots_of_a_pulled_bid() {
    for s in 2..=5 {
        for place in 1..=22 {
            let mut day = k10_pulled(&[2, 3, 4, 5]);
            put_word(&mut day[64..], 5 + 23 * (s - 1) + place, 8);
            let (slot, name) = match place {
                1..=11 => (place, "break"),
                _ => (place - 11, "price"),
            };
            let words = format!("bid of schedule {s}, slot {slot}: {name} 8; the bid's count is 0 (a pulled bid), so it must be 0\n");
            let said = refused(&["check"], &day);
            assert!(
                said.starts_with("refused 10: ") && said.ends_with(&words),
                "{said}"
            );
            let json = run(&["check", "--json"], &day).out;
            let json: serde_json::Value = serde_json::from_slice(&json).unwrap();
            let fault = &json["faults"][0];
            assert_eq!(
                ["number", "schedule", "slot", "value", "limit"].map(|key| fault[key].as_u64()),
                [10, s as u64, slot as u64, 8, 0].map(Some)
            );
        }
    }
}

/// The greatest break is that of the bids that are there: without the one of schedule 2, hedge and totals are above it.
#[test]
fn greatest_break_without_a_pulled_bid() {
    let bids = "bid 1 = 1000@$2\nbid 2 = 3000@$5\nbid 3..5 = none";
    let text = example_text().replace("bid 1..5 = 1000@$2 3000@$5", bids);
    let said = run(&["make", "--check"], text.as_bytes()).text();
    assert_eq!(said, "standard input: accepted\n");
    let text = text.replace("bid 2 = 3000@$5\nbid 3..5", "bid 2..5");
    let most =
        "the greatest break of its bids, 1,000 MJ (the bids of schedules 2 to 5 were pulled)";
    // The totals are up to 2,000, which is 1,000 above it.
    let said = run(&["make", "--check"], text.as_bytes()).text();
    let words = "the operating total (by 1,000 MJ in schedule 2, 1,000 MJ in schedule 3, 500 MJ in schedule 4 and 500 MJ in schedule 5) \
                 and the effective actual (by 500 MJ) are above the greatest break of the line's bids, 1,000 MJ";
    assert_eq!(said, format!("standard input: accepted; line 0: {words}\n"));
    let above = text.replace("operating 2..3 = 1000 1000", "operating 2..3 = 1000 1005");
    assert_ne!(above, text);
    let said = refused(&["make", "--check"], above.as_bytes());
    assert!(said.starts_with("refused 12: "), "{said}");
    let words = format!("operating total of schedule 2: 2,005 MJ, which is 5 MJ too much; the most is 2,000 MJ, which is 1,000 MJ above {most}\n");
    assert!(said.ends_with(&words), "{said}");
    let text = text.replace("hedge       = 0", "hedge = 1001");
    let said = refused(&["make", "--check"], text.as_bytes());
    let words = format!("hedge: 1,001 MJ; the most is {most}\n");
    assert!(
        said.starts_with("refused 11: ") && said.ends_with(&words),
        "{said}"
    );
}

/// The first fault found has the proved number, and an accepted day has no fault.
#[test]
fn first_faults_have_the_proved_number() {
    let mut numbers = BTreeSet::new();
    let all = (0..days(6_000))
        .map(damaged_day)
        .chain((0..200).map(valid_day))
        .chain((0..200).map(|seed| with_sets(valid_day(seed), seed)))
        .chain((0..200).map(|seed| with_pulled(valid_day(seed), seed)))
        .chain((0..days(500)).map(|seed| pulled_anyhow(damaged_day(seed), seed)))
        .chain((0..200).map(excess_day))
        .chain((0..days(500)).map(excess_fault_day))
        .chain(accreditation_words().map(k10_accredited))
        .chain(edge_days());
    for day in all {
        let number = mewikofu::settle(&day).map_or_else(|refusal| refusal.number(), |_| 0);
        let found = day_faults(&day, false)
            .first()
            .map_or(0, |fault| fault.number);
        assert_eq!(found, number);
        numbers.insert(number);
    }
    assert!(numbers.into_iter().eq(0..=14));
    let faults = (0..days(500)).map(excess_fault_line);
    for line in (0..days(2_000)).map(damaged_line).chain(faults) {
        let number = mewikofu::cut(&line).map_or_else(|refusal| refusal.number(), |_| 0);
        let found = cut_faults(&line, false)
            .first()
            .map_or(0, |fault| fault.number);
        assert_eq!(found, number);
    }
}

/// K10's day with one word put, and what is said of it. The line begins at word 16, its bids at word 21 with 23 words each.
#[test]
fn places_values_and_limits() {
    let line = "line 0 (participant 7, point 3, INJ), ";
    let most =
        "the most is 4,000 MJ, which is 1,000 MJ above the greatest break of its bids, 3,000 MJ";
    let cases: [(usize, u32, &str); 28] = [
        (0, 65, "the header's line count is 65; it must be 1 to 64"),
        (1, 20, "the header's offset of the market table is 20; it must be 16, or 24 in a file with ad hoc records"),
        (3, 725, "the header's file length is 725; with 1 line it must be 724"),
        (5, 10_000_001, "market price of schedule 2: 10,000,001 ($1,000.0001 per GJ); the most is 10,000,000 ($1,000.0000 per GJ)"),
        (14, 10_000_001, "administered price cap: 10,000,001 ($1,000.0001 per GJ); the most is 10,000,000 ($1,000.0000 per GJ)"),
        (13, 2, "cap mark of schedule 5: 2; it must be 0 or 1"),
        (15, 3, "clawback switch: 3; it must be 0 or 1"),
        (18, 2, "line 0 (participant 7, point 3, 2), side: 2; it must be 0 or 1"),
        (19, 2, "*accreditation: 2; it must be 0, 1 or 32 to 63"),
        (19, 31, "*accreditation: 31; it must be 0, 1 or 32 to 63"),
        (19, 64, "*accreditation: 64; it must be 0, 1 or 32 to 63"),
        (19, u32::MAX, "*accreditation: 4,294,967,295; it must be 0, 1 or 32 to 63"),
        (21, 12, "*bid of schedule 1: its count is 12; it must be 1 to 11"),
        (21, 0, "*bid of schedule 1: its count is 0; it must be 1 to 11, since only bids of the schedules 2 to 5 can be pulled"),
        (44, 12, "*bid of schedule 2: its count is 12; it must be 1 to 11, or 0 for a pulled bid"),
        (113, u32::MAX, "*bid of schedule 5: its count is 4,294,967,295; it must be 1 to 11, or 0 for a pulled bid"),
        (44, 0, "*bid of schedule 2, slot 1: break 1,000; the bid's count is 0 (a pulled bid), so it must be 0"),
        (22, 0, "*bid of schedule 1, slot 1: break 0 MJ; it must be above 0"),
        (46, 1000, "*bid of schedule 2, slot 2: break 1,000 MJ; it must be above the one before, 1,000 MJ"),
        (23, 200_000_001, "*bid of schedule 1, slot 2: break 200,000,001 MJ; the most is 200,000,000 MJ"),
        (34, 19_999, "*bid of schedule 1, slot 2: price 19,999 ($1.9999 per GJ); on an injection it must not be below the one before, 20,000 ($2.0000 per GJ)"),
        (24, 5000, "*bid of schedule 1, slot 3: break 5,000; the bid's count is 2, so it must be 0"),
        (43, 1, "*bid of schedule 1, slot 11: price 1; the bid's count is 2, so it must be 0"),
        (20, 3001, "*hedge: 3,001 MJ; the most is the greatest break of its bids, 3,000 MJ"),
        (136, 4001, "*pricing total of schedule 1: 4,001 MJ, which is 1 MJ too much; MOST"),
        (151, 6000, "*operating total of schedule 1: 6,000 MJ, which is 2,000 MJ too much; MOST"),
        (155, u32::MAX, "*operating total of schedule 1: 4,294,968,295 MJ, which is 4,294,964,295 MJ too much; MOST"),
        (180, 200_000_001, "*actual of interval 5: 200,000,001 MJ; the most is 200,000,000 MJ"),
    ];
    for (place, value, words) in cases {
        let mut day = stored("examples/k10.day");
        put_word(&mut day, place, value);
        let words = words.replace("MOST", most);
        let words = match words.strip_prefix('*') {
            Some(words) => format!("{line}{words}"),
            None => words,
        };
        let text = refused(&["check"], &day);
        assert!(
            text.ends_with(&format!(": {words}\n")),
            "{text} for {words}"
        );
    }
}

/// Totals up to 1,000 MJ above the greatest break are accepted, whatever their entries are; the first above is refused, by value and limit in tables
/// and JSON too.
#[test]
fn totals_above_the_greatest_break() {
    // With the greatest break at the quantity limit an entry is above it.
    let most = 200_000_000;
    let breaks = (0..5).map(|bid| (5 + 23 * bid + 2, most));
    for s in 1..=5 {
        // Pricing row 1 begins with 1,000, which every total has.
        let operating = (operating_word(s, 5), most);
        let pricing = (pricing_word(s, 5), most - 1_000);
        for ((place, full), name) in [(operating, "operating"), (pricing, "pricing")] {
            let day = |over: u32| {
                let cleared = (1..5).map(|i| (operating_word(s, i), 0));
                let words = breaks.clone().chain(cleared).chain([(place, full + over)]);
                k10_with(&words.collect::<Vec<_>>())
            };
            let said = run(&["check"], &day(1_000)).text();
            let words = format!(
                "standard input: accepted; line 0: the {name} total (by 1,000 MJ in schedule {s}) is above the greatest break of the line's bids, \
                 200,000,000 MJ\n"
            );
            assert_eq!(said, words);
            let said = refused(&["check"], &day(1_001));
            let words = format!(
                "{name} total of schedule {s}: 200,001,001 MJ, which is 1 MJ too much; the most is 200,001,000 MJ, which is 1,000 MJ above the \
                 greatest break of its bids, 200,000,000 MJ\n"
            );
            assert!(said.ends_with(&words), "{said}");
            let json = run(&["check", "--json"], &day(2_000)).out;
            let json: serde_json::Value = serde_json::from_slice(&json).unwrap();
            let fault = &json["faults"][0];
            let values = ["number", "schedule", "value", "limit"].map(|key| fault[key].as_u64());
            assert_eq!(values, [12, s as u64, 200_002_000, 200_001_000].map(Some));
        }
    }
    // An actual has no such room.
    let said = refused(&["check"], &k10_with(&[(actual_word(1), most + 1)]));
    assert!(said.starts_with("refused 13: "), "{said}");
}

/// A set of schedules is accepted; a number is the word itself, so schedule 3 alone isn't 3.
#[test]
fn accreditation() {
    let made = |value: &str| {
        let text = example_text();
        let row = text.lines().find(|row| row.starts_with("accredited"));
        let row = row.expect("the example's row");
        let text = text.replace(row, &format!("accredited = {value}"));
        let run = run(&["make", "--check"], text.as_bytes());
        assert_eq!(run.message, "");
        String::from_utf8(run.out).unwrap()
    };
    for value in ["in none", "in 3", "1,3..5", "1..5", "61"] {
        assert_eq!(made(value), "standard input: accepted\n", "{value}");
    }
    let line = "(participant 7, point 3, INJ)";
    for (value, hint) in [
        ("2", "; schedule 2 alone is 'in 2'"),
        ("3", "; schedule 3 alone is 'in 3'"),
        ("5", "; schedule 5 alone is 'in 5'"),
        ("6", ""),
        ("64", ""),
    ] {
        let refused = made(value);
        let words = format!("{line}, accreditation: {value}; it must be 0, 1 or 32 to 63{hint}\n");
        assert!(refused.ends_with(&words), "{refused}");
    }
    // A side has no such hint, and JSON writes sets its own way.
    let shown = run(&["show", "--json"], &k10_accredited(3)).text();
    let side = shown
        .replace("\"INJ\"", "3")
        .replace("\"accredited\": 3", "\"accredited\": true");
    for (text, words) in [
        (
            shown,
            "it must be 0, 1 or 32 to 63; schedule 3 alone is [3]",
        ),
        (side, "side: 3; it must be 0 or 1"),
    ] {
        let run = run(&["make", "--json"], text.as_bytes());
        assert_eq!(run.status, 1);
        assert!(
            run.message.ends_with(&format!("{words}\n")),
            "{}",
            run.message
        );
    }
}

/// Accreditations of 2 to 31 have proper words on both sides, so they have no limit.
#[test]
fn accreditation_limits() {
    for (word, limit) in [(2, None), (31, None), (64, Some(63)), (u32::MAX, Some(63))] {
        let day = k10_accredited(word);
        let json: serde_json::Value =
            serde_json::from_slice(&run(&["check", "--json"], &day).out).unwrap();
        let fault = &json["faults"][0];
        assert_eq!(
            (&fault["value"], &fault["limit"]),
            (&word.into(), &limit.into())
        );
        let table = String::from_utf8(run(&["check", "--csv"], &day).out).unwrap();
        let limit = limit.map_or(String::new(), |limit: u32| limit.to_string());
        let row = format!("standard input,6,0,,,,{word},{limit},");
        assert!(table.lines().nth(1).unwrap().starts_with(&row), "{table}");
    }
}

/// Every fault of a file, each on a row with its number.
#[test]
fn all_faults() {
    let mut day = stored("examples/k10.day");
    for (place, value) in [(5, 10_000_001), (15, 2), (16 + 2, 1), (180, 200_000_001)] {
        put_word(&mut day, place, value);
    }
    let text = refused(&["check", "--all"], &day);
    let rows: Vec<&str> = text.lines().collect();
    assert!(rows[0].starts_with("refused 4: a market price"), "{text}");
    let numbers: Vec<&str> = rows[1..]
        .iter()
        .map(|row| row.trim_start().split(':').next().unwrap())
        .collect();
    assert_eq!(numbers, ["4", "5", "9", "9", "9", "9", "9", "13"], "{text}");
    let json = run(&["check", "--all", "--json"], &day).out;
    let json: serde_json::Value = serde_json::from_slice(&json).unwrap();
    assert_eq!(json["refused"], 4);
    assert_eq!(json["faults"].as_array().unwrap().len(), 8);
    assert_eq!(json["faults"][2]["schedule"], 1);
    assert_eq!(json["faults"][2]["slot"], 2);
    assert_eq!(
        (&json["faults"][2]["value"], &json["faults"][2]["limit"]),
        (&50_000.into(), &20_000.into())
    );
    assert_eq!(json["faults"][7]["interval"], 5);
}

/// What is made of a text is checked, not the text; the same line twice is named.
#[test]
fn made_days() {
    let text = example_text();
    let (_, line) = text.split_at(text.find("[line]").unwrap());
    let other = line
        .replace("= 7", "= 8")
        .replace("hedge       = 0", "hedge = 3001");
    let said = refused(&["make", "--check"], format!("{text}\n{other}").as_bytes());
    assert!(
        said.contains(": line 1 (participant 8, point 3, INJ), hedge: 3,001 MJ; "),
        "{said}"
    );
    let said = refused(&["make", "--check"], format!("{text}\n{line}").as_bytes());
    assert!(
        said.ends_with(": line 1 has participant 7, point 3 and side INJ, as line 0 has\n"),
        "{said}"
    );
}

/// A file longer than is read gets the number that its first bytes get.
#[test]
fn longer_files() {
    let k10 = stored("examples/k10.day");
    let long = [&k10[..], &vec![0; 200_000]].concat();
    let text = refused(&["check"], &long);
    assert!(text.starts_with("refused 3: "), "{text}");
    assert!(
        text.ends_with(": the file has more than 65,536 bytes; with 1 line it must have 724\n"),
        "{text}"
    );
}

/// Other commands say the same of a refused day.
#[test]
fn other_commands() {
    let day = stored("examples/refused.day");
    let words = "refused 9: a bid's price is above 10,000,000 price units, or falls (withdrawal: rises): line 1 (participant 1000000, point 6, INJ), ";
    for command in ["draw", "explain"] {
        let message = run(&[command], &day).failure();
        assert!(message.starts_with(words), "{message}");
    }
    for command in ["settle", "steps"] {
        let run = run(&[command], &day);
        assert_eq!((run.status, run.out.as_slice()), (1, &b"refused 9\n"[..]));
        assert!(run.message.contains(words), "{}", run.message);
    }
    for command in ["draw", "explain"] {
        let message = run(&[command, "--line", "1"], &stored("examples/k10.day")).failure();
        assert_eq!(
            message,
            "refused 16: the day has no line 1: it has 1 line, counted from 0\n"
        );
    }
    let message = run(
        &["explain", "--line", "0", "--step", "2"],
        &stored("examples/k10.day"),
    )
    .failure();
    assert_eq!(
        message,
        "refused 17: line 0 has no step 2: it has 2 steps, counted from 0\n"
    );
}

/// A search that finds another number than the proved one is said to be wrong, with status 2.
#[test]
fn another_number() {
    let input = |bytes| Input {
        name: "a".to_string(),
        path: None,
        bytes,
        more: false,
    };
    let refused = input(stored("examples/refused.day"));
    assert!(explain_day(&refused, Refusal::Prices).is_ok());
    let problem = explain_day(&refused, Refusal::Hedge).unwrap_err();
    assert_eq!(problem.status, Status::Failed);
    let words = "the search for its place found 9: line 1";
    assert!(
        problem.message.starts_with("a: refused 11: "),
        "{}",
        problem.message
    );
    assert!(problem.message.contains(words), "{}", problem.message);
    let accepted = input(stored("examples/k10.day"));
    let problem = explain_day(&accepted, Refusal::Hedge).unwrap_err();
    assert_eq!(problem.status, Status::Failed);
    assert!(
        problem.message.contains("found no fault"),
        "{}",
        problem.message
    );
}
