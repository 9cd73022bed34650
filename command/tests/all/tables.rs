//! CSV and JSON, there and back.

use crate::{
    accreditation_words, accredited_schedules, k10_accredited, k10_pulled, run,
    sets_of_reschedules, stored, with_pulled, with_sets,
};
use reference::generate::{damaged_day, excess_day, small_day, small_excess_day, valid_day};
use reference::layout::{book_length, signed, word, MOST_LINES};
use reference::settle::settle;
use reference::view::{view, View};
use serde_json::Value;

fn rows(table: &[u8]) -> (Vec<String>, Vec<csv::StringRecord>) {
    let mut reader = csv::Reader::from_reader(table);
    let names = reader.headers().unwrap().iter().map(String::from).collect();
    (names, reader.records().map(Result::unwrap).collect())
}

/// A cell by its column's name.
fn cell<'a>(names: &[String], row: &'a csv::StringRecord, name: &str) -> &'a str {
    let place = names.iter().position(|other| other == name);
    &row[place.unwrap_or_else(|| panic!("no column {name}"))]
}

fn json(text: &[u8]) -> Value {
    serde_json::from_slice(text).unwrap()
}

#[test]
fn days_there_and_back() {
    for seed in 0..60 {
        let day = match seed % 4 {
            0 => with_sets(valid_day(seed), seed),
            1 => with_pulled(valid_day(seed), seed),
            2 => excess_day(seed),
            _ => valid_day(seed),
        };
        for unit in [&[][..], &["--units"]] {
            let table = run(&[&["show", "--csv"], unit].concat(), &day).output();
            assert!(run(&["make", "--csv"], &table).output() == day, "{seed}");
        }
        let text = run(&["show", "--json"], &day).output();
        assert!(run(&["make", "--json"], &text).output() == day, "{seed}");
    }
}

/// Every accreditation word goes there and back. A set is text in a table, and an array of its schedules in JSON.
#[test]
fn accreditation() {
    for word in accreditation_words() {
        let day = k10_accredited(word);
        let proper = matches!(word, 0 | 1 | 32..=63);
        let made = |format: &str, shown: &[u8]| {
            let run = run(&["make", format], shown);
            assert_eq!(run.status, i32::from(!proper), "{word}: {}", run.message);
            assert!(run.out == day, "{word}");
        };
        let table = run(&["show", "--csv"], &day).output();
        made("--csv", &table);
        let (names, rows) = rows(&table);
        let text = run(&["show"], &day).text();
        let row = format!("accredited = {}\n", cell(&names, &rows[0], "accredited"));
        assert!(text.contains(&row), "{row}");
        let shown = run(&["show", "--json"], &day).output();
        made("--json", &shown);
        let due = match word {
            0 => false.into(),
            1 => true.into(),
            32..=63 => accredited_schedules(word).into(),
            other => Value::from(other),
        };
        assert_eq!(json(&shown)["lines"][0]["accredited"], due);
    }
    let table = String::from_utf8(run(&["show", "--csv"], &k10_accredited(61)).output()).unwrap();
    assert!(table.contains(",INJ,\"in 1,3..5\",0,"), "{table}");
}

/// A pulled bid goes there and back, one of schedule 1 too. It is `none` for its first break in a table, and an empty array in JSON.
#[test]
fn pulled_bids() {
    let first = sets_of_reschedules().map(|set| [&[1], &set[..]].concat());
    for set in sets_of_reschedules().chain(first) {
        let day = k10_pulled(&set);
        let status = i32::from(set.contains(&1));
        for format in ["--csv", "--json"] {
            let shown = run(&["show", format], &day).output();
            let made = run(&["make", format], &shown);
            assert_eq!(made.status, status, "{set:?}: {}", made.message);
            assert!(made.out == day, "{set:?}");
        }
        let table = run(&["show", "--csv"], &day).output();
        let (names, rows) = rows(&table);
        let value = json(&run(&["show", "--json"], &day).output());
        for s in 1..=5 {
            let names_of = |slot| {
                let price = format!("bid_{s}_price_{slot}_dollars");
                [format!("bid_{s}_break_{slot}"), price]
            };
            let cells = |slot| names_of(slot).map(|name| cell(&names, &rows[0], &name));
            let steps = &value["lines"][0]["bids"][s - 1];
            if set.contains(&s) {
                assert_eq!((cells(1), steps), (["none", ""], &serde_json::json!([])));
            } else {
                assert_eq!(cells(1), ["1000", "2.0000"]);
                assert_eq!(steps.as_array().unwrap().len(), 2);
            }
            if set.len() < 5 {
                let due = if set.contains(&s) {
                    ["", ""]
                } else {
                    ["3000", "5.0000"]
                };
                assert_eq!(cells(2), due);
            }
        }
    }
}

/// A bid without a step isn't taken for a pulled one.
#[test]
fn wrong_pulled_bids() {
    let table = run(&["show", "--csv"], &k10_pulled(&[3])).text();
    let message = |old: &str, new: &str| {
        assert!(table.contains(old), "{old}");
        let table = table.replacen(old, new, 1);
        run(&["make", "--csv"], table.as_bytes()).failure()
    };
    for (new, why) in [
        (
            ",,,,",
            "break_1: the bid has no step; a pulled bid is 'none'",
        ),
        ("none,2,,", "break_1: a bid's step has a break and a price"),
        ("none,,3000,5", "break_2: a step stands after an empty one"),
        (
            "None,,,",
            "break_1: 'None' is not a whole number; a pulled bid is 'none'",
        ),
        ("1000,2,none,", "break_2: 'none' is not a whole number"),
    ] {
        let (old, new) = match new.strip_prefix(",,,,") {
            Some(_) => ("none,,,", ",,,"),
            None => ("none,,,", new),
        };
        assert_eq!(message(old, new), format!("row 2, bid_3_{why}\n"));
    }
    assert_eq!(
        message("1000,2.0000,3000,5.0000", ",,,"),
        "row 2, bid_1_break_1: the bid has no step\n"
    );
    assert_eq!(
        message("bid_3_break_1,", "bid_3_break_3,"),
        "the table has no column 'bid_3_break_1'; a pulled bid is 'none'\n"
    );
    assert_eq!(
        message("bid_3_price_1_dollars,", "bid_3_price_3_dollars,"),
        "the table has no column 'bid_3_price_1_dollars'\n"
    );
    let value = json(&run(&["show", "--json"], &k10_pulled(&[3])).output());
    for (bid, wrong, hint) in [
        (2, "null", "; a pulled bid is []"),
        (2, "\"none\"", "; a pulled bid is []"),
        (4, "{}", "; a pulled bid is []"),
        (0, "null", ""),
    ] {
        let mut value = value.clone();
        value["lines"][0]["bids"][bid] = json(wrong.as_bytes());
        let why = run(&["make", "--json"], value.to_string().as_bytes()).failure();
        assert_eq!(
            why,
            format!("lines[0].bids[{bid}]: not an array of steps{hint}\n")
        );
    }
}

/// A refused day is either said so that the same bytes are made of it, or not said.
#[test]
fn refused_days() {
    let mut said = 0;
    for seed in 0..60 {
        let day = damaged_day(seed);
        for format in ["--csv", "--json"] {
            let shown = run(&["show", format], &day);
            if shown.status == 0 {
                assert!(run(&["make", format], &shown.out).out == day, "{seed}");
                said += 1;
            } else {
                assert_eq!(shown.status, 1);
                assert!(
                    shown
                        .message
                        .contains("only an accepted day can be said so"),
                    "{}",
                    shown.message
                );
            }
        }
    }
    assert!(said > 20);
}

/// The example is K10's day.
#[test]
fn example() {
    let day = run(&["make", "--csv"], &stored("command/example.csv")).output();
    assert_eq!(day, stored("examples/k10.day"));
}

#[test]
fn wrong_tables() {
    let table = String::from_utf8(stored("command/example.csv")).unwrap();
    let message = |table: &str| run(&["make", "--csv"], table.as_bytes()).failure();
    let with = |old: &str, new: &str| {
        assert!(table.contains(old), "{old}");
        message(&table.replacen(old, new, 1))
    };
    assert_eq!(
        with("participant", "partisipant"),
        "the table has no column 'participant'\n"
    );
    assert_eq!(with("day,", "date,"), "unknown column 'date'\n");
    assert_eq!(
        with("point,", "participant,"),
        "two columns have the name 'participant'\n"
    );
    assert_eq!(
        with(",INJ,", ",in,"),
        "row 2, side: 'in' is not INJ, WDR or a number\n"
    );
    assert_eq!(
        with(",yes,", ",\"in 1,6\","),
        "row 2, accredited: '6' is no schedule; they are 1 to 5, or a range such as 2..4\n"
    );
    assert_eq!(
        with(",yes,", ",\"3,1..4\","),
        "row 2, accredited: schedule 3 is named twice\n"
    );
    assert_eq!(
        with(",yes,", ",,"),
        "row 2, accredited: '' is not yes, no, a number or a set of schedules, such as 'in 1,3..5'\n"
    );
    assert_eq!(with(",3.0000,", ",3.00001,"), "row 2, market_price_1_dollars: $3.00001 has more than four decimals; a price unit is $0.0001\n");
    assert_eq!(
        with("1000,2.0000", ",2.0000"),
        "row 2, bid_1_break_1: a bid's step has a break and a price\n"
    );
    assert_eq!(
        with("1000,2.0000", ","),
        "row 2, bid_1_break_2: a step stands after an empty one\n"
    );
    let (names, row) = table.trim_end().split_once('\n').unwrap();
    assert_eq!(
        message(names),
        "the table has 0 rows of lines below its header; a day has 1 to 64 lines\n"
    );
    assert_eq!(message(""), "the table has no header row\n");
    let other = row.replacen(",7,3,", ",8,3,", 1);
    let two = format!("{names}\n{row}\n{}", other.replacen("3.0000", "4.0000", 1));
    assert_eq!(message(&two), "row 3, market_price_1_dollars: '4.0000' isn't the first row's; the market is the same on every row\n");
    let two = format!("{names}\n{row}\n{}", other.replacen("k10", "k11", 1));
    assert_eq!(
        message(&two),
        "row 3, day: 'k11' isn't 'k10'; a table is of one day\n"
    );
    assert_eq!(
        message(&format!("{names}\n{row},1\n")),
        "row 2: it has 84 cells, and the header has 83\n"
    );
    // As spreadsheets write it: a mark before the text, line ends of two bytes, empty rows, trailing zeros gone.
    let other = format!(
        "\u{feff}{}\r\n,,\r\n",
        table.replace(".0000", "").replace('\n', "\r\n").trim_end()
    );
    let commas = ",".repeat(names.matches(',').count());
    let other = other.replace(",,\r\n", &format!("{commas}\r\n"));
    assert_eq!(
        run(&["make", "--csv"], other.as_bytes()).output(),
        stored("examples/k10.day")
    );
}

#[test]
fn wrong_json() {
    let text =
        String::from_utf8(run(&["show", "--json"], &stored("examples/k10.day")).output()).unwrap();
    let value = json(text.as_bytes());
    let with = |change: &dyn Fn(&mut Value)| {
        let mut value = value.clone();
        change(&mut value);
        run(&["make", "--json"], value.to_string().as_bytes()).failure()
    };
    assert_eq!(
        with(&|day| drop(day["market"].as_object_mut().unwrap().remove("apc"))),
        "market: has no \"apc\"\n"
    );
    assert_eq!(
        with(&|day| day["lines"][0]["hedges"] = 5.into()),
        "lines[0]: unknown \"hedges\"\n"
    );
    assert_eq!(
        with(&|day| day["lines"][0]["hedge"] = (1_u64 << 32).into()),
        "lines[0].hedge: 4294967296 isn't a whole number of 32 bits\n"
    );
    assert_eq!(
        with(&|day| day["lines"][0]["hedge"] = (-1).into()),
        "lines[0].hedge: -1 isn't a whole number of 32 bits\n"
    );
    assert_eq!(
        with(&|day| day["lines"][0]["side"] = "in".into()),
        "lines[0].side: 'in' is not INJ, WDR or a number\n"
    );
    let accredited = |value: Value| with(&|day| day["lines"][0]["accredited"] = value.clone());
    for wrong in [
        "0",
        "6",
        "-1",
        "1.5",
        "\"1\"",
        "true",
        "[1]",
        "18446744073709551616",
    ] {
        let value = json(format!("[2,{wrong}]").as_bytes());
        assert_eq!(
            accredited(value.clone()),
            format!(
                "lines[0].accredited[1]: {} is no schedule; they are 1 to 5\n",
                value[1]
            )
        );
    }
    assert_eq!(
        accredited(serde_json::json!([3, 1, 3])),
        "lines[0].accredited: schedule 3 is named twice\n"
    );
    for wrong in ["\"yes\"", "\"in 1,3..5\"", "null", "-1", "4294967296"] {
        let taken = "true, false, an array of schedules or a whole number of 32 bits";
        assert_eq!(
            accredited(json(wrong.as_bytes())),
            format!("lines[0].accredited: {wrong} isn't {taken}\n")
        );
    }
    assert_eq!(
        with(&|day| day["market"]["clawback"] = serde_json::json!([1])),
        "market.clawback: [1] isn't a whole number of 32 bits\n"
    );
    assert_eq!(
        with(&|day| day["lines"][0]["pricing"][1] = day["lines"][0]["pricing"][0].clone()),
        "lines[0].pricing[1]: needs 4 values, not 5\n"
    );
    assert_eq!(
        with(&|day| day["lines"][0]["bids"][2][1]["price"] = 1.5.into()),
        "lines[0].bids[2][1].price: 1.5 isn't a whole number of 32 bits\n"
    );
    assert_eq!(
        with(&|day| day["lines"] = Value::Array(Vec::new())),
        "lines: a day has 1 to 64 lines, not 0\n"
    );
    assert_eq!(
        with(&|day| day["price_unit"] = "$/GJ".into()),
        "price_unit: \"$/GJ\" isn't \"$0.0001/GJ\"\n"
    );
    assert_eq!(with(&|day| *day = 5.into()), "the day: not an object\n");
    assert!(run(&["make", "--json"], &text.as_bytes()[..40])
        .failure()
        .contains("EOF while parsing"));
}

/// A book's table and JSON have the reference's figures.
#[test]
fn books() {
    for seed in 0..40 {
        let day = valid_day(seed);
        let mut book = vec![0; book_length(MOST_LINES)];
        assert_eq!(settle(&day, &mut book), 0);
        let lines = word(&book, 0) as usize;
        let (names, rows) = rows(&run(&["settle", "--csv", "--units"], &day).output());
        assert_eq!(rows.len(), lines + 2);
        let five = |row: &csv::StringRecord| -> Vec<i64> {
            (1..=5)
                .map(|s| {
                    cell(&names, row, &format!("schedule_{s}_units"))
                        .parse()
                        .unwrap()
                })
                .collect()
        };
        let due = |offset: usize, apart: usize| -> Vec<i64> {
            (0..5).map(|s| signed(&book, offset + apart * s)).collect()
        };
        for (k, row) in rows[..lines].iter().enumerate() {
            let at = book_length(k);
            assert_eq!(five(row), due(at + 16, 8));
            assert_eq!(
                (cell(&names, row, "row"), cell(&names, row, "line")),
                ("line", k.to_string().as_str())
            );
            assert_eq!(
                cell(&names, row, "participant"),
                word(&book[at..], 0).to_string()
            );
            assert_eq!(cell(&names, row, "steps"), word(&book[at..], 3).to_string());
        }
        assert_eq!(
            (five(&rows[lines]), five(&rows[lines + 1])),
            (due(16, 16), due(24, 16))
        );
        let value = json(&run(&["settle", "--json"], &day).output());
        assert_eq!(value["totals"], serde_json::json!(due(16, 16)));
        assert_eq!(
            value["lines"][lines - 1]["payments"],
            serde_json::json!(due(book_length(lines - 1) + 16, 8))
        );
        // The same by way of the book's file.
        book.truncate(book_length(lines));
        assert_eq!(
            run(&["book", "--csv"], &book).output(),
            run(&["settle", "--csv"], &day).output()
        );
        assert_eq!(
            json(&run(&["book", "--json"], &book).output())["lines"],
            value["lines"]
        );
    }
}

/// In dollars a unit of money is the seventh decimal and a price unit the fourth.
#[test]
fn dollars() {
    let (names, rows) =
        rows(&run(&["settle", "--csv"], &stored("examples/both-sides.day")).output());
    assert_eq!(cell(&names, &rows[6], "schedule_2_dollars"), "-0.0007680");
    assert_eq!(cell(&names, &rows[7], "schedule_4_dollars"), "0.0068559");
}

/// Operating, pricing and actual excess of a view of the reference in a schedule, from 0. The line's JSON has all of it.
fn excess_of(step: &View, s: usize, json: &Value) -> [i64; 3] {
    let own = &step.excess;
    let (operating, pricing, actual) = (own.operating, own.pricing, own.actual);
    let due = serde_json::json!({ "operating": operating, "pricing": pricing, "actual": actual });
    assert_eq!(*json, due);
    [operating[s], pricing[s], actual].map(i64::from)
}

/// A row for each line, step and schedule, with the reference's figures.
#[test]
fn steps() {
    let days = (0..12).flat_map(|seed| [small_day(seed), small_excess_day(seed)]);
    let mut above = [0; 3];
    for day in days {
        let (names, rows) = rows(&run(&["steps", "--csv", "--units"], &day).output());
        let value = json(&run(&["steps", "--json"], &day).output());
        for row in &rows {
            let number = |name: &str| cell(&names, row, name).parse::<i64>().unwrap();
            let (k, j, s) = (
                number("line"),
                number("step"),
                number("schedule") as usize - 1,
            );
            let step = view(&day, k as u64, j as u64);
            assert_eq!(step.number, 0);
            let quantities = [
                "end",
                "width",
                "actual",
                "price_units",
                "flag",
                "operating",
                "pricing",
                "agino",
                "msiq",
                "constrained",
            ];
            let due = [
                step.upper,
                step.width,
                step.actual,
                step.price[s],
                step.flag[s],
                step.operating[s],
                step.pricing[s],
                step.agino[s],
                step.msiq[s],
                step.constrained_on[s],
            ];
            assert_eq!(quantities.map(number), due.map(i64::from));
            let payments = [
                "initial_units",
                "revised_units",
                "modified_units",
                "final_units",
            ];
            assert_eq!(
                payments.map(number),
                [
                    step.initial[s],
                    step.revised[s],
                    step.modified[s],
                    step.finals[s]
                ]
            );
            for r in 0..s {
                assert_eq!(
                    number(&format!("match_{}", r + 1)),
                    i64::from(step.matches[s * (s - 1) / 2 + r])
                );
            }
            let line = &value["lines"][k as usize];
            let excess = ["operating_excess", "pricing_excess", "actual_excess"].map(number);
            assert_eq!(excess, excess_of(&step, s, &line["excess"]));
            (0..3).for_each(|kind| above[kind] += usize::from(excess[kind] > 0));
            let other = &line["steps"][j as usize];
            assert_eq!(
                (&other["final"][s], &other["end"]),
                (&step.finals[s].into(), &step.upper.into())
            );
        }
        let steps: usize = (0..(day.len() - 64) / 660)
            .map(|k| reference::cut::cut(&day[64 + 660 * k..][..660]).count as usize)
            .sum();
        assert_eq!(rows.len(), 5 * steps);
    }
    assert!(above.iter().all(|&rows| rows > 10), "{above:?}");
}
