//! Ad hoc records (document 02, F-5). Expected figures are the reference implementation's.

use crate::draw::{drawn, example};
use crate::draw_page::read;
use crate::{days, operating_word, run, run_with, stored};
use mewikofu_command::explain::Explained;
use mewikofu_command::figures::Figures;
use mewikofu_command::make::make;
use mewikofu_command::output::Unit;
use mewikofu_command::refusals::day_faults;
use mewikofu_command::show::show;
use mewikofu_command::steps;
use reference::generate::{
    ad_hoc_damaged_day, ad_hoc_day, ad_hoc_day_and_old, ad_hoc_fault_day, ad_hoc_fault_kinds,
    ad_hoc_length_days, ad_hoc_long_days, small_ad_hoc_day,
};
use reference::layout::{put_word, word};
use reference::refusal::day_number;
use reference::report::{settle_report, steps_report};
use serde_json::{json, Value};
use std::collections::BTreeSet;

/// A record's words: line, schedule, order number, five quantities.
type Record = [u32; 8];

/// K10's day in the layout with ad hoc records, with these.
fn k10_records(records: &[Record]) -> Vec<u8> {
    let k10 = stored("examples/k10.day");
    let count = records.len() as u32;
    let header = [1, 24, 72, 732 + 32 * count, count, 732];
    let words = header.iter().chain(records.iter().flatten());
    let bytes: Vec<u8> = words.flat_map(|word| word.to_le_bytes()).collect();
    [&bytes[..24], &k10[16..], &bytes[24..]].concat()
}

/// The record of K10's line for a schedule with an order number; a total of 2,000 from the second interval on.
fn record(schedule: u32, order: u32) -> Record {
    [0, schedule, order, 0, 2_000, 0, 0, 0]
}

fn number(day: &[u8]) -> u32 {
    mewikofu::settle(day).map_or_else(|refusal| refusal.number(), |_| 0)
}

/// What `check` says of K10's refused day with these records and words put.
fn said(records: &[Record], words: &[(usize, u32)]) -> String {
    let mut day = k10_records(records);
    for &(place, value) in words {
        put_word(&mut day, place, value);
    }
    let run = run(&["check"], &day);
    assert_eq!((run.status, run.message.as_str()), (1, ""));
    let text = String::from_utf8(run.out).unwrap();
    text.strip_prefix("standard input: ").unwrap().to_string()
}

/// Records of K10's day, words put into it, the number, and the end of what is said.
type Fault<'a> = (&'a [Record], &'a [(usize, u32)], u32, &'a str);

#[test]
fn places_of_faults() {
    let two = [record(2, 7), record(3, 7)];
    let counts = "with 1 line and 2 ad hoc records it must be";
    let cases: [Fault; 14] = [
        (&two, &[(1, 20)], 3, "the header's offset of the market table is 20; it must be 16, or 24 in a file with ad hoc records"),
        (&two, &[(1, 16)], 3, "the header's offset of the lines is 72; with 1 line it must be 64"),
        (&two, &[(2, 64)], 3, &format!("the header's offset of the lines is 64; {counts} 72")),
        (&two, &[(3, 795)], 3, &format!("the header's file length is 795; {counts} 796")),
        (&two, &[(5, 764)], 3, &format!("the header's offset of the ad hoc records is 764; {counts} 732")),
        (&two, &[(4, 2 + (1 << 27))], 3, "the header's file length is 796; with 1 line and 134,217,730 ad hoc records it must be 4,294,968,092"),
        (&[], &[(5, 0)], 3, "the header's offset of the ad hoc records is 0; with 1 line and 0 ad hoc records it must be 732"),
        (&[record(2, 7); 65], &[], 19, "the header's count of ad hoc records is 65; the most is 64"),
        (&[record(2, 7), [1, 2, 7, 0, 0, 0, 0, 0]], &[], 20, "ad hoc record 1 (line 1, schedule 2, order number 7): the day has no such line; it has 1 line, counted from 0"),
        (&[record(0, 7)], &[], 20, "ad hoc record 0 (line 0, schedule 0, order number 7): there is no such schedule; it must be 1 to 5"),
        (&[record(2, 7), record(2, 7), record(6, 7)], &[], 20, "ad hoc record 2 (line 0, schedule 6, order number 7): there is no such schedule; it must be 1 to 5"),
        (&[record(2, 7), record(3, 7), record(2, 7)], &[], 21, "ad hoc record 2 (line 0, schedule 2, order number 7): record 0 has the same"),
        (&two, &[(6, 10_000_001)], 4, "market price of schedule 1: 10,000,001 ($1,000.0001 per GJ); the most is 10,000,000 ($1,000.0000 per GJ)"),
        (&two, &[(183 + 4, 4_001)], 12, "line 0 (participant 7, point 3, INJ), operating total of schedule 2, whose row is that of ad hoc record 0 (order number 7): \
            4,001 MJ, which is 1 MJ too much; the most is 4,000 MJ, which is 1,000 MJ above the greatest break of its bids, 3,000 MJ"),
    ];
    for (records, words, number, expected) in cases {
        let text = said(records, words);
        assert!(text.starts_with(&format!("refused {number}: ")), "{text}");
        assert!(
            text.ends_with(&format!(": {expected}\n")),
            "{text}{expected}"
        );
    }
}

/// Tables and JSON name the record too.
#[test]
fn records_in_tables_of_faults() {
    let day = k10_records(&[record(2, 7), record(9, 7), record(2, 7)]);
    let table = run(&["check", "--csv", "--all"], &day).out;
    let mut reader = csv::Reader::from_reader(&table[..]);
    let rows: Vec<csv::StringRecord> = reader.records().map(Result::unwrap).collect();
    let cells: Vec<[&str; 4]> = rows
        .iter()
        .map(|row| [&row[1], &row[6], &row[7], &row[9]])
        .collect();
    assert_eq!(cells, [["20", "9", "5", "1"], ["21", "0", "", "2"]]);
    let text = run(&["check", "--json", "--all"], &day).out;
    let value: Value = serde_json::from_slice(&text).unwrap();
    let records: Vec<&Value> = value["faults"]
        .as_array()
        .unwrap()
        .iter()
        .map(|fault| &fault["record"])
        .collect();
    assert_eq!(records, [&json!(1), &json!(2)]);
}

/// The first fault found has the archive's number, which is the reference's; an accepted day has none.
#[test]
fn first_faults() {
    let mut numbers = BTreeSet::new();
    let kinds = 3 * ad_hoc_fault_kinds() as u64;
    let all = (0..days(1_500))
        .map(ad_hoc_damaged_day)
        .chain((0..days(kinds)).map(ad_hoc_fault_day))
        .chain((0..200).map(ad_hoc_day))
        .chain(ad_hoc_length_days())
        .chain(ad_hoc_long_days());
    for day in all {
        let number = number(&day);
        assert_eq!(number, day_number(&day));
        let faults = day_faults(&day, false);
        assert_eq!(faults.first().map_or(0, |fault| fault.number), number);
        numbers.insert(number);
    }
    assert!(numbers.into_iter().eq((0..=14).chain(19..=21)));
}

/// By the program, from a file and from standard input: files of any length get the number of all their bytes.
#[test]
fn long_files() {
    let mut numbers = BTreeSet::new();
    let path = std::env::temp_dir().join(format!("mewikofu-long-{}.day", std::process::id()));
    // 6 lines and 1,922 records are 65,536 bytes by the header; there is one more.
    let mut full = k10_records(&[record(2, 7); 1_922]);
    full.splice(732..732, vec![0; 5 * 660]);
    for (place, value) in [(0, 6), (3, 65_536), (5, 4_032)] {
        put_word(&mut full, place, value);
    }
    assert_eq!(day_number(&full), 19);
    let mut more = full.clone();
    more.push(0);
    let days = ad_hoc_long_days().into_iter().chain([full, more]);
    for day in days.chain([vec![0; 200_000]]) {
        std::fs::write(&path, &day).unwrap();
        let number = day_number(&day);
        for arguments in [&["settle", "-"], &["settle", path.to_str().unwrap()]] {
            let run = run_with(arguments, &day);
            assert_eq!(run.out, format!("refused {number}\n").as_bytes());
            assert!(run.message.contains(&format!(": refused {number}: ")));
        }
        numbers.insert(number);
    }
    std::fs::remove_file(&path).unwrap();
    assert!(numbers.into_iter().eq([2, 3, 19]));
    // An endless input ends where the header's length does.
    let endless = run_with(&["settle", "/dev/zero"], b"");
    assert_eq!(endless.out, b"refused 2\n");
}

/// Shown and made again, in both units and as tables, also without a record; refused days too where they have a shape.
#[test]
fn there_and_back() {
    let made = |day: &[u8]| {
        for unit in [Unit::Units, Unit::Dollars] {
            let text = show(day, unit).unwrap();
            assert!(make(text.as_bytes()).unwrap() == day, "{text}");
        }
    };
    let mut none = 0;
    for seed in 0..150 {
        let day = ad_hoc_day(seed);
        none += usize::from(word(&day, 4) == 0);
        made(&day);
    }
    assert!(none > 0);
    for day in (0..600).map(ad_hoc_damaged_day) {
        if let Ok(text) = show(&day, Unit::Units) {
            assert!(make(text.as_bytes()).unwrap() == day, "{text}");
        }
    }
    let days = (0..30).map(small_ad_hoc_day);
    for day in days.chain([k10_records(&[]), example("ad-hoc")]) {
        for format in ["--csv", "--json"] {
            let shown = run(&["show", format], &day).output();
            assert!(run(&["make", format], &shown).output() == day);
        }
    }
    // Each word of a header, and of a record.
    for place in (0..6).chain(183..199) {
        for value in [0, 1, 2, 16, 24, 65, 764, u32::MAX] {
            let mut day = k10_records(&[record(2, 7), record(3, 7)]);
            put_word(&mut day, place, value);
            made(&day);
        }
    }
}

#[test]
fn text() {
    let shown = show(&k10_records(&[record(2, 7)]), Unit::Units).unwrap();
    let rows =
        "\n# Ad hoc record 0\n[ad hoc]\nline = 0\nschedule = 2\norder = 7\noperating =    0 2000    0    0    0\n";
    assert!(shown.ends_with(rows), "{shown}");
    assert!(shown.starts_with("# A day of 1 line and 1 ad hoc record, 764 bytes.\n"));
    assert!(!shown.contains("[header]"), "{shown}");
    let none = show(&k10_records(&[]), Unit::Units).unwrap();
    assert!(none.ends_with("\n[ad hoc]\nline = none\n"), "{none}");
}

#[test]
fn wrong_texts() {
    let shown = show(&k10_records(&[record(2, 7)]), Unit::Units).unwrap();
    let message = |text: String| run(&["make"], text.as_bytes()).failure();
    let with = |rows: &str| message(shown.replacen("[ad hoc]\n", rows, 1));
    let last = shown.lines().count();
    let heading = last - 4;
    for (rows, line, expected) in [
        (
            "[ad hoc]\nline = none\n",
            heading + 2,
            "'line' in an [ad hoc] with 'line = none', which stands alone",
        ),
        (
            "[ad hoc]\nline = none\n[ad hoc]\n",
            heading,
            "'line = none' stands for no ad hoc record, and the text has another [ad hoc]",
        ),
        (
            "[ad hoc]\nline = none\nline = none\n",
            heading + 2,
            "'line' is repeated",
        ),
        (
            "[ad hoc]\norder = 1\n",
            heading + 4,
            "'order' is repeated; it stands in line N",
        ),
        (
            "[ad hoc]\nschedule 2 = 1\n",
            heading + 1,
            "'schedule' has no schedule",
        ),
        (
            "[ad hoc]\n[ad hoc]\n",
            heading,
            "this [ad hoc] has no 'line'",
        ),
    ] {
        let expected = expected.replace('N', &(heading + 1).to_string());
        assert_eq!(with(rows), format!("line {line}: {expected}\n"));
    }
}

/// Words of the other layout's header, and more records than a text or a day may have.
#[test]
fn header_and_counts_of_texts() {
    let shown = show(&k10_records(&[record(2, 7)]), Unit::Units).unwrap();
    let message = |text: String| run(&["make"], text.as_bytes()).failure();
    let header =
        "[header]\nlines = 1\nmarket_offset = 16\nlines_offset = 64\nlength = 724\nrecords = 0\n";
    let text = String::from_utf8(stored("command/example.day.txt")).unwrap();
    let expected =
        "line 6: 'records' is a word of a file with ad hoc records, and the text has no [ad hoc]\n";
    assert_eq!(message(format!("{header}{text}")), expected);
    let record = &shown[shown.find("[ad hoc]").unwrap()..];
    let many = format!("{text}\n{}", record.repeat(100));
    let rows = text.lines().count() + 1 + 5 * 99 + 1;
    assert_eq!(
        message(many),
        format!("line {rows}: more than 99 [ad hoc] sections\n")
    );
    let many = format!("{text}\n{}", record.repeat(65));
    let made = run(&["make"], many.as_bytes());
    assert!(made.message.contains(": refused 19: "), "{}", made.message);
}

/// The example's text makes its file, and its report and steps are the reference's.
#[test]
fn example_day() {
    let day = example("ad-hoc");
    let text = stored("examples/ad-hoc.day.txt");
    assert!(run(&["make"], &text).output() == day);
    let kept =
        |ending: &str| String::from_utf8(stored(&format!("examples/ad-hoc.{ending}"))).unwrap();
    assert_eq!(settle_report(&day), kept("report"));
    assert_eq!(steps_report(&day), kept("steps"));
}

/// Reports and steps are the reference's, and those of the old file with the rows in force written in.
#[test]
fn same_as_the_old_file() {
    for seed in 0..150 {
        let (day, old) = ad_hoc_day_and_old(seed);
        let [one, other] = [&day, &old].map(|day| mewikofu::settle(day).unwrap());
        assert_eq!(one.as_bytes(), other.as_bytes());
        let day = small_ad_hoc_day(seed);
        let figures = Figures::new(&day).unwrap();
        assert_eq!(steps::text(&figures), steps_report(&day), "{seed}");
        Explained::new(&figures).unwrap();
    }
}

#[test]
fn wrong_tables() {
    let day = k10_records(&[record(2, 7)]);
    let table = String::from_utf8(run(&["show", "--csv"], &day).output()).unwrap();
    let last = table.lines().last().unwrap();
    assert!(last.starts_with("standard input,,") && last.ends_with(",0,2,7,0,2000,0,0,0"));
    let message = |text: &str| run(&["make", "--csv"], text.as_bytes()).failure();
    let with = |old: &str, new: &str| {
        assert!(table.contains(old), "{old}");
        message(&table.replacen(old, new, 1))
    };
    assert_eq!(
        with(",ad_hoc_order,", ",ad_hoc_number,"),
        "the table has no column 'ad_hoc_order'\n"
    );
    assert_eq!(
        with(",0,2,7,0,", ",0,2,,0,"),
        "row 3, ad_hoc_order: '' is not a whole number\n"
    );
    assert_eq!(
        with("standard input,,", "standard input,5,"),
        "row 3, market_price_1_dollars: '5' stands where the cell must be empty: the row is that of an ad hoc record\n"
    );
    assert_eq!(
        with(",0,2,7,0,2000,0,0,0", ",none,2,,,,,,"),
        "row 3, ad_hoc_schedule: '2' stands where the cell must be empty: with 'none' for the line there is no ad hoc record\n"
    );
    let none = last.replace(",0,2,7,0,2000,0,0,0", ",none,,,,,,,");
    assert_eq!(
        message(&format!("{table}{none}\n")),
        "row 4, ad_hoc_line: 'none' stands for no ad hoc record, and the table has another\n"
    );
    let many = format!("{table}{}", format!("{last}\n").repeat(64));
    assert_eq!(
        message(&many),
        "the table has 65 rows of ad hoc records; a day has at most 64\n"
    );
}

#[test]
fn wrong_json() {
    let day = k10_records(&[record(2, 7)]);
    let shown = run(&["show", "--json"], &day).output();
    let value: Value = serde_json::from_slice(&shown).unwrap();
    let expected =
        json!([{ "line": 0, "schedule": 2, "order": 7, "operating": [0, 2000, 0, 0, 0] }]);
    assert_eq!(value["ad_hoc"], expected);
    let message = |ad_hoc: Value| {
        let mut value = value.clone();
        value["ad_hoc"] = ad_hoc;
        run(&["make", "--json"], value.to_string().as_bytes()).failure()
    };
    assert_eq!(message(json!(5)), "ad_hoc: not an array\n");
    assert_eq!(
        message(json!([{ "line": 0 }])),
        "ad_hoc[0]: has no \"schedule\"\n"
    );
    let many = vec![expected[0].clone(); 65];
    assert_eq!(
        message(json!(many)),
        "ad_hoc: a day has at most 64 ad hoc records, not 65\n"
    );
}

/// Several days under one header, of both layouts.
#[test]
fn one_table_of_both_layouts() {
    let root = concat!(env!("CARGO_MANIFEST_DIR"), "/../examples/");
    let names = ["k10", "ad-hoc"].map(|name| format!("{root}{name}.day"));
    let table = run_with(&["show", "--csv", &names[0], &names[1]], b"").text();
    assert_eq!(table.lines().count(), 1 + 1 + 2 + 6);
}

/// The row in force and the line's own are told of the line, and of a step in the schedule.
#[test]
fn explained() {
    let day = k10_records(&[[0, 2, 7, 0, 2_500, 0, 0, 0], record(2, 6)]);
    let told = |arguments: &[&str]| {
        let text = run(&[&["explain"], arguments].concat(), &day).text();
        text.split_whitespace().collect::<Vec<_>>().join(" ")
    };
    let line = "In schedule 2 an ad hoc row is in force (order number 7): 0 2.5 0 0 0 in place of the line's own, 1 1 0 0 0.";
    let row = "The operating row is that of the ad hoc record with order number 7.";
    let text = told(&["--line", "0", "--step", "1", "--schedule", "2"]);
    for words in [line, row, "of the line's operating total 2.5,"] {
        assert!(text.contains(words), "{words}\n{text}");
    }
    let text = told(&["--line", "0", "--step", "1", "--schedule", "3"]);
    assert!(text.contains(line) && !text.contains(row), "{text}");
    // Nothing is paid in schedule 1.
    let text = told(&["--schedule", "1"]);
    assert!(
        text.ends_with(&format!("In line 0, i{}", &line[1..])),
        "{text}"
    );
    for command in ["steps", "explain"] {
        let table = run(&[command, "--csv"], &day).text();
        let ends: Vec<&str> = table
            .lines()
            .map(|row| row.rsplit(',').next().unwrap())
            .collect();
        assert_eq!(ends[..6], ["ad_hoc_order", "", "7", "", "", ""]);
    }
    let steps: Value = serde_json::from_slice(&run(&["steps", "--json"], &day).output()).unwrap();
    let row = json!({ "schedule": 2, "order": 7, "operating": [0, 2500, 0, 0, 0], "own": [1000, 1000, 0, 0, 0] });
    assert_eq!(steps["lines"][0]["ad_hoc"], json!([row]));
    let payments = run(&["explain", "--json"], &day).output();
    let payments: Value = serde_json::from_slice(&payments).unwrap();
    let orders = payments["payments"].as_array().unwrap().iter();
    let orders: Vec<Option<u64>> = orders.map(|one| one["ad_hoc_order"].as_u64()).collect();
    assert_eq!(orders[..5], [None, Some(7), None, None, None]);
}

/// The page has the rows in force with their order numbers, and the line's own.
#[test]
fn page() {
    let day = example("ad-hoc");
    let page = read(&drawn(&day, 0));
    let line = page.by_id("line-0");
    let rows = line.of_class("ad-hoc")[0].rows("tbody");
    let expected = [
        "2|in force, order number 2147483648|10,000|20,000|0|0|30,400|60,400",
        "the line's own, replaced|0|0|0|0|90,000|90,000",
        "5|in force, order number 4|0|0|0|20,000|25,000|45,000",
        "the line's own, replaced|0|0|50,000|50,000|50,000|150,000",
    ];
    let rows: Vec<String> = rows.iter().map(|row| row.join("|")).collect();
    assert_eq!(rows, expected);
    let words = " An ad hoc operating row is in force in schedule 2 (order number 2147483648) and schedule 5 (order number 4).";
    assert!(line.named("p")[0].text.contains(words));
    assert!(line.named("desc")[0].whole_text().contains(words));
    let found = line.of_class("row-words");
    let found: Vec<&str> = found.iter().map(|one| one.text.as_str()).collect();
    assert_eq!(
        found,
        [
            "ad hoc row, order number 2147483648",
            "ad hoc row, order number 4"
        ]
    );
    let text = drawn(&example("k10"), 0);
    assert!(!text.contains("ad hoc row"), "K10 has none");
}

/// The cutter reads the line's own rows, so it may refuse a line of an accepted day.
#[test]
fn cut() {
    let mut day = k10_records(&[record(2, 7)]);
    put_word(&mut day[72..], operating_word(2, 1), 5_000);
    assert_eq!(number(&day), 0);
    let cut = run(&["cut", "--line", "0"], &day);
    assert_eq!((cut.status, &cut.out[..]), (1, &b"refused 12\n"[..]));
    let words = "; the cutter reads the line's own rows, and in the day those of ad hoc records are in force in schedule 2 (order number 7)\n";
    assert!(cut.message.ends_with(words), "{}", cut.message);
    let line = run(&["cut"], &day[72..732]);
    assert_eq!(line.out, b"refused 12\n");
    assert!(!line.message.contains("ad hoc"));
    for command in ["settle", "steps", "check", "explain", "draw"] {
        assert_eq!(run(&[command], &day).status, 0, "{command}");
    }
}
