//! From text to day files.

use crate::{example_text, pull, run, stored};
use mewikofu_command::make::make;
use std::fmt::Write;

/// A text that `make` takes, in price units, one schedule a row. Its rows are counted by the tests below.
const TEXT: &str = "[market]
price = 1 2 3 4 5
capped = no yes no yes no
apc = 6
clawback = yes
[line]
participant = 7
point = 3
side = INJ
accredited = yes
hedge = 0
bid 1 = 1000@20000 3000@50000
bid 2 = 1000@20000
bid 3 = 1000@20000
bid 4 = 1000@20000
bid 5 = 1000@20000
pricing 1 = 1 2 3 4 5
pricing 2 = 1 2 3 4
pricing 3 = 1 2 3
pricing 4 = 1 2
pricing 5 = 1
operating 1 = 1 2 3 4 5
operating 2 = 1 2 3 4 5
operating 3 = 1 2 3 4 5
operating 4 = 1 2 3 4 5
operating 5 = 1 2 3 4 5
actual = 1 2 3 4 5
";

fn words(day: &[u8]) -> Vec<u32> {
    let word = |bytes: &[u8]| u32::from_le_bytes(bytes.try_into().unwrap());
    day.chunks(4).map(word).collect()
}

fn message_of(text: &str) -> String {
    run(&["make"], text.as_bytes()).failure()
}

/// The message for the text with one row (from 1) replaced.
fn with_row(row: usize, new: &str) -> String {
    let mut rows: Vec<&str> = TEXT.lines().collect();
    rows[row - 1] = new;
    message_of(&rows.join("\n"))
}

#[test]
fn example_is_k10() {
    let day = run(&["make"], example_text().as_bytes()).output();
    assert_eq!(day, stored("examples/k10.day"));
}

/// The worked day of docs/RULES.md.
#[test]
fn rules_day() {
    let day = run(&["make"], &stored("examples/rules.day.txt")).output();
    assert_eq!(day, stored("examples/rules.day"));
}

/// Every word of a line has its place: in document 01's order they are 100, 101, 102 ..
#[test]
fn places() {
    let mut next = 100..;
    let mut take = |count: usize| -> Vec<u32> { next.by_ref().take(count).collect() };
    let mut text = String::from(
        "[header]\nlines = 1\nmarket_offset = 2\nlines_offset = 3\nlength = 4
[market]\nprice = 5 6 7 8 9\ncapped = 10 11 12 13 14\napc = 15\nclawback = 16\n[line]\n",
    );
    for key in ["participant", "point", "side", "accredited", "hedge"] {
        writeln!(text, "{key} = {}", take(1)[0]).unwrap();
    }
    for s in 1..=5 {
        let (count, ends, prices) = (take(1)[0], take(11), take(11));
        let steps = ends.iter().zip(prices).map(|(e, p)| format!(" {e}@{p}"));
        let steps: String = steps.collect();
        writeln!(text, "count {s} = {count}\nbid {s} ={steps}").unwrap();
    }
    let row = |values: Vec<u32>| values.iter().map(|v| format!(" {v}")).collect::<String>();
    for s in 1..=5 {
        writeln!(text, "pricing {s} ={}", row(take(6 - s))).unwrap();
    }
    for s in 1..=5 {
        writeln!(text, "operating {s} ={}", row(take(5))).unwrap();
    }
    writeln!(text, "actual ={}", row(take(5))).unwrap();
    let day = make(text.as_bytes()).unwrap();
    assert!(words(&day).into_iter().eq((1..=16).chain(100..265)));
    // The program writes it too, and says that it is refused.
    let run = run(&["make"], text.as_bytes());
    assert!(run.status == 1 && run.out == day, "{}", run.message);
    assert!(run
        .message
        .starts_with("mewikofu: standard input: refused 3: "));
}

#[test]
fn header_is_worked_out() {
    let day = make(TEXT.as_bytes()).unwrap();
    assert_eq!(words(&day)[..4], [1, 16, 64, 724]);
    let (market, line) = TEXT.split_at(TEXT.find("[line]").unwrap());
    let two = make(format!("{market}{line}{line}").as_bytes()).unwrap();
    assert_eq!(words(&two)[..4], [2, 16, 64, 1384]);
    assert_eq!(two[64..724], two[724..]);
    let none = make(market.as_bytes()).unwrap();
    assert_eq!(words(&none)[..4], [0, 16, 64, 64]);
}

/// Order of keys and sections, spaces, comments, line ends and ranges make no difference.
#[test]
fn other_layouts() {
    let expected = make(TEXT.as_bytes()).unwrap();
    let (market, line) = TEXT.split_at(TEXT.find("[line]").unwrap());
    let mut rows: Vec<&str> = line.lines().skip(1).collect();
    rows.reverse();
    let reversed = format!("[line]\n{}\n{market}", rows.join("\n"));
    let commented = TEXT.replace('\n', "  # $ = [line] @\r\n\r\n");
    let spaced = TEXT.replace('@', " @\t").replace('=', "   = ");
    let ranges = TEXT.lines().filter(|row| {
        let repeated = ["bid 3", "bid 4", "bid 5", "operating 2", "operating 3"];
        !repeated.iter().any(|key| row.starts_with(key))
    });
    let ranges = ranges.collect::<Vec<&str>>().join("\n");
    let ranges = ranges.replace("bid 2", "bid 2..5");
    let ranges = ranges.replace("operating 1", "operating 1..3");
    let marked = format!("\u{feff}{TEXT}");
    for text in [reversed, commented, spaced, ranges, marked] {
        assert!(make(text.as_bytes()).unwrap() == expected, "{text}");
    }
}

/// Words of a market price written so.
#[test]
fn prices_and_numbers() {
    let cases = [
        ("$0", 0),
        ("$0.0001", 1),
        ("$3", 30_000),
        ("$3.5", 35_000),
        ("$3.05", 30_500),
        ("$1_000.0000", 10_000_000),
        ("$429496.7295", u32::MAX),
        ("4294967295", u32::MAX),
        ("10_000_000", 10_000_000),
        ("007", 7),
    ];
    for (text, word) in cases {
        let row = format!("apc = {text}");
        let day = make(TEXT.replace("apc = 6", &row).as_bytes()).unwrap();
        assert_eq!(words(&day)[14], word, "{text}");
        let bid = format!("bid 1 = 1000@{text} 3000@50000");
        let day = make(
            TEXT.replace("bid 1 = 1000@20000 3000@50000", &bid)
                .as_bytes(),
        )
        .unwrap();
        assert_eq!(words(&day)[16 + 5 + 12], word, "{text}");
    }
}

#[test]
fn sides_marks_and_bids_out_of_range() {
    let text = TEXT.replace("side = INJ", "side = 2");
    let text = text.replace("accredited = yes", "accredited = 4294967295");
    let text = text.replace("bid 2 = 1000@20000", "bid 2 = none");
    let text = text.replace("bid 3 = 1000@20000", "count 3 = 12\nbid 3 = 5@6 0@0 7@8");
    let line = words(&make(text.as_bytes()).unwrap()).split_off(16);
    assert_eq!(line[2..4], [2, u32::MAX]);
    assert_eq!(line[28..51], [0; 23]);
    let mut bid = [0; 23];
    (bid[0], bid[1], bid[3], bid[12], bid[14]) = (12, 5, 7, 6, 8);
    assert_eq!(line[51..74], bid);
}

/// `none` is a pulled bid. The file is made for schedule 1 too, which has no pulled bid, and the message says where it is.
#[test]
fn pulled_bids() {
    let day = make(TEXT.as_bytes()).unwrap();
    for (old, new, schedules) in [
        ("bid 3 = 1000@20000\n", "bid 3 = none\n", &[3][..]),
        ("bid 5 = 1000@20000\n", "bid 5 =\tnone  # pulled\n", &[5]),
        (
            "bid 2 = 1000@20000\nbid 3 = 1000@20000\nbid 4 = 1000@20000\n",
            "bid 2..4 = none\n",
            &[2, 3, 4],
        ),
    ] {
        let text = TEXT.replace(old, new);
        assert_ne!(text, TEXT);
        let mut pulled = day.clone();
        schedules.iter().for_each(|&s| pull(&mut pulled[64..], s));
        assert!(run(&["make"], text.as_bytes()).output() == pulled, "{new}");
    }
    let text = TEXT.replace("bid 1 = 1000@20000 3000@50000", "bid 1 = none");
    let mut pulled = day;
    pull(&mut pulled[64..], 1);
    let run = run(&["make"], text.as_bytes());
    assert!(run.status == 1 && run.out == pulled, "{}", run.message);
    let why = "refused 7: a bid's count is 0 in schedule 1, or above 11: line 0 (participant 7, point 3, INJ), bid of schedule 1: its count is 0; \
               it must be 1 to 11, since only bids of the schedules 2 to 5 can be pulled";
    assert_eq!(run.message, format!("mewikofu: standard input: {why}\n"));
}

#[test]
fn wrong_rows() {
    let cases = [
        (2, "prize = 1 2 3 4 5", "unknown key 'prize' in [market]"),
        (
            3,
            "price = 1 2 3 4 5",
            "'price' is repeated; it stands in line 2",
        ),
        (2, "price = 1 2 3 4", "'price' needs 5 values, not 4"),
        (4, "apc = 1 2", "'apc' needs 1 value, not 2"),
        (4, "apc =", "'apc' needs 1 value, not 0"),
        (4, "apc", "'apc' is not 'key = values'"),
        (4, "= 4", "unknown key '' in [market]"),
        (4, "apc 1 = 4", "'apc' has no schedule"),
        (
            4,
            "apc = 4294967296",
            "4294967296 is too large for a word (at most 4294967295)",
        ),
        (4, "apc = -1", "'-1' is not a whole number"),
        (4, "apc = 1,000", "'1,000' is not a whole number"),
        (4, "apc = 1__0", "'1__0' is not a whole number"),
        (4, "apc = +1", "'+1' is not a whole number"),
        (
            4,
            "apc = $1.00001",
            "$1.00001 has more than four decimals; a price unit is $0.0001",
        ),
        (
            4,
            "apc = $429496.7296",
            "$429496.7296 is too large for a word (at most 4294967295)",
        ),
        (4, "apc = $.5", "'$.5' is not an amount in dollars"),
        (4, "apc = $5.", "'$5.' is not an amount in dollars"),
        (4, "apc = $", "'$' is not an amount in dollars"),
        (5, "clawback = on", "'on' is not yes, no or a number"),
        (9, "side = inj", "'inj' is not INJ, WDR or a number"),
        (
            11,
            "hedge = $5",
            "'$5' is in dollars, but stands for no price",
        ),
        (11, "hedge 1 = 5", "'hedge' has no schedule"),
        (
            12,
            "bid = 1@2",
            "'bid' needs a schedule, 1 to 5, such as 'bid 1'",
        ),
        (
            12,
            "bid 0 = 1@2",
            "'0' is no schedule; they are 1 to 5, or a range such as 2..4",
        ),
        (
            12,
            "bid 1..6 = 1@2",
            "'1..6' is no schedule; they are 1 to 5, or a range such as 2..4",
        ),
        (
            12,
            "bid 2..1 = 1@2",
            "'2..1' falls; a range of schedules rises, such as 1..2",
        ),
        (
            12,
            "bid +1 = 1@2",
            "'+1' is no schedule; they are 1 to 5, or a range such as 2..4",
        ),
        (
            12,
            "bid 1 =",
            "'bid 1' has no value; a step is break@price, such as 1000@20000",
        ),
        (
            14,
            "bid 3 =",
            "'bid 3' has no value; a step is break@price, such as 1000@20000; a pulled bid is 'none'",
        ),
        (
            12,
            "bid 1 = pulled",
            "'pulled' is not break@price, such as 1000@20000",
        ),
        (
            14,
            "bid 3 = pulled",
            "'pulled' is not break@price, such as 1000@20000; a pulled bid is 'none'",
        ),
        (
            14,
            "bid 3 = 0",
            "'0' is not break@price, such as 1000@20000; a pulled bid is 'none'",
        ),
        (
            14,
            "bid 3 = none 1@2",
            "'none 1 @' is not break@price, such as 1000@20000",
        ),
        (
            14,
            "bid 3 = 1@2 none",
            "'none' is not break@price, such as 1000@20000",
        ),
        (
            12,
            "bid 1 = 1@2 3",
            "'3' is not break@price, such as 1000@20000",
        ),
        (
            12,
            "bid 1 = 1 2 3@4",
            "'1 2 3' is not break@price, such as 1000@20000",
        ),
        (12, "bid 1 = 1@x", "'x' is not a whole number"),
        (
            12,
            "bid 1 = $1@2",
            "'$1' is in dollars, but stands for no price",
        ),
        (
            13,
            "bid 1 = 1@2",
            "'bid 1' is repeated; it stands in line 12",
        ),
        (
            13,
            "bid 1..3 = 1@2",
            "'bid 1' is repeated; it stands in line 12",
        ),
        (
            14,
            "bid 2..3 = 1@2",
            "'bid 2' is repeated; it stands in line 13",
        ),
        (
            18,
            "pricing 2 = 0 0 0 0 0",
            "'pricing 2' needs 4 values, not 5",
        ),
        (21, "pricing 5 = 0 0", "'pricing 5' needs 1 value, not 2"),
        (
            22,
            "operating 1 = 0 0 0 0",
            "'operating 1' needs 5 values, not 4",
        ),
        (
            6,
            "[lines]",
            "unknown section [lines]; there are [header], [market], [line], [ad hoc]",
        ),
        (6, "[market]", "[market] is repeated; it stands in line 1"),
        (1, "price = 1", "a section comes first, such as [market]"),
    ];
    for (line, row, message) in cases {
        assert_eq!(
            with_row(line, row),
            format!("line {line}: {message}\n"),
            "{row}"
        );
    }
}

/// Words of an accreditation written so.
#[test]
fn accreditation() {
    let cases = [
        ("no", 0),
        ("0", 0),
        ("yes", 1),
        ("1", 1),
        ("3", 3),
        ("61", 61),
        ("64", 64),
        ("4_294_967_295", u32::MAX),
        ("in none", 32),
        ("in 1", 33),
        ("in 3", 36),
        ("in 5", 48),
        ("in 1,2", 35),
        ("in 1..2", 35),
        ("1,2", 35),
        ("1..2", 35),
        ("2,1", 35),
        ("4..4", 40),
        ("in 1,3..5", 61),
        ("1,3..5", 61),
        ("3..5,1", 61),
        ("in 1,3,4,5", 61),
        ("in\t1 , 3 .. 5", 61),
        ("1..5", 63),
        ("in 1..5", 63),
    ];
    for (text, word) in cases {
        let row = format!("accredited = {text}");
        let day = make(TEXT.replace("accredited = yes", &row).as_bytes()).unwrap();
        assert_eq!(words(&day)[16 + 3], word, "{text}");
    }
}

#[test]
fn wrong_accreditation() {
    let no_schedule = "is no schedule; they are 1 to 5, or a range such as 2..4";
    let empty_item = "has an empty item, where a schedule or a range such as 2..4 must stand";
    let no_set = "is not yes, no, a number or a set of schedules, such as 'in 1,3..5'";
    let cases = [
        ("", "'accredited' needs 1 value, not 0".to_string()),
        (
            "in",
            "'in' needs schedules, such as 'in 1,3..5'; the empty set is 'in none'".to_string(),
        ),
        ("in 0", format!("'0' {no_schedule}")),
        ("in 6", format!("'6' {no_schedule}")),
        ("1,6", format!("'6' {no_schedule}")),
        ("0..2", format!("'0..2' {no_schedule}")),
        ("in 4..6", format!("'4..6' {no_schedule}")),
        ("in 1 3", format!("'1 3' {no_schedule}")),
        ("in 1,", format!("'1,' {empty_item}")),
        ("in ,1", format!("',1' {empty_item}")),
        ("1, ,3", format!("'1, ,3' {empty_item}")),
        (",", format!("',' {empty_item}")),
        ("in 1,..3", format!("'..3' {no_schedule}")),
        ("in 1,none", format!("'none' {no_schedule}")),
        ("in yes", format!("'yes' {no_schedule}")),
        ("-1,2", format!("'-1' {no_schedule}")),
        ("1...3", format!("'1...3' {no_schedule}")),
        (
            "in 1,5..3",
            "'5..3' falls; a range of schedules rises, such as 3..5".to_string(),
        ),
        ("in 3,3", "schedule 3 is named twice".to_string()),
        ("2..4,1,3", "schedule 3 is named twice".to_string()),
        ("none", format!("'none' {no_set}")),
        ("maybe", format!("'maybe' {no_set}")),
        ("yes no", format!("'yes no' {no_set}")),
        ("1 3", format!("'1 3' {no_set}")),
        ("-1", format!("'-1' {no_set}")),
        (
            "4294967296",
            "4294967296 is too large for a word (at most 4294967295)".to_string(),
        ),
    ];
    for (text, message) in cases {
        let row = format!("accredited = {text}");
        assert_eq!(with_row(10, &row), format!("line 10: {message}\n"), "{row}");
    }
}

#[test]
fn twelve_steps() {
    let steps: String = (1..=12).map(|k| format!(" {k}@0")).collect();
    let message = with_row(12, &format!("bid 1 ={steps}"));
    assert_eq!(message, "line 12: 'bid 1' has 12 steps; at most 11\n");
}

/// A section without one of its keys; the message names the section's own line.
#[test]
fn missing_keys() {
    let header = "[header]\nlines = 1\nmarket_offset = 16\nlines_offset = 64\nlength = 724\n";
    let text = format!("{TEXT}{header}");
    assert_eq!(make(text.as_bytes()), make(TEXT.as_bytes()));
    let rows: Vec<&str> = text.lines().collect();
    let mut section = (0, "");
    for (k, row) in rows.iter().enumerate() {
        if row.starts_with('[') {
            section = (k + 1, row);
            continue;
        }
        let others = [&rows[..k], &rows[k + 1..]].concat();
        let key = row.split(" = ").next().unwrap();
        let (line, heading) = section;
        let expected = format!("line {line}: this {heading} has no '{key}'\n");
        assert_eq!(message_of(&others.join("\n")), expected);
    }
}

#[test]
fn missing_market() {
    assert_eq!(message_of(""), "line 1: the text has no [market]\n");
    assert_eq!(
        message_of("# x\n\n# y\n"),
        "line 3: the text has no [market]\n"
    );
    let (_, line) = TEXT.split_at(TEXT.find("[line]").unwrap());
    assert_eq!(message_of(line), "line 22: the text has no [market]\n");
}

#[test]
fn too_many_lines() {
    let (market, line) = TEXT.split_at(TEXT.find("[line]").unwrap());
    let most = format!("{market}{}", line.repeat(99));
    assert_eq!(make(most.as_bytes()).unwrap().len(), 64 + 660 * 99);
    let message = message_of(&format!("{most}{line}"));
    let row = 5 + 22 * 99 + 1;
    assert_eq!(
        message,
        format!("line {row}: more than 99 [line] sections\n")
    );
}

#[test]
fn text_that_is_not_utf8() {
    let mut text = TEXT.as_bytes().to_vec();
    let place = TEXT.find("apc").unwrap();
    text[place] = 0xFF;
    let message = run(&["make"], &text).failure();
    assert_eq!(message, "line 4: the text isn't UTF-8\n");
}

/// Every beginning of a text, and a text with any byte replaced, is made or has a fault in one of its lines.
#[test]
fn damaged_texts() {
    let text = example_text().into_bytes();
    let beginnings = (0..text.len()).map(|length| text[..length].to_vec());
    let replaced = (0..text.len()).flat_map(|place| {
        b"\n#[]=@$._9 x\0\xFF".map(|byte| {
            let mut text = text.clone();
            text[place] = byte;
            text
        })
    });
    for text in beginnings.chain(replaced) {
        match make(&text) {
            Ok(day) => assert!(day.len() == 64 || day.len() == 724),
            Err(fault) => {
                let lines = text.split(|&byte| byte == b'\n').count();
                assert!((1..=lines).contains(&fault.line), "{fault}");
            }
        }
    }
}
