//! Uplift by schedule.

use crate::draw::EXAMPLES;
use crate::{days, run, run_with, stored, worked};
use mewikofu_command::explain::Explained;
use mewikofu_command::figures::Figures;
use mewikofu_command::uplift::Uplift;
use reference::generate::{
    damaged_day, uplift_day, uplift_fault_day, uplift_limit_days, uplift_row_days, valid_day,
};
use reference::layout::{book_adjusted, book_length, book_totals, MOST_LINES};
use reference::report::uplift_report;
use reference::uplift::uplift;

/// Worked out by hand: 26 x 70 / 74 = 24.594.., 14 x 70 / 74 = 13.243.., 4 x 70 / 74 = 3.783.. and 30 x 70 / 74 = 28.378.. are 68 when rounded down, and
/// the 2 units left over go to the schedules 1 and 2. Schedule 5 has nothing left of its -4.
#[test]
fn a_group_of_four() {
    let text = "\
uplift 25 14 3 28 0

schedule  total  adjusted total   group  exact share  uplift
1            26              26  1 to 4      24.5945      25
2            14              14  1 to 4      13.2432      14
3             4               4  1 to 4       3.7837       3
4            30              26  1 to 4      28.3783      28
5            -4               0       5       0.0000       0
sum          70              70                           70
";
    let day = worked("F-5-1", "day");
    assert_eq!(run(&["uplift", "--units"], &day).text(), text);
    // Seven decimals are units, and four more are of the exact share.
    let dollars = run(&["uplift"], &day).text();
    let last = "\nsum        $0.0000070      $0.0000070                          $0.0000070\n";
    assert!(dollars.ends_with(last), "{dollars}");
    let second = "1 to 4  $0.00000132432  $0.0000014\n";
    assert!(dollars.contains(second), "{dollars}");
}

/// By hand: the totals 20 -8 -16 6 -10 have the adjusted totals 0 0 -4 0 -4. Of the group 2 and 3, 8 x 4 / 24 = 1.333.. and 16 x 4 / 24 = 2.666.. are 3
/// when rounded down, and the unit left over goes to schedule 2.
#[test]
fn below_zero() {
    let day = worked("F-5-2", "day");
    let table = "\
file,schedule,total_units,adjusted_units,group,group_total_units,group_adjusted_units,exact_units,uplift_units
standard input,1,20,0,1,20,0,0.0000,0
standard input,2,-8,0,2..3,-24,-4,-1.3333,-2
standard input,3,-16,-4,2..3,-24,-4,-2.6666,-2
standard input,4,6,0,4,6,0,0.0000,0
standard input,5,-10,-4,5,-10,-4,-4.0000,-4
";
    assert_eq!(run(&["uplift", "--csv", "--units"], &day).text(), table);
    let dollars = run(&["uplift", "--csv"], &day).text();
    let second = "standard input,2,-0.0000008,0.0000000,2..3,-0.0000024,-0.0000004,-0.00000013333,-0.0000002\n";
    assert!(dollars.contains(second), "{dollars}");
    let value: serde_json::Value =
        serde_json::from_slice(&run(&["uplift", "--json"], &day).output()).unwrap();
    let due = serde_json::json!({
        "file": "standard input",
        "money_unit": "$0.0000001",
        "totals": [20, -8, -16, 6, -10],
        "adjusted": [0, 0, -4, 0, -4],
        "groups": [
            { "schedules": [1], "total": 20, "adjusted": 0 },
            { "schedules": [2, 3], "total": -24, "adjusted": -4 },
            { "schedules": [4], "total": 6, "adjusted": 0 },
            { "schedules": [5], "total": -10, "adjusted": -4 },
        ],
        "uplift": [0, -2, -2, 0, -4],
    });
    assert_eq!(value, due);
}

/// A total of 0 is in no group.
#[test]
fn k10() {
    let text = run(&["uplift", "--units"], &stored("examples/k10.day")).text();
    let rows: Vec<Vec<&str>> = text
        .lines()
        .skip(3)
        .map(|row| row.split_whitespace().collect())
        .collect();
    let none = ["0", "0", "none", "0"];
    let due: [Vec<&str>; 6] = [
        [&["1"], &none[..]].concat(),
        "2 20000000 10000000 2 10000000.0000 10000000"
            .split(' ')
            .collect(),
        [&["3"], &none[..]].concat(),
        "4 -10000000 0 4 0.0000 0".split(' ').collect(),
        [&["5"], &none[..]].concat(),
        "sum 10000000 10000000 10000000".split(' ').collect(),
    ];
    assert_eq!(rows, due);
}

/// Generated days without fault: runs of one sign and any other, and those at the limits.
fn accepted_days() -> impl Iterator<Item = Vec<u8>> {
    let generated = (0..days(400)).flat_map(|seed| [uplift_day(seed), valid_day(seed)]);
    generated
        .chain(uplift_row_days())
        .chain(uplift_limit_days())
}

/// Totals and adjusted totals of the reference's book.
fn reference_totals(day: &[u8]) -> [[i64; 5]; 2] {
    let mut book = vec![0; book_length(MOST_LINES)];
    assert_eq!(reference::settle::settle(day, &mut book), 0);
    [book_totals(&book), book_adjusted(&book)]
}

/// A number of ten-thousandths of a unit, as the table has it.
fn ten_thousandths(text: &str) -> i128 {
    let (whole, decimals) = text.split_once('.').unwrap();
    assert_eq!(decimals.len(), 4, "{text}");
    format!("{whole}{decimals}").parse().unwrap()
}

/// The command's own exact share is less than one unit from the proved share, and it is the fraction, cut off, of the reference's totals.
#[test]
fn exact_shares() {
    let (mut rounded, mut groups) = (0, [0; 6]);
    for day in accepted_days() {
        let [totals, adjusted] = reference_totals(&day);
        let book = mewikofu::settle(&day).unwrap();
        let found = Uplift::new(&book, mewikofu::uplift(&day).unwrap()).unwrap();
        assert_eq!(found.shares, uplift(&day).shares);
        for s in 0..5 {
            let Some(exact) = found.exact(s) else {
                assert_eq!((totals[s], found.shares[s]), (0, 0));
                continue;
            };
            // As far as the sign goes on to both sides.
            let is_alike = |q: &usize| totals[*q].signum() == totals[s].signum();
            let first = (0..=s).rev().take_while(is_alike).last().unwrap();
            let last = (s..5).take_while(is_alike).last().unwrap();
            let group = found.group(s).unwrap();
            assert_eq!(group.schedules, first..last + 1);
            let sum = |row: &[i64; 5]| row[first..=last].iter().map(|&t| i128::from(t)).sum();
            let (total, due): (i128, i128) = (sum(&totals), sum(&adjusted));
            assert_eq!((group.total.into(), group.adjusted.into()), (total, due));
            let product = i128::from(totals[s]) * due;
            let (whole, rest) = (product / total, product % total);
            let cut_off = 10_000 * whole + 10_000 * rest / total;
            let written = ten_thousandths(&exact.units().to_string());
            assert_eq!(written, cut_off);
            // Cut off: the rest is below a ten-thousandth.
            let apart = (10_000 * i128::from(found.shares[s]) - written).abs();
            assert!(apart < 10_000 || (apart == 10_000 && exact.units().is_cut));
            assert_eq!(exact.leaves_remainder(), rest != 0);
            rounded += usize::from(rest != 0);
            groups[last + 1 - first] += 1;
        }
    }
    assert!(
        rounded > 100 && groups[1..].iter().all(|&times| times > 0),
        "{rounded} {groups:?}"
    );
}

/// A share that isn't one unit near the exact one, and shares that don't add up, are found: nothing is said of such a day.
#[test]
fn changed_shares_are_found() {
    let day = worked("F-5-1", "day");
    let book = mewikofu::settle(&day).unwrap();
    let fails = |shares| Uplift::new(&book, shares).err().expect("it is found");
    assert!(Uplift::new(&book, [25, 14, 3, 28, 0]).is_ok());
    let sum = "schedules 1 to 4: the uplift adds up to 69 units, and the adjusted totals to 70";
    assert_eq!(fails([24, 14, 3, 28, 0]), sum);
    for (shares, s) in [
        ([26, 13, 3, 28, 0], 1),
        ([25, 12, 4, 29, 0], 2),
        ([25, 14, 3, 28, 1], 5),
    ] {
        let why = format!("schedule {s}: the uplift is {} units, which isn't its share of its group's adjusted totals", shares[s - 1]);
        assert_eq!(fails(shares), why);
    }
    let mut figures = Figures::new(&day).unwrap();
    assert!(Explained::new(&figures).is_ok());
    figures.uplift[0] -= 1;
    assert_eq!(Explained::new(&figures).err().unwrap(), sum);
}

/// The first row, or the refusal, is what the program `uplift` prints.
#[test]
fn first_row() {
    for name in EXAMPLES.iter().chain(&["refused"]) {
        let day = stored(&format!("examples/{name}.day"));
        check_first_row(&day);
    }
    // Worked out by hand.
    for name in ["uplift", "open-rises"] {
        let text = run(&["uplift"], &stored(&format!("examples/{name}.day"))).text();
        let kept = String::from_utf8(stored(&format!("examples/{name}.uplift"))).unwrap();
        assert_eq!(text.lines().next(), kept.lines().next());
    }
    for seed in 0..20 {
        check_first_row(&uplift_day(seed));
        check_first_row(&uplift_fault_day(seed));
        check_first_row(&damaged_day(seed));
    }
}

fn check_first_row(day: &[u8]) {
    let run = run(&["uplift"], day);
    let text = String::from_utf8(run.out).unwrap();
    let due = uplift_report(day);
    match due.starts_with("refused ") {
        true => {
            assert_eq!((run.status, &text), (1, &due));
            let message = format!("mewikofu: standard input: {}: ", due.trim_end());
            assert!(run.message.starts_with(&message), "{}", run.message);
        }
        false => {
            assert_eq!((run.status, run.message.as_str()), (0, ""));
            assert!(text.starts_with(&format!("{due}\nschedule ")), "{text}");
        }
    }
}

/// Three files, of which the second is refused.
fn three_files() -> [String; 3] {
    ["pulled", "refused", "k10"]
        .map(|name| format!("{}/../examples/{name}.day", env!("CARGO_MANIFEST_DIR")))
}

/// What is printed of the three files; the refusal of the second is said.
fn of_three(arguments: &[&str]) -> String {
    let files = three_files();
    let names = files.each_ref().map(String::as_str);
    let run = run_with(&[&["uplift"], arguments, &names].concat(), &[]);
    assert_eq!(run.status, 1);
    let message = format!("mewikofu: {}: refused 9: ", files[1]);
    assert!(run.message.starts_with(&message) || arguments == ["--json"]);
    String::from_utf8(run.out).unwrap()
}

/// 800, 2,000 and 250 million are shared 2,000 million: 80 x 200 / 305 = 52.4590163.., 131.1475409.. and 16.3934426..
const PULLED: [i64; 5] = [524_590_164, 1_311_475_410, 163_934_426, 0, 0];

/// One row for each day; a refused day keeps its place.
#[test]
fn table_of_days() {
    let csv = of_three(&["--csv", "--units"]);
    let mut reader = csv::Reader::from_reader(csv.as_bytes());
    let columns: Vec<String> = (1..6).map(|s| format!("uplift_{s}_units")).collect();
    let headers: Vec<String> = reader.headers().unwrap().iter().map(String::from).collect();
    assert_eq!(headers[..2], ["file", "lines"]);
    assert_eq!(headers[2..7], columns);
    assert_eq!(headers[7..], ["refused", "why"]);
    let table: Vec<csv::StringRecord> = reader.records().map(Result::unwrap).collect();
    assert_eq!(table.len(), 3);
    let amounts = |row: &csv::StringRecord| -> Vec<i64> {
        (2..7).map(|cell| row[cell].parse().unwrap()).collect()
    };
    assert_eq!((&table[0][1], amounts(&table[0])), ("3", PULLED.to_vec()));
    assert_eq!((&table[1][2], &table[1][7]), ("", "9"));
    assert_eq!(amounts(&table[2]), [0, 10_000_000, 0, 0, 0]);
}

/// The same for a reader, with the sums of the days that aren't refused.
#[test]
fn text_of_days() {
    let text = of_three(&[]);
    let words: Vec<Vec<&str>> = text
        .lines()
        .map(|row| row.split_whitespace().collect())
        .collect();
    assert_eq!(
        words[1][2..],
        [
            "$52.4590164",
            "$131.1475410",
            "$16.3934426",
            "$0.0000000",
            "$0.0000000"
        ]
    );
    assert_eq!(words[2][1..], ["refused", "9"]);
    assert_eq!(words[4][..5], ["total", "of", "2", "days", "4"]);
    assert_eq!(words[4][5..7], ["$52.4590164", "$132.1475410"]);
    // One day as one row.
    let one = run_with(&["uplift", "--days", &three_files()[2]], &[]).text();
    assert_eq!(one.lines().count(), 3, "{one}");
}

/// A row for each schedule of each day.
#[test]
fn schedules_of_days() {
    let whole = of_three(&["--schedules"]);
    let [first, second, third] = three_files();
    for row in [
        format!("== {first} ==\nuplift 524590164 1311475410 163934426 0 0\n\nschedule "),
        format!("== {second} ==\nrefused 9\n== {third} ==\nuplift 0 10000000 0 0 0\n\n"),
    ] {
        assert!(whole.contains(&row), "{whole}");
    }
    let table = of_three(&["--schedules", "--csv"]);
    assert_eq!(table.lines().count(), 1 + 2 * 5);
}

#[test]
fn objects_of_days() {
    let objects: Vec<serde_json::Value> = of_three(&["--json"])
        .lines()
        .map(|row| serde_json::from_str(row).unwrap())
        .collect();
    assert_eq!(objects[0]["uplift"], serde_json::json!(PULLED));
    assert_eq!(objects[1]["refused"], 9);
}

/// The explanation of a worked day has the words, however its lines are broken.
fn explanation_has(name: &str, words: &[&str]) {
    let text = run(&["explain"], &worked(name, "day")).text();
    let text = text.split_whitespace().collect::<Vec<_>>().join(" ");
    for words in words {
        assert!(text.contains(words), "{words}\n{text}");
    }
}

/// The arithmetic of each group, by hand.
#[test]
fn explained() {
    explanation_has(
        "F-5-1",
        &[
            "Schedules 1 to 4, all above $0: the totals add up to $0.0000074 and the adjusted totals to $0.000007.",
            "Schedule 1: $0.0000026 x $0.000007 / $0.0000074 = $0.00000245945.., rounded towards zero $0.0000024, and with one of the units of $0.0000001 \
             that are left over $0.0000025.",
            "Schedule 3: $0.0000004 x $0.000007 / $0.0000074 = $0.00000037837.., rounded towards zero $0.0000003.",
            "Schedule 5: a group of its own, so the uplift is the adjusted total, $0.00.",
        ],
    );
    explanation_has(
        "F-5-2",
        &[
            "Schedules 2 and 3, all below $0: the totals add up to -$0.0000024 and the adjusted totals to -$0.0000004.",
            "Schedule 2: -$0.0000008 x -$0.0000004 / -$0.0000024 = -$0.00000013333.., rounded towards zero -$0.0000001, and with one of the units of \
             $0.0000001 that are left over -$0.0000002.",
        ],
    );
    // 50 and 1 have 51 in sum, all of which is there: nothing is rounded.
    explanation_has(
        "F-5-3",
        &[
            "Schedule 1: the total is $0, so there is no uplift.",
            "Schedule 4: $0.0000001 x $0.0000051 / $0.0000051 = $0.0000001.",
        ],
    );
}

/// The explanation of a day ends with its uplift; that of one schedule has none.
#[test]
fn end_of_explanation() {
    let pulled = run(&["explain"], &stored("examples/pulled.day")).text();
    assert!(pulled.ends_with("so there is no uplift.\n"), "{pulled}");
    let one = run(
        &["explain", "--schedule", "2"],
        &stored("examples/pulled.day"),
    );
    assert!(!one.text().contains("Uplift"));
}
