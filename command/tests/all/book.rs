//! Books for a reader.

use crate::{run, stored};
use reference::layout::{book_length, put_word};
use reference::settle::settle;

fn book_of(day: &[u8], lines: usize) -> Vec<u8> {
    let mut book = vec![0; book_length(lines)];
    assert_eq!(settle(day, &mut book), 0);
    book
}

/// K10's figures, in units and in dollars of 10,000,000 of them.
#[test]
fn k10() {
    let book = book_of(&stored("examples/k10.day"), 1);
    let units = "Book of 1 line, money in units of $0.0000001
Header: lines 1, totals at 16, lines at 96, length 152

schedule                                      1         2  3          4  5
total t                                       0  20000000  0  -10000000  0
adjusted a                                    0  10000000  0          0  0
line 0: participant 7, point 3, INJ, 2 steps  0  20000000  0  -10000000  0
";
    assert_eq!(run(&["book", "--units"], &book).text(), units);
    let dollars = run(&["book"], &book).text();
    let rows: Vec<Vec<&str>> = dollars.lines().skip(4).map(amounts).collect();
    let none = "$0.0000000";
    let paid = [none, "$2.0000000", none, "-$1.0000000", none];
    assert_eq!(rows, [paid, [none, "$1.0000000", none, none, none], paid]);
}

/// The last five words of a row.
fn amounts(row: &str) -> Vec<&str> {
    let words: Vec<&str> = row.split_whitespace().collect();
    words[words.len() - 5..].to_vec()
}

/// The rows have the same numbers as the report of the example.
#[test]
fn examples() {
    for (name, lines) in [("both-sides", 6), ("withdrawals", 4)] {
        let book = book_of(&stored(&format!("examples/{name}.day")), lines);
        let report = String::from_utf8(stored(&format!("examples/{name}.report"))).unwrap();
        let report: Vec<&str> = report.lines().collect();
        let text = run(&["book", "--units"], &book).text();
        let shown: Vec<Vec<&str>> = text.lines().skip(4).map(amounts).collect();
        let (payments, totals) = report[1..].split_at(lines);
        let expected = totals.iter().chain(payments);
        assert!(shown.into_iter().eq(expected.map(|row| amounts(row))));
        for (k, row) in payments.iter().enumerate() {
            let words: Vec<&str> = row.split(' ').collect();
            let heading = format!(
                "line {k}: participant {}, point {}, {}, {} steps",
                words[0], words[1], words[2], words[3]
            );
            assert!(text.contains(&heading), "{heading}");
        }
    }
}

#[test]
fn bytes_beyond_are_left_out() {
    let book = book_of(&stored("examples/k10.day"), 1);
    let longer = [&book[..], &[255; 30]].concat();
    let text = run(&["book"], &book).text();
    assert_eq!(run(&["book"], &longer).text(), text);
}

#[test]
fn no_books() {
    let book = book_of(&stored("examples/k10.day"), 1);
    let with = |place, value| {
        let mut book = book.clone();
        put_word(&mut book, place, value);
        run(&["book"], &book).failure()
    };
    let short = |length| run(&["book"], &book[..length]).failure();
    assert_eq!(short(95), "95 bytes are no book, which has 96 or more\n");
    assert_eq!(
        short(151),
        "151 bytes are too few for the book, which has 152\n"
    );
    assert_eq!(with(0, 0), "no book: its line count is 0, not 1 to 64\n");
    assert_eq!(with(0, 65), "no book: its line count is 65, not 1 to 64\n");
    let expected = "where [1, 16, 96, 152] is due";
    let message = format!("no book: its header is [1, 16, 96, 153], {expected}\n");
    assert_eq!(with(3, 153), message);
    assert!(with(1, 0).contains("[1, 0, 96, 152]"));
    assert!(with(2, 64).contains("[1, 16, 64, 152]"));
}
