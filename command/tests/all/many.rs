//! Many days at once, and their books.

use crate::run_with;
use reference::generate::{damaged_day, valid_day};
use reference::layout::{book_length, signed, word, MOST_LINES};
use reference::settle::settle;
use std::fs;
use std::path::{Path, PathBuf};

/// A folder of its own, gone with the value.
struct Folder(PathBuf);

impl Folder {
    fn new(name: &str) -> Folder {
        let path = std::env::temp_dir().join(format!("mewikofu-{}-{name}", std::process::id()));
        fs::create_dir_all(&path).unwrap();
        Folder(path)
    }

    fn names(&self) -> Vec<String> {
        let mut names: Vec<String> = fs::read_dir(&self.0)
            .unwrap()
            .map(|entry| entry.unwrap().file_name().into_string().unwrap())
            .collect();
        names.sort();
        names
    }
}

impl Drop for Folder {
    fn drop(&mut self) {
        let _ = fs::remove_dir_all(&self.0);
    }
}

/// Even seeds without fault, odd ones damaged.
fn write_days(folder: &Path, count: u64) -> Vec<(String, Vec<u8>)> {
    let write = |seed: u64| {
        let day = if seed.is_multiple_of(2) {
            valid_day(seed)
        } else {
            damaged_day(seed)
        };
        let path = folder.join(format!("{seed:03}.day"));
        fs::write(&path, &day).unwrap();
        (path.to_str().unwrap().to_string(), day)
    };
    (0..count).map(write).collect()
}

fn settled(day: &[u8]) -> Result<Vec<u8>, u32> {
    let mut book = vec![0; book_length(MOST_LINES)];
    match settle(day, &mut book) {
        0 => {
            book.truncate(book_length(word(&book, 0) as usize));
            Ok(book)
        }
        number => Err(number),
    }
}

/// One row for each file, in the order given: the reference's totals, or its number.
#[test]
fn table_of_days() {
    let folder = Folder::new("table");
    let days = write_days(&folder.0, 120);
    let files: Vec<&str> = days.iter().map(|(path, _)| path.as_str()).collect();
    let run = run_with(&[&["settle", "--csv", "--units"], &files[..]].concat(), &[]);
    assert_eq!(run.status, 1);
    let mut reader = csv::Reader::from_reader(&run.out[..]);
    let rows: Vec<csv::StringRecord> = reader.records().map(Result::unwrap).collect();
    assert_eq!(rows.len(), days.len());
    let mut refused = 0;
    for (row, (path, day)) in rows.iter().zip(&days) {
        assert_eq!(&row[0], path);
        match settled(day) {
            Ok(book) => {
                let due = (0..5)
                    .map(|s| signed(&book, 16 + 16 * s))
                    .chain((0..5).map(|s| signed(&book, 24 + 16 * s)));
                assert!(row
                    .iter()
                    .skip(2)
                    .take(10)
                    .map(|cell| cell.parse::<i64>().unwrap())
                    .eq(due));
                assert_eq!(
                    (&row[1], &row[12]),
                    (word(&book, 0).to_string().as_str(), "")
                );
            }
            Err(number) => {
                assert_eq!(&row[12], number.to_string());
                assert!(row[13].starts_with(&format!("refused {number}: ")));
                assert!(run
                    .message
                    .contains(&format!("mewikofu: {path}: refused {number}: ")));
                refused += 1;
            }
        }
    }
    assert!(refused > 30);
    // In text the same files, with the sum of all below.
    let text = String::from_utf8(run_with(&[&["settle"], &files[..]].concat(), &[]).out).unwrap();
    assert_eq!(text.lines().count(), days.len() + 2);
    assert!(
        text.lines()
            .last()
            .unwrap()
            .starts_with(&format!("total of {} days", days.len() - refused)),
        "{text}"
    );
}

/// Books beside the days or in a folder are the reference's, and nothing else is left there.
#[test]
fn books() {
    let folder = Folder::new("books");
    let other = Folder::new("books-in");
    let days = write_days(&folder.0, 40);
    let files: Vec<&str> = days.iter().map(|(path, _)| path.as_str()).collect();
    let book = |path: &str| path.replace(".day", ".book");
    // A book that was there is replaced.
    fs::write(book(files[0]), "old").unwrap();
    assert_eq!(
        run_with(&[&["settle", "--books"], &files[..]].concat(), &[]).status,
        1
    );
    assert_eq!(
        run_with(
            &[
                &["settle", "--books-in", other.0.to_str().unwrap()],
                &files[..]
            ]
            .concat(),
            &[]
        )
        .status,
        1
    );
    for (path, day) in &days {
        let path = book(path);
        let copy = other.0.join(Path::new(&path).file_name().unwrap());
        match settled(day) {
            Ok(book) => {
                assert!(fs::read(&path).unwrap() == book && fs::read(copy).unwrap() == book)
            }
            Err(_) => assert!(!Path::new(&path).exists() && !copy.exists()),
        }
    }
    let accepted = days.iter().filter(|(_, day)| settled(day).is_ok()).count();
    assert_eq!(folder.names().len(), days.len() + accepted);
    assert_eq!(other.names().len(), accepted);
}

/// A book that can't be written is an output error; the other days go on.
#[test]
fn books_that_cannot_be_written() {
    let folder = Folder::new("unwritable");
    let days = write_days(&folder.0, 3);
    let files: Vec<&str> = days.iter().map(|(path, _)| path.as_str()).collect();
    fs::create_dir(files[0].replace(".day", ".book")).unwrap();
    let run = run_with(&[&["settle", "--books"], &files[..]].concat(), &[]);
    assert_eq!(run.status, 2);
    assert!(run.message.contains("000.book: "), "{}", run.message);
    assert!(Path::new(&files[2].replace(".day", ".book")).is_file());
    assert!(folder.names().iter().all(|name| !name.ends_with(".part")));
    let run = run_with(&["settle", "--books-in", "/nowhere", files[0]], &[]);
    assert_eq!(run.status, 2);
    // A book over its own day, or over another.
    let day = folder.0.join("x.book");
    fs::write(&day, valid_day(0)).unwrap();
    let run = run_with(&["settle", "--books", day.to_str().unwrap()], &[]);
    assert!(
        run.status == 2 && run.message.contains("would be written over a day"),
        "{}",
        run.message
    );
    assert!(fs::read(&day).unwrap() == valid_day(0));
    // Two days with one book.
    let run = run_with(
        &["settle", "--books-in", "/nowhere", files[0], files[0]],
        &[],
    );
    assert!(
        run.status == 2 && run.message.contains("would both have the book"),
        "{}",
        run.message
    );
}
