//! The functions called from several threads at once: they have no writable data and need no lock.

use mewikofu::{
    book_bytes, cut, line_part, line_views, settle_into, uplift, view, Cut, Refusal, View,
    MOST_LINES,
};
use reference::generate::{damaged_day, valid_day};
use std::sync::{Arc, Barrier};
use std::thread::Builder;

const THREADS: usize = 8;
const ROUNDS: usize = 20;
/// Of each thread: enough for any of the functions (include/mewikofu.h) and for the test's own.
const STACK: usize = 64 * 1024;

/// What the functions answer for a day, its last line and the first and all steps of that line.
#[derive(Debug, PartialEq)]
struct Answers {
    number: Result<(), Refusal>,
    book: Box<[u8]>,
    uplift: Result<[i64; 5], Refusal>,
    view: Result<Box<View>, Refusal>,
    line_views: Result<Vec<View>, Refusal>,
    cut: Result<Box<Cut>, Refusal>,
}

fn answers(day: &[u8]) -> Answers {
    let mut book = vec![0xA5; book_bytes(MOST_LINES)].into_boxed_slice();
    let number = settle_into(day, &mut book);
    let last = (day.len().saturating_sub(64) / 660).saturating_sub(1);
    Answers {
        number,
        book,
        uplift: uplift(day),
        view: view(day, last, 0).map(Box::new),
        line_views: line_views(day, last),
        cut: line_part(day, last).and_then(cut).map(Box::new),
    }
}

#[test]
fn threads() {
    let days: Vec<Vec<u8>> = (0..100)
        .flat_map(|k| [valid_day(k), damaged_day(k)])
        .collect();
    let expected: Vec<Answers> = days.iter().map(|day| answers(day)).collect();
    assert!(expected.iter().any(|answers| answers.number.is_ok()));
    assert!(expected.iter().any(|answers| answers.number.is_err()));
    assert!(days.iter().any(|day| day.len() > 64 + 660 * 40));

    // All threads read the same days; each begins with another one.
    let shared = Arc::new((days, expected, Barrier::new(THREADS)));
    let threads: Vec<_> = (0..THREADS)
        .map(|first| {
            let shared = Arc::clone(&shared);
            let work = move || {
                let (days, expected, start) = &*shared;
                start.wait();
                (0..ROUNDS * days.len()).all(|k| {
                    let k = (k + first * 25) % days.len();
                    answers(&days[k]) == expected[k]
                })
            };
            Builder::new().stack_size(STACK).spawn(work).unwrap()
        })
        .collect();
    for thread in threads {
        assert!(thread.join().unwrap(), "a thread got another answer");
    }
}
