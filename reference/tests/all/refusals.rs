//! Refusals 1 to 18 (01 "Where each refusal is checked", 02 F-7, F-6 and F-2).

use crate::{book_of, line_count, numbers, valid_days};
use reference::cut::{cut, Cut};
use reference::generate::{
    damaged_day, damaged_day_and_number, damaged_line_and_number, excess_fault_day_and_number,
    excess_fault_line_and_number, pulled_fault_day_and_number, pulled_fault_line_and_number,
    set_fault_day_and_number, set_fault_line_and_number,
};
use reference::k10::k10;
use reference::layout::*;
use reference::line_part::line_part;
use reference::refusal::*;
use reference::settle::settle;
use reference::table1;
use reference::view::{line_views, view, LineViews, View};
use std::collections::BTreeSet;

#[test]
fn damaged_days_have_the_numbers_of_their_faults() {
    let mut met = BTreeSet::new();
    for seed in 0..1500 {
        let (day, number) = damaged_day_and_number(seed);
        if let Some(number) = number {
            assert_eq!(day_number(&day), number, "seed {seed}");
        }
        met.insert(day_number(&day));
    }
    assert_eq!(met, (0..=14).collect());
}

#[test]
fn damaged_lines_have_the_numbers_of_their_faults() {
    let mut met = BTreeSet::new();
    for seed in 0..1500 {
        let (line, number) = damaged_line_and_number(seed);
        assert_eq!(cut_number(&line), number, "seed {seed}");
        met.insert(number);
    }
    assert_eq!(met, [0, 6, 7, 8, 9, 10, 11, 12, 13, 18].into());
}

/// A day or a line, and its number.
type Damaged = fn(u64) -> (Vec<u8>, u32);

/// That days and lines of the first seeds have the numbers told, and which those are.
fn numbers_met(seeds: u64, [of_days, of_lines]: [Damaged; 2]) -> [BTreeSet<u32>; 2] {
    let (mut days, mut lines) = (BTreeSet::new(), BTreeSet::new());
    for seed in 0..seeds {
        let (day, number) = of_days(seed);
        assert_eq!(day_number(&day), number, "seed {seed}");
        days.insert(number);
        let (line, number) = of_lines(seed);
        assert_eq!(cut_number(&line), number, "seed {seed}");
        lines.insert(number);
    }
    [days, lines]
}

#[test]
fn set_faults_have_their_numbers() {
    let met = numbers_met(500, [set_fault_day_and_number, set_fault_line_and_number]);
    assert_eq!(met[0], [0, 5, 6, 13, 14].into());
    assert_eq!(met[1], [0, 6, 18].into());
}

#[test]
fn pulled_faults_have_their_numbers() {
    let damaged: [Damaged; 2] = [pulled_fault_day_and_number, pulled_fault_line_and_number];
    let met = numbers_met(1500, damaged);
    assert_eq!(met[0], [0, 6, 7, 8, 9, 10, 11, 13, 14].into());
    assert_eq!(met[1], [0, 6, 7, 8, 9, 10, 11, 13, 18].into());
}

#[test]
fn excess_faults_have_their_numbers() {
    let damaged: [Damaged; 2] = [excess_fault_day_and_number, excess_fault_line_and_number];
    let met = numbers_met(1500, damaged);
    assert_eq!(met[0], [0, 6, 8, 10, 11, 12, 13, 14].into());
    assert_eq!(met[1], [0, 6, 8, 10, 11, 12, 13, 18].into());
}

/// Accreditation words on both sides of each limit, and the number of settling, view and cutter.
const ACCREDITATIONS: &[(u32, u32)] = &[
    (0, 0),
    (1, 0),
    (2, 6),
    (31, 6),
    (32, 0),
    (63, 0),
    (64, 6),
    (65, 6),
    (2_147_483_648, 6),
    (2_147_483_649, 6),
    (2_147_483_680, 6),
    (2_147_483_681, 6),
    (2_147_483_711, 6),
    (4_294_967_295, 6),
];

#[test]
fn accreditation_limits() {
    for &(accreditation, number) in ACCREDITATIONS {
        let mut day = k10();
        put_word(&mut day, LINE + 3, accreditation);
        assert_eq!(numbers(&day), [number; 4], "accreditation {accreditation}");
        assert_eq!(line_part_number(&day, 0), 0);
    }
}

/// The word a line starts at in a day of one line.
const LINE: usize = day_length(0) / 4;

/// A word of K10's day, the value put there and the day's number. M is 3000.
const K10_WORDS: &[(usize, u32, u32)] = &[
    (0, 0, 2),
    (0, 65, 2),
    (0, 64, 3),
    (1, 20, 3),
    (2, 0, 3),
    (3, 725, 3),
    (4, 10_000_000, 0),
    (8, 10_000_001, 4),
    (14, 10_000_000, 0),
    (14, 10_000_001, 4),
    (9, 1, 0),
    (13, 2, 5),
    (15, 1, 0),
    (15, 2, 5),
    (LINE, u32::MAX, 0),
    (LINE + 1, u32::MAX, 0),
    (LINE + 2, 2, 6),
    (LINE + 2, 1, 9), // its prices rise
    (LINE + 3, 0, 0),
    (LINE + 3, 2, 6),
    (LINE + 3, 31, 6),
    (LINE + 3, 32, 0),
    (LINE + 3, 63, 0),
    (LINE + 3, 64, 6),
    (LINE + 4, 3000, 0),
    (LINE + 4, 3001, 11),
    (LINE + 5, 0, 7),
    (LINE + 5, 12, 7),
    (LINE + 5, 3, 8),
    (LINE + 5, 1, 10),
    (LINE + 6, 0, 8),
    (LINE + 6, 2999, 0),
    (LINE + 6, 3000, 8),
    (LINE + 7, 200_000_000, 0),
    (LINE + 7, 200_000_001, 8),
    (LINE + 16, 1, 10),
    (LINE + 17, 50_000, 0),
    (LINE + 17, 50_001, 9),
    (LINE + 18, 10_000_000, 0),
    (LINE + 18, 10_000_001, 9),
    (LINE + 27, 1, 10),
    (LINE + 28, 0, 10), // the second bid's count; its slots aren't 0
    (LINE + 28, 12, 7),
    (LINE + 97, 0, 10),
    (LINE + 97, u32::MAX, 7),
    (LINE + 124, 2001, 0),
    (LINE + 124, 3000, 0),
    (LINE + 124, 3001, 12),
    (LINE + 134, 3000, 0),
    (LINE + 134, 3001, 12),
    (LINE + 139, 3000, 0),
    (LINE + 139, 3001, 12),
    (LINE + 159, 2500, 0),
    (LINE + 159, 2501, 12),
    (LINE + 164, 200_000_000, 0),
    (LINE + 164, 200_000_001, 13),
];

#[test]
fn single_words_of_k10() {
    for &(place, value, number) in K10_WORDS {
        let mut day = k10();
        put_word(&mut day, place, value);
        assert_eq!(day_number(&day), number, "word {place} as {value}");
    }
}

#[test]
fn lengths_of_a_day() {
    let day = k10();
    let numbers = |lengths: &[usize]| {
        lengths
            .iter()
            .map(|&n| day_number(&day[..n]))
            .collect::<Vec<_>>()
    };
    assert_eq!(numbers(&[0, 63, 64, 723, 724]), [1, 1, 3, 3, 0]);
}

#[test]
fn refused_settling_writes_nothing() {
    for seed in 0..300 {
        let day = damaged_day(seed);
        let mut book = vec![0xA5; 4000];
        if settle(&day, &mut book) != 0 {
            assert!(book.iter().all(|&byte| byte == 0xA5));
        }
    }
}

#[test]
fn book_lengths() {
    for day in valid_days().take(100) {
        let expected = book_of(&day);
        let length = expected.len();
        for short in [0, 95, 96, length - 1] {
            let mut book = vec![0xA5; short];
            assert_eq!(settle(&day, &mut book), 15);
            assert_eq!(settle_number(&day, short), 15);
            assert!(book.iter().all(|&byte| byte == 0xA5));
        }
        let mut book = vec![0xA5; length + 100];
        assert_eq!(settle(&day, &mut book), 0);
        assert_eq!(book[..length], expected);
        assert!(book[length..].iter().all(|&byte| byte == 0xA5));
    }
}

/// A fault of the file comes before a short book.
#[test]
fn book_is_the_last_row() {
    for (seed, number) in (0..300).map(|seed| (seed, day_number(&damaged_day(seed)))) {
        let expected = if number == 0 { 15 } else { number };
        assert_eq!(settle_number(&damaged_day(seed), 0), expected);
    }
}

#[test]
fn view_refusals() {
    let day = table1::day();
    let refused = |number| View {
        number,
        ..View::default()
    };
    assert_eq!(view(&day, 0, 13).number, 0);
    assert_eq!(view(&day, 0, 14), refused(17));
    assert_eq!(view(&day, 0, u64::MAX), refused(17));
    assert_eq!(view(&day, 1, 0), refused(16));
    assert_eq!(view(&day, 1 << 32, 0), refused(16));
    assert_eq!(view(&day, u64::MAX, u64::MAX), refused(16));
    for seed in 0..300 {
        let day = damaged_day(seed);
        let number = day_number(&day);
        if number != 0 {
            assert_eq!(view(&day, u64::MAX, u64::MAX), refused(number));
        }
    }
}

/// Refused as the view of the line's first step is, since every line of a day without fault has one.
#[test]
fn line_views_refusals() {
    let refused = |number| LineViews {
        number,
        ..LineViews::default()
    };
    let day = table1::day();
    for line in [1, 64, 1 << 32, u64::MAX] {
        assert_eq!(line_views(&day, line), refused(16));
    }
    for day in (0..300).map(damaged_day) {
        let number = day_number(&day);
        for line in [0, u64::MAX].into_iter().filter(|_| number != 0) {
            assert_eq!(line_views(&day, line), refused(number));
        }
    }
}

#[test]
fn line_parts() {
    for day in valid_days().take(100) {
        let n = line_count(&day) as u64;
        for k in 0..n {
            let start = 64 + 660 * k as usize;
            assert_eq!(
                line_part(&day, k).as_ptr_range(),
                day[start..start + 660].as_ptr_range()
            );
            assert_eq!(line_part_number(&day, k), 0);
        }
        for k in [n, 1 << 32, u64::MAX] {
            assert_eq!(
                (line_part_number(&day, k), line_part(&day, k)),
                (16, &[][..])
            );
        }
    }
}

/// The line part meets the header only: faults from 4 on don't count.
#[test]
fn line_part_of_damaged_days() {
    for seed in 0..600 {
        let day = damaged_day(seed);
        let number = day_number(&day);
        let expected = if number > 3 { 0 } else { number };
        assert_eq!(line_part_number(&day, 0), expected);
        assert_eq!(
            line_part(&day, 0).len(),
            if expected == 0 { 660 } else { 0 }
        );
    }
}

#[test]
fn refused_cuts_are_zeros() {
    for (line, number) in (0..300)
        .map(damaged_line_and_number)
        .filter(|(_, number)| *number != 0)
    {
        let zeros = Cut {
            number,
            count: 0,
            ends: [0; 56],
            prices: [[0; 56]; 5],
            flags: [0; 5],
            missing: [0; 5],
        };
        assert_eq!(cut(&line), zeros);
    }
}
