//! The step view, and the views of a line.

use crate::calls::{Call, MICROSECONDS};
#[cfg(older)]
use crate::older;
use crate::proved::{self, View};
use crate::streams::{Block, Input};
use reference::layout::MOST_STEPS;
use std::hint::black_box;
use std::ops::Range;

/// The steps of one line of each day.
pub const STEP: Call = Call {
    name: "view of a step",
    passes: &[
        ("proved", |days| view_steps(proved::view, one_line, days)),
        ("reference", |days| {
            view_steps(reference_view, one_line, days)
        }),
        #[cfg(older)]
        ("older", |days| view_steps(older::view, one_line, days)),
    ],
    count: |day| day.steps[day.line],
    compare: |day| compare_steps(day, day.line),
    blocks: 20,
    lines_of_block: 640,
    unit: MICROSECONDS,
};

/// All steps of a day; the day is what is counted.
pub const DAY_BY_STEP: Call = Call {
    name: "views of a day, a call for each step",
    passes: &[
        ("proved", |days| view_steps(proved::view, all_lines, days)),
        ("reference", |days| {
            view_steps(reference_view, all_lines, days)
        }),
        #[cfg(older)]
        ("older", |days| view_steps(older::view, all_lines, days)),
    ],
    count: |_| 1,
    compare: |day| compare_steps(day, day.line),
    blocks: 5,
    lines_of_block: 64,
    unit: MICROSECONDS,
};

/// One line of each day.
pub const LINE: Call = Call {
    name: "views of a line",
    passes: &[
        ("proved", |days| view_lines(one_line, days)),
        ("reference", |days| reference_view_lines(one_line, days)),
    ],
    count: |_| 1,
    compare: |day| compare_line(day, day.line),
    blocks: 100,
    lines_of_block: 640,
    unit: MICROSECONDS,
};

/// All lines of a day; the day is what is counted.
pub const DAY_BY_LINE: Call = Call {
    name: "views of a day, a call for each line",
    passes: &[
        ("proved", |days| view_lines(all_lines, days)),
        ("reference", |days| reference_view_lines(all_lines, days)),
    ],
    count: |_| 1,
    compare: |day| all_lines(day).for_each(|line| compare_line(day, line)),
    blocks: 20,
    lines_of_block: 128,
    unit: MICROSECONDS,
};

/// The lines of a day that are viewed.
type Lines = fn(&Input) -> Range<usize>;

fn one_line(day: &Input) -> Range<usize> {
    day.line..day.line + 1
}

fn all_lines(day: &Input) -> Range<usize> {
    0..day.steps.len()
}

fn reference_view(day: &[u8], line: usize, step: usize) -> reference::view::View {
    reference::view::view(day, line as u64, step as u64)
}

fn view_steps<T>(view: fn(&[u8], usize, usize) -> T, lines: Lines, days: &Block) {
    for day in days {
        let steps_of = |line| (0..day.steps[line]).map(move |step| (line, step));
        for (line, step) in lines(day).flat_map(steps_of) {
            black_box(&view(black_box(&day.bytes), line, step));
        }
    }
}

fn view_lines(lines: Lines, days: &Block) {
    let (mut views, mut count) = (no_views(), 0);
    for day in days {
        for line in lines(day) {
            let bytes = black_box(&day.bytes);
            black_box(proved::line_views(bytes, line, &mut views, &mut count));
            black_box((&views, count));
        }
    }
}

fn reference_view_lines(lines: Lines, days: &Block) {
    for day in days {
        for line in lines(day) {
            let bytes = black_box(&day.bytes);
            black_box(&reference::view::line_views(bytes, line as u64));
        }
    }
}

fn no_views() -> [View; MOST_STEPS] {
    std::array::from_fn(|_| View::default())
}

/// The views of a line's steps, and of the step that it doesn't have.
fn compare_steps(day: &Input, line: usize) {
    for step in 0..=day.steps[line] {
        let view = proved::expected_view(reference_view(&day.bytes, line, step));
        assert_eq!(proved::view(&day.bytes, line, step), view);
        #[cfg(older)]
        assert_eq!(older::view(&day.bytes, line, step), view);
    }
}

/// The views of a line's steps; the places beyond are as they were.
fn compare_line(day: &Input, line: usize) {
    let (mut views, mut count) = (no_views(), MOST_STEPS + 1);
    let number = proved::line_views(&day.bytes, line, &mut views, &mut count);
    let answer = reference::view::line_views(&day.bytes, line as u64);
    assert_eq!((number, count), (answer.number, answer.views.len()));
    let mut expected = no_views();
    let answers = answer.views.into_iter().map(proved::expected_view);
    (expected.iter_mut().zip(answers)).for_each(|(place, view)| *place = view);
    assert!(views == expected);
}
