//! The cutter.

use crate::calls::{Call, NANOSECONDS};
#[cfg(older)]
use crate::older;
use crate::streams::Block;
use crate::{proved, sorted};
use std::hint::black_box;

pub const CUT: Call = Call {
    name: "cut",
    passes: &[
        ("proved", |lines| pass(proved::cut, lines)),
        ("reference", |lines| pass(reference::cut::cut, lines)),
        ("sorted", |lines| pass(sorted::cut, lines)),
        #[cfg(older)]
        ("older", |lines| pass(older::cut, lines)),
    ],
    count: |_| 1,
    compare: |line| compare(&line.bytes),
    blocks: 200,
    lines_of_block: 256,
    unit: NANOSECONDS,
};

fn pass<T>(cut: fn(&[u8]) -> T, lines: &Block) {
    for line in lines {
        black_box(&cut(black_box(&line.bytes)));
    }
}

fn compare(line: &[u8]) {
    let answer = reference::cut::cut(line);
    assert_eq!(sorted::cut(line), answer);
    let answer = proved::expected_cut(answer);
    assert_eq!(proved::cut(line), answer);
    #[cfg(older)]
    assert_eq!(older::cut(line), answer);
}

/// Lines of both sides, every count of steps, every refusal and every length up to one too long.
#[test]
fn cutters_agree() {
    use reference::generate::{damaged_line, line};
    for seed in 0..1000 {
        compare(&line(seed));
        compare(&damaged_line(seed));
    }
    let mut longer = line(0);
    longer.push(0);
    (0..=longer.len()).for_each(|length| compare(&longer[..length]));
}
