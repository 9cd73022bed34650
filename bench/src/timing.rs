//! Times of a call by all who make it, on the same inputs.

use crate::calls::Call;
use crate::clock::thread_time;
use crate::streams::{Block, Stream};
use std::hint::black_box;

/// By whom, as the call has them: nanoseconds of one call, and the archives' ratio to it. Both are medians over the blocks.
pub struct Times {
    pub nanoseconds: Vec<f64>,
    pub ratios: Vec<f64>,
}

/// Times one pass of each over each block, beginning with another one each time. Before, the answers are compared.
pub fn times(call: &Call, stream: &Stream) -> Times {
    let mut taken = vec![Vec::new(); call.passes.len()];
    for number in 0..call.blocks {
        let block = stream.block(number, call.lines_of_block);
        block.iter().for_each(call.compare);
        let count: usize = block.iter().map(call.count).sum();
        for turn in 0..taken.len() {
            let by = (number as usize + turn) % taken.len();
            let (_, pass) = call.passes[by];
            bring_near(&block);
            let start = thread_time();
            pass(&block);
            taken[by].push((thread_time() - start) as f64 / count as f64);
        }
    }
    let ratio = |other: &Vec<f64>| median(taken[0].iter().zip(other).map(|(a, b)| a / b));
    Times {
        nanoseconds: taken.iter().map(|of| median(of.iter().copied())).collect(),
        ratios: taken.iter().map(ratio).collect(),
    }
}

/// Reads the inputs, so that the first pass over them has them in the processor's caches as the others do.
fn bring_near(block: &Block) {
    for input in block {
        let bytes = input.bytes.iter().step_by(64);
        black_box(bytes.fold(0, |sum: u8, byte| sum ^ byte));
    }
}

fn median(values: impl Iterator<Item = f64>) -> f64 {
    let mut values: Vec<f64> = values.collect();
    values.sort_unstable_by(f64::total_cmp);
    values[values.len() / 2]
}

/// All who make a call answer alike, on days of both kinds and on damaged ones, of which a line is asked for too.
#[test]
fn answers_agree() {
    use crate::calls::CALLS;
    use crate::streams::Input;
    let words = [
        ["hard", "on", "2"],
        ["hard", "off", "2"],
        ["market", "on", "64"],
    ];
    let streams = words.map(|words| Stream::of_words(&words).unwrap());
    let mut days: Block = streams.iter().flat_map(|days| days.block(0, 64)).collect();
    let damaged = (0..200).map(reference::generate::damaged_day);
    days.extend(damaged.map(|bytes| Input {
        bytes,
        steps: vec![1, 1],
        line: 1,
    }));
    for call in CALLS {
        days.iter().for_each(call.compare);
    }
}
