//! Days and lines without end. No two blocks of a stream have one in common, so that the processor learns no input's branches.

use crate::{hard, market};
use reference::cut::Steps;
use reference::generate::line_with_steps;
use reference::layout::*;

/// A day, or a line of its own.
pub struct Input {
    pub bytes: Vec<u8>,
    /// Of a day: the step count of each line.
    pub steps: Vec<usize>,
    /// Of a day: the line that calls for one line ask for.
    pub line: usize,
}

pub type Block = Vec<Input>;

type DrawDay = fn(u64, usize, bool) -> Vec<u8>;

const DAYS: [(&str, DrawDay); 3] = [
    ("hard", hard::day),
    ("hard, ad hoc", hard::ad_hoc_day),
    ("market", market::day),
];

const SIDES: [(&str, Side); 2] = [("INJ", Side::Injection), ("WDR", Side::Withdrawal)];

#[derive(Clone, Copy)]
pub enum Stream {
    /// Days of a kind, with clawback on or off and so many lines.
    Days {
        kind: &'static str,
        clawback: bool,
        lines: usize,
    },
    /// Lines of a side with so many steps. A withdrawal has no hedge, so at most 55.
    Lines { side: &'static str, steps: usize },
    /// The lines of market-like days.
    MarketLines,
}

impl Stream {
    /// As the command line says it.
    pub fn of_words(words: &[&str]) -> Option<Stream> {
        match *words {
            [kind, clawback, lines] => Some(Stream::Days {
                kind: DAYS.iter().find(|(name, _)| *name == kind)?.0,
                clawback: ["off", "on"].iter().position(|word| *word == clawback)? == 1,
                lines: lines.parse().ok()?,
            }),
            [side, steps] => Some(Stream::Lines {
                side: SIDES.iter().find(|(name, _)| *name == side)?.0,
                steps: steps.parse().ok()?,
            }),
            ["market"] => Some(Stream::MarketLines),
            _ => None,
        }
    }

    pub fn words(&self) -> Vec<String> {
        match *self {
            Stream::Days {
                kind,
                clawback,
                lines,
            } => {
                let clawback = if clawback { "on" } else { "off" };
                vec![kind.into(), clawback.into(), lines.to_string()]
            }
            Stream::Lines { side, steps } => vec![side.into(), steps.to_string()],
            Stream::MarketLines => vec!["market".into()],
        }
    }

    /// Block `number`: so many lines, in days where the stream is of days; at least one day.
    pub fn block(&self, number: u64, lines_of_block: usize) -> Block {
        let seeds = |count: usize| (0..count as u64).map(move |j| number * count as u64 + j);
        match *self {
            Stream::Days {
                kind,
                clawback,
                lines,
            } => {
                let (_, draw) = DAYS.iter().find(|(name, _)| *name == kind).unwrap();
                let days = seeds((lines_of_block / lines).max(1));
                days.map(|seed| day_input(draw(seed, lines, clawback), seed))
                    .collect()
            }
            Stream::Lines { side, steps } => {
                let (_, side) = SIDES.iter().find(|(name, _)| *name == side).unwrap();
                // About half of those drawn are of the side; with 56 steps all are injections.
                let drawn = seeds(4 * lines_of_block).map(|seed| line_with_steps(seed, steps));
                let of_side = drawn.filter(|line| Line::new(line).unwrap().side() == *side);
                of_side.take(lines_of_block).map(line_input).collect()
            }
            Stream::MarketLines => {
                let days = seeds(lines_of_block / MOST_LINES);
                let lines = |day: Vec<u8>| {
                    let lines = day[Layout::Old.line(0)..].chunks(LINE_BYTES);
                    lines
                        .map(|line| line_input(line.to_vec()))
                        .collect::<Block>()
                };
                days.flat_map(|seed| lines(market::day(seed, MOST_LINES, true)))
                    .collect()
            }
        }
    }
}

fn day_input(bytes: Vec<u8>, seed: u64) -> Input {
    let steps: Vec<usize> = {
        let day = Day::new(&bytes);
        day.lines().map(|line| Steps::new(line).count()).collect()
    };
    let line = seed as usize % steps.len();
    Input { bytes, steps, line }
}

fn line_input(bytes: Vec<u8>) -> Input {
    Input {
        bytes,
        steps: Vec::new(),
        line: 0,
    }
}

#[cfg(test)]
mod tests {
    use super::*;
    use reference::refusal::{cut_number, day_number};
    use std::collections::BTreeSet;

    const STREAMS: [&[&str]; 6] = [
        &["hard", "on", "64"],
        &["hard, ad hoc", "off", "3"],
        &["market", "on", "64"],
        &["market", "off", "1"],
        &["WDR", "14"],
        &["market"],
    ];

    /// Each stream is what its words say, has no input twice and none that is refused.
    #[test]
    fn inputs_differ() {
        for words in STREAMS {
            let stream = Stream::of_words(words).unwrap();
            assert_eq!(stream.words(), words);
            let blocks: Vec<Block> = (0..4).map(|number| stream.block(number, 128)).collect();
            let inputs: Vec<&Input> = blocks.iter().flatten().collect();
            let different: BTreeSet<&[u8]> = inputs.iter().map(|input| &input.bytes[..]).collect();
            assert_eq!(different.len(), inputs.len());
            let number = match words.len() {
                3 => day_number,
                _ => cut_number,
            };
            assert!(inputs.iter().all(|input| number(&input.bytes) == 0));
        }
    }
}
