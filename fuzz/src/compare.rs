//! One input through the proved archive and the reference, every answer and every lent byte compared.

use crate::interface;
use crate::met::{pulled, Accepted, MET};
use mewikofu::raw::{self, Cut, View};
use mewikofu::{Excess, MOST_STEPS};
use reference::layout::{
    book_adjusted, book_length, book_totals, Day, Line, LINE_BYTES, MOST_LINES, SCHEDULES,
};
use reference::line_part::line_part;
use reference::uplift::Uplift;
use std::ops::Range;

/// Bytes behind the lent book, which no call may touch.
const GUARD: usize = 64;
pub const MOST_ROOM: usize = book_length(MOST_LINES) + 64;

/// What is asked of a day: the length of the lent book, the bytes to cut, a line and a step to view (the line also with all its steps), a line to
/// lend.
#[derive(Clone, Debug)]
pub struct Call {
    pub room: usize,
    pub cut: Range<usize>,
    pub line: usize,
    pub step: usize,
    pub part: usize,
}

/// The numbers answered, and which of `MET` the answers are.
pub struct Numbers {
    pub settle: u32,
    pub uplift: u32,
    pub cut: u32,
    pub view: u32,
    pub line_views: u32,
    pub part: u32,
    pub met: [bool; MET.len()],
}

pub struct Compare {
    pattern: Vec<u8>,
    day: Vec<u8>,
    book: Vec<u8>,
    expected: Vec<u8>,
    places: Places,
}

/// The places for a line's views, between two others. Each holds something else before, as `before` has it; `written` of those lent hold a view.
struct Places {
    before: Vec<View>,
    views: Vec<View>,
    written: usize,
}

type Answer = Result<u32, String>;

impl Compare {
    pub fn new() -> Compare {
        let pattern = (0..MOST_ROOM + GUARD).map(|k| (k * 151 + k / 251 + 89) as u8);
        Compare {
            pattern: pattern.collect(),
            day: Vec::new(),
            book: Vec::new(),
            expected: Vec::new(),
            places: Places::new(),
        }
    }

    pub fn all(&mut self, day: &[u8], call: &Call) -> Result<Numbers, String> {
        self.day.clear();
        self.day.extend(day);
        let view = self.view(day, call.line, call.step)?;
        let line_views = self.places.line_views(&self.day, day, call.line)?;
        let cut = self.cut(day, call.cut.clone())?;
        let settle = self.settle(day, call.room)?;
        let uplift = self.uplift(day)?;
        let part = self.part(day, call.part)?;
        let viewed = (view.number == 0).then(|| Day::new(day).line(call.line));
        let cut_line = Line::new(&day[call.cut.clone()]).filter(|_| cut.number == 0);
        viewed.map_or(Ok(()), |line| check_view(line, &view))?;
        cut_line.map_or(Ok(()), |line| check_cut(line, &cut))?;
        let accepted = Accepted {
            settled: (settle == 0).then_some(day),
            totals: (settle == 0)
                .then(|| (book_totals(&self.expected), book_adjusted(&self.expected))),
            viewed: viewed.map(|line| (day, call.line, line, &view)),
            line_views: self.places.written(),
            cut: cut_line,
            lent: (part == 0).then_some(day),
            refused_own_row: view.number == 0 && cut.number == 12 && is_line(day, call),
        };
        let numbers = Numbers {
            settle,
            uplift,
            cut: cut.number,
            view: view.number,
            line_views,
            part,
            met: accepted.met(),
        };
        match self.day == day {
            true => Ok(numbers),
            false => Err("the day's bytes were changed".to_string()),
        }
    }

    fn settle(&mut self, day: &[u8], room: usize) -> Answer {
        let before = &self.pattern[..room + GUARD];
        for book in [&mut self.book, &mut self.expected] {
            book.clear();
            book.extend(before);
        }
        let number = raw::settle(&self.day, &mut self.book[..room]);
        let expected = reference::settle::settle(day, &mut self.expected[..room]);
        same("settle's number", &number, &expected)?;
        same("settle's book", &self.book, &self.expected)?;
        Ok(number)
    }

    /// The five places stand between two others, and all hold something before.
    fn uplift(&mut self, day: &[u8]) -> Answer {
        const BEFORE: i64 = i64::MIN / 3;
        let mut places = [BEFORE; SCHEDULES + 2];
        let shares = places[1..].first_chunk_mut().unwrap();
        let number = raw::uplift(&self.day, shares);
        let found = Uplift {
            number,
            shares: *shares,
        };
        same("the uplift", &found, &reference::uplift::uplift(day))?;
        let around = [places[0], places[SCHEDULES + 1]];
        same("the places around the shares", &around, &[BEFORE; 2])?;
        Ok(number)
    }

    fn cut(&mut self, day: &[u8], range: Range<usize>) -> Result<Cut, String> {
        let cut = interface::cut(&self.day[range.clone()])?;
        let expected = reference::cut::cut(&day[range]);
        let expected = Cut {
            flags: expected.flags,
            number: expected.number,
            count: expected.count,
            missing: expected.missing,
            ends: expected.ends,
            prices: expected.prices,
            reserved: 0,
        };
        same("the cut", &cut, &expected)?;
        Ok(cut)
    }

    fn view(&mut self, day: &[u8], line: usize, step: usize) -> Result<View, String> {
        let view = interface::view(&self.day, line, step)?;
        let expected = reference::view::view(day, line as u64, step as u64);
        same("the view", &view, &view_of(expected))?;
        Ok(view)
    }

    fn part(&mut self, day: &[u8], k: usize) -> Answer {
        let (mut at, mut length) = (usize::MAX / 3, usize::MAX / 5);
        let number = raw::line_part(&self.day, k, &mut at, &mut length);
        let expected_number = reference::refusal::line_part_number(day, k as u64);
        same("line part's number", &number, &expected_number)?;
        let expected = line_part(day, k as u64);
        let expected_place = match expected.is_empty() {
            true => (0, 0),
            false => (
                expected.as_ptr() as usize - day.as_ptr() as usize,
                LINE_BYTES,
            ),
        };
        same("line part's place", &(at, length), &expected_place)?;
        same("line part", &&self.day[at..at + length], &expected)?;
        Ok(number)
    }
}

impl Places {
    fn new() -> Places {
        let before: Vec<View> = (0..MOST_STEPS + 2).map(unwritten).collect();
        Places {
            views: before.clone(),
            before,
            written: 0,
        }
    }

    /// A line's views, one for each step.
    fn written(&self) -> &[View] {
        &self.views[1..=self.written]
    }

    /// The number. `lent` has the day's bytes too.
    fn line_views(&mut self, lent: &[u8], day: &[u8], line: usize) -> Answer {
        let again = 1..=self.written;
        self.views[again.clone()].clone_from_slice(&self.before[again]);
        let mut count = usize::MAX / 7;
        let places = self.views[1..].first_chunk_mut().unwrap();
        let number = raw::line_views(lent, line, places, &mut count);
        let expected = reference::view::line_views(day, line as u64);
        same("line views' number", &number, &expected.number)?;
        same("line views' count", &count, &expected.views.len())?;
        self.written = count;
        for (view, expected) in self.written().iter().zip(expected.views) {
            same("a line's view", view, &view_of(expected))?;
        }
        for place in (0..1).chain(1 + count..MOST_STEPS + 2) {
            let (found, before) = (&self.views[place], &self.before[place]);
            same("a place beyond a line's views", found, before)?;
        }
        Ok(number)
    }
}

/// What a place holds before: in no field what a view has there.
fn unwritten(place: usize) -> View {
    let (money, word) = (i64::MIN + place as i64, u32::MAX - place as u32);
    View {
        initial: [money; SCHEDULES],
        revised: [money; SCHEDULES],
        modified: [money; SCHEDULES],
        finals: [money; SCHEDULES],
        number: word,
        end: word,
        width: word,
        actual: word,
        price: [word; SCHEDULES],
        flag: [word; SCHEDULES],
        operating: [word; SCHEDULES],
        pricing: [word; SCHEDULES],
        agino: [word; SCHEDULES],
        msiq: [word; SCHEDULES],
        constrained: [word; SCHEDULES],
        matches: [word; 10],
        excess: Excess {
            operating: [word; SCHEDULES],
            pricing: [word; SCHEDULES],
            actual: word,
        },
    }
}

/// The bytes cut are the line viewed.
fn is_line(day: &[u8], call: &Call) -> bool {
    let line = line_part(day, call.line as u64);
    line.as_ptr_range() == day[call.cut.clone()].as_ptr_range()
}

/// The reference's view as the interface has it.
fn view_of(view: reference::view::View) -> View {
    View {
        initial: view.initial,
        revised: view.revised,
        modified: view.modified,
        finals: view.finals,
        number: view.number,
        end: view.upper,
        width: view.width,
        actual: view.actual,
        price: view.price,
        flag: view.flag,
        operating: view.operating,
        pricing: view.pricing,
        agino: view.agino,
        msiq: view.msiq,
        constrained: view.constrained_on,
        matches: view.matches,
        excess: Excess {
            operating: view.excess.operating,
            pricing: view.excess.pricing,
            actual: view.excess.actual,
        },
    }
}

/// Where the bid is pulled the flag is 1.
fn check_view(line: Line, view: &View) -> Result<(), String> {
    pulled(line).try_for_each(|s| same("a pulled bid's flag", &view.flag[s], &1))
}

/// Where the bid is pulled every step has flag 1 and the same price.
fn check_cut(line: Line, cut: &Cut) -> Result<(), String> {
    let count = cut.count as usize;
    pulled(line).try_for_each(|s| {
        let prices = &cut.prices[s][..count];
        same("a pulled bid's flags", &cut.flags[s], &((1 << count) - 1))?;
        same("a pulled bid's missing", &cut.missing[s], &cut.count)?;
        let is_first = |price| same("a pulled bid's price", price, &prices[0]);
        prices.iter().try_for_each(is_first)
    })
}

fn same<T: PartialEq + std::fmt::Debug>(what: &str, found: &T, expected: &T) -> Result<(), String> {
    match found == expected {
        true => Ok(()),
        false => Err(format!(
            "{what}\n  archive:   {found:?}\n  reference: {expected:?}"
        )),
    }
}
