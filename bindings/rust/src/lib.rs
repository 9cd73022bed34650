//! Settlement of one gas day by the proved code of `libengine_c.a` and `libcutter_c.a` (include/mewikofu.h), for Rust programs.
//!
//! Every function takes any bytes. A refusal is the first fault met in the order of document 01's table, "Where each refusal is checked".
//! Lines, steps and schedules count from 0. The functions have no writable data and may be called from any number of threads at once; a thread
//! with 64 KB of stack is enough for each (include/mewikofu.h says how much a call takes).

mod accreditation;
mod ad_hoc;
mod answers;
mod book;
pub mod raw;
mod refusal;

pub use accreditation::Accreditation;
pub use ad_hoc::{ad_hoc_records, with_ad_hoc, AdHoc};
pub use answers::{match_place, Cut, Excess, View};
pub use book::{book_bytes, Book, BookLine, Side};
pub use refusal::Refusal;

/// The version of this crate, which is that of the repository's file VERSION.
pub const VERSION: &str = env!("CARGO_PKG_VERSION");

pub const MOST_LINES: usize = 64;
pub const SCHEDULES: usize = 5;
pub const MOST_STEPS: usize = 56;
pub const MATCHES: usize = 10;
pub const LINE_BYTES: usize = 660;
/// The most ad hoc records of a day, and the bytes of one.
pub const MOST_AD_HOC: usize = 64;
pub const AD_HOC_BYTES: usize = 32;
/// The most MJ by which a pricing or operating total may be above the greatest break of its line's bids.
pub const MOST_EXCESS: u32 = 1_000;

/// Settles a day into a book of its own.
pub fn settle(day: &[u8]) -> Result<Book, Refusal> {
    let mut bytes = vec![0; book_bytes(MOST_LINES)];
    settle_into(day, &mut bytes)?;
    Ok(Book::written(bytes))
}

/// Settles a day into the lent bytes. Those beyond the book's 96 + 56 n are unchanged; refused, all are.
pub fn settle_into(day: &[u8], book: &mut [u8]) -> Result<(), Refusal> {
    refusal::accepted(raw::settle(day, book))
}

/// Each schedule's uplift (document 02, F-1): its share of its group's adjusted totals, in $0.0000001. A group is a longest run of neighbouring
/// schedules whose totals are all above 0 or all below 0. The shares of a group add up to its adjusted totals, and each is less than one unit from
/// the schedule's total times the group's summed adjusted totals, over the group's summed totals. A total of 0 has the share 0.
pub fn uplift(day: &[u8]) -> Result<[i64; SCHEDULES], Refusal> {
    let mut shares = [0; SCHEDULES];
    refusal::accepted(raw::uplift(day, &mut shares))?;
    Ok(shares)
}

/// Every figure of a step of a line, both counted from 0.
pub fn view(day: &[u8], line: usize, step: usize) -> Result<View, Refusal> {
    raw::view(day, line, step).try_into()
}

/// Every figure of all steps of a line, counted from 0: what `view` answers for each step, in order, by one call that works the day out once. The
/// 22,400 bytes of the 56 places that the archive is lent, whatever the line's step count, are on the heap; [`raw::line_views`] takes the caller's own.
pub fn line_views(day: &[u8], line: usize) -> Result<Vec<View>, Refusal> {
    let mut views = vec![raw::View::default(); MOST_STEPS];
    let mut count = 0;
    let lent = views.first_chunk_mut().expect("as many as are lent");
    refusal::accepted(raw::line_views(day, line, lent, &mut count))?;
    views.truncate(count);
    views.into_iter().map(View::try_from).collect()
}

/// Cuts the 660 bytes of one line into its steps. The cutter reads the line's own operating rows, so of an accepted day with ad hoc records it may
/// refuse a line's part with 12.
pub fn cut(line: &[u8]) -> Result<Cut, Refusal> {
    raw::cut(line).try_into()
}

/// The bytes of line k (from 0) within the day's own, with the line's own operating rows. Only the day's header is checked.
pub fn line_part(day: &[u8], k: usize) -> Result<&[u8], Refusal> {
    let (mut at, mut length) = (0, 0);
    refusal::accepted(raw::line_part(day, k, &mut at, &mut length))?;
    Ok(&day[at..at + length])
}

/// The page's example is run with the tests.
#[cfg(doctest)]
#[doc = include_str!("../README.md")]
struct Readme;
