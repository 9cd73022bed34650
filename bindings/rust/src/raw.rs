//! The functions of include/mewikofu.h, answering the number: as C has them, under their own names, and with Rust's slices.
//! All unsafe code of the crate is here.
//!
//! Where the number isn't 0, settling leaves the lent bytes as they were, uplift and the line part write 0 to all their places, the line views
//! leave the views as they were and write 0 to the count, and of a view or a cut all other fields are 0.
//!
//! # Safety
//!
//! Of the C functions: `day` and `line` lend `length` bytes to be read. Every other pointer lends a place to be written, which overlaps
//! neither another nor the bytes that are read. Nothing is kept after the call.

use crate::{Excess, MATCHES, MOST_STEPS, SCHEDULES};

/// The header's `struct mewikofu_view`, with its fields in its order. What they are is said at [`crate::View`], which is this without the number.
#[repr(C)]
#[derive(Clone, Debug, Default, PartialEq, Eq)]
pub struct View {
    pub initial: [i64; SCHEDULES],
    pub revised: [i64; SCHEDULES],
    pub modified: [i64; SCHEDULES],
    pub finals: [i64; SCHEDULES],
    pub number: u32,
    pub end: u32,
    pub width: u32,
    pub actual: u32,
    pub price: [u32; SCHEDULES],
    pub flag: [u32; SCHEDULES],
    pub operating: [u32; SCHEDULES],
    pub pricing: [u32; SCHEDULES],
    pub agino: [u32; SCHEDULES],
    pub msiq: [u32; SCHEDULES],
    pub constrained: [u32; SCHEDULES],
    pub matches: [u32; MATCHES],
    pub excess: Excess,
}

/// The header's `struct mewikofu_cut`, with its fields in its order. What they are is said at [`crate::Cut`], which is this without the number
/// and the reserved word.
#[repr(C)]
#[derive(Clone, Debug, PartialEq, Eq)]
pub struct Cut {
    pub flags: [u64; SCHEDULES],
    pub number: u32,
    pub count: u32,
    pub missing: [u32; SCHEDULES],
    pub ends: [u32; MOST_STEPS],
    pub prices: [[u32; MOST_STEPS]; SCHEDULES],
    /// Always 0.
    pub reserved: u32,
}

// As large as in C, so without padding.
const _: () = assert!(size_of::<View>() == 400 && size_of::<Cut>() == 1416);

extern "C" {
    /// Settles a day. `book` lends `room` bytes.
    pub fn mewikofu_settle(day: *const u8, length: usize, book: *mut u8, room: usize) -> u32;
    /// Uplift by schedule. `shares` lends five values.
    pub fn mewikofu_uplift(day: *const u8, length: usize, shares: *mut i64) -> u32;
    /// The step view.
    pub fn mewikofu_view(day: *const u8, length: usize, line: usize, step: usize) -> View;
    /// The line views. `views` lends 56 values whatever the line's step count, `count` one.
    pub fn mewikofu_line_views(
        day: *const u8,
        length: usize,
        line: usize,
        views: *mut View,
        count: *mut usize,
    ) -> u32;
    /// The line part. `at` and `part_length` lend one value each.
    pub fn mewikofu_line_part(
        day: *const u8,
        length: usize,
        k: usize,
        at: *mut usize,
        part_length: *mut usize,
    ) -> u32;
    /// The cutter.
    pub fn mewikofu_cut(line: *const u8, length: usize) -> Cut;
}

#[inline]
pub fn settle(day: &[u8], book: &mut [u8]) -> u32 {
    // SAFETY: each pointer and length are those of one slice. The book is borrowed alone, so it doesn't overlap the day.
    unsafe { mewikofu_settle(day.as_ptr(), day.len(), book.as_mut_ptr(), book.len()) }
}

#[inline]
pub fn uplift(day: &[u8], shares: &mut [i64; SCHEDULES]) -> u32 {
    // SAFETY: the day's pointer and length are the slice's. The five places are borrowed alone, so they don't overlap the day.
    unsafe { mewikofu_uplift(day.as_ptr(), day.len(), shares.as_mut_ptr()) }
}

#[inline]
pub fn view(day: &[u8], line: usize, step: usize) -> View {
    // SAFETY: the day's pointer and length are the slice's.
    unsafe { mewikofu_view(day.as_ptr(), day.len(), line, step) }
}

/// With 0 the first `count` places are written, each with the view of its step. All 56 are lent whatever the line's step count; those past `count` keep
/// their bytes.
#[inline]
pub fn line_views(
    day: &[u8],
    line: usize,
    views: &mut [View; MOST_STEPS],
    count: &mut usize,
) -> u32 {
    // SAFETY: the day's pointer and length are the slice's. The 56 places and the count are borrowed alone, so they overlap neither each other nor the day.
    unsafe { mewikofu_line_views(day.as_ptr(), day.len(), line, views.as_mut_ptr(), count) }
}

#[inline]
pub fn line_part(day: &[u8], k: usize, at: &mut usize, length: &mut usize) -> u32 {
    // SAFETY: the day's pointer and length are the slice's. Both places are borrowed alone.
    unsafe { mewikofu_line_part(day.as_ptr(), day.len(), k, at, length) }
}

#[inline]
pub fn cut(line: &[u8]) -> Cut {
    // SAFETY: the line's pointer and length are the slice's.
    unsafe { mewikofu_cut(line.as_ptr(), line.len()) }
}
