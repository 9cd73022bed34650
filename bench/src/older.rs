//! The functions of the older archives, under the names that bench/run gives them.

use mewikofu::raw::{Cut, View};
use mewikofu::SCHEDULES;

extern "C" {
    fn older_mewikofu_settle(day: *const u8, length: usize, book: *mut u8, room: usize) -> u32;
    fn older_mewikofu_uplift(day: *const u8, length: usize, shares: *mut i64) -> u32;
    fn older_mewikofu_view(day: *const u8, length: usize, line: usize, step: usize) -> View;
    fn older_mewikofu_line_part(
        day: *const u8,
        length: usize,
        k: usize,
        at: *mut usize,
        part_length: *mut usize,
    ) -> u32;
    fn older_mewikofu_cut(line: *const u8, length: usize) -> Cut;
}

// SAFETY, of all: each pointer and length are those of one slice, or a place that is borrowed alone. Nothing is kept after the call.

pub fn settle(day: &[u8], book: &mut [u8]) -> u32 {
    unsafe { older_mewikofu_settle(day.as_ptr(), day.len(), book.as_mut_ptr(), book.len()) }
}

pub fn uplift(day: &[u8], shares: &mut [i64; SCHEDULES]) -> u32 {
    unsafe { older_mewikofu_uplift(day.as_ptr(), day.len(), shares.as_mut_ptr()) }
}

pub fn view(day: &[u8], line: usize, step: usize) -> View {
    unsafe { older_mewikofu_view(day.as_ptr(), day.len(), line, step) }
}

pub fn line_part(day: &[u8], k: usize, at: &mut usize, length: &mut usize) -> u32 {
    unsafe { older_mewikofu_line_part(day.as_ptr(), day.len(), k, at, length) }
}

pub fn cut(line: &[u8]) -> Cut {
    unsafe { older_mewikofu_cut(line.as_ptr(), line.len()) }
}
