//! View and cutter as include/mewikofu.h has them. Their answers come by value; by the System V ABI the caller then
//! gives the answer's place as a first argument and gets it back. It is declared so here, since a place that is lent
//! can be filled beforehand, and a byte that a call doesn't write is seen: the structs have no padding, which `raw`
//! asserts. All unsafe code is here.

use mewikofu::raw::{Cut, View};
use std::mem::MaybeUninit;

extern "C" {
    fn mewikofu_view(
        answer: *mut View,
        day: *const u8,
        length: usize,
        line: usize,
        step: usize,
    ) -> *mut View;
    fn mewikofu_cut(answer: *mut Cut, line: *const u8, length: usize) -> *mut Cut;
}

/// What a call writes to a place that was filled with a byte other than 0.
fn answer<T>(call: impl FnOnce(*mut T) -> *mut T) -> Result<T, String> {
    let mut place = MaybeUninit::<T>::uninit();
    // SAFETY: the place has room for one value.
    unsafe { place.as_mut_ptr().write_bytes(0xAA, 1) };
    match call(place.as_mut_ptr()) == place.as_mut_ptr() {
        // SAFETY: every byte is written, and every word is a value of a field.
        true => Ok(unsafe { place.assume_init() }),
        false => Err("an answer's place that isn't the one given".to_string()),
    }
}

pub fn view(day: &[u8], line: usize, step: usize) -> Result<View, String> {
    // SAFETY: the day's pointer and length are the slice's, and the place doesn't overlap it.
    answer(|place| unsafe { mewikofu_view(place, day.as_ptr(), day.len(), line, step) })
}

pub fn cut(line: &[u8]) -> Result<Cut, String> {
    // SAFETY: the line's pointer and length are the slice's, and the place doesn't overlap it.
    answer(|place| unsafe { mewikofu_cut(place, line.as_ptr(), line.len()) })
}
