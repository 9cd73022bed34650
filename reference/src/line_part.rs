//! The bytes of one line, lent from the caller's day (01 "Steps and prices", last paragraph). Ad hoc records play no
//! part.

use crate::layout::{Layout, LINE_BYTES};
use crate::refusal::line_part_number;

/// Line k's bytes; the empty part where `line_part_number` isn't 0.
pub fn line_part(day: &[u8], k: u64) -> &[u8] {
    if line_part_number(day, k) != 0 {
        return &[];
    }
    let start = Layout::named(day).line(k as usize);
    &day[start..start + LINE_BYTES]
}
