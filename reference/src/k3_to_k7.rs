//! A day whose steps show K3 to K7 (01 "Figures to check against"). Its market table is K10's. A line's participant is
//! the case's number.

use crate::k10::k10;
use crate::layout::*;
use crate::table1;

pub fn k3_to_k7() -> Vec<u8> {
    let mut day = k10();
    let own = day.split_off(day_length(0));
    let lines = [
        (3, table1::line()),
        (6, one_step(&own, [10, 20, 30, 40, 50], 5)),
        (7, one_step(&own, [3, 5, 2, 4, 1], 1)),
        (10, own),
    ];
    put_header(&mut day, Layout::Old, lines.len(), 0);
    for (case, mut line) in lines {
        put_word(&mut line, PARTICIPANT, case);
        day.extend(line);
    }
    day
}

/// K10's line with one step up to 50 at 40000 in each bid, nothing priced, and these operating totals and actual, all
/// in interval 1.
fn one_step(own: &[u8], operating: BySchedule<u32>, actual: u32) -> Vec<u8> {
    let mut line = own.to_vec();
    for (s, total) in operating.into_iter().enumerate() {
        put_word(&mut line, count_place(s), 1);
        for (slot, (end, price)) in [(50, 40_000), (0, 0)].into_iter().enumerate() {
            put_word(&mut line, break_place(s, slot), end);
            put_word(&mut line, price_place(s, slot), price);
        }
        for i in 0..SCHEDULES {
            let quantity = if i == 0 { total } else { 0 };
            put_word(&mut line, operating_place(s, i), quantity);
        }
    }
    put_word(&mut line, pricing_place(0, 0), 0);
    put_word(&mut line, actual_place(0), actual);
    put_word(&mut line, actual_place(1), 0);
    line
}
