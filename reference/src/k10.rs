//! The day of K10 (01 "Figures to check against").

use crate::layout::*;

pub fn k10() -> Vec<u8> {
    k10_of(Side::Injection)
}

/// The day of K10 or, for a withdrawal, the same with prices as far from the market price on its other side, so that
/// all figures but side and prices are K10's.
pub fn k10_of(side: Side) -> Vec<u8> {
    let mut day = vec![0; day_length(1)];
    put_header(&mut day, Layout::Old, 1, 0);
    for s in 0..SCHEDULES {
        put_word(market_mut(&mut day), MARKET_PRICE + s, 30_000);
    }
    fill_line(line_mut(&mut day, 0), side);
    day
}

fn fill_line(line: &mut [u8], side: Side) {
    const OPERATING: [[u32; 2]; SCHEDULES] = [
        [1000, 0],
        [1000, 1000],
        [1000, 1000],
        [1000, 500],
        [1000, 500],
    ];
    let prices = match side {
        Side::Injection => [20_000, 50_000],
        Side::Withdrawal => [40_000, 10_000],
    };
    put_word(line, PARTICIPANT, 7);
    put_word(line, POINT, 3);
    put_word(line, SIDE, side as u32);
    put_word(line, ACCREDITATION, 1);
    put_word(line, pricing_place(0, 0), 1000);
    put_word(line, actual_place(0), 1000);
    put_word(line, actual_place(1), 500);
    for (s, operating) in OPERATING.iter().enumerate() {
        put_word(line, count_place(s), 2);
        for (slot, (end, price)) in [1000, 3000].into_iter().zip(prices).enumerate() {
            put_word(line, break_place(s, slot), end);
            put_word(line, price_place(s, slot), price);
        }
        for (i, &quantity) in operating.iter().enumerate() {
            put_word(line, operating_place(s, i), quantity);
        }
    }
}
