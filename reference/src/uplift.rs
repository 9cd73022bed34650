//! Uplift by schedule (02 F-1, FD 9.4).

use crate::layout::*;
use crate::settle::settle;

/// A number and five shares; refused, the shares are 0.
#[derive(Clone, Copy, Debug, Default, PartialEq, Eq)]
pub struct Uplift {
    pub number: u32,
    pub shares: BySchedule<i64>,
}

/// The uplift of a day. The book is long enough for every day, so the number isn't 15.
pub fn uplift(day: &[u8]) -> Uplift {
    let mut book = [0; book_length(MOST_LINES)];
    match settle(day, &mut book) {
        0 => Uplift {
            number: 0,
            shares: shares(&book_totals(&book), &book_adjusted(&book)),
        },
        number => Uplift {
            number,
            ..Uplift::default()
        },
    }
}

/// The share of each schedule, from the totals and the adjusted totals. A total of 0 has the share 0.
pub fn shares(totals: &BySchedule<i64>, adjusted: &BySchedule<i64>) -> BySchedule<i64> {
    let mut shares = [0; SCHEDULES];
    let mut start = 0;
    for group in totals.chunk_by(|t, next| t.signum() == next.signum()) {
        let places = start..start + group.len();
        start = places.end;
        if group[0] != 0 {
            let adjusted = adjusted[places.clone()].iter().sum();
            share_out(adjusted, group, &mut shares[places]);
        }
    }
    shares
}

/// Shares a group's summed adjusted totals out by its totals, which are all above 0 or all below 0.
fn share_out(adjusted: i64, group: &[i64], shares: &mut [i64]) {
    let sum: i128 = group.iter().map(|&t| i128::from(t)).sum();
    let product = |t: i64| i128::from(t) * i128::from(adjusted);
    for (share, &t) in shares.iter_mut().zip(group) {
        // Towards 0, so that the size is rounded down.
        *share = (product(t) / sum) as i64;
    }
    let mut left = adjusted - shares.iter().sum::<i64>();
    for (share, &t) in shares.iter_mut().zip(group) {
        if left != 0 && product(t) % sum != 0 {
            *share += left.signum();
            left -= left.signum();
        }
    }
}
