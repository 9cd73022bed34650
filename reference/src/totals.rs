//! Adjusted totals (01 "Totals", FD 9.3).

use crate::layout::{BySchedule, SCHEDULES};

pub fn adjusted(totals: &BySchedule<i64>) -> BySchedule<i64> {
    let mut adjusted = [0; SCHEDULES];
    // The sum of t - a over earlier schedules.
    let mut carried = 0;
    for s in 0..SCHEDULES {
        adjusted[s] = if s == 0 || totals[s] >= 0 {
            least_running_sum(&totals[s..]).max(0)
        } else {
            (totals[s] + carried).min(0)
        };
        carried += totals[s] - adjusted[s];
    }
    adjusted
}

/// The least of t(s), t(s)+t(s+1), .. up to 5.
fn least_running_sum(totals: &[i64]) -> i64 {
    let mut sum = 0;
    let mut least = i64::MAX;
    for total in totals {
        sum += total;
        least = least.min(sum);
    }
    least
}
