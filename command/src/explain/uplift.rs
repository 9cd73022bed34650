//! Uplift by schedule (document 02, F-1) in sentences.

use super::sentences::money;
use crate::layout::SCHEDULES;
use crate::lists::number_words;
use crate::uplift::{Exact, Group, Uplift};

/// Sentences for each group, and for each schedule without one, in the order of the schedules; those on one schedule of a group are set in by the number beside
/// them.
pub fn sentences(uplift: &Uplift) -> Vec<(usize, String)> {
    let mut all = Vec::new();
    for s in 0..SCHEDULES {
        let schedule = s + 1;
        match (uplift.group(s), uplift.exact(s)) {
            (Some(group), Some(exact)) => {
                if group.schedules.start == s {
                    all.push((0, group_words(group)));
                }
                if group.schedules.len() > 1 && group.adjusted != 0 {
                    all.push((2, share_words(uplift, group, s, exact)));
                }
            }
            _ => all.push((
                0,
                format!("Schedule {schedule}: the total is $0, so there is no uplift."),
            )),
        }
    }
    all
}

fn group_words(group: &Group) -> String {
    let (total, adjusted) = (money(group.total), money(group.adjusted));
    let schedules = number_words(&group.numbers());
    if group.schedules.len() == 1 {
        return format!("Schedule {schedules}: a group of its own, so the uplift is the adjusted total, {adjusted}.");
    }
    let side = if group.total > 0 { "above" } else { "below" };
    let none = match group.adjusted {
        0 => ", so there is no uplift",
        _ => "",
    };
    format!(
        "Schedules {schedules}, all {side} $0: the totals add up to {total} and the adjusted totals to {adjusted}{none}."
    )
}

fn share_words(uplift: &Uplift, group: &Group, s: usize, exact: Exact) -> String {
    let (schedule, share) = (s + 1, uplift.shares[s]);
    let [own, adjusted, total] = [uplift.totals[s], group.adjusted, group.total].map(money);
    let written = exact.dollars();
    let product = match exact.leaves_remainder() {
        false => money(share),
        true => {
            let rounded = money(exact.rounded());
            // Decimals that are cut off.
            let more = if written.is_cut { ".." } else { "" };
            let left_over = match share == exact.rounded() {
                true => String::new(),
                false => format!(
                    ", and with one of the units of $0.0000001 that are left over {}",
                    money(share)
                ),
            };
            format!("{written}{more}, rounded towards zero {rounded}{left_over}")
        }
    };
    format!("Schedule {schedule}: {own} x {adjusted} / {total} = {product}.")
}
