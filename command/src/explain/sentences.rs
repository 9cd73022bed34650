//! The sentences on one payment: price, quantities, change, payments and the rule.

use super::reason::{Match, Reason, Rule};
use crate::amounts::{dollars, gj, price, MONEY_PLACES};
use crate::layout::SCHEDULES;
use crate::lists::{joined, number_words, pulled_words};
use mewikofu::{Accreditation, Side};

/// With as many decimals as it needs, and at least cents. Prices have all four decimals.
pub fn money(value: i64) -> String {
    dollars(value, MONEY_PLACES, 2)
}

pub fn side_words(side: Side) -> &'static str {
    match side {
        Side::Injection => "injection",
        Side::Withdrawal => "withdrawal",
    }
}

/// Where the price comes from, and the rate.
pub fn price_words(reason: &Reason) -> String {
    let (view, s) = (reason.view, reason.s);
    let bid = bid_words(reason);
    let capped = match reason.cap {
        Some(cap) if cap < reason.bid_price => format!("; the cap lowers it to {}", price(cap)),
        Some(cap) => format!("; the cap of {} doesn't change it", price(cap)),
        None => String::new(),
    };
    let (own, market) = (price(view.price[s]), price(reason.market_price));
    let rate = match (reason.side, reason.rate) {
        (Side::Injection, 0) => format!(
            "The market price is {market}. The step's price isn't above it, so the rate is $0"
        ),
        (Side::Withdrawal, 0) => format!(
            "The market price is {market}. The step's price isn't below it, so the rate is $0"
        ),
        (Side::Injection, rate) => format!(
            "The market price is {market}, so the rate is {own} - {market} = {}",
            price(rate)
        ),
        (Side::Withdrawal, rate) => {
            format!("The market price is {market}; a withdrawal's rate is the market price less its own, {market} - {own} = {}", price(rate))
        }
    };
    format!("Price: {bid}{capped}. {rate}.")
}

/// What the bid has for the step, before the cap.
fn bid_words(reason: &Reason) -> String {
    let (s, bid) = (reason.s, price(reason.bid_price));
    let missing = format!("{bid}, stands and is marked as missing");
    match (reason.view.flag[s], reason.bid == s) {
        (0, _) => format!("the bid of schedule {} asks {bid} for this step", s + 1),
        (_, true) => format!(
            "the bid of schedule {} doesn't reach this step, so its last price, {missing}",
            s + 1
        ),
        (_, false) => {
            let last = reason.bid + 1;
            let pulled: Vec<usize> = (last + 1..=s + 1).collect();
            let pulled = pulled_words(&pulled);
            format!("the {pulled}, so the last price of the bid of schedule {last}, {missing}")
        }
    }
}

/// The functional design's names for the two sides.
fn names(side: Side) -> [&'static str; 2] {
    match side {
        Side::Injection => ["AGINO", "MSIQ"],
        Side::Withdrawal => ["AGWNO", "MSWQ"],
    }
}

pub fn quantity_words(reason: &Reason) -> String {
    let (view, s) = (reason.view, reason.s);
    let [agino, msiq] = names(reason.side);
    let allocated = allocated_words(reason);
    let (last, value) = (SCHEDULES - 1, gj(view.agino[s]));
    let agino_words = match (s, view.agino[last]) {
        (4, _) => format!("{agino} is O less A, at least 0: {value}"),
        (_, 0) => format!("{agino} is 0, since schedule 5's is"),
        (_, whole) => {
            let [whole, most, least] =
                [whole, view.operating[last], reason.least_operating()].map(gj);
            format!("{agino} is schedule 5's, {whole}, less what O of schedule 5 is above the least O from schedule {} on, {most} - {least}, at least 0: {value}", s + 1)
        }
    };
    let value = gj(view.msiq[s]);
    let msiq_words = match (s, reason.beyond_market(), reason.side) {
        (4, ..) => format!("{msiq} is E: {value}"),
        (_, true, Side::Injection) => {
            format!("{msiq} is E, since the price is above the market price: {value}")
        }
        (_, true, Side::Withdrawal) => {
            format!("{msiq} is E, since the price is below the market price: {value}")
        }
        (_, false, side) => {
            let not = if side == Side::Injection {
                "isn't above"
            } else {
                "isn't below"
            };
            format!("{msiq} is the lesser of E and schedule {}'s, {}, since the price {not} the market price: {value}", s + 2, gj(view.msiq[s + 1]))
        }
    };
    let row = ad_hoc_words(reason);
    format!("Quantities: {allocated}.{row} {agino_words}. {msiq_words}.")
}

/// Which ad hoc record the operating row is of, and so what the operating total is; nothing where it is the line's own.
fn ad_hoc_words(reason: &Reason) -> String {
    match reason.own.ad_hoc[reason.s] {
        Some(row) => format!(
            " The operating row is that of the ad hoc record with order number {}.",
            row.order
        ),
        None => String::new(),
    }
}

/// What the step has of the line's totals.
fn allocated_words(reason: &Reason) -> String {
    let (view, s) = (reason.view, reason.s);
    let [o, e, a] = [view.operating[s], view.pricing[s], view.actual].map(gj);
    let (totals, excess) = (&reason.own.totals, &view.excess);
    let [operating, pricing, actual] = [
        (totals.operating[s], excess.operating[s]),
        (totals.pricing[s], excess.pricing[s]),
        (totals.actual, excess.actual),
    ]
    .map(total_words);
    format!(
        "of the line's operating total {operating}, pricing total {pricing} and effective actual {actual}, this step has O = {o}, E = {e} and A = {a}"
    )
}

/// A total, and how much of it no step takes.
fn total_words((total, excess): (u64, u32)) -> String {
    match excess {
        0 => gj(total),
        _ => format!("{} ({} of it excess)", gj(total), gj(excess)),
    }
}

/// C, and its rise or fall with the matches.
pub fn change_words(reason: &Reason) -> String {
    let (view, s) = (reason.view, reason.s);
    let [agino, msiq] = names(reason.side);
    let [o, less, also, c] = [
        view.operating[s],
        view.agino[s],
        view.msiq[s],
        view.constrained[s],
    ]
    .map(gj);
    let below = u64::from(view.operating[s]) < u64::from(view.agino[s]) + u64::from(view.msiq[s]);
    let at_least = if below {
        " is below 0, so it counts as"
    } else {
        " ="
    };
    let on = format!(
        "Constrained on: C is O less {agino} less {msiq}: {o} - {less} - {also}{at_least} {c}"
    );
    let before = match s {
        0 => "There is no schedule before, so it is compared with 0".to_string(),
        _ => format!("In schedule {s} it was {}", gj(reason.before)),
    };
    let change = match (reason.rise, reason.fall) {
        (0, 0) => "it doesn't change".to_string(),
        (rise, 0) => format!("it rises by {}", gj(rise)),
        (_, fall) => format!(
            "it falls by {}, which is matched with {}",
            gj(fall),
            matched(&reason.matches)
        ),
    };
    format!("{on}. {before}, so {change}.").replace("compared with 0, so", "compared with 0;")
}

fn matched(matches: &[Match]) -> String {
    let words: Vec<String> = matches
        .iter()
        .map(|one| {
            format!(
                "{} of the rise in schedule {}",
                gj(one.quantity),
                one.rise + 1
            )
        })
        .collect();
    joined(&words)
}

/// The payments that the rule asks for, then the rule.
pub fn payment_words(reason: &Reason) -> Vec<String> {
    let view = reason.view;
    match reason.rule {
        Rule::NotAccredited => {
            let accredited = accredited_here(reason);
            return vec![format!(
                "Payment: the line isn't {accredited}, so nothing is paid."
            )];
        }
        Rule::Hedged => {
            let (end, hedge) = (gj(view.end), gj(reason.own.hedge));
            return vec![format!("Payment: the step ends at {end}, within the hedge of {hedge}, so it is hedged and nothing is paid.")];
        }
        _ => {}
    }
    let mut sentences = vec![initial_words(reason)];
    sentences.extend(match reason.rule {
        Rule::PriceMissing if reason.view.initial[reason.s] < 0 => Some(modified_words(reason)),
        Rule::Pooled | Rule::PoolNotAboveZero | Rule::NothingRevised => Some(revised_words(reason)),
        _ => None,
    });
    sentences.push(final_words(reason));
    sentences
}

/// `accredited`, with the schedule where that differs by schedule.
pub fn accredited_here(reason: &Reason) -> String {
    match reason.own.accreditation {
        Accreditation::In(_) => format!("accredited in schedule {}", reason.s + 1),
        _ => "accredited".to_string(),
    }
}

fn initial_words(reason: &Reason) -> String {
    let amount = money(reason.view.initial[reason.s]);
    let rate = price(reason.rate);
    let accredited = accredited_here(reason);
    let paid = format!("Initial payment: the line is {accredited} and the step isn't hedged, so it is the change times the rate");
    match (reason.rise, reason.fall) {
        (0, 0) => format!("{paid}: 0 x {rate} = {amount}."),
        (rise, 0) => format!("{paid}: {} x {rate} = {amount}.", gj(rise)),
        (_, fall) => {
            let rises = unpaid_rises(reason);
            format!("{paid}: -{} x {rate} = {amount}.{rises}", gj(fall))
        }
    }
}

/// That a fall is charged also for rises in schedules in which the line isn't accredited; said only where its final payment is below 0.
fn unpaid_rises(reason: &Reason) -> String {
    let rises = reason.matches.iter().rev().map(|one| one.rise);
    let unpaid = rises.filter(|&r| !reason.own.is_accredited(r));
    let unpaid: Vec<usize> = unpaid.map(|r| r + 1).collect();
    let unpaid = match &unpaid[..] {
        _ if reason.paid >= 0 => return String::new(),
        [] => return String::new(),
        [one] => format!("schedule {one}, so the rise there wasn't paid"),
        several => format!(
            "schedules {}, so the rises there weren't paid",
            number_words(several)
        ),
    };
    format!(" The line isn't accredited in {unpaid}; the fall is charged all the same.")
}

/// `0.2 x $1.50 + 0.1 x $2.00`.
fn charges(reason: &Reason, rate: fn(&Match) -> u32) -> String {
    let words: Vec<String> = reason
        .matches
        .iter()
        .map(|one| format!("{} x {}", gj(one.quantity), price(rate(one))))
        .collect();
    words.join(" + ")
}

fn revised_words(reason: &Reason) -> String {
    let (s, market) = (reason.s, price(reason.market_price));
    let which = match reason.side {
        Side::Injection => {
            "the lesser of its prices in the two schedules, less the market price of this one"
        }
        Side::Withdrawal => {
            "the market price of this schedule less the greater of its prices in the two"
        }
    };
    let prices: Vec<String> = reason
        .matches
        .iter()
        .map(|one| {
            let [then, now] = [reason.view.price[one.rise], reason.view.price[s]].map(price);
            match reason.side {
                Side::Injection => format!("of schedule {}: the lesser of {then} and {now}, less {market}, at least $0: {}", one.rise + 1, price(one.revised_rate)),
                Side::Withdrawal => format!("of schedule {}: {market} less the greater of {then} and {now}, at least $0: {}", one.rise + 1, price(one.revised_rate)),
            }
        })
        .collect();
    let charges = charges(reason, |one| one.revised_rate);
    let amount = money(reason.view.revised[s]);
    format!("Revised payment: the initial one is below $0, so each matched quantity is charged {which} ({}). That is -({charges}) = {amount}.", prices.join("; "))
}

fn modified_words(reason: &Reason) -> String {
    let charges = charges(reason, |one| one.modified_rate);
    let amount = money(reason.view.modified[reason.s]);
    format!("Modified payment: the initial one is below $0, so each matched quantity is charged the rate of the schedule that it rose in. That is -({charges}) = {amount}.")
}

fn final_words(reason: &Reason) -> String {
    let (view, s) = (reason.view, reason.s);
    let amount = money(reason.paid);
    let pool = &reason.pool;
    let side = side_words(reason.side);
    let total = money(pool.total);
    let rule = match reason.rule {
        Rule::NotAccredited | Rule::Hedged => return String::new(),
        Rule::FirstSchedule => "in schedule 1 it is the initial payment".to_string(),
        Rule::ClawbackOff => "clawback is off, so it is the initial payment".to_string(),
        Rule::PriceMissing if view.initial[s] < 0 => "clawback is on and the price is marked as missing, so it is the modified payment".to_string(),
        Rule::PriceMissing => "clawback is on and the price is marked as missing, so it is the modified payment, which is the initial one, since that isn't below $0".to_string(),
        Rule::NotTakenBack => "clawback is on; it is the revised payment, which is the initial one, since that isn't below $0".to_string(),
        Rule::PoolNotAboveZero => {
            format!("clawback is on. The revised payments of all {side}s in schedule {} add up to T = {total}, which isn't above $0, so it is the revised payment", s + 1)
        }
        Rule::NothingRevised => format!(
            "clawback is on. Of all {side}s in schedule {} no revised payment differs from its initial one, so it is the revised payment",
            s + 1
        ),
        Rule::Pooled => return pooled_words(reason),
    };
    format!("Final payment: {rule}: {amount}.")
}

/// T, B, the share and its rounding.
fn pooled_words(reason: &Reason) -> String {
    let (view, s, pool) = (reason.view, reason.s, &reason.pool);
    let side = side_words(reason.side);
    let share = reason.share.map_or(0, |share| share.quotient);
    let rounding = match reason.share.is_some_and(|share| share.rounded) {
        true => ", rounded towards zero to a whole $0.0000001",
        false => ", exactly",
    };
    let total = money(pool.total);
    let [rises, falls, base] = [pool.rises, pool.falls, pool.base()].map(gj);
    let [initial, revised] = [view.initial[s], view.revised[s]];
    let less = revised - share;
    let which = match reason.paid == less {
        true => format!(
            "That is not below the initial payment of {}, so it stands",
            money(initial)
        ),
        false => format!(
            "That is below the initial payment of {}, which is the most that is charged",
            money(initial)
        ),
    };
    format!(
        "Final payment: clawback is on. The revised payments of all {side}s in schedule {} add up to T = {total}, which is above $0, and some differ from \
their initial ones, so this fall bears a share of T. The steps of all {side}s that are paid in schedule {} rise there by {rises} and fall by {falls}; the greater is B = {base}. \
The share is T x fall / B = {total} x {} / {base} = {}{rounding}. Revised payment less share: {} - {} = {}. {which}: {}.",
        s + 1,
        s + 1,
        gj(reason.fall),
        money(share),
        money(revised),
        money(share),
        money(less),
        money(reason.paid)
    )
}
