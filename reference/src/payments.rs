//! Rates and the four kinds of payment of one step (01 "Payments", FD 8.4 and 8.5).

use crate::layout::{BySchedule, Side, SCHEDULES};
use crate::matching::{pair, Matching};
use crate::pools::Pool;

impl Side {
    /// R: the price less the market price, reversed for withdrawals; at least 0.
    pub fn rate(self, price: u32, market_price: u32) -> u32 {
        match self {
            Side::Injection => price.saturating_sub(market_price),
            Side::Withdrawal => market_price.saturating_sub(price),
        }
    }

    /// The lesser of two prices; for withdrawals the greater.
    fn lower_paid(self, a: u32, b: u32) -> u32 {
        match self {
            Side::Injection => a.min(b),
            Side::Withdrawal => a.max(b),
        }
    }
}

/// The side, capped prices, market prices and rates R that a step is paid by.
pub struct Prices<'a> {
    pub side: Side,
    pub step: &'a BySchedule<u32>,
    pub market: &'a BySchedule<u32>,
    pub rates: &'a BySchedule<u32>,
}

/// The three kinds of payment that depend on the step alone.
#[derive(Clone, Default)]
pub struct Payments {
    pub initial: BySchedule<i64>,
    pub revised: BySchedule<i64>,
    pub modified: BySchedule<i64>,
}

impl Payments {
    /// 0 in the schedules in which the step isn't paid.
    #[inline(always)]
    pub fn new(prices: &Prices, matching: &Matching, paid: &BySchedule<bool>) -> Payments {
        let mut payments = Payments::default();
        for s in (0..SCHEDULES).filter(|&s| paid[s]) {
            let rise = product(matching.rises[s], prices.rates[s]);
            let fall = product(matching.falls[s], prices.rates[s]);
            payments.initial[s] = rise - fall;
            payments.revised[s] = rise - fall;
            payments.modified[s] = rise - fall;
            if fall > 0 {
                payments.revised[s] = -revised_fall(prices, matching, s);
                payments.modified[s] = -modified_fall(prices, matching, s);
            }
        }
        payments
    }
}

fn product(quantity: u32, rate: u32) -> i64 {
    i64::from(quantity) * i64::from(rate)
}

/// The sum over earlier schedules of matches times the rate in s of the lesser price (FD 8.4.3.2).
fn revised_fall(prices: &Prices, matching: &Matching, s: usize) -> i64 {
    let rate = |r: usize| {
        let price = prices.side.lower_paid(prices.step[r], prices.step[s]);
        prices.side.rate(price, prices.market[s])
    };
    (0..s)
        .map(|r| product(matching.matches[pair(r, s)], rate(r)))
        .sum()
}

/// The sum over earlier schedules of matches times their own rates (FD 8.4.4.2).
fn modified_fall(prices: &Prices, matching: &Matching, s: usize) -> i64 {
    (0..s)
        .map(|r| product(matching.matches[pair(r, s)], prices.rates[r]))
        .sum()
}

/// Final payments (FD 8.4.6, 8.5.6). `pools` are those of the step's side.
pub fn finals(
    clawback: bool,
    flags: &BySchedule<bool>,
    falls: &BySchedule<u32>,
    payments: &Payments,
    pools: &BySchedule<Pool>,
) -> BySchedule<i64> {
    std::array::from_fn(|s| {
        let initial = payments.initial[s];
        if s == 0 || !clawback {
            initial
        } else if flags[s] {
            payments.modified[s]
        } else if initial < 0 && pools[s].in_effect() {
            initial.max(payments.revised[s] - pools[s].share(falls[s]))
        } else {
            payments.revised[s]
        }
    })
}
