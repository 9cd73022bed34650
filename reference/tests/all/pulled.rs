//! Bids pulled in a reschedule (02 F-6): prices and flags in their schedules, and what they leave as it is.

use crate::{numbers, pulled_days};
use reference::cut::{cut, Cut};
use reference::generate::{k10_pulled, line, pulled_line};
use reference::k10::k10;
use reference::layout::*;
use reference::refusal::{day_number, line_part_number};
use reference::report::{settle_report, steps_report};
use reference::view::{DayView, View};
use std::collections::BTreeMap;

/// Puts a bid, its other slots 0.
pub fn put_bid(line: &mut [u8], bid: usize, steps: &[(u32, u32)]) {
    put_word(line, count_place(bid), steps.len() as u32);
    for slot in 0..BID_SLOTS {
        let (end, price) = steps.get(slot).copied().unwrap_or((0, 0));
        put_word(line, break_place(bid, slot), end);
        put_word(line, price_place(bid, slot), price);
    }
}

/// One injection with clawback on. Bids 3 and 4 are pulled, and the operating total falls with the first of them. All
/// pricing quantities are 0 and the actuals are as scheduled, so C is what the operating total puts on a step.
fn clawed_back_day() -> Vec<u8> {
    let mut day = vec![0; day_length(1)];
    put_header(&mut day, Layout::Old, 1, 0);
    let market = [
        30_000, 30_000, 36_000, 10_000, 30_000, 0, 0, 0, 1, 0, 15_000, 1,
    ];
    put_words(market_mut(&mut day), &market);
    let line = line_mut(&mut day, 0);
    put_words(line, &[7, 3, 0, 1, 0]);
    put_bid(line, 0, &[(1000, 20_000), (3000, 50_000)]);
    put_bid(line, 1, &[(1000, 40_000)]);
    put_bid(line, 4, &[(2000, 35_000)]);
    for (s, total) in [0, 1800, 500, 1300, 1000].into_iter().enumerate() {
        put_word(line, operating_place(s, 0), total);
    }
    put_word(line, actual_place(0), 1000);
    day
}

/// Worked out by hand. The steps end at 1000, 2000 and 3000. In schedules 3 and 4 all have flag 1 and the last price of
/// bid 2, 40000, which APC makes 15000 in schedule 4. The rates of the first two steps from schedule 2 on are 10000,
/// 4000, 5000 and 5000. In schedule 3 the falls of 500 and 800 are charged at 10000, the rate of their rises. In
/// schedule 5 the second step falls by 300 with flag 0; its revised payment is 0, since the lesser price, 15000, isn't
/// above 30000, and T is 0.
const CLAWED_BACK_STEPS: &str = "line 0 7 3 INJ 3
step 0 1000 1000 1000
1 20000 0 0 0 0 0 0 0 0 0 0
2 40000 0 1000 0 0 0 1000 10000000 10000000 10000000 10000000
3 40000 1 500 0 0 0 500 -2000000 -2000000 -5000000 -5000000
4 15000 1 1000 0 0 0 1000 2500000 2500000 2500000 2500000
5 35000 0 1000 0 0 0 1000 0 0 0 0
matches 0 0 500 0 0 0 0 0 0 0
step 1 2000 1000 0
1 50000 0 0 0 0 0 0 0 0 0 0
2 40000 1 800 0 0 0 800 8000000 8000000 8000000 8000000
3 40000 1 0 0 0 0 0 -3200000 -3200000 -8000000 -8000000
4 15000 1 300 0 0 0 300 1500000 1500000 1500000 1500000
5 35000 0 0 0 0 0 0 -1500000 0 -1500000 0
matches 0 0 800 0 0 0 0 0 0 300
step 2 3000 1000 0
1 50000 0 0 0 0 0 0 0 0 0 0
2 40000 1 0 0 0 0 0 0 0 0 0
3 40000 1 0 0 0 0 0 0 0 0 0
4 15000 1 0 0 0 0 0 0 0 0 0
5 35000 1 0 0 0 0 0 0 0 0 0
matches 0 0 0 0 0 0 0 0 0 0
excess pricing 0 0 0 0 0 operating 0 0 0 0 0 actual 0
";

const CLAWED_BACK_REPORT: &str = "day 1
7 3 INJ 3 0 18000000 -13000000 4000000 0
total 0 18000000 -13000000 4000000 0
adjusted 0 5000000 0 4000000 0
";

#[test]
fn fall_of_a_pulled_bid_is_clawed_back() {
    let day = clawed_back_day();
    assert_eq!(steps_report(&day), CLAWED_BACK_STEPS);
    assert_eq!(settle_report(&day), CLAWED_BACK_REPORT);
}

/// The constrained on step of K10 is the bid's last one, so its price stays; its fall costs the rate of its rise with
/// clawback or without.
#[test]
fn k10_with_each_set_pulled() {
    for set in 0..32 {
        for clawback in [0, 1] {
            let mut day = k10_pulled(set);
            put_word(market_mut(&mut day), CLAWBACK, clawback);
            let report = match set % 2 {
                0 => crate::K10_REPORT,
                _ => "refused 7\n",
            };
            assert_eq!(settle_report(&day), report, "set {set}");
        }
    }
}

/// Lines with pulled bids, of either side.
fn pulled_lines() -> impl Iterator<Item = Vec<u8>> {
    (0..2000).map(pulled_line)
}

/// The uncapped last price of the nearest earlier bid with a count above 0, read from the line's words.
fn price_taken_over(line: &[u8], s: usize) -> u32 {
    let counts: Vec<u32> = (0..s).map(|bid| word(line, count_place(bid))).collect();
    let source = counts.iter().rposition(|&count| count > 0).unwrap();
    word(line, price_place(source, counts[source] as usize - 1))
}

fn pulled_schedules(line: &[u8]) -> impl Iterator<Item = usize> + '_ {
    (0..SCHEDULES).filter(|&bid| word(line, count_place(bid)) == 0)
}

/// Every step of a pulled schedule has flag 1 and one price; the word of flags has no other bit.
#[test]
fn cut_of_a_pulled_schedule() {
    for line in pulled_lines() {
        let answer = cut(&line);
        assert_eq!(answer.number, 0);
        let count = answer.count as usize;
        for s in pulled_schedules(&line) {
            assert_eq!(answer.flags[s], (1 << count) - 1);
            assert_eq!(answer.missing[s], answer.count);
            let price = price_taken_over(&line, s);
            assert!(answer.prices[s][..count].iter().all(|&p| p == price));
            assert!(answer.prices[s][count..].iter().all(|&p| p == 0));
        }
    }
}

/// The view's price is that of the cut, or APC where the schedule is marked and APC is less. With clawback the final
/// payment is the modified one, since the flag is 1.
#[test]
fn view_of_a_pulled_schedule() {
    for day in pulled_days() {
        let (views, cap) = (DayView::new(&day), word(market(&day), PRICE_CAP));
        let clawback = word(market(&day), CLAWBACK) == 1;
        for (k, line) in views.day.lines().enumerate() {
            let bytes = &day[day_length(k)..day_length(k + 1)];
            let steps: Vec<View> = views.line(line).collect();
            for s in pulled_schedules(bytes) {
                let price = match word(market(&day), CAP_MARK + s) {
                    1 => price_taken_over(bytes, s).min(cap),
                    _ => price_taken_over(bytes, s),
                };
                for v in &steps {
                    assert_eq!((v.price[s], v.flag[s]), (price, 1));
                    let kind = if clawback { v.modified } else { v.initial };
                    assert_eq!(v.finals[s], kind[s]);
                }
            }
        }
    }
}

/// M and the ends are those of the bids that are there and the hedge.
#[test]
fn ends_with_pulled_bids() {
    for line in pulled_lines() {
        let mut ends = vec![word(&line, HEDGE)];
        for bid in 0..SCHEDULES {
            let count = word(&line, count_place(bid)) as usize;
            ends.extend((0..count).map(|slot| word(&line, break_place(bid, slot))));
        }
        ends.sort_unstable();
        ends.dedup();
        ends.retain(|&end| end > 0);
        let answer = cut(&line);
        assert_eq!(answer.ends[..answer.count as usize], ends);
        let most = Line::new(&line).unwrap().greatest_break();
        assert_eq!(ends.last(), Some(&most));
    }
}

/// Uncapped price and flag in schedule s by upper end.
fn by_end(cut: &Cut, s: usize) -> BTreeMap<u32, (u32, bool)> {
    let step = |k: usize| (cut.ends[k], (cut.prices[s][k], cut.flags[s] >> k & 1 == 1));
    (0..cut.count as usize).map(step).collect()
}

/// Pulling a bid adds no end, and changes neither price nor flag in the other schedules at the ends that are left.
#[test]
fn pulling_a_bid_leaves_the_other_schedules() {
    for (seed, bid) in (0..400).flat_map(|seed| (1..SCHEDULES).map(move |bid| (seed, bid))) {
        let mut line = line(seed);
        put_word(&mut line, HEDGE, 0);
        line[4 * pricing_place(0, 0)..].fill(0);
        let before = cut(&line);
        put_bid(&mut line, bid, &[]);
        let after = cut(&line);
        assert_eq!((before.number, after.number), (0, 0));
        for s in (0..SCHEDULES).filter(|&s| s != bid) {
            let before = by_end(&before, s);
            let mut left = by_end(&after, s).into_iter();
            assert!(left.all(|(end, step)| before[&end] == step));
        }
    }
}

/// A pulled bid is priced as a bid of one step up to 1 MJ at the price taken over, but for that MJ.
#[test]
fn pulled_as_a_bid_of_one_mj() {
    for mut line in pulled_lines() {
        let answer = cut(&line);
        for s in 1..SCHEDULES {
            if word(&line, count_place(s)) == 0 {
                let price = price_taken_over(&line, s);
                put_bid(&mut line, s, &[(1, price)]);
            }
        }
        let with_one = cut(&line);
        for s in 0..SCHEDULES {
            let above: Vec<_> = by_end(&with_one, s).into_iter().skip(1).collect();
            let pulled: Vec<_> = by_end(&answer, s).into_iter().collect();
            assert!(pulled.ends_with(&above));
        }
    }
}

/// Words of K10's line, values put there with bids 2 to 5 pulled, and the number of settling, view and cutter.
const WORDS: &[(usize, u32, u32)] = &[
    (HEDGE, 3000, 0),
    (HEDGE, 3001, 11),
    (count_place(0), 0, 7),
    (count_place(0), 12, 7),
    (count_place(1), 12, 7),
    (count_place(4), u32::MAX, 7),
    (count_place(1), 1, 8),
    (count_place(4), 11, 8),
    (break_place(1, 0), 1, 10),
    (break_place(1, 0), u32::MAX, 10),
    (break_place(4, 10), 1, 10),
    (price_place(1, 0), 1, 10),
    (price_place(1, 0), PRICE_LIMIT + 1, 10),
    (price_place(4, 10), u32::MAX, 10),
    (break_place(0, 1), 1001, 0), // the greatest operating total is 2000
    (operating_place(4, 4), 2500, 0),
    (operating_place(4, 4), 2501, 12),
    (pricing_place(4, 4), 3000, 0),
    (pricing_place(4, 4), 3001, 12),
    (actual_place(4), QUANTITY_LIMIT + 1, 13),
];

#[test]
fn limits_with_four_bids_pulled() {
    for &(place, value, number) in WORDS {
        let mut day = k10_pulled(0b11110);
        put_word(line_mut(&mut day, 0), place, value);
        assert_eq!(numbers(&day), [number; 4], "word {place} as {value}");
        assert_eq!(line_part_number(&day, 0), 0);
    }
}

/// M is lowered where the bid with the greatest break is pulled: 3000 to 2500 here.
#[test]
fn limits_with_a_lowered_m() {
    let numbers = |hedge: u32, total: u32| {
        let mut day = k10();
        let line = line_mut(&mut day, 0);
        for bid in [0, 1, 3, 4] {
            put_bid(line, bid, &[(1000, 20_000), (2500, 50_000)]);
        }
        put_word(line, HEDGE, hedge);
        put_word(line, operating_place(2, 0), total - 1000);
        let with_bid = day_number(&day);
        put_bid(line_mut(&mut day, 0), 2, &[]);
        [with_bid, day_number(&day)]
    };
    assert_eq!(numbers(2500, 3500), [0, 0]);
    assert_eq!(numbers(2501, 3500), [0, 11]);
    assert_eq!(numbers(3000, 3501), [0, 11]);
    assert_eq!(numbers(2500, 3501), [0, 12]);
    assert_eq!(numbers(0, 4000), [0, 12]);
    assert_eq!(numbers(0, 4001), [12, 12]);
    assert_eq!(numbers(3001, 4000), [11, 11]);
}
