//! Explanations.

use crate::{
    accredited_schedules, example_text, k10_accredited, k10_each_excess, k10_operating_excess,
    k10_pulled, run, stored, with_pulled, with_sets,
};
use mewikofu_command::explain::{Explained, Reason, Rule};
use mewikofu_command::figures::Figures;
use reference::generate::{excess_day, small_day, small_excess_day, small_set_day, valid_day};
use reference::layout::{put_word, word};
use reference::view::view;

/// Days with clawback on and off, with accreditation by line and by schedule, with bids pulled and with totals above the greatest break.
fn days() -> impl Iterator<Item = Vec<u8>> {
    (0..crate::days(250)).map(|seed| {
        let mut day = match (seed % 5, seed % 11) {
            (0, 0..4) => excess_day(seed),
            (0, _) => valid_day(seed),
            (_, 0..4) => small_excess_day(seed),
            _ => small_day(seed),
        };
        put_word(&mut day, 15, u32::from(seed % 4 != 0));
        let day = match seed % 3 {
            0 => with_sets(day, seed),
            _ => day,
        };
        match seed % 7 {
            0..3 => with_pulled(day, seed),
            _ => day,
        }
    })
}

/// Every payment of every day is explained as it was settled, by every rule, and is the reference's.
#[test]
fn every_payment() {
    let mut rules = std::collections::BTreeMap::new();
    let (mut rounded, mut least) = (0, 0);
    for day in days() {
        let figures = Figures::new(&day).unwrap();
        let explained = Explained::new(&figures).unwrap();
        for reason in &explained.reasons {
            *rules.entry(reason.rule.name()).or_insert(0) += 1;
            if let Some(share) = reason.share {
                rounded += usize::from(share.rounded);
                least += usize::from(reason.paid != reason.view.revised[reason.s] - share.quotient);
            }
        }
        for reason in explained.reasons.iter().step_by(7) {
            let step = view(&day, reason.line as u64, reason.step as u64);
            assert_eq!(reason.paid, step.finals[reason.s]);
        }
    }
    for rule in [
        Rule::NotAccredited,
        Rule::Hedged,
        Rule::FirstSchedule,
        Rule::ClawbackOff,
        Rule::PriceMissing,
        Rule::Pooled,
        Rule::NotTakenBack,
        Rule::PoolNotAboveZero,
        Rule::NothingRevised,
    ] {
        assert!(rules.contains_key(rule.name()), "{rule:?} of {rules:?}");
    }
    assert!(rounded > 0 && least > 0, "{rounded} {least}");
}

/// Any figure of a view that isn't what was settled is found.
#[test]
fn changed_figures_are_found() {
    let day = stored("examples/both-sides.day");
    let fails = |change: &dyn Fn(&mut mewikofu::View)| {
        let mut figures = Figures::new(&day).unwrap();
        change(&mut figures.lines[4].steps[1]);
        Explained::new(&figures).err().expect("the change is found")
    };
    assert!(Explained::new(&Figures::new(&day).unwrap()).is_ok());
    fails(&|view| view.end += 1);
    fails(&|view| view.width += 1);
    fails(&|view| view.actual += 1);
    for s in 0..5 {
        fails(&|view| view.price[s] += 1);
        fails(&|view| view.flag[s] ^= 1);
        fails(&|view| view.operating[s] += 1);
        fails(&|view| view.pricing[s] += 1);
        fails(&|view| view.agino[s] += 1);
        fails(&|view| view.msiq[s] += 1);
        fails(&|view| view.constrained[s] += 1);
        fails(&|view| view.initial[s] += 1);
        fails(&|view| view.revised[s] += 1);
        fails(&|view| view.modified[s] += 1);
        let why = fails(&|view| view.finals[s] += 1);
        assert!(
            why.starts_with(&format!(
                "line 4, step 1, schedule {}: its final payment is worked out as ",
                s + 1
            )),
            "{why}"
        );
    }
    for place in 0..10 {
        fails(&|view| view.matches[place] += 1);
    }
    for s in 0..5 {
        fails(&|view| view.excess.operating[s] += 1);
        fails(&|view| view.excess.pricing[s] += 1);
    }
    let why = fails(&|view| view.excess.actual += 1);
    let words = "line 4, step 1, schedule 1: the excess of the effective actual is worked out as 0, and the view has 1";
    assert_eq!(why, words);
    let mut figures = Figures::new(&day).unwrap();
    figures.lines[4].entry.payments[1] += 1;
    let why = Explained::new(&figures).err().unwrap();
    assert!(
        why.starts_with("line 4: the steps' payments add up to "),
        "{why}"
    );
}

/// What is said of a pooled payment, worked out by hand from its figures.
#[test]
fn pooled_sentence() {
    let is_pooled =
        |reason: &&Reason| reason.rule == Rule::Pooled && reason.share.unwrap().quotient > 0;
    let mut told = 0;
    for day in days().take(120) {
        let figures = Figures::new(&day).unwrap();
        let explained = Explained::new(&figures).unwrap();
        let Some(reason) = explained.reasons.iter().find(is_pooled) else {
            continue;
        };
        let [line, step, schedule] =
            [reason.line, reason.step, reason.s + 1].map(|n| n.to_string());
        let text = run(
            &[
                "explain",
                "--line",
                &line,
                "--step",
                &step,
                "--schedule",
                &schedule,
            ],
            &day,
        )
        .text();
        let text = text.split_whitespace().collect::<Vec<_>>().join(" ");
        assert!(
            text.contains(" so this fall bears a share of T. "),
            "{text}"
        );
        let product = i128::from(reason.pool.total) * i128::from(reason.fall);
        let exact = product % i128::from(reason.pool.rises.max(reason.pool.falls)) == 0;
        assert_eq!(
            text.contains(", rounded towards zero to a whole $0.0000001."),
            !exact,
            "{text}"
        );
        told += 1;
    }
    assert!(told > 5, "{told}");
}

#[test]
fn k10() {
    let text = run(&["explain"], &stored("examples/k10.day")).text();
    let text = text.split_whitespace().collect::<Vec<_>>().join(" ");
    for words in [
        "Line 0: participant 7, point 3, injection, accredited, no hedge, 2 steps.",
        "Schedule 2: the line is paid $2.00.",
        "Step 1, from 1 to 3, is paid $2.00 in schedule 2.",
        "the bid of schedule 2 asks $5.0000 for this step. The market price is $3.0000, so the rate is $5.0000 - $3.0000 = $2.0000.",
        "of the line's operating total 2, pricing total 1 and effective actual 1.5, this step has O = 1, E = 0 and A = 0.5.",
        "In schedule 1 it was 0, so it rises by 1.",
        "1 x $2.0000 = $2.00.",
        "Schedule 4: the line is charged $1.00.",
        "In schedule 3 it was 1, so it falls by 0.5, which is matched with 0.5 of the rise in schedule 2.",
        "-0.5 x $2.0000 = -$1.00. Final payment: clawback is off, so it is the initial payment: -$1.00.",
        "Over the five schedules it is paid $1.00: $0.00 + $2.00 + $0.00 - $1.00 + $0.00 = $1.00.",
        "Schedule 2: total $2.00, adjusted $1.00",
    ] {
        assert!(text.contains(words), "{words}\n{text}");
    }
}

/// The explanation with single spaces.
fn told(arguments: &[&str], day: &[u8]) -> String {
    let text = run(&[&["explain"], arguments].concat(), day).text();
    text.split_whitespace().collect::<Vec<_>>().join(" ")
}

/// In a schedule with a pulled bid every step is flagged and has the last price of the nearest earlier bid with steps.
#[test]
fn pulled_bids() {
    let mut counts = [0; 3];
    for day in days() {
        let figures = Figures::new(&day).unwrap();
        for reason in &Explained::new(&figures).unwrap().reasons {
            let line = &day[64 + 660 * reason.line..];
            let count = |bid: &usize| word(line, 5 + 23 * bid) as usize;
            let bid = (0..=reason.s).rev().find(|bid| count(bid) > 0).unwrap();
            assert_eq!(reason.bid, bid);
            counts[(reason.s - bid).min(2)] += 1;
            if bid < reason.s {
                let last = word(line, 5 + 23 * bid + 11 + count(&bid));
                assert_eq!((reason.bid_price, reason.view.flag[reason.s]), (last, 1));
            }
        }
    }
    assert!(counts.iter().all(|&count| count > 100), "{counts:?}");
}

/// K10's day with $5 as the bids' last price; in schedule 4 its step 1 falls.
#[test]
fn pulled_bid_sentences() {
    let stands = "$5.0000, stands and is marked as missing";
    let price = "The market price is $3.0000, so the rate is $5.0000 - $3.0000 = $2.0000.";
    for (pulled, line, sentence) in [
        (
            &[4][..],
            "The bid of schedule 4 was pulled.",
            "the bid of schedule 4 was pulled, so the last price of the bid of schedule 3",
        ),
        (
            &[3, 4],
            "The bids of schedules 3 and 4 were pulled.",
            "the bids of schedules 3 and 4 were pulled, so the last price of the bid of schedule 2",
        ),
        (
            &[2, 4, 5],
            "The bids of schedules 2, 4 and 5 were pulled.",
            "the bid of schedule 4 was pulled, so the last price of the bid of schedule 3",
        ),
        (
            &[2, 3, 4, 5],
            "The bids of schedules 2 to 5 were pulled.",
            "the bids of schedules 2 to 4 were pulled, so the last price of the bid of schedule 1",
        ),
    ] {
        let place = ["--line", "0", "--step", "1", "--schedule", "4"];
        let text = told(&place, &k10_pulled(pulled));
        for words in [
            format!("no hedge, 2 steps. {line} Schedule 4: the line is charged $1.00."),
            format!("Price: {sentence}, {stands}. {price}"),
        ] {
            assert!(text.contains(&words), "{words}\n{text}");
        }
    }
    // A schedule with a bid is told as ever, and so is a line without a pulled one.
    let text = told(
        &["--line", "0", "--step", "1", "--schedule", "2"],
        &k10_pulled(&[4]),
    );
    assert!(
        text.contains("Price: the bid of schedule 2 asks $5.0000 for this step."),
        "{text}"
    );
    let text = told(&[], &stored("examples/k10.day"));
    assert!(!text.contains("pulled"), "{text}");
}

/// What is above the greatest break is said of the line, and of a step's totals. It isn't paid: in schedule 2 C rises by 2,000 of the 2,500.
#[test]
fn excess_sentences() {
    let takes = "no step takes this excess, and it is neither constrained on nor paid.";
    let text = told(&["--line", "0"], &k10_operating_excess());
    for words in [
        format!("no hedge, 2 steps. The operating total (by 0.5 in schedule 2) is above the greatest break of the line's bids, 3: {takes} Over the five"),
        "Schedule 2: the line is paid $4.00.".to_string(),
        "of the line's operating total 3.5 (0.5 of it excess), pricing total 1 and effective actual 1.5, this step has O = 2, E = 0 and A = 0.5.".to_string(),
        "In schedule 1 it was 0, so it rises by 2.".to_string(),
        // Schedule 3 has no excess.
        "of the line's operating total 2, pricing total 1 and effective actual 1.5, this step has O = 1, E = 0 and A = 0.5.".to_string(),
    ] {
        assert!(text.contains(&words), "{words}\n{text}");
    }
    assert_eq!(text.matches("of it excess").count(), 1, "{text}");
    let place = ["--line", "0", "--step", "0", "--schedule", "5"];
    let text = told(&place, &k10_each_excess());
    for words in [
        format!("2 steps. The operating total (by 0.9 in schedule 5), the pricing total (by 0.001 in schedule 2 and 1 in schedule 3) and the effective actual (by 0.7) \
                 are above the greatest break of the line's bids, 3: {takes} Schedule 5: "),
        "of the line's operating total 3.9 (0.9 of it excess), pricing total 1 and effective actual 3.7 (0.7 of it excess), this step has O = 1, E = 1 and A = 1.".to_string(),
    ] {
        assert!(text.contains(&words), "{words}\n{text}");
    }
    let place = ["--line", "0", "--step", "0", "--schedule", "3"];
    let text = told(&place, &k10_each_excess());
    let words = "of the line's operating total 2, pricing total 4 (1 of it excess) and effective actual 3.7 (0.7 of it excess), this step has O = 1, E = 1 and A = 1.";
    assert!(text.contains(words), "{words}\n{text}");
    let text = told(&[], &stored("examples/k10.day"));
    assert!(
        !text.contains("excess") && !text.contains("greatest break"),
        "{text}"
    );
}

/// Without --line the excess of a line that nothing is paid for is told beside that: here of line 2 and not of line 1, which has none.
#[test]
fn excess_of_unpaid_lines() {
    let text = example_text();
    let (_, line) = text.split_at(text.find("[line]").unwrap());
    let unpaid = line.replace("accredited  = yes", "accredited = no");
    let above = unpaid.replace("operating 2..3 = 1000 1000", "operating 2..3 = 1000 2500");
    let [first, second] =
        [(unpaid, "= 8"), (above, "= 9")].map(|(line, key)| line.replace("= 7", key));
    let day = run(&["make"], format!("{text}\n{first}\n{second}").as_bytes()).output();
    let words = "the operating total (by 0.5 in schedule 2 and 0.5 in schedule 3) is above the greatest break of the line's bids, 3: \
                 no step takes this excess, and it is neither constrained on nor paid.";
    let told_in = |arguments: &[&str], lines: &str, next: &str| {
        let text = told(arguments, &day);
        let words = format!("{lines}: nothing is paid (--line says why). In line 2 {words}{next}");
        assert!(text.contains(&words), "{words}\n{text}");
        assert_eq!(text.matches("excess").count(), 1, "{text}");
        text
    };
    told_in(&[], "Lines 1 and 2", " Totals of all lines");
    // Nothing at all is paid in schedule 1, and the line's whole excess is told.
    let text = told_in(&["--schedule", "1"], "Lines 0 to 2", "");
    assert!(text.ends_with(words), "{text}");
    let text = told(&["--line", "2"], &day);
    assert!(
        !text.contains("In line") && text.contains("2 steps. The operating total (by 0.5 in"),
        "{text}"
    );
}

/// Each row has the excess of its schedule.
#[test]
fn excess_in_tables() {
    let day = k10_each_excess();
    let table = run(&["explain", "--csv"], &day).text();
    let ends: Vec<String> = table
        .lines()
        .map(|row| {
            row.rsplitn(5, ',')
                .skip(1)
                .take(3)
                .collect::<Vec<_>>()
                .join(" ")
        })
        .collect();
    let heading = "actual_excess pricing_excess operating_excess";
    let rows = ["700 0 0", "700 1 0", "700 1000 0", "700 0 0", "700 0 900"];
    assert_eq!(ends[0], heading);
    assert_eq!(ends[1..], [rows, rows].concat());
    let json = run(&["explain", "--json", "--step", "1", "--line", "0"], &day).output();
    let json: serde_json::Value = serde_json::from_slice(&json).unwrap();
    let names = ["actual_excess", "pricing_excess", "operating_excess"];
    for (payment, row) in json["payments"].as_array().unwrap().iter().zip(rows) {
        let own = names.map(|name| payment[name].to_string()).join(" ");
        assert_eq!(own, row);
    }
}

/// The cap comes after the price taken over, and the payment is the modified one where clawback is on.
#[test]
fn pulled_bid_capped() {
    let place = ["--line", "0", "--step", "1", "--schedule", "4"];
    for (cap, words) in [
        (
            40_000,
            "; the cap lowers it to $4.0000. The market price is $3.0000, so the rate is $4.0000 - $3.0000 = $1.0000.",
        ),
        (60_000, "; the cap of $6.0000 doesn't change it. The market price is $3.0000, so the rate is $5.0000"),
    ] {
        let mut day = k10_pulled(&[4]);
        put_word(&mut day, 12, 1);
        put_word(&mut day, 14, cap);
        put_word(&mut day, 15, 1);
        let text = told(&place, &day);
        let words = format!("schedule 3, $5.0000, stands and is marked as missing{words}");
        assert!(text.contains(&words), "{words}\n{text}");
        let words = "charged the rate of the schedule that it rose in. That is -(0.5 x $2.0000) = -$1.00. Final payment: clawback is on and the price is marked as \
                     missing, so it is the modified payment: -$1.00.";
        assert!(text.ends_with(words), "{words}\n{text}");
    }
}

#[test]
fn accreditation_of_a_line() {
    let cases = [
        (0, "not accredited"),
        (1, "accredited"),
        (32, "accredited in no schedule"),
        (36, "accredited in schedule 3"),
        (35, "accredited in schedules 1 and 2"),
        (53, "accredited in schedules 1, 3 and 5"),
        (61, "accredited in schedules 1 and 3 to 5"),
        (63, "accredited in schedules 1 to 5"),
    ];
    for (word, words) in cases {
        let text = told(&["--line", "0"], &k10_accredited(word));
        let line =
            format!("Line 0: participant 7, point 3, injection, {words}, no hedge, 2 steps.");
        assert!(text.contains(&line), "{line}\n{text}");
    }
}

/// K10's step 1 rises in schedule 2 and falls in schedule 4. Accredited in all but the second, it is paid nothing for the rise, and the fall is charged.
#[test]
fn accreditation_by_schedule() {
    let day = k10_accredited(61);
    let text = told(&[], &day);
    for words in [
        "Over the five schedules it is charged $1.00: $0.00 + $0.00 + $0.00 - $1.00 + $0.00 = -$1.00.",
        "Schedule 2: the line is paid nothing. Steps 0 and 1: the line isn't accredited in schedule 2, so no step of it is paid.",
        "Schedule 4: the line is charged $1.00.",
        "Initial payment: the line is accredited in schedule 4 and the step isn't hedged, so it is the change times the rate: -0.5 x $2.0000 = -$1.00. \
         The line isn't accredited in schedule 2, so the rise there wasn't paid; the fall is charged all the same.",
        "Schedule 5: the line is paid nothing. Steps 0 and 1: the quantity constrained on doesn't change, so there is nothing to pay.",
    ] {
        assert!(text.contains(words), "{words}\n{text}");
    }
    let step = told(&["--line", "0", "--step", "1", "--schedule", "2"], &day);
    let words = "Step 1, from 1 to 3, is paid nothing in schedule 2.";
    assert!(step.contains(words), "{step}");
    let words =
        "so it rises by 1. Payment: the line isn't accredited in schedule 2, so nothing is paid.";
    assert!(step.ends_with(words), "{step}");
    // The other way round: the rise is paid, and nothing is charged.
    let text = told(&[], &k10_accredited(34));
    for words in [
        "Over the five schedules it is paid $2.00: $0.00 + $2.00 + $0.00 + $0.00 + $0.00 = $2.00.",
        "Initial payment: the line is accredited in schedule 2 and the step isn't hedged, so it is the change times the rate: 1 x $2.0000 = $2.00. Final",
        "Schedule 4: the line is paid nothing. Steps 0 and 1: the line isn't accredited in schedule 4, so no step of it is paid.",
    ] {
        assert!(text.contains(words), "{words}\n{text}");
    }
    let table = run(&["explain", "--csv", "--units"], &day).text();
    let place = |name| {
        table
            .split(['\n', ','])
            .position(|own| own == name)
            .unwrap()
    };
    let rules: Vec<&str> = table
        .lines()
        .skip(6)
        .map(|row| row.split(',').nth(place("rule")).unwrap())
        .collect();
    let off = "initial: clawback off";
    assert_eq!(
        rules,
        ["initial: schedule 1", "not accredited", off, off, off]
    );
}

/// A fall names all its matched rises in schedules in which the line isn't accredited, and it is said of no other fall, nor where the
/// initial payment is below 0 and the final one is 0.
#[test]
fn falls_with_unpaid_rises() {
    let mut counts = [0; 4];
    let final_of_0 = small_set_day(11);
    for day in days().step_by(3).take(60).chain([final_of_0]) {
        let figures = Figures::new(&day).unwrap();
        let explained = Explained::new(&figures).unwrap();
        for reason in explained.reasons.iter().filter(|reason| reason.fall > 0) {
            let word = word(&day[64 + 660 * reason.line..], 3);
            let accredited = accredited_schedules(word);
            let rises = reason.matches.iter().rev().map(|one| one.rise + 1);
            let unpaid = rises.filter(|rise| !accredited.contains(rise));
            let unpaid: Vec<String> = unpaid.map(|rise| rise.to_string()).collect();
            let kind = match (reason.view.initial[reason.s] < 0, reason.paid < 0) {
                (_, true) => unpaid.len().min(2),
                (true, false) if !unpaid.is_empty() => 3,
                _ => 0,
            };
            counts[kind] += 1;
            if counts[kind] > 8 {
                continue;
            }
            let [line, step, schedule] =
                [reason.line, reason.step, reason.s + 1].map(|n| n.to_string());
            let text = told(
                &["--line", &line, "--step", &step, "--schedule", &schedule],
                &day,
            );
            let words = match kind {
                0 | 3 => {
                    assert!(!text.contains("is charged all the same"), "{text}");
                    continue;
                }
                1 => format!(
                    "in schedule {}, so the rise there wasn't paid; the fall is",
                    unpaid[0]
                ),
                2 if unpaid.len() == 2 => format!(
                    "in schedules {} and {}, so the rises there weren't paid; the fall is",
                    unpaid[0], unpaid[1]
                ),
                _ => format!("in schedules {}", unpaid[0]),
            };
            assert!(
                text.contains(&format!(". The line isn't accredited {words}")),
                "{words}\n{text}"
            );
        }
    }
    assert!(counts.iter().all(|&count| count > 0), "{counts:?}");
}

/// A charge for a rise that wasn't paid isn't said to be paid back; one whose final payment is 0 isn't said to be charged.
#[test]
fn charges_for_unpaid_rises() {
    let text = told(&["--line", "3"], &stored("examples/accreditation.day"));
    for words in [
        "Over the five schedules it is charged $200.00: ",
        "Schedule 2: the line is charged $200.00. Step 0, from 0 to 100, is charged $200.00 in schedule 2.",
        "so the rise there wasn't paid; the fall is charged all the same.",
    ] {
        assert!(text.contains(words), "{words}\n{text}");
    }
    let place = ["--line", "0", "--step", "3", "--schedule", "4"];
    let text = told(&place, &small_set_day(11));
    assert!(text.contains(" is paid nothing in schedule 4."), "{text}");
    assert!(
        text.contains(" Initial payment: ") && text.contains(" = -$"),
        "{text}"
    );
    assert!(!text.contains("charged all the same"), "{text}");
}

/// The worked day of docs/RULES.md, with line 12 once more as participant 14, accredited in all schedules but the fourth: its rise of 90 in schedule 4 isn't
/// paid and isn't in B, so line 11's share is what it was. In schedule 5 its rise of 10 is paid $5.
#[test]
fn pool_of_a_set() {
    let mut day = stored("examples/rules.day");
    day.extend_from_within(64 + 660..64 + 2 * 660);
    put_word(&mut day, 0, 4);
    put_word(&mut day, 3, 64 + 4 * 660);
    put_word(&mut day[64 + 3 * 660..], 0, 14);
    put_word(&mut day[64 + 3 * 660..], 3, 32 + 0b10111);
    let share = told(&["--line", "0", "--schedule", "4"], &day);
    let words = "The steps of all injections that are paid in schedule 4 rise there by 90 and fall by 70; the greater is B = 90.";
    assert!(share.contains(words), "{share}");
    assert!(share.contains("so it stands: -$128.3333333."), "{share}");
    let payments = |k: usize| Figures::new(&day).unwrap().lines[k].entry.payments;
    assert_eq!(payments(0), [0, 2_900_000_000, 0, -1_283_333_333, 0]);
    assert_eq!(payments(3), [0, 0, 0, 0, 50_000_000]);
}

/// One step in one schedule is explained also where nothing is paid.
#[test]
fn unpaid_step() {
    let text = run(
        &["explain", "--line", "0", "--step", "0", "--schedule", "3"],
        &stored("examples/k10.day"),
    )
    .text();
    assert!(
        text.contains("Step 0, from 0 to 1, is paid nothing in schedule 3."),
        "{text}"
    );
    assert!(text.contains("0 x $0.0000 = $0.00"), "{text}");
}

/// The tables' rows have each payment once; over a line's steps they add up to the book's payment.
#[test]
fn tables() {
    for (name, lines) in [("both-sides", 6), ("withdrawals", 4)] {
        let day = stored(&format!("examples/{name}.day"));
        let table = run(&["explain", "--csv", "--units"], &day).output();
        let mut reader = csv::Reader::from_reader(&table[..]);
        let names = reader.headers().unwrap().clone();
        let place = |name: &str| names.iter().position(|other| other == name).unwrap();
        let [line, schedule, paid] = ["line", "schedule", "final_units"].map(place);
        let mut sums = vec![[0_i64; 5]; lines];
        for row in reader.records().map(Result::unwrap) {
            let number = |place: usize| row[place].parse::<i64>().unwrap();
            sums[number(line) as usize][number(schedule) as usize - 1] += number(paid);
        }
        let report = String::from_utf8(stored(&format!("examples/{name}.report"))).unwrap();
        for (row, sums) in report.lines().skip(1).zip(&sums) {
            let payments = sums.map(|sum| sum.to_string()).join(" ");
            assert!(row.ends_with(&format!(" {payments}")), "{row}: {payments}");
        }
        let json = run(&["explain", "--json", "--line", "1"], &day).output();
        let json: serde_json::Value = serde_json::from_slice(&json).unwrap();
        let payments = json["payments"].as_array().unwrap();
        let sum: i64 = payments
            .iter()
            .map(|one| one["final"].as_i64().unwrap())
            .sum();
        assert_eq!(sum, sums[1].iter().sum::<i64>());
    }
}
