//! The binding beside document 01, docs/REFUSALS.md and include/mewikofu.h.

use mewikofu::{
    ad_hoc_records, cut, line_part, line_views, match_place, raw, settle, uplift, view,
    with_ad_hoc, Accreditation, AdHoc, Cut, Excess, Refusal, Side, View, AD_HOC_BYTES, MOST_AD_HOC,
    MOST_EXCESS,
};
use std::mem::offset_of;

const K10: &[u8] = include_bytes!("../../../examples/k10.day");
const REFUSED: &[u8] = include_bytes!("../../../examples/refused.day");
const TABLE_1: &[u8] = include_bytes!("../../../crates/cut/stdin");
const HEADER: &str = include_str!("../../../include/mewikofu.h");
const TABLE: &str = include_str!("../../../docs/REFUSALS.md");

#[test]
fn k10() {
    let book = settle(K10).unwrap();
    assert_eq!(book.line_count(), 1);
    assert_eq!(book.totals(), [0, 20_000_000, 0, -10_000_000, 0]);
    assert_eq!(book.adjusted(), [0, 10_000_000, 0, 0, 0]);
    let line = book.lines().next().unwrap();
    assert_eq!(
        (line.participant, line.point, line.side, line.steps),
        (7, 3, Side::Injection, 2)
    );
    assert_eq!(line.payments, [0, 20_000_000, 0, -10_000_000, 0]);
    let step = view(K10, 0, 1).unwrap();
    assert_eq!(step.constrained, [0, 1000, 1000, 500, 500]);
    let [first, second] = &line_views(K10, 0).unwrap()[..] else {
        panic!("K10's line has two steps");
    };
    assert_eq!((first.end, first.finals), (1000, [0; 5]));
    assert_eq!((second, second.finals), (&step, line.payments));
    assert_eq!(step.matches[match_place(1, 3)], 500);
    assert_eq!([0, 1, 2].map(|r| step.matched(r, 3)), [0, 500, 0]);
    assert_eq!(line_part(K10, 0).map(<[u8]>::len), Ok(660));
}

/// Worked out by hand. K10 has the group 2, with 10,000,000 of 20,000,000, and the group 4, with none of -10,000,000.
///
/// F-5-1 has the group 1 to 4, 70 of 26 + 14 + 4 + 30 = 74: 26 x 70 / 74 = 24.59, 13.24, 3.78 and 28.37 are 68 when rounded down, and the 2 left
/// over go to the first two. F-5-2 has the group 2 and 3, -4 of -8 - 16: 1.33 and 2.66 are 3, and the one left over goes to schedule 2; the groups
/// 1, 4 and 5 have 0 of 20, 0 of 6 and -4 of -10.
#[test]
fn uplift_by_schedule() {
    const GROUP_OF_FOUR: &[u8] = include_bytes!("../../../reference/tests/worked/F-5-1.day");
    const BELOW_ZERO: &[u8] = include_bytes!("../../../reference/tests/worked/F-5-2.day");
    for (day, totals, adjusted, shares) in [
        (
            K10,
            [0, 20_000_000, 0, -10_000_000, 0],
            [0, 10_000_000, 0, 0, 0],
            [0, 10_000_000, 0, 0, 0],
        ),
        (
            GROUP_OF_FOUR,
            [26, 14, 4, 30, -4],
            [26, 14, 4, 26, 0],
            [25, 14, 3, 28, 0],
        ),
        (
            BELOW_ZERO,
            [20, -8, -16, 6, -10],
            [0, 0, -4, 0, -4],
            [0, -2, -2, 0, -4],
        ),
    ] {
        let book = settle(day).unwrap();
        assert_eq!((book.totals(), book.adjusted()), (totals, adjusted));
        assert_eq!(uplift(day), Ok(shares));
        let mut written = [i64::MIN; 5];
        assert_eq!((raw::uplift(day, &mut written), written), (0, shares));
    }
}

/// Settling's numbers, and zeros in all five places.
#[test]
fn refused_uplift() {
    let twice = [K10, &K10[64..]].concat();
    let [lines, length] = [2_u32, 1384].map(u32::to_le_bytes);
    let equal = [&lines[..], &twice[4..12], &length, &twice[16..]].concat();
    for (day, refusal) in [
        (&[][..], Refusal::FileShort),
        (&K10[..723], Refusal::Layout),
        (REFUSED, Refusal::Prices),
        (&equal, Refusal::EqualKeys),
    ] {
        assert_eq!(uplift(day), Err(refusal));
        let mut written = [i64::MIN; 5];
        let number = raw::uplift(day, &mut written);
        assert_eq!((number, written), (refusal.number(), [0; 5]));
    }
}

#[test]
fn k1_and_k2() {
    let steps = cut(TABLE_1).unwrap();
    assert_eq!(
        steps.ends(),
        [15, 16, 17, 30, 32, 34, 37, 45, 48, 51, 60, 64, 68, 75]
    );
    assert_eq!((steps.prices[1][11], steps.flag(1, 11)), (36_000, false));
    assert_eq!((steps.prices[1][12], steps.flag(1, 12)), (36_000, true));
}

#[test]
fn a_refused_day() {
    let refusal = settle(REFUSED).unwrap_err();
    assert_eq!(refusal, Refusal::Prices);
    assert_eq!(view(REFUSED, 0, 0), Err(Refusal::Prices));
    assert_eq!(line_views(REFUSED, 0), Err(Refusal::Prices));
    let text = refusal.to_string();
    assert!(
        text.starts_with("refused 9: a bid's price is above 10,000,000"),
        "{text}"
    );
    assert!(
        text.ends_with("(document 01, \"Where each refusal is checked\", each line)"),
        "{text}"
    );
}

/// Answers with a number and 0 in all other fields.
fn numbered_view(number: u32) -> raw::View {
    raw::View {
        number,
        ..raw::View::default()
    }
}

fn numbered_cut(number: u32) -> raw::Cut {
    raw::Cut {
        flags: [0; 5],
        number,
        count: 0,
        missing: [0; 5],
        ends: [0; 56],
        prices: [[0; 56]; 5],
        reserved: 0,
    }
}

/// Of a refused answer no figures are made.
#[test]
fn refused_answers() {
    for refusal in Refusal::ALL {
        let number = refusal.number();
        assert_eq!(View::try_from(numbered_view(number)), Err(refusal));
        assert_eq!(Cut::try_from(numbered_cut(number)), Err(refusal));
    }
    assert_eq!(View::try_from(numbered_view(0)), Ok(View::default()));
    assert_eq!(Cut::try_from(numbered_cut(0)), Ok(Cut::default()));
    assert_eq!(view(&[], 0, 0), Err(Refusal::FileShort));
    assert_eq!(line_views(&[], 0), Err(Refusal::FileShort));
    assert_eq!(cut(&[]), Err(Refusal::LineLength));
}

/// K10's day with an accreditation word, where the header has it.
fn k10_accredited(word: u32) -> Vec<u8> {
    assert!(HEADER.contains("\n#define MEWIKOFU_ACCREDITATION 12 /* within a line */\n"));
    let at = 64 + 12;
    [&K10[..at], &word.to_le_bytes(), &K10[at + 4..]].concat()
}

/// Every word up to 70 and larger ones: which are proper, and what they say, beside the archive's refusals and payments.
#[test]
fn accreditation() {
    let payments = settle(K10).unwrap().totals();
    let large = (6..32).map(|bit| (1 << bit) + 33);
    for word in (0..=70).chain(large).chain([u32::MAX]) {
        let day = k10_accredited(word);
        let Some(accreditation) = Accreditation::of_word(word) else {
            assert!(!matches!(word, 0 | 1 | 32..=63), "{word}");
            assert_eq!(settle(&day), Err(Refusal::SideOrAccreditation), "{word}");
            continue;
        };
        assert_eq!(accreditation.word(), word);
        // Clawback is off, so a schedule's payment is the line's own or 0.
        let due = |s| payments[s] * i64::from(accreditation.holds_in(s));
        assert_eq!(
            settle(&day).unwrap().totals(),
            [0, 1, 2, 3, 4].map(due),
            "{word}"
        );
    }
    let but_the_second = Accreditation::In([true, false, true, true, true]);
    assert_eq!(
        (but_the_second.word(), Accreditation::of_word(61)),
        (61, Some(but_the_second))
    );
    let held = |word| [0, 1, 2, 3, 4].map(|s| Accreditation::of_word(word).unwrap().holds_in(s));
    assert_eq!((held(0), held(32)), ([false; 5], [false; 5]));
    assert_eq!((held(1), held(63)), ([true; 5], [true; 5]));
    assert_eq!(held(36), [false, false, true, false, false]);
}

#[test]
#[should_panic(expected = "s is a schedule counted from 0")]
fn accreditation_in_a_sixth_schedule() {
    Accreditation::Yes.holds_in(5);
}

/// K10's day with the bids of these schedules, counted from 0, pulled: their count and slots are 0.
fn k10_pulled(schedules: &[usize]) -> Vec<u8> {
    let mut day = K10.to_vec();
    for s in schedules {
        let bid = 64 + 20 + 92 * s;
        day[bid..bid + 92].fill(0);
    }
    day
}

/// Each set of the last four schedules. K10's bids end with a price of 50,000, which every step takes where the bid was pulled.
#[test]
fn pulled_bids() {
    for set in 0..16_usize {
        let pulled: Vec<usize> = (1..5).filter(|s| set >> (s - 1) & 1 == 1).collect();
        let day = k10_pulled(&pulled);
        let steps = cut(line_part(&day, 0).unwrap()).unwrap();
        let step = view(&day, 0, 0).unwrap();
        for s in 0..5 {
            let is_pulled = pulled.contains(&s);
            assert_eq!(steps.is_pulled(s), is_pulled, "{pulled:?}");
            let (first, flags, flag) = match is_pulled {
                true => (50_000, 0b11_u64, 1),
                false => (20_000, 0, 0),
            };
            assert_eq!(steps.prices[s][..2], [first, 50_000]);
            let missing = flags.count_ones();
            assert_eq!((steps.flags[s], steps.missing[s]), (flags, missing));
            assert_eq!((step.price[s], step.flag[s]), (first, flag));
        }
        // Step 0 is in the market all day, and step 1 has the same price as without pulled bids.
        assert_eq!(settle(&day), settle(K10), "{pulled:?}");
        let first = k10_pulled(&[&[0], &pulled[..]].concat());
        assert_eq!(settle(&first), Err(Refusal::BidCount));
    }
    for s in 1..5 {
        for place in 1..23 {
            let mut day = k10_pulled(&[1, 2, 3, 4]);
            day[64 + 20 + 92 * s + 4 * place] = 1;
            assert_eq!(settle(&day), Err(Refusal::UnusedSlot));
        }
    }
}

/// A bid that ends before the line does isn't pulled.
#[test]
fn short_bid() {
    let mut day = K10.to_vec();
    let bid = 64 + 20 + 92 * 3;
    day[bid] = 1;
    for slot in [8, 52] {
        day[bid + slot..bid + slot + 4].fill(0);
    }
    let steps = cut(line_part(&day, 0).unwrap()).unwrap();
    assert_eq!((steps.flags[3], steps.is_pulled(3)), (0b10, false));
}

/// Places of a line's words: row and interval count from 0; pricing row r has the intervals from r on.
fn pricing(row: usize, interval: usize) -> usize {
    120 + [0, 5, 9, 12, 14][row] + interval - row
}

fn operating(row: usize, interval: usize) -> usize {
    135 + 5 * row + interval
}

fn actual(interval: usize) -> usize {
    160 + interval
}

/// K10's day with these words of its line put.
fn k10_with(words: &[(usize, u32)]) -> Vec<u8> {
    let mut day = K10.to_vec();
    for (place, word) in words {
        day[64 + 4 * place..][..4].copy_from_slice(&word.to_le_bytes());
    }
    day
}

/// The excess in the views of both steps, which is the line's.
fn excess(day: &[u8]) -> Excess {
    let [first, second] = [0, 1].map(|step| view(day, 0, step).unwrap().excess);
    assert_eq!(first, second);
    first
}

/// The day is refused with 12 by settling, view and cutter, whose other fields are 0.
fn assert_totals_refused(day: &[u8]) {
    assert_eq!(settle(day), Err(Refusal::Totals));
    assert_eq!(view(day, 0, 0), Err(Refusal::Totals));
    assert_eq!(raw::view(day, 0, 0), numbered_view(12));
    assert_eq!(raw::cut(&day[64..]), numbered_cut(12));
}

/// K10's M is 3,000. The excess of one schedule's total alone: operating row s, and pricing row s in interval 5, which for s below 5 no other total has.
/// Whatever it is, the book is that of a total of 3,000.
#[test]
fn excess_of_one_total() {
    for s in 0..5 {
        let whole = |total| {
            let others = (1..5).map(|i| (operating(s, i), 0));
            k10_with(&others.chain([(operating(s, 0), total)]).collect::<Vec<_>>())
        };
        // Pricing row 1 begins with 1,000, which all totals have.
        let priced = |total: u32| k10_with(&[(pricing(s, 4), total - 1_000)]);
        for over in [0, 1, 999, MOST_EXCESS] {
            let (mut of_operating, mut of_pricing) = (Excess::default(), Excess::default());
            (of_operating.operating[s], of_pricing.pricing[s]) = (over, over);
            let day = whole(3_000 + over);
            assert_eq!(excess(&day), of_operating);
            assert_eq!(settle(&day), settle(&whole(3_000)));
            let day = priced(3_000 + over);
            assert_eq!(excess(&day), of_pricing);
            assert_eq!(settle(&day), settle(&priced(3_000)));
        }
        for over in [MOST_EXCESS + 1, 1_000_000, u32::MAX - 3_000] {
            assert_totals_refused(&whole(3_000 + over));
            assert_totals_refused(&priced(3_000 + over));
        }
        // Sums that 32 bits would lose.
        assert_totals_refused(&k10_with(&[
            (operating(s, 0), u32::MAX),
            (operating(s, 1), 1),
        ]));
        assert_totals_refused(&k10_with(&[(pricing(s, 4), u32::MAX - 999)]));
    }
}

/// Operating row 2 is 3,500, by hand: on the step from 1,000 to 3,000 O(2) is 2,000, of which the rise of C is 2,000 at a rate of 20,000. It falls by
/// 1,000 in schedule 3 and by 500 in schedule 4.
#[test]
fn excess_is_not_paid() {
    let day = k10_with(&[(operating(1, 1), 2_500)]);
    let step = view(&day, 0, 1).unwrap();
    assert_eq!(step.operating, [0, 2_000, 1_000, 500, 500]);
    assert_eq!(step.constrained, step.operating);
    assert_eq!((step.matched(1, 2), step.matched(1, 3)), (1_000, 500));
    assert_eq!(step.excess.operating, [0, 500, 0, 0, 0]);
    let book = settle(&day).unwrap();
    assert_eq!(book.totals(), [0, 40_000_000, -20_000_000, -10_000_000, 0]);
    assert_eq!(book.adjusted(), [0, 10_000_000, 0, 0, 0]);
}

/// The effective actual is the sum of the lesser of operating row 5 and the actual: 2,000 + 1,700 here, 700 above M.
#[test]
fn excess_of_the_effective_actual() {
    let day = k10_with(&[
        (operating(4, 0), 2_000),
        (operating(4, 1), 1_900),
        (actual(0), 200_000_000),
        (actual(1), 1_700),
    ]);
    let due = Excess {
        operating: [0, 0, 0, 0, 900],
        pricing: [0; 5],
        actual: 700,
    };
    assert_eq!(excess(&day), due);
    let steps = [0, 1].map(|step| view(&day, 0, step).unwrap());
    assert_eq!(steps.map(|step| step.actual), [1_000, 2_000]);
}

/// With the greatest break at the quantity limit a single entry may be 1,000 above it.
#[test]
fn entries_above_the_quantity_limit() {
    let most = 200_000_000;
    let breaks: Vec<(usize, u32)> = (0..5).map(|s| (5 + 23 * s + 2, most)).collect();
    let with = |words: &[(usize, u32)]| k10_with(&[&breaks, words].concat());
    // Pricing row 1's first entry, 1,000, is in every total.
    let [operated, priced] = [(operating(2, 0), most), (pricing(1, 4), most - 1_000)];
    let at = |(place, word): (usize, u32), over| (place, word + over);
    let day = with(&[at(operated, 1_000), (operating(2, 1), 0), at(priced, 1_000)]);
    let due = Excess {
        operating: [0, 0, 1_000, 0, 0],
        pricing: [0, 1_000, 0, 0, 0],
        actual: 0,
    };
    assert_eq!(excess(&day), due);
    assert_totals_refused(&with(&[at(operated, 1_001), (operating(2, 1), 0)]));
    assert_totals_refused(&with(&[at(priced, 1_001)]));
}

/// The record of K10's line for a schedule, from 0, with an order number and a total.
fn ad_hoc(schedule: usize, order: u32, total: u32) -> AdHoc {
    AdHoc {
        line: 0,
        schedule,
        order,
        quantities: [total / 2, total - total / 2, 0, 0, 0],
    }
}

/// The row with the highest order number stands for the line's own, which is then not looked at: the book and the views are those of the file with
/// the row written in.
#[test]
fn ad_hoc_rows() {
    for s in 0..5 {
        for total in [0, 1_700, 4_000] {
            let row = ad_hoc(s, u32::MAX, total);
            let other = ad_hoc(s, 1 << 31, 9_000);
            let words: Vec<_> = (0..5)
                .map(|i| (operating(s, i), row.quantities[i]))
                .collect();
            let written = k10_with(&words);
            let wrong_own = k10_with(&[(operating(s, 0), u32::MAX)]);
            for records in [&[row][..], &[row, other], &[other, row]] {
                let day = with_ad_hoc(&wrong_own, records).unwrap();
                assert_eq!(settle(&day), settle(&written));
                for step in [0, 1] {
                    assert_eq!(view(&day, 0, step), view(&written, 0, step));
                }
                assert_eq!(ad_hoc_records(&day).unwrap(), records);
                let part = line_part(&day, 0).unwrap();
                assert_eq!(part, &wrong_own[64..]);
                assert_eq!(cut(part), Err(Refusal::Totals));
            }
        }
        let day = with_ad_hoc(K10, &[ad_hoc(s, 0, 4_001)]).unwrap();
        assert_eq!(settle(&day), Err(Refusal::Totals));
    }
}

/// Records are read and written; files in the layout without them and with none are read too.
#[test]
fn ad_hoc_layout() {
    assert_eq!(ad_hoc_records(K10), Ok(Vec::new()));
    let none = with_ad_hoc(K10, &[]).unwrap();
    let word = |day: &[u8], place| u32::from_le_bytes(day[4 * place..][..4].try_into().unwrap());
    let header = |day: &[u8]| -> [u32; 6] { std::array::from_fn(|place| word(day, place)) };
    assert_eq!(header(&none), [1, 24, 72, 732, 0, 732]);
    assert_eq!((&none[24..], none.len()), (&K10[16..], 732));
    assert_eq!(settle(&none), settle(K10));
    assert_eq!(ad_hoc_records(&none), Ok(Vec::new()));
    let one = with_ad_hoc(&none, &[ad_hoc(1, 7, 2_500)]).unwrap();
    let two = with_ad_hoc(&one, &[ad_hoc(2, 7, 2_500)]).unwrap();
    assert_eq!(header(&two), [1, 24, 72, 796, 2, 732]);
    assert_eq!(two[..732][24..], one[..732][24..]);
    assert_eq!(ad_hoc_records(&two).unwrap().len(), 2);
    assert_eq!(
        with_ad_hoc(REFUSED, &[]).map(|day| settle(&day)),
        Ok(Err(Refusal::Prices))
    );
    assert_eq!(with_ad_hoc(&K10[..723], &[]), Err(Refusal::Layout));
}

/// Refusals 19, 20 and 21.
#[test]
fn refused_ad_hoc_records() {
    let most: Vec<AdHoc> = (0..64).map(|order| ad_hoc(1, order, 2_000)).collect();
    let day = with_ad_hoc(K10, &most).unwrap();
    assert!(settle(&day).is_ok());
    let day = with_ad_hoc(&day, &most[..1]).unwrap();
    assert_eq!(settle(&day), Err(Refusal::AdHocCount));
    assert_eq!(view(&day, 0, 0), Err(Refusal::AdHocCount));
    assert_eq!(line_views(&day, 0), Err(Refusal::AdHocCount));
    assert_eq!(line_part(&day, 0), Err(Refusal::AdHocCount));
    assert_eq!(ad_hoc_records(&day), Err(Refusal::AdHocCount));
    let twice = with_ad_hoc(K10, &[most[3], most[4], most[3]]).unwrap();
    assert_eq!(settle(&twice), Err(Refusal::EqualAdHoc));
    assert_eq!(ad_hoc_records(&twice).unwrap().len(), 3);
    // The record's line stands at byte 732, its schedule at byte 736.
    let one = with_ad_hoc(K10, &most[..1]).unwrap();
    assert!(settle(&one).is_ok());
    for (place, value) in [(732, 1), (735, 1), (736, 0), (736, 6), (739, 1)] {
        let mut day = one.clone();
        day[place] = value;
        assert_eq!(settle(&day), Err(Refusal::AdHocLineOrSchedule));
        assert_eq!(ad_hoc_records(&day), Err(Refusal::AdHocLineOrSchedule));
    }
    let bytes = [&[0; 4][..], &[9, 0, 0, 0], &[0; 24]].concat();
    assert_eq!(AdHoc::of_bytes(&bytes.try_into().unwrap()), None);
}

/// The header's constants of ad hoc records.
#[test]
fn ad_hoc_constants() {
    for (name, value) in [
        ("MOST_AD_HOC", MOST_AD_HOC),
        ("AD_HOC_BYTES", AD_HOC_BYTES),
        ("AD_HOC_MARKET_AT", 24),
        ("AD_HOC_LINES_AT", 72),
    ] {
        let defined = format!("\n#define MEWIKOFU_{name} {value}\n");
        assert!(HEADER.contains(&defined), "{defined}");
    }
}

/// Name and place of each field of a struct of the header, by the sizes that it declares.
fn declared_fields(name: &str) -> Vec<(&'static str, usize)> {
    let start = format!("\nstruct {name} {{\n");
    let body = HEADER.split_once(&start).unwrap().1;
    let body = body.split_once("\n};").unwrap().0;
    let mut place = 0;
    let field = |line: &'static str| {
        let (declared, _) = line.trim().split_once(';').unwrap();
        let (kind, declared) = declared.rsplit_once(' ').unwrap();
        let mut parts = declared.split('[');
        let own = (parts.next().unwrap(), place);
        let count: usize = parts
            .map(|part| match part.trim_end_matches(']') {
                "MEWIKOFU_SCHEDULES" => 5,
                "MEWIKOFU_MOST_STEPS" => 56,
                "MEWIKOFU_MATCHES" => 10,
                other => panic!("{other}"),
            })
            .product();
        place += count
            * match kind {
                "uint32_t" => 4,
                "int64_t" | "uint64_t" => 8,
                "struct mewikofu_excess" => 4 * 11,
                other => panic!("{other}"),
            };
        own
    };
    body.lines().map(field).collect()
}

/// The answers have the header's fields, each at its place.
#[test]
fn structs_are_the_headers() {
    macro_rules! places {
        ($kind:ty: $($field:ident)*) => { vec![$((stringify!($field), offset_of!($kind, $field))),*] };
    }
    let excess = places!(Excess: operating pricing actual);
    assert_eq!(excess, declared_fields("mewikofu_excess"));
    let view = places!(raw::View: initial revised modified finals number end width actual price flag operating pricing agino msiq constrained matches
        excess);
    assert_eq!(view, declared_fields("mewikofu_view"));
    let cut = places!(raw::Cut: flags number count missing ends prices reserved);
    assert_eq!(cut, declared_fields("mewikofu_cut"));
    let most = format!("\n#define MEWIKOFU_MOST_EXCESS {MOST_EXCESS}\n");
    assert!(HEADER.contains(&most));
}

/// One version: the file VERSION, this crate's and the header's.
#[test]
fn version() {
    let version = include_str!("../../../VERSION").trim();
    assert_eq!(mewikofu::VERSION, version);
    let defined = format!("\n#define MEWIKOFU_VERSION \"{version}\"\n");
    assert!(HEADER.contains(&defined), "{defined}");
}

/// Number, name, place and words of each row of the table of refusals.
fn rows() -> Vec<[&'static str; 4]> {
    let row = |line: &'static str| {
        let cells: Vec<&str> = line.split('|').map(str::trim).collect();
        match cells[..] {
            ["", number, name, place, _, words, ""] if number.parse::<u32>().is_ok() => {
                Some([number, name.trim_matches('`'), place, words])
            }
            _ => None,
        }
    };
    TABLE.lines().filter_map(row).collect()
}

/// The row FILE_SHORT is FileShort, and MEWIKOFU_FILE_SHORT in the header; so for every row.
#[test]
fn refusals_are_the_tables() {
    assert_eq!(rows().len(), Refusal::ALL.len());
    for ([number, name, place, words], refusal) in rows().into_iter().zip(Refusal::ALL) {
        assert_eq!(refusal.number().to_string(), number);
        assert_eq!(format!("{refusal:?}").to_uppercase(), name.replace('_', ""));
        assert_eq!((refusal.place(), refusal.words()), (place, words));
        assert_eq!(Refusal::of_number(refusal.number()), Some(refusal));
        let defined = format!("\n#define MEWIKOFU_{name} {number} ");
        assert!(HEADER.contains(&defined), "{defined}");
    }
    let next = Refusal::ALL.len() as u32 + 1;
    assert_eq!([0, next, u32::MAX].map(Refusal::of_number), [None; 3]);
}
