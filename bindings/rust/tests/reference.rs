//! The binding beside the reference implementation, on generated days without fault and damaged.
//! MEWIKOFU_DAYS in the environment is how many days, 20,000 where it isn't set.

use mewikofu::{
    book_bytes, cut, line_part, line_views, raw, settle, settle_into, uplift, view, Cut, Refusal,
    Side, View, MOST_STEPS,
};
use reference::generate::{
    ad_hoc_damaged_day, ad_hoc_day, ad_hoc_fault_day, damaged_day, excess_day, excess_fault_day,
    over_delivery_day, pulled_day, pulled_fault_day, set_day, set_fault_day, small_ad_hoc_day,
    uplift_day, uplift_fault_day, uplift_limit_days, uplift_row_days, valid_day,
};
use reference::layout::{signed, word, Day, LINE_BYTES, MOST_LINES};

/// Places beyond every line and step.
const HUGE: [usize; 4] = [1 << 32, (1 << 32) + 1, usize::MAX / 660, usize::MAX];

fn days() -> u64 {
    let wanted = std::env::var("MEWIKOFU_DAYS").ok();
    wanted.map_or(20_000, |wanted| wanted.parse().expect("a number of days"))
}

/// Seeds in a row; every second day is damaged, of twelve days two have accreditation by schedule, two pulled bids, two totals above the greatest
/// break, half of those that aren't damaged with more delivered than scheduled, two ad hoc records, and two groups of schedules for uplift. Boxed,
/// so that memcheck sees a read past the end.
fn day(k: u64) -> Box<[u8]> {
    const DRAWS: [fn(u64) -> Vec<u8>; 12] = [
        valid_day,
        damaged_day,
        set_day,
        set_fault_day,
        pulled_day,
        pulled_fault_day,
        |seed| match seed % 2 {
            0 => excess_day(seed),
            _ => over_delivery_day(seed),
        },
        excess_fault_day,
        |seed| match seed % 2 {
            0 => ad_hoc_day(seed),
            _ => small_ad_hoc_day(seed),
        },
        |seed| match seed % 2 {
            0 => ad_hoc_damaged_day(seed),
            _ => ad_hoc_fault_day(seed),
        },
        uplift_day,
        uplift_fault_day,
    ];
    DRAWS[k as usize % 12](k / 12).into()
}

/// Where line j of a day begins, by the layout that its market offset names.
fn line_at(day: &[u8], j: usize) -> usize {
    let first = match day.len() >= 8 && word(day, 1) != 16 {
        true => 72,
        false => 64,
    };
    first + LINE_BYTES * j
}

/// The lines of a proper header, else as many as the bytes have room for.
fn lines_of(day: &[u8]) -> usize {
    match reference::refusal::line_part_number(day, 0) {
        0 => word(day, 0) as usize,
        _ => day.len().saturating_sub(line_at(day, 0)) / LINE_BYTES,
    }
}

/// Some number below n, from the day's own number.
fn some(k: u64, salt: u64, n: usize) -> usize {
    let mixed = (k + 1)
        .wrapping_mul(0x9E37_79B9_7F4A_7C15)
        .rotate_left(salt as u32 % 64)
        ^ salt;
    (mixed.wrapping_mul(0xD6E8_FEB8_6659_FD93) >> 32) as usize % n.max(1)
}

fn refused<T>(number: u32) -> Result<T, Refusal> {
    Err(Refusal::of_number(number).expect("a number of the table"))
}

/// How often each number was answered, how many views had an excess of operating, pricing and actual, and how many were of a line with an ad hoc
/// row, and with a payment in its schedule; how many line views had one step, some and all places written, and how many had payments on several
/// steps; how many days had neighbouring shares above 0, below 0, and shares other than the adjusted totals. So the test shows what it reached.
#[derive(Debug, Default)]
struct Reached {
    numbers: [u64; Refusal::ALL.len() + 1],
    excess: [u64; 3],
    ad_hoc: [u64; 2],
    line_views: [u64; 4],
    uplift: [u64; 3],
}

#[test]
fn generated_days() {
    let mut reached = Reached::default();
    let count = days();
    for k in 0..count {
        let day = day(k);
        let before = day.clone();
        let lines = lines_of(&day);
        check_settling(k, &day, lines.min(MOST_LINES), &mut reached);
        check_uplift(k, &day, &mut reached);
        check_views(k, &day, lines, &mut reached);
        check_lines_views(k, &day, lines, &mut reached);
        check_parts(k, &day, lines, &mut reached);
        check_cuts(k, &day, lines, &mut reached);
        assert_eq!(day, before, "day {k} was changed");
    }
    println!("{count} days; answers of each number from 0 on, views and uplift: {reached:?}");
    // Of the numbers fuzzing asks whether the calls of their places answer them.
    if count >= 1_000 {
        let views = reached.excess.iter().chain(&reached.ad_hoc);
        let views = views.chain(&reached.line_views);
        let mut all = reached.numbers.iter().chain(views).chain(&reached.uplift);
        assert!(all.all(|&times| times > 0), "{reached:?}");
    }
}

/// A book just long enough, one byte too short, and longer by 1 to 64 bytes.
fn check_settling(k: u64, day: &[u8], lines: usize, reached: &mut Reached) {
    let least = book_bytes(lines);
    for room in [least, least - 1, least + 1 + some(k, 1, 64)] {
        let pattern: Vec<u8> = (0..room).map(|at| (at as u64 * 37 + k) as u8 | 1).collect();
        let mut expected = pattern.clone();
        let number = reference::settle::settle(day, &mut expected);
        let mut book = pattern.clone();
        let answer = settle_into(day, &mut book);
        reached.numbers[number as usize] += 1;
        match number {
            0 => assert_eq!(answer, Ok(()), "day {k} room {room}"),
            _ => assert_eq!(answer, refused(number), "day {k} room {room}"),
        }
        assert!(book == expected, "day {k} room {room}: books differ");
        let written = if number == 0 { least } else { 0 };
        assert_eq!(book[written..], pattern[written..], "day {k} room {room}");
    }
    check_book(k, day, lines);
}

/// The book's accessors.
fn check_book(k: u64, day: &[u8], lines: usize) {
    let mut expected = vec![0; book_bytes(MOST_LINES)];
    let number = reference::settle::settle(day, &mut expected);
    if number != 0 {
        return assert_eq!(settle(day), refused(number), "day {k}");
    }
    expected.truncate(book_bytes(lines));
    let book = settle(day).unwrap();
    assert!(book.as_bytes() == expected, "day {k}");
    assert_eq!((book.line_count(), book.lines().len()), (lines, lines));
    let five = |at, apart| std::array::from_fn(|s| signed(&expected, at + apart * s));
    assert_eq!(
        (book.totals(), book.adjusted()),
        (five(16, 16), five(24, 16))
    );
    for (j, line) in book.lines().enumerate() {
        let entry = 24 + 14 * j;
        let side = [Side::Injection, Side::Withdrawal][word(&expected, entry + 2) as usize];
        let key = [entry, entry + 1, entry + 3].map(|place| word(&expected, place));
        assert_eq!(
            [line.participant, line.point, line.steps],
            key,
            "day {k} line {j}"
        );
        assert_eq!((line.side, line.payments), (side, five(4 * entry + 16, 8)));
    }
}

/// Five places that hold something else before.
fn check_uplift(k: u64, day: &[u8], reached: &mut Reached) {
    let expected = reference::uplift::uplift(day);
    let (number, due) = (expected.number, expected.shares);
    reached.numbers[number as usize] += 1;
    let mut shares = [i64::MIN + k as i64; 5];
    assert_eq!(raw::uplift(day, &mut shares), number, "day {k}");
    assert_eq!(shares, due, "day {k}");
    if number != 0 {
        return assert_eq!(uplift(day), refused(number), "day {k}");
    }
    assert_eq!(uplift(day), Ok(due), "day {k}");
    let neighbours = |sign| {
        due.windows(2)
            .any(|two| two.iter().all(|t| t.signum() == sign))
    };
    let found = [
        neighbours(1),
        neighbours(-1),
        due != settle(day).unwrap().adjusted(),
    ];
    for (times, found) in reached.uplift.iter_mut().zip(found) {
        *times += u64::from(found);
    }
}

/// Totals that tell wrong readings apart, products around 2^64, and the greatest ones that a day can have.
#[test]
fn uplift_at_the_limits() {
    let mut reached = Reached::default();
    let days = uplift_row_days().into_iter().chain(uplift_limit_days());
    for (k, day) in days.enumerate() {
        check_uplift(k as u64, &day, &mut reached);
    }
    assert!(reached.uplift.iter().all(|&times| times > 5), "{reached:?}");
    assert_eq!(reached.numbers.iter().skip(1).sum::<u64>(), 0);
}

fn check_views(k: u64, day: &[u8], lines: usize, reached: &mut Reached) {
    let (line, last) = (some(k, 2, lines), lines.saturating_sub(1));
    // Steps don't depend on operating rows, of which those that aren't in force may be above any limit.
    let steps = |line| match day.get(line_at(day, line)..line_at(day, line + 1)) {
        Some(bytes) => {
            let bytes = [&bytes[..540], &[0; 100], &bytes[640..]].concat();
            reference::cut::cut(&bytes).count as usize
        }
        None => 0,
    };
    let huge = HUGE[some(k, 3, 4)];
    for (line, step) in [
        (0, 0),
        (line, some(k, 4, steps(line))),
        (last, steps(last).saturating_sub(1)),
        (line, steps(line)),
        (lines, 0),
        (line, huge),
        (huge, 0),
        (huge, huge),
    ] {
        let expected = reference::view::view(day, line as u64, step as u64);
        reached.numbers[expected.number as usize] += 1;
        if expected.number == 0 {
            count_view(day, line, &expected, reached);
        }
        check_view(
            &format!("day {k} line {line} step {step}"),
            day,
            line,
            step,
            expected,
        );
    }
}

/// What an accepted view reached. Of ad hoc rows: a record is for the line viewed; one is for a schedule with a payment.
fn count_view(day: &[u8], line: usize, view: &reference::view::View, reached: &mut Reached) {
    let excess = &view.excess;
    let rows = [excess.operating, excess.pricing, [excess.actual; 5]];
    for (times, row) in reached.excess.iter_mut().zip(rows) {
        *times += u64::from(row != [0; 5]);
    }
    let day = Day::new(day);
    let keys = day.records().map(|record| record.key());
    let of_line = keys.filter(|key| key[0] as usize == line);
    let payments: Vec<i64> = of_line
        .map(|key| view.finals[key[1] as usize - 1])
        .collect();
    reached.ad_hoc[0] += u64::from(!payments.is_empty());
    reached.ad_hoc[1] += u64::from(payments.iter().any(|&payment| payment != 0));
}

/// The reference's view as the C function answers it.
fn raw_view(expected: reference::view::View) -> raw::View {
    raw::View {
        initial: expected.initial,
        revised: expected.revised,
        modified: expected.modified,
        finals: expected.finals,
        number: expected.number,
        end: expected.upper,
        width: expected.width,
        actual: expected.actual,
        price: expected.price,
        flag: expected.flag,
        operating: expected.operating,
        pricing: expected.pricing,
        agino: expected.agino,
        msiq: expected.msiq,
        constrained: expected.constrained_on,
        matches: expected.matches,
        excess: mewikofu::Excess {
            operating: expected.excess.operating,
            pricing: expected.excess.pricing,
            actual: expected.excess.actual,
        },
    }
}

/// The C function's answer, with its number, and what the safe one makes of it.
fn check_view(at: &str, day: &[u8], line: usize, step: usize, expected: reference::view::View) {
    let expected = raw_view(expected);
    assert_eq!(raw::view(day, line, step), expected, "{at}");
    match expected.number {
        0 => assert_eq!(view(day, line, step), View::try_from(expected), "{at}"),
        number => assert_eq!(view(day, line, step), refused(number), "{at}"),
    }
}

fn check_lines_views(k: u64, day: &[u8], lines: usize, reached: &mut Reached) {
    let (line, last) = (some(k, 7, lines), lines.saturating_sub(1));
    for line in [0, line, last, lines, HUGE[some(k, 8, 4)]] {
        let expected = reference::view::line_views(day, line as u64);
        reached.numbers[expected.number as usize] += 1;
        let at = format!("day {k} line {line}");
        let found = check_line_views(&at, day, line, expected);
        let paid = found.iter().filter(|view| view.finals != [0; 5]).count();
        let met = [
            found.len() == 1,
            (2..MOST_STEPS).contains(&found.len()),
            found.len() == MOST_STEPS,
            paid > 1,
        ];
        for (times, met) in reached.line_views.iter_mut().zip(met) {
            *times += u64::from(met);
        }
        // A view for each step works the day out each time, so it is asked of some days alone.
        if k % 12 == k / 12 % 12 && day.len() < line_at(day, 8) {
            let views: Result<Vec<View>, Refusal> =
                (0..found.len()).map(|step| view(day, line, step)).collect();
            assert_eq!(views, Ok(found), "{at}");
        }
    }
}

/// What a place holds before: in no field what a view has there, and in each place something else.
fn unwritten(place: usize) -> raw::View {
    let (money, word) = (i64::MIN + place as i64, u32::MAX - place as u32);
    raw::View {
        initial: [money; 5],
        revised: [money; 5],
        modified: [money; 5],
        finals: [money; 5],
        number: word,
        end: word,
        width: word,
        actual: word,
        price: [word; 5],
        flag: [word; 5],
        operating: [word; 5],
        pricing: [word; 5],
        agino: [word; 5],
        msiq: [word; 5],
        constrained: [word; 5],
        matches: [word; 10],
        excess: mewikofu::Excess {
            operating: [word; 5],
            pricing: [word; 5],
            actual: word,
        },
    }
}

/// The C function's answers in places that hold something else before, and what the safe one makes of them.
fn check_line_views(
    at: &str,
    day: &[u8],
    line: usize,
    expected: reference::view::LineViews,
) -> Vec<View> {
    let (number, steps) = (expected.number, expected.views.len());
    let before: [raw::View; MOST_STEPS] = std::array::from_fn(unwritten);
    let mut after = before.clone();
    for (place, view) in after.iter_mut().zip(expected.views) {
        *place = raw_view(view);
    }
    let (mut views, mut count) = (Box::new(before), usize::MAX);
    assert_eq!(raw::line_views(day, line, &mut views, &mut count), number);
    assert_eq!(count, steps, "{at}");
    assert!(*views == after, "{at}: {views:?}, not {after:?}");
    if number != 0 {
        assert_eq!(line_views(day, line), refused(number), "{at}");
        return Vec::new();
    }
    let own = after.into_iter().take(steps).map(View::try_from);
    let own: Result<Vec<View>, Refusal> = own.collect();
    assert_eq!(line_views(day, line), own, "{at}");
    own.unwrap()
}

fn check_parts(k: u64, day: &[u8], lines: usize, reached: &mut Reached) {
    let places = [
        0,
        some(k, 5, lines),
        lines.saturating_sub(1),
        lines,
        lines + 1,
    ];
    for place in places.into_iter().chain(HUGE) {
        let number = reference::refusal::line_part_number(day, place as u64);
        let expected = reference::line_part::line_part(day, place as u64);
        reached.numbers[number as usize] += 1;
        match (line_part(day, place), number) {
            // The day's own bytes, not only equal ones.
            (Ok(part), 0) => assert_eq!(part.as_ptr_range(), expected.as_ptr_range()),
            (answer, _) => assert_eq!(answer, refused(number), "day {k} line {place}"),
        }
        let (mut at, mut length) = (usize::MAX, usize::MAX);
        assert_eq!(raw::line_part(day, place, &mut at, &mut length), number);
        if number != 0 {
            assert_eq!((at, length), (0, 0), "day {k} line {place}");
        }
    }
}

/// Some lines of the day and bytes that are too short or too long by one.
fn check_cuts(k: u64, day: &[u8], lines: usize, reached: &mut Reached) {
    for line in [0, some(k, 6, lines), lines.saturating_sub(1)] {
        for length in [LINE_BYTES, LINE_BYTES - 1, LINE_BYTES + 1] {
            let start = line_at(day, line).min(day.len());
            let bytes: Box<[u8]> = day[start..(start + length).min(day.len())].into();
            let expected = reference::cut::cut(&bytes);
            reached.numbers[expected.number as usize] += 1;
            check_cut(
                &format!("day {k} line {line} length {length}"),
                &bytes,
                expected,
            );
        }
    }
}

/// As `check_view`.
fn check_cut(at: &str, bytes: &[u8], expected: reference::cut::Cut) {
    let expected = raw::Cut {
        flags: expected.flags,
        number: expected.number,
        count: expected.count,
        missing: expected.missing,
        ends: expected.ends,
        prices: expected.prices,
        reserved: 0,
    };
    assert_eq!(raw::cut(bytes), expected, "{at}");
    match expected.number {
        0 => assert_eq!(cut(bytes), Cut::try_from(expected), "{at}"),
        number => assert_eq!(cut(bytes), refused(number), "{at}"),
    }
}
