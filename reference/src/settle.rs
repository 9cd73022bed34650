//! Settling a day into a book (01 "Totals and book", FD 9.2).

use crate::cut::Steps;
use crate::figures::LineFigures;
use crate::layout::*;
use crate::payments::finals;
use crate::pools::Pools;
use crate::refusal::settle_number;
use crate::totals::adjusted;

/// Answers the number. Refused, it writes nothing; else it writes the book's 96 + 56n bytes and no more.
pub fn settle(day: &[u8], book: &mut [u8]) -> u32 {
    let number = settle_number(day, book.len());
    if number == 0 {
        write_book(&Day::new(day), book);
    }
    number
}

fn write_book(day: &Day, book: &mut [u8]) {
    let pools = Pools::new(day);
    let mut totals = [0; SCHEDULES];
    for (k, line) in day.lines().enumerate() {
        let (steps, payments) = settle_line(&day.market, line, &pools);
        let start = book_length(k);
        write_line(
            &mut book[start..start + BOOK_LINE_BYTES],
            line,
            steps,
            &payments,
        );
        add(&mut totals, &payments);
    }
    write_header(day.line_count(), &totals, book);
}

/// The step count and the five payments of a line.
fn settle_line(market: &Market, line: Line, pools: &Pools) -> (u32, BySchedule<i64>) {
    let figures = LineFigures::new(market, line);
    let side = pools.side(figures.side);
    let mut count = 0;
    let mut sums = [0; SCHEDULES];
    for step in Steps::new(line) {
        count += 1;
        if figures.is_ever_paid(&step) {
            let of_step = figures.step(&step);
            let falls = &of_step.matching.falls;
            let payments = finals(market.clawback, &step.flags, falls, &of_step.payments, side);
            add(&mut sums, &payments);
        }
    }
    (count, sums)
}

fn add(sums: &mut BySchedule<i64>, payments: &BySchedule<i64>) {
    for (sum, payment) in sums.iter_mut().zip(payments) {
        *sum += payment;
    }
}

fn write_header(lines: usize, totals: &BySchedule<i64>, book: &mut [u8]) {
    let words = [
        lines,
        BOOK_TOTALS_OFFSET,
        BOOK_LINES_OFFSET,
        book_length(lines),
    ];
    put_words(book, &words.map(|word| word as u32));
    let adjusted = adjusted(totals);
    for s in 0..SCHEDULES {
        let offset = BOOK_TOTALS_OFFSET + 16 * s;
        put_signed(book, offset, totals[s]);
        put_signed(book, offset + 8, adjusted[s]);
    }
}

fn write_line(part: &mut [u8], line: Line, steps: u32, payments: &BySchedule<i64>) {
    let [participant, point, side] = line.key();
    put_words(part, &[participant, point, side, steps]);
    for (s, &payment) in payments.iter().enumerate() {
        put_signed(part, 16 + 8 * s, payment);
    }
}
