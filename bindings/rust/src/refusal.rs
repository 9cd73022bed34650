//! The refusals (document 01, "Where each refusal is checked"), as docs/REFUSALS.md has them.

use std::fmt;

/// The type and what it has of each row `NAME = NUMBER, PLACE, WORDS`.
macro_rules! refusals {
    ($($name:ident = $number:literal, $place:literal, $words:literal;)*) => {
        #[derive(Clone, Copy, Debug, PartialEq, Eq, Hash)]
        #[repr(u32)]
        pub enum Refusal {
            $(#[doc = $words] $name = $number,)*
        }

        impl Refusal {
            /// All refusals, in the order of their numbers.
            pub const ALL: [Refusal; [$($number),*].len()] = [$(Refusal::$name),*];

            /// The first column of document 01's table.
            pub fn place(self) -> &'static str {
                match self {
                    $(Refusal::$name => $place,)*
                }
            }

            /// What is wrong.
            pub fn words(self) -> &'static str {
                match self {
                    $(Refusal::$name => $words,)*
                }
            }
        }
    };
}

// tools/refusals writes from here, from docs/REFUSALS.md.
refusals! {
    FileShort = 1, "header", "the file is under 64 bytes";
    LineCount = 2, "header", "the line count is 0 or above 64";
    Layout = 3, "header", "the header's offsets or length, or the file's length, aren't those of its counts of lines and ad hoc records";
    MarketPrice = 4, "market", "a market price or the administered price cap is above 10,000,000 price units";
    MarketMark = 5, "market", "a cap mark or the clawback switch is above 1";
    SideOrAccreditation = 6, "each line", "a line's side is above 1, or its accreditation is 2 to 31 or above 63";
    BidCount = 7, "each line", "a bid's count is 0 in schedule 1, or above 11";
    Breaks = 8, "each line", "a bid's breaks aren't strictly rising from above 0, or one is above 200,000,000 MJ";
    Prices = 9, "each line", "a bid's price is above 10,000,000 price units, or falls (withdrawal: rises)";
    UnusedSlot = 10, "each line", "an unused slot of a bid isn't 0";
    Hedge = 11, "each line", "a hedge is above the line's greatest break, or isn't 0 on a withdrawal";
    Totals = 12, "each line", "a pricing or operating total is more than 1,000 MJ above the line's greatest break";
    Actuals = 13, "each line", "an actual is above 200,000,000 MJ";
    EqualKeys = 14, "all lines", "two lines have the same participant, point and side";
    BookShort = 15, "book", "the lent book is under 96 + 56 n bytes";
    NoLine = 16, "view, line part", "the day has no such line";
    NoStep = 17, "view", "the line has no such step";
    LineLength = 18, "cutter", "the line isn't 660 bytes";
    AdHocCount = 19, "header", "the count of ad hoc records is above 64";
    AdHocLineOrSchedule = 20, "ad hoc records", "an ad hoc record names a line that the day doesn't have, or a schedule other than 1 to 5";
    EqualAdHoc = 21, "ad hoc records", "two ad hoc records have the same line, schedule and order number";
}
// tools/refusals writes to here.

impl Refusal {
    pub fn number(self) -> u32 {
        self as u32
    }

    pub fn of_number(number: u32) -> Option<Refusal> {
        Refusal::ALL.get((number as usize).checked_sub(1)?).copied()
    }
}

impl fmt::Display for Refusal {
    fn fmt(&self, out: &mut fmt::Formatter) -> fmt::Result {
        write!(
            out,
            "refused {}: {} (document 01, \"Where each refusal is checked\", {})",
            self.number(),
            self.words(),
            self.place()
        )
    }
}

impl std::error::Error for Refusal {}

/// A number as a result. No contract allows one that isn't in the table.
pub(crate) fn accepted(number: u32) -> Result<(), Refusal> {
    match (number, Refusal::of_number(number)) {
        (0, _) => Ok(()),
        (_, Some(refusal)) => Err(refusal),
        (_, None) => panic!("the archive answered {number}: it isn't one of this repository"),
    }
}
