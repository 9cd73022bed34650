//! Amounts for a reader: dollars, quantities and prices, exact, with commas between thousands.

/// Decimals of a unit of money ($0.0000001), of a price unit ($0.0001) and of a MJ in GJ (0.001).
pub const MONEY_PLACES: usize = 7;
pub const PRICE_PLACES: usize = 4;
pub const GJ_PLACES: usize = 3;

/// Digits with a comma before each group of three.
pub fn grouped(value: u64) -> String {
    let digits = value.to_string();
    let mut text = String::new();
    for (k, digit) in digits.chars().enumerate() {
        if k > 0 && (digits.len() - k).is_multiple_of(3) {
            text.push(',');
        }
        text.push(digit);
    }
    text
}

/// A value of so many decimal places after a sign and a mark such as `$`. Zeros at the end are
/// left out, but at least `least` decimals are kept.
fn decimal(mark: &str, value: i64, places: usize, least: usize) -> String {
    let one = 10_u64.pow(places as u32);
    let sign = if value < 0 { "-" } else { "" };
    let whole = grouped(value.unsigned_abs() / one);
    let decimals = format!("{:0places$}", value.unsigned_abs() % one);
    let kept = decimals.trim_end_matches('0').len().max(least).min(places);
    match kept {
        0 => format!("{sign}{mark}{whole}"),
        _ => format!("{sign}{mark}{whole}.{}", &decimals[..kept]),
    }
}

/// Dollars of a value whose unit is a dollar with so many decimal places.
pub fn dollars(value: i64, places: usize, least: usize) -> String {
    decimal("$", value, places, least)
}

/// A value of so many decimal places for a spreadsheet: no mark, no commas, all decimals.
pub fn plain(value: i64, places: usize) -> String {
    let one = 10_u64.pow(places as u32);
    let sign = if value < 0 { "-" } else { "" };
    format!(
        "{sign}{}.{:0places$}",
        value.unsigned_abs() / one,
        value.unsigned_abs() % one
    )
}

/// A sum of money over many days.
pub fn money_sum(value: i128) -> String {
    let one = 10_u128.pow(MONEY_PLACES as u32);
    let sign = if value < 0 { "-" } else { "" };
    let whole = grouped((value.unsigned_abs() / one) as u64);
    format!(
        "{sign}${whole}.{:0MONEY_PLACES$}",
        value.unsigned_abs() % one
    )
}

/// Money of the book with all seven decimals.
pub fn money(value: i64) -> String {
    dollars(value, MONEY_PLACES, MONEY_PLACES)
}

/// Dollars of several values, all with as many decimals as the one that needs most, and at least `least`.
pub fn dollars_alike(values: &[i64], places: usize, least: usize) -> Vec<String> {
    let decimals = |&value| {
        let text = dollars(value, places, 0);
        text.split_once('.').map_or(0, |(_, part)| part.len())
    };
    let needed = values.iter().map(decimals).fold(least, usize::max);
    let write = |&value| dollars(value, places, needed);
    values.iter().map(write).collect()
}

/// A price in dollars per GJ with all four decimals.
pub fn price(value: u32) -> String {
    dollars(i64::from(value), PRICE_PLACES, PRICE_PLACES)
}

/// A number of MJ in GJ, with as many decimals as it needs.
pub fn gj(value: impl Into<u64>) -> String {
    decimal("", value.into() as i64, GJ_PLACES, 0)
}

/// Quantities are written in MJ, or large ones in GJ.
#[derive(Clone, Copy, Debug, PartialEq, Eq)]
pub enum Energy {
    MJ,
    GJ,
}

impl Energy {
    /// The unit for an axis that goes up to so many MJ.
    pub fn of_greatest(most: i64) -> Energy {
        if most < 100_000 {
            Energy::MJ
        } else {
            Energy::GJ
        }
    }

    pub fn name(self) -> &'static str {
        match self {
            Energy::MJ => "MJ",
            Energy::GJ => "GJ",
        }
    }

    /// A number of MJ in this unit.
    pub fn write(self, value: i64) -> String {
        match self {
            Energy::MJ => decimal("", value, 0, 0),
            Energy::GJ => decimal("", value, GJ_PLACES, 0),
        }
    }
}
