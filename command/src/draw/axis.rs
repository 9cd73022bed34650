//! Axes: whole values to places on a drawing, and round values to mark.

/// The lengths between marks are 1, 2 or 5 times a power of ten.
fn round_step(span: i64, most_intervals: i64) -> i64 {
    let mut power = 1;
    loop {
        for step in [power, 2 * power, 5 * power] {
            if span / step <= most_intervals {
                return step;
            }
        }
        power *= 10;
    }
}

/// Quantities along a line's steps, from 0 to the last step's end.
pub struct Along {
    end: i64,
    from: f64,
    to: f64,
    pub ticks: Vec<i64>,
}

impl Along {
    pub fn new(end: i64, most_intervals: i64, from: f64, to: f64) -> Along {
        let step = round_step(end, most_intervals);
        Along {
            end,
            from,
            to,
            ticks: (0..=end / step).map(|k| k * step).collect(),
        }
    }

    pub fn at(&self, value: i64) -> f64 {
        self.from + (self.to - self.from) * (value as f64 / self.end.max(1) as f64)
    }
}

/// How far beyond a break of the axis the far prices are drawn.
const BEYOND: f64 = 28.0;
/// Room for the mark of an axis that doesn't begin at 0.
const MARK: f64 = 14.0;

/// Prices near the market prices, and where there are far ones a break of the axis, beyond which all of these are drawn in one place.
pub struct Prices {
    low: i64,
    high: i64,
    /// Places of `low` and `high`.
    bottom: f64,
    top: f64,
    /// The least and the greatest of the far prices on either side.
    pub below: Option<(i64, i64)>,
    pub above: Option<(i64, i64)>,
    pub ticks: Vec<i64>,
}

/// The window around the market prices. A higher price is far where it would make the window more than three times as long as it is, or as the
/// market price is high; a lower one where the gap to it is more than ten windows long.
fn window(values: &[i64], markets: &[i64]) -> (i64, i64) {
    let mut low = markets.iter().min().copied().unwrap_or(0);
    let mut high = markets.iter().max().copied().unwrap_or(0);
    let most = values.iter().max().copied().unwrap_or(0);
    let least = high.max(most / 10);
    let next = |high: i64| values.iter().copied().filter(|&value| value > high).min();
    while let Some(value) = next(high) {
        if value - low > 3 * least.max(high - low) {
            break;
        }
        high = value;
    }
    let next = |low: i64| values.iter().copied().filter(|&value| value < low).max();
    while let Some(value) = next(low) {
        if high > low && low - value > 10 * (high - low) {
            break;
        }
        low = value;
    }
    (low, high)
}

impl Prices {
    /// `from` is the lowest place and `to` the highest that may be used.
    pub fn new(values: &[i64], markets: &[i64], from: f64, to: f64) -> Prices {
        let (low, high) = window(values, markets);
        let range = |far: &dyn Fn(i64) -> bool| {
            let far: Vec<i64> = values.iter().copied().filter(|&value| far(value)).collect();
            Some((*far.iter().min()?, *far.iter().max()?))
        };
        let below = range(&|value| value < low);
        let above = range(&|value| value > high);
        let low = if below.is_none() && low <= 2 * (high - low) {
            0
        } else {
            low
        };
        let step = round_step((high - low).max(1), 5);
        let first = low.div_euclid(step);
        let last = (-(-high).div_euclid(step)).max(first + 1);
        let bottom = match (below, first) {
            (Some(_), _) => from - BEYOND - 8.0,
            (None, 0) => from,
            _ => from - MARK,
        };
        Prices {
            low: first * step,
            high: last * step,
            bottom,
            top: to + if above.is_some() { BEYOND + 8.0 } else { 0.0 },
            below,
            above,
            ticks: (first..=last).map(|k| k * step).collect(),
        }
    }

    pub fn at(&self, price: i64) -> f64 {
        if price > self.high {
            return self.top - BEYOND;
        }
        if price < self.low {
            return self.bottom + BEYOND;
        }
        let span = (self.high - self.low) as f64;
        self.bottom + (self.top - self.bottom) * ((price - self.low) as f64 / span)
    }

    /// Where the axis is broken: between the window and the far prices, and below where it doesn't begin at 0.
    pub fn breaks(&self) -> Vec<f64> {
        let above = self.above.map(|_| self.top - BEYOND / 2.0);
        let below = match self.below {
            Some(_) => Some(self.bottom + BEYOND / 2.0),
            None if self.low > 0 => Some(self.bottom + MARK / 2.0),
            None => None,
        };
        above.into_iter().chain(below).collect()
    }
}
