//! `uplift`: each schedule's share of its group's adjusted totals (document 02, F-1). The shares are the proved code's. Groups and exact shares are worked out here
//! from the book's totals and adjusted totals, for a reader, and the shares are held to them.

use crate::amounts::money;
use crate::arguments::Options;
use crate::days::{print, Answer};
use crate::layout::{BySchedule, SCHEDULES};
use crate::lists::number_words;
use crate::many;
use crate::outcome::{Result, Status};
use crate::output::{aligned, Table, Unit};
use crate::settle::put;
use mewikofu::Book;
use serde_json::{json, Value};
use std::fmt;
use std::io::Write;
use std::ops::Range;

pub fn run(options: &Options, out: &mut dyn Write) -> Result<Status> {
    print(&many::uplift(options), options, out)
}

/// A longest run of neighbouring schedules whose totals are all above 0 or all below 0.
#[derive(Clone, Debug, PartialEq, Eq)]
pub struct Group {
    /// From 0.
    pub schedules: Range<usize>,
    /// Its summed totals and its summed adjusted totals.
    pub total: i64,
    pub adjusted: i64,
}

impl Group {
    /// Its schedules from 1.
    pub fn numbers(&self) -> Vec<usize> {
        self.schedules.clone().map(|s| s + 1).collect()
    }

    /// For a table's cell: `3`, `2..4`.
    fn range(&self) -> String {
        let (first, last) = (self.schedules.start + 1, self.schedules.end);
        match first == last {
            true => first.to_string(),
            false => format!("{first}..{last}"),
        }
    }
}

/// In the order of the schedules.
pub fn groups(totals: &BySchedule<i64>, adjusted: &BySchedule<i64>) -> Vec<Group> {
    let mut groups: Vec<Group> = Vec::new();
    for s in (0..SCHEDULES).filter(|&s| totals[s] != 0) {
        match groups.last_mut() {
            Some(group)
                if group.schedules.end == s && group.total.signum() == totals[s].signum() =>
            {
                group.schedules.end = s + 1;
                group.total += totals[s];
                group.adjusted += adjusted[s];
            }
            _ => groups.push(Group {
                schedules: s..s + 1,
                total: totals[s],
                adjusted: adjusted[s],
            }),
        }
    }
    groups
}

/// The exact share of a schedule in units of $0.0000001: its total times the group's adjusted totals, over the group's totals.
#[derive(Clone, Copy, Debug, PartialEq, Eq)]
pub struct Exact {
    /// Has the sign of the group's total.
    product: i128,
    /// Above 0.
    divisor: i128,
}

impl Exact {
    /// A product is below 2^116 in size.
    fn new(total: i64, group: &Group) -> Exact {
        let sign = i128::from(group.total.signum());
        Exact {
            product: i128::from(total) * i128::from(group.adjusted) * sign,
            divisor: i128::from(group.total) * sign,
        }
    }

    /// Rounded towards 0.
    pub fn rounded(self) -> i64 {
        // At most the group's adjusted totals in size, since no total of a group is larger in size than all of them together.
        (self.product / self.divisor) as i64
    }

    pub fn leaves_remainder(self) -> bool {
        self.product % self.divisor != 0
    }

    /// Whether an amount is less than one unit away.
    pub fn is_near(self, share: i64) -> bool {
        (i128::from(share) * self.divisor - self.product).abs() < self.divisor
    }

    /// With four decimals of a unit; further ones are cut off.
    fn write(self, whole: impl Fn(i64) -> String) -> Written {
        const DECIMALS: i128 = 10_000;
        let rest = (self.product % self.divisor).abs() * DECIMALS;
        Written {
            sign: if self.product < 0 { "-" } else { "" },
            whole: whole(self.rounded().abs()),
            decimals: rest / self.divisor,
            is_cut: rest % self.divisor != 0,
        }
    }

    /// In dollars with eleven decimals.
    pub fn dollars(self) -> Written {
        self.write(money)
    }

    pub fn units(self) -> Written {
        self.write(|whole| format!("{whole}."))
    }
}

/// An exact share for a reader.
pub struct Written {
    sign: &'static str,
    whole: String,
    decimals: i128,
    /// Whether decimals that aren't 0 follow.
    pub is_cut: bool,
}

impl fmt::Display for Written {
    fn fmt(&self, out: &mut fmt::Formatter) -> fmt::Result {
        write!(out, "{}{}{:04}", self.sign, self.whole, self.decimals)
    }
}

/// A day's uplift, and what it is worked out from. Money in units of $0.0000001.
pub struct Uplift {
    pub lines: usize,
    pub totals: BySchedule<i64>,
    pub adjusted: BySchedule<i64>,
    /// The proved shares.
    pub shares: BySchedule<i64>,
    pub groups: Vec<Group>,
}

impl Uplift {
    /// Or what doesn't fit together: each share must be less than one unit from the exact one, and the shares of a group its adjusted totals in sum.
    pub fn new(book: &Book, shares: BySchedule<i64>) -> std::result::Result<Uplift, String> {
        let (totals, adjusted) = (book.totals(), book.adjusted());
        let uplift = Uplift {
            lines: book.line_count(),
            totals,
            adjusted,
            shares,
            groups: groups(&totals, &adjusted),
        };
        uplift.check()?;
        Ok(uplift)
    }

    fn check(&self) -> std::result::Result<(), String> {
        for (s, &share) in self.shares.iter().enumerate() {
            let is_near = match self.exact(s) {
                Some(exact) => exact.is_near(share),
                None => share == 0,
            };
            if !is_near {
                let s = s + 1;
                return Err(format!(
                    "schedule {s}: the uplift is {share} units, which isn't its share of its group's adjusted totals"
                ));
            }
        }
        for group in &self.groups {
            let sum: i64 = self.shares[group.schedules.clone()].iter().sum();
            if sum != group.adjusted {
                return Err(format!(
                    "schedules {}: the uplift adds up to {sum} units, and the adjusted totals to {}",
                    number_words(&group.numbers()),
                    group.adjusted
                ));
            }
        }
        Ok(())
    }

    /// The group of schedule s, from 0; none where its total is 0.
    pub fn group(&self, s: usize) -> Option<&Group> {
        self.groups
            .iter()
            .find(|group| group.schedules.contains(&s))
    }

    /// Of schedule s, from 0; none where its total is 0.
    pub fn exact(&self, s: usize) -> Option<Exact> {
        let group = self.group(s)?;
        Some(Exact::new(self.totals[s], group))
    }

    /// Of schedule s, from 0.
    fn schedule_row(&self, s: usize, unit: Unit) -> Vec<String> {
        let (group, exact) = match (self.group(s), self.exact(s)) {
            (Some(group), Some(exact)) => (
                number_words(&group.numbers()),
                match unit {
                    Unit::Dollars => exact.dollars().to_string(),
                    Unit::Units => exact.units().to_string(),
                },
            ),
            _ => ("none".to_string(), String::new()),
        };
        vec![
            (s + 1).to_string(),
            unit.text(self.totals[s]),
            unit.text(self.adjusted[s]),
            group,
            exact,
            unit.text(self.shares[s]),
        ]
    }

    fn sum_row(&self, unit: Unit) -> Vec<String> {
        let sum = |row: &BySchedule<i64>| unit.text(row.iter().sum());
        vec![
            "sum".to_string(),
            sum(&self.totals),
            sum(&self.adjusted),
            String::new(),
            String::new(),
            sum(&self.shares),
        ]
    }
}

impl Answer for Uplift {
    const AMOUNTS: &'static [&'static str] = &["uplift"];

    fn line_count(&self) -> usize {
        self.lines
    }

    fn amounts(&self) -> Vec<BySchedule<i64>> {
        vec![self.shares]
    }

    /// What the program `uplift` prints, then a row for each schedule and the sums.
    fn text(&self, unit: Unit) -> String {
        let mut text = String::new();
        put(&mut text, "uplift", &self.shares);
        text.push('\n');
        let heading = [
            "schedule",
            "total",
            "adjusted total",
            "group",
            "exact share",
            "uplift",
        ];
        let mut rows = vec![heading.map(String::from).to_vec()];
        rows.extend((0..SCHEDULES).map(|s| self.schedule_row(s, unit)));
        rows.push(self.sum_row(unit));
        text.push_str(&aligned(&rows));
        text
    }

    fn columns(unit: Unit) -> Vec<String> {
        let unit = unit.name();
        let amount = |name: &str| format!("{name}_{unit}");
        vec![
            "file".to_string(),
            "schedule".to_string(),
            amount("total"),
            amount("adjusted"),
            "group".to_string(),
            amount("group_total"),
            amount("group_adjusted"),
            amount("exact"),
            amount("uplift"),
        ]
    }

    fn put_rows(&self, table: &mut Table, name: &str, unit: Unit) -> Result<()> {
        for s in 0..SCHEDULES {
            let [total, adjusted, share] =
                [&self.totals, &self.adjusted, &self.shares].map(|row| unit.money(row[s]));
            let group = match (self.group(s), self.exact(s)) {
                (Some(group), Some(exact)) => {
                    let [total, adjusted] =
                        [group.total, group.adjusted].map(|value| unit.money(value));
                    let exact = match unit {
                        Unit::Dollars => exact.write(|whole| unit.money(whole)),
                        Unit::Units => exact.units(),
                    };
                    [group.range(), total, adjusted, exact.to_string()]
                }
                _ => Default::default(),
            };
            let first = [name.to_string(), (s + 1).to_string(), total, adjusted];
            table.row(&[first.to_vec(), group.to_vec(), vec![share]].concat())?;
        }
        Ok(())
    }

    /// Money in units of $0.0000001, schedules of a group from 1.
    fn json(&self, name: &str) -> Value {
        let groups: Vec<Value> = self
            .groups
            .iter()
            .map(|group| {
                json!({ "schedules": group.numbers(), "total": group.total, "adjusted": group.adjusted })
            })
            .collect();
        json!({
            "file": name, "money_unit": "$0.0000001", "totals": self.totals, "adjusted": self.adjusted,
            "groups": groups, "uplift": self.shares,
        })
    }
}
