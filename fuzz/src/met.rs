//! What the accepted answers of a run are to meet.

use crate::records::records;
use mewikofu::raw::View;
use reference::generate::RecordWords;
use reference::layout::*;
use reference::line_part::line_part;
use reference::matching::pair;
use reference::quantities::{effective_actual, operating_totals, pricing_totals};

/// Some final payment of a viewed step is a revised one less a share of T; is negative though its line isn't accredited
/// in the schedules of the matched rises; is negative where the bid is pulled; isn't 0 on the line's last step where
/// the operating total exceeds M; isn't 0 where the row in force is a record's. A record isn't in force by its place in
/// the file or by the sign of its order number. The own row of an accepted day's line has refusal 12. Of a line's views
/// one place is written, or all are; some of several steps have a final payment, or one less a share of T. Of uplift, by
/// the book of the settled day: groups of several schedules of which a part is taken off.
pub const MET: [&str; 30] = [
    "views with a share of T",
    "views with a charge for unpaid rises",
    "views with a charge where the bid is pulled",
    "views of a line with a pulled bid",
    "cuts of a line with a pulled bid",
    "views with a payment beside an excess",
    "views with an excess in the effective actual",
    "views of a line with an excess",
    "cuts of a line with an excess",
    "settled days with ad hoc records",
    "line parts of a day with ad hoc records",
    "views of a line with an ad hoc row",
    "views with a payment in a schedule with an ad hoc row",
    "views of a line with several records for a row",
    "views where the last record isn't in force",
    "views where the lowest order number isn't in force",
    "views where the highest order number with a sign isn't in force",
    "views with another effective actual than by the line's own row",
    "cuts refused with 12 where the line's view is accepted",
    "line views of one step",
    "line views of 56 steps",
    "line views with payments on several steps",
    "line views with a share of T on several steps",
    "uplifts with one unit left over",
    "uplifts with several units left over",
    "uplifts with a schedule without a remainder beside one with",
    "uplifts with a unit left over of totals below 0",
    "uplifts with a total of 0 between two groups of one sign",
    "uplifts with neighbouring groups of several schedules",
    "uplifts with a product above 64 bits",
];

/// How many of `MET`, the last ones, are of uplift.
const UPLIFTS: usize = 7;

/// What wasn't refused: the day settled; a view with day, number of its line, line with the rows in force and answer;
/// the views of all steps of this line; the line cut; the day of which a line was lent. And the totals and adjusted totals of the day settled, and whether the
/// cutter refused the line viewed for its own rows.
pub struct Accepted<'a> {
    pub settled: Option<&'a [u8]>,
    pub totals: Option<(BySchedule<i64>, BySchedule<i64>)>,
    pub viewed: Option<(&'a [u8], usize, Line<'a>, &'a View)>,
    pub line_views: &'a [View],
    pub cut: Option<Line<'a>>,
    pub lent: Option<&'a [u8]>,
    pub refused_own_row: bool,
}

impl Accepted<'_> {
    /// Which of `MET` hold.
    pub fn met(&self) -> [bool; MET.len()] {
        let mut met = [false; MET.len()];
        let (others, uplifts) = met.split_at_mut(MET.len() - UPLIFTS);
        others.copy_from_slice(&self.met_in_payments());
        uplifts.copy_from_slice(&self.met_in_uplift());
        met
    }

    /// The first of `MET`.
    fn met_in_payments(&self) -> [bool; MET.len() - UPLIFTS] {
        let has_records = |day: Option<&[u8]>| day.is_some_and(|day| record_count(day) > 0);
        let has_pulled = |line: Line| pulled(line).next().is_some();
        let viewed = |is_met: fn(Line, &View) -> bool| {
            self.viewed
                .is_some_and(|(_, _, line, view)| is_met(line, view))
        };
        let rows = self
            .viewed
            .map(|(day, k, line, view)| rows(day, k, line, view));
        let some_row = |is_met: fn(&AdHocRow) -> bool| {
            rows.as_ref().is_some_and(|rows| rows.iter().any(is_met))
        };
        let several = |is_met: fn(&View) -> bool| {
            let mut met = self.line_views.iter().filter(|view| is_met(view));
            met.nth(1).is_some()
        };
        [
            viewed(|_, view| has_share(view)),
            viewed(has_charge_for_unpaid),
            viewed(|line, view| pulled(line).any(|s| view.finals[s] < 0)),
            viewed(|line, _| pulled(line).next().is_some()),
            self.cut.is_some_and(has_pulled),
            viewed(has_payment_beside_excess),
            viewed(|_, view| view.excess.actual > 0),
            viewed(|line, _| has_excess(line)),
            self.cut.is_some_and(has_excess),
            has_records(self.settled),
            has_records(self.lent),
            some_row(|_| true),
            some_row(|row| row.payment != 0),
            some_row(|row| row.records.len() > 1),
            some_row(|row| row.differs(|records| records.last())),
            some_row(|row| row.differs(|records| records.iter().min_by_key(|r| r[RECORD_ORDER]))),
            some_row(|row| {
                row.differs(|records| records.iter().max_by_key(|r| r[RECORD_ORDER] as i32))
            }),
            some_row(|row| row.other_actual),
            self.refused_own_row,
            self.line_views.len() == 1,
            self.line_views.len() == MOST_STEPS,
            several(|view| view.finals != [0; SCHEDULES]),
            several(has_share),
        ]
    }

    /// The last of `MET`: those of uplift.
    fn met_in_uplift(&self) -> [bool; UPLIFTS] {
        let groups = self.totals.map_or(Vec::new(), |(t, a)| groups(&t, &a));
        let some_group = |is_met: fn(&Group) -> bool| groups.iter().any(is_met);
        let some_two = |is_met: fn(&Group, &Group) -> bool| {
            groups.windows(2).any(|two| is_met(&two[0], &two[1]))
        };
        [
            some_group(|group| group.units() == 1),
            some_group(|group| group.units() > 1),
            some_group(|group| group.units() > 0 && group.remainders.contains(&0)),
            some_group(|group| group.units() > 0 && group.totals < 0),
            some_two(|group, next| {
                group.end < next.start && group.totals.signum() == next.totals.signum()
            }),
            some_two(|group, next| {
                group.end == next.start && group.remainders.len() > 1 && next.remainders.len() > 1
            }),
            some_group(|group| group.is_long),
        ]
    }
}

/// A group of uplift by schedule: its first schedule and the one behind its last, its summed totals, the sizes of what
/// its divisions leave, and whether some product is above 64 bits.
struct Group {
    start: usize,
    end: usize,
    totals: i128,
    remainders: Vec<i128>,
    is_long: bool,
}

impl Group {
    /// Units left over.
    fn units(&self) -> i128 {
        self.remainders.iter().sum::<i128>() / self.totals.abs()
    }
}

fn groups(t: &BySchedule<i64>, a: &BySchedule<i64>) -> Vec<Group> {
    let sum = |row: &[i64]| row.iter().map(|&x| i128::from(x)).sum();
    let mut groups = Vec::new();
    let mut start = 0;
    for part in t.chunk_by(|t, next| t.signum() == next.signum()) {
        let end = start + part.len();
        if part[0] != 0 {
            let (totals, adjusted): (i128, i128) = (sum(part), sum(&a[start..end]));
            let products = part.iter().map(|&t| i128::from(t) * adjusted);
            groups.push(Group {
                start,
                end,
                totals,
                remainders: products.clone().map(|p| (p % totals).abs()).collect(),
                is_long: products.max().is_some_and(|p| p > i128::from(u64::MAX)),
            });
        }
        start = end;
    }
    groups
}

/// A row of the line viewed that records are for: the row in force, the records in the file's order, the payment of its
/// schedule, and whether the line's own row 5 gives another effective actual.
struct AdHocRow {
    in_force: BySchedule<u32>,
    records: Vec<RecordWords>,
    payment: i64,
    other_actual: bool,
}

impl AdHocRow {
    /// The row of the record that `pick` takes isn't the one in force.
    fn differs(&self, pick: fn(&[RecordWords]) -> Option<&RecordWords>) -> bool {
        pick(&self.records).is_some_and(|record| record[RECORD_ROW..] != self.in_force)
    }
}

fn rows(day: &[u8], k: usize, line: Line, view: &View) -> Vec<AdHocRow> {
    let all = match record_count(day) {
        0 => Vec::new(),
        _ => records(day),
    };
    let of = |s: usize| {
        let is_for = |r: &&RecordWords| r[..RECORD_ORDER] == [k as u32, s as u32 + 1];
        AdHocRow {
            in_force: std::array::from_fn(|i| line.operating(s, i)),
            records: all.iter().filter(is_for).copied().collect(),
            payment: view.finals[s],
            other_actual: s == SCHEDULES - 1 && has_other_actual(day, k, line),
        }
    };
    let rows = (0..SCHEDULES).map(of);
    rows.filter(|row| !row.records.is_empty()).collect()
}

fn has_other_actual(day: &[u8], k: usize, line: Line) -> bool {
    let own = Line::new(line_part(day, k as u64)).unwrap();
    effective_actual(own) != effective_actual(line)
}

fn has_excess(line: Line) -> bool {
    let totals = [pricing_totals(line), operating_totals(line)];
    let most = u64::from(line.greatest_break());
    totals.as_flattened().iter().any(|&total| total > most)
}

fn has_payment_beside_excess(line: Line, view: &View) -> bool {
    let in_schedule = |s: usize| view.excess.operating[s] > 0 && view.finals[s] != 0;
    view.end == line.greatest_break() && (0..SCHEDULES).any(in_schedule)
}

fn has_share(view: &View) -> bool {
    let own = |s| [view.initial, view.revised, view.modified].map(|kind| kind[s]);
    (0..5).any(|s| !own(s).contains(&view.finals[s]))
}

fn has_charge_for_unpaid(line: Line, view: &View) -> bool {
    let unpaid = |r, s| view.matches[pair(r, s)] == 0 || !line.accredited(r);
    (1..5).any(|s| view.finals[s] < 0 && (0..s).all(|r| unpaid(r, s)))
}

/// The schedules whose bid is pulled.
pub fn pulled(line: Line<'_>) -> impl Iterator<Item = usize> + '_ {
    (0..SCHEDULES).filter(move |&s| line.is_pulled(s))
}
