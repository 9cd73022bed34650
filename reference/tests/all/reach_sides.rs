//! That generated and kept days and lines of one kind reach what they are for, on both sides.

use crate::kept::entries;
use crate::reach::{accepted, Kind, Met};
use reference::layout::*;
use reference::refusal::cut_number;
use reference::view::View;

/// What is to be met.
pub struct Wanted {
    /// By lines of each side.
    pub of_lines: Vec<&'static str>,
    /// By lines of injections beside it.
    pub of_hedges: Vec<&'static str>,
    /// By days beside their lines, of each side.
    pub of_days: Vec<&'static str>,
}

/// What injections and withdrawals of one kind met.
pub trait Sides: Default {
    const KIND: Kind;
    fn wanted() -> Wanted;
    fn line(&mut self, line: Line);
    fn day(&mut self, day: &[u8]);
    fn met(&self) -> &[Met; 2];
    /// Asserts what else is to be met.
    fn check_others(&self, what: &str);

    /// That each side met these, and injections what is wanted of hedges.
    fn check(&self, what: &str, wanted: &[&'static str]) {
        let of_injections = [wanted, &Self::wanted().of_hedges].concat();
        let [injections, withdrawals] = self.met();
        let missing = [
            injections.missing(&of_injections),
            withdrawals.missing(wanted),
        ];
        assert_eq!(missing, [[""; 0]; 2], "{what}");
        self.check_others(what);
    }
}

pub fn names<T>(of: &[(&'static str, T)]) -> Vec<&'static str> {
    of.iter().map(|(what, _)| *what).collect()
}

/// The final payment in schedule s is the revised one less a share of T.
pub fn has_share(v: &View, s: usize) -> bool {
    v.flag[s] == 0 && v.finals[s] < v.revised[s] && v.finals[s] > v.initial[s]
}

pub fn check_days<S: Sides>(what: &str, days: impl IntoIterator<Item = Vec<u8>>) {
    let mut sides = S::default();
    days.into_iter().for_each(|day| sides.day(&day));
    let wanted = S::wanted();
    sides.check(what, &[wanted.of_lines, wanted.of_days].concat());
}

/// The days of the kind that the programs `check_settle` and `check_steps` are run on.
pub fn check_kept_days<S: Sides>() {
    for program in ["check_settle", "check_steps"] {
        check_days::<S>(program, accepted(program, S::KIND));
    }
}

/// The lines that `check_cut` is run on.
pub fn check_kept_lines<S: Sides>() {
    let mut sides = S::default();
    let lines = entries("check_cut").into_iter();
    for line in lines.filter(|line| cut_number(line) == 0) {
        sides.line(Line::new(&line).unwrap());
    }
    sides.check("check_cut", &S::wanted().of_lines);
}
