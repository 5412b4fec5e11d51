//! Counts of a run, by sort of case.

use crate::judge::Seen;
use generate::SORTS;
use std::fmt::{Display, Formatter, Result};

#[derive(Clone, Default)]
pub struct Tally {
    cases: usize,
    compared: usize,
    out_of_fuel: usize,
    too_deep: usize,
    refused: [usize; 9],
    outside_utf8: usize,
    accepted: usize,
    with_errors: usize,
    with_empty_errors: usize,
    forms: [usize; 11],
}

const HEAD: &str = "sort           cases  with Rust  no fuel  too deep  refused  \
    not same UTF-8  accepted  with error  empty ERROR";

impl Tally {
    pub fn add(&mut self, seen: &Seen) {
        self.cases += 1;
        self.compared += usize::from(seen.with_rust);
        self.out_of_fuel += usize::from(seen.outcome == 1);
        self.too_deep += usize::from(seen.outcome == 2);
        self.refused[seen.refusal as usize] += 1;
        self.outside_utf8 += usize::from(seen.outside_utf8);
        self.accepted += usize::from(seen.accepted);
        self.with_errors += usize::from(!seen.forms.is_empty());
        self.with_empty_errors += usize::from(seen.has_empty_errors);
        seen.forms.iter().for_each(|f| self.forms[*f as usize] += 1);
    }

    fn join(&mut self, other: &Tally) {
        self.cases += other.cases;
        self.compared += other.compared;
        self.out_of_fuel += other.out_of_fuel;
        self.too_deep += other.too_deep;
        self.outside_utf8 += other.outside_utf8;
        self.accepted += other.accepted;
        self.with_errors += other.with_errors;
        self.with_empty_errors += other.with_empty_errors;
        self.refused.iter_mut().zip(other.refused).for_each(|(a, b)| *a += b);
        self.forms.iter_mut().zip(other.forms).for_each(|(a, b)| *a += b);
    }

    fn forms(&self) -> String {
        format!(
            "error records by form 1..10: {:?}\nrefusals 1..8: {:?}",
            &self.forms[1..],
            &self.refused[1..]
        )
    }
}

/// Every row has to be judged alike by both sides' UTF-8 tests, also one whose text no error shows.
pub fn all_same_utf8(tallies: &[Tally]) -> std::result::Result<(), String> {
    match tallies.iter().map(|t| t.outside_utf8).sum() {
        0 => Ok(()),
        parted => Err(format!("{parted} cases with a text that only one side takes for UTF-8")),
    }
}

/// A line for each sort that has cases, and the sums.
pub fn report(tallies: &[Tally], distinct: usize) -> String {
    let mut lines = vec![HEAD.to_string()];
    let mut all = Tally::default();
    for ((sort, _), tally) in SORTS.iter().zip(tallies).filter(|(_, t)| t.cases > 0) {
        lines.push(format!("{:<11}{tally}", format!("{sort:?}")));
        all.join(tally);
    }
    lines.push(format!("{:<11}{all}\n{}\n{distinct} distinct cases, no difference\n", "all", all.forms()));
    lines.join("\n")
}

impl Display for Tally {
    fn fmt(&self, f: &mut Formatter) -> Result {
        let refused: usize = self.refused[1..].iter().sum();
        write!(
            f,
            "{:>8} {:>10} {:>8} {:>9} {:>8} {:>15} {:>9} {:>11} {:>12}",
            self.cases,
            self.compared,
            self.out_of_fuel,
            self.too_deep,
            refused,
            self.outside_utf8,
            self.accepted,
            self.with_errors,
            self.with_empty_errors,
        )
    }
}
