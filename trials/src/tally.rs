//! Counts the cases by kind and by refusal number.

use crate::case::{Case, Outcome};
use crate::check::{Checked, Checker};
use crate::joined::{Which, BOTH};
use crate::pick::Picker;
use crate::plan::cases;
use crate::refusal::TOO_LONG;
use std::fmt::Write;

const KINDS: &[u8; 12] = b"QASWRCqaswrJ";
/// One past the highest number of a refusal. 14 is the program's alone.
pub const NUMBERS: usize = 16;

/// The row of a kind.
fn row(kind: u8) -> usize {
    KINDS.iter().position(|&k| k == kind).expect("a known kind")
}

#[derive(Default)]
pub struct Tally {
    /// By kind, by refusal number; 0: accepted.
    refused: [[usize; NUMBERS]; KINDS.len()],
    /// The same of joined quotes alone, by the sheet that is named.
    refused_of: [[usize; NUMBERS]; 2],
    /// By kind.
    best: [usize; KINDS.len()],
    stopped: [usize; KINDS.len()],
    fits: usize,
    differs: usize,
    visits: u64,
    most_visits: u32,
    /// Searches by (n, m).
    sizes: [[usize; 5]; 7],
}

/// All cases, each of them checked.
pub fn tallied() -> (Tally, Checked) {
    let mut picker = Picker::new();
    let mut checker = Checker::default();
    let mut tally = Tally::default();
    for case in cases() {
        let outcome = case.reply(&mut picker).outcome;
        checker.check(&case, &outcome);
        tally.add(&case, &outcome);
    }
    (tally, checker.checked)
}

impl Tally {
    pub fn add(&mut self, case: &Case, outcome: &Outcome) {
        let row = row(case.kind());
        let number = match outcome {
            Outcome::Refused(r) | Outcome::StageRefused(r) | Outcome::RefusedOf(_, r) => r.number.into(),
            _ => 0,
        };
        self.refused[row][number] += 1;
        match outcome {
            Outcome::Found(a) => {
                self.best[row] += usize::from(!a.stopped);
                self.stopped[row] += usize::from(a.stopped);
                self.visits += u64::from(a.visits);
                self.most_visits = self.most_visits.max(a.visits);
                let (n, m) = match case {
                    Case::Quote { sheet, .. } => (sheet[1], sheet[2]),
                    Case::Joined { first, .. } => (first[1], first[2]),
                    Case::Search { n, m, .. } => (*n, *m),
                    _ => unreachable!("only quotes and searches search"),
                };
                self.sizes[usize::from(n)][usize::from(m)] += 1;
            }
            Outcome::RefusedOf(which, r) => self.refused_of[*which as usize][usize::from(r.number)] += 1,
            Outcome::Judged { fits: true } => self.fits += 1,
            Outcome::Judged { fits: false } => self.differs += 1,
            _ => {}
        }
    }

    pub fn cases(&self) -> usize {
        self.refused.iter().flatten().sum()
    }

    pub fn refusals(&self, number: usize) -> usize {
        self.refused.iter().map(|row| row[number]).sum()
    }

    pub fn refusals_of(&self, kind: u8, number: usize) -> usize {
        self.refused[row(kind)][number]
    }

    /// Of joined quotes, those that name this sheet.
    pub fn refusals_naming(&self, which: Which, number: usize) -> usize {
        self.refused_of[which as usize][number]
    }

    pub fn report(&self) -> String {
        let mut out = String::new();
        let mut line = |text: String| writeln!(out, "{text}").expect("a string takes all");
        line(format!("{} cases", self.cases()));
        let kinds: String = KINDS.iter().map(|&kind| format!("{:>7}", char::from(kind))).collect();
        line(format!("{:>9}{kinds}{:>7}", "", "all"));
        for number in (0..NUMBERS).filter(|&number| number != TOO_LONG.into()) {
            let name = if number == 0 { "accepted".to_string() } else { format!("refused {number}") };
            let by_kind: String = self.refused.iter().map(|row| format!("{:>7}", row[number])).collect();
            line(format!("{name:<10}{}{:>7}", &by_kind[1..], self.refusals(number)));
        }
        let totals: String = self.refused.iter().map(|row| format!("{:>7}", row.iter().sum::<usize>())).collect();
        line(format!("{:<9}{totals}{:>7}", "all", self.cases()));
        for (name, by_kind) in [("best", self.best), ("stopped", self.stopped)] {
            let counts: String = by_kind.iter().map(|count| format!("{count:>7}")).collect();
            line(format!("{name:<9}{counts}{:>7}", by_kind.iter().sum::<usize>()));
        }
        for which in BOTH {
            line(format!(
                "J refused 1 to 13, naming the {}: {:?}",
                which.word(),
                &self.refused_of[which as usize][1..14]
            ));
        }
        line(format!("audits: fits {} differs {}", self.fits, self.differs));
        let [best, stopped] = [self.best, self.stopped].map(|by_kind| by_kind.iter().sum::<usize>());
        line(format!("searches: best {best} stopped {stopped}"));
        line(format!("visits: all {} most {}", self.visits, self.most_visits));
        for n in 1..=6 {
            line(format!("searches with n = {n} and m = 1 to 4: {:?}", &self.sizes[n][1..]));
        }
        out
    }
}
