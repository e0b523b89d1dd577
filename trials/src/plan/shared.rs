//! The cases of document 02, E2, behind those of E1: the calls of document 01 on
//! the board that shares selectors.

use super::{Planner, LONGEST};
use crate::board::Board;
use crate::case::Case;
use crate::draw::boards;
use crate::draw::diagrams::{large_stage, largest_stage};
use crate::draw::sizes;
use crate::rows::shared::{shared_rows, A_LISTS};

/// How many of each are drawn.
const GOOD_QUOTES: usize = 800;
const HARD_QUOTES: usize = 350;
const LONG_QUOTES: usize = 8;
const FAULTY_QUOTES: usize = 250;
const DAMAGED_QUOTES: usize = 150;
const AUDITS: usize = 1_300;
const SEARCHES: usize = 1_200;
const LONG_SEARCHES: usize = 30;
const STOPPED_SEARCHES: usize = 3;
const MALFORMED_SEARCHES: usize = 250;
const WRITES: usize = 700;
const WRITTEN_READS: usize = 150;
const READS: usize = 450;
const LARGE_READS: usize = 24;
const FAULTY_READS: usize = 1_300;
const OTHER_FORMS: usize = 40;

pub fn cases(planner: &mut Planner) -> Vec<Case> {
    planner.board = Board::Shared;
    let mut cases: Vec<Case> = shared_rows().into_iter().map(|(_, case)| case).collect();
    let mut many = |count: usize, draw: &mut dyn FnMut(&mut Planner) -> Case| {
        for _ in 0..count {
            cases.push(draw(planner));
        }
    };
    many(GOOD_QUOTES, &mut Planner::good_quote);
    many(HARD_QUOTES, &mut Planner::hard_quote);
    many(LONG_QUOTES, &mut Planner::long_quote);
    many(FAULTY_QUOTES, &mut Planner::faulty_quote);
    many(DAMAGED_QUOTES, &mut Planner::damaged_quote);
    many(AUDITS, &mut Planner::audit);
    many(SEARCHES, &mut Planner::search);
    many(LONG_SEARCHES, &mut Planner::long_search);
    many(STOPPED_SEARCHES, &mut Planner::stopped_search);
    many(MALFORMED_SEARCHES, &mut Planner::malformed_search);
    many(WRITES, &mut Planner::write);
    many(WRITTEN_READS, &mut Planner::written_read);
    many(READS, &mut Planner::read);
    many(LARGE_READS, &mut Planner::large_read);
    many(FAULTY_READS, &mut Planner::faulty_read);
    many(OTHER_FORMS, &mut Planner::other_form);
    cases.extend(planner.largest_reads());
    cases.extend(cut_anywhere(&A_LISTS));
    cases.extend(one_byte_changed(&A_LISTS));
    planner.board = Board::Tree;
    cases
}

impl Planner {
    /// A stage as the writer makes it.
    fn written_read(&mut self) -> Case {
        let (n, m) = sizes(&mut self.rng);
        let tables = self.tables(n, m);
        Case::Read { board: self.board, stage: self.board.bytes_of(n.into(), m.into(), &tables) }
    }

    fn large_read(&mut self) -> Case {
        let (n, m) = sizes(&mut self.rng);
        Case::Read { board: self.board, stage: large_stage(&mut self.rng, n, m) }
    }

    /// The longest stage there is, and the same with a byte more.
    fn largest_reads(&mut self) -> [Case; 2] {
        let stage = largest_stage(&mut self.rng, 4, 4);
        let longer = [&stage[..], &[0x2F]].concat();
        [stage, longer].map(|stage| Case::Read { board: self.board, stage })
    }

    /// A stage in the form of the other board, read or audited.
    fn other_form(&mut self) -> Case {
        let (board, other) = self.rng.of(&[(Board::Tree, Board::Shared), (Board::Shared, Board::Tree)]);
        let sheet = self.short_draft(&[1, 2, 3]).sheet(&mut self.rng);
        let stage = boards::stage(other, &mut self.rng, sheet[1], sheet[2]);
        assert!(stage.len() <= LONGEST);
        if self.rng.once_in(2) {
            Case::Read { board, stage }
        } else {
            Case::Audit { board, sheet, stage }
        }
    }
}

/// A stage that ends too early, at every place.
fn cut_anywhere(stage: &[u8]) -> Vec<Case> {
    (0..stage.len()).map(|length| Case::Read { board: Board::Shared, stage: stage[..length].to_vec() }).collect()
}

/// A stage with one byte changed, at every place, to what may mean something
/// there.
fn one_byte_changed(stage: &[u8]) -> Vec<Case> {
    const VALUES: [u8; 13] = [0, 1, 2, 3, 4, 5, 0x20, 0x21, 0x26, 0x2F, 0xFD, 0xFE, 0xFF];
    let mut cases = Vec::new();
    for at in 0..stage.len() {
        for value in VALUES.into_iter().filter(|&value| value != stage[at]) {
            let mut stage = stage.to_vec();
            stage[at] = value;
            cases.push(Case::Read { board: Board::Shared, stage });
        }
    }
    cases
}

#[cfg(test)]
mod tests {
    use super::*;
    use crate::draw::diagram_faults::Part;
    use crate::random::Random;
    use crate::{fast, relation, sheet};
    use std::collections::HashMap;

    fn drawn() -> Vec<Case> {
        cases(&mut Planner { board: Board::Tree, rng: Random::new(105) })
    }

    /// What is due at the place of a refusal.
    fn due_at(place: usize, stage: &[u8]) -> Part {
        let mut at = 3;
        if place < at {
            return Part::Head;
        }
        for _ in 0..stage[2] {
            if place == at {
                return Part::Wire;
            }
            at += 3 + 3 * usize::from(stage[at + 2]);
            if place < at {
                return Part::Entry;
            }
            if place == at {
                return Part::Top;
            }
            at += 1;
        }
        Part::End
    }

    /// Every refusal of the reader, wherever it can come.
    #[test]
    fn every_refusal_at_every_part() {
        let mut met: HashMap<(u8, Part), usize> = HashMap::new();
        for case in drawn() {
            let Case::Read { board: Board::Shared, stage } = case else { continue };
            if let Err(r) = Board::Shared.read(&stage) {
                *met.entry((r.number, due_at(r.place, &stage))).or_default() += 1;
            }
        }
        assert_eq!(met.len(), 18, "{met:?}");
        assert!(met.values().all(|&met| met >= 10), "{met:?}");
    }

    /// Searches that the other board's count would answer otherwise.
    #[test]
    fn the_boards_differ() {
        let differ = |case: &Case| {
            let (budget, r) = match case {
                Case::Search { board, n, m, budget, sets } => (*budget, relation::handed(*board, *n, *m, sets)),
                Case::Quote { budget, sheet, .. } => {
                    (*budget, sheet::read(sheet).and_then(|unit| relation::of_unit(&unit)))
                }
                _ => return false,
            };
            r.is_ok_and(|r| {
                let [tree, shared] = crate::board::BOARDS.map(|board| fast::search(board, r.n, &r.sets, budget));
                tree != shared
            })
        };
        let count = drawn().iter().filter(|case| differ(case)).count();
        assert!(count > 300, "{count}");
    }
}
