//! The cases of document 02, E4, behind all others: on both boards, inputs that
//! are soldered through. No search is run to draw them, so that they stay as
//! they are whatever is counted.

use super::Planner;
use crate::board::{Board, BOARDS};
use crate::case::Case;
use crate::draw::damage::damage;
use crate::draw::relations::half_dense;
use crate::draw::{boards, straight};
use crate::random::Random;
use crate::rows::straight::straight_rows;

/// How many of each are drawn, for each board.
const QUOTES: usize = 200;
const AUDITS: usize = 180;
const SEARCHES: usize = 300;
const WRITES: usize = 240;
const READS: usize = 260;
const DAMAGED_READS: usize = 40;
/// Relations that are searched with each of the smallest budgets.
const SWEPT: usize = 60;
const BUDGETS: u32 = 12;

pub fn cases(planner: &mut Planner) -> Vec<Case> {
    let mut cases: Vec<Case> = straight_rows().into_iter().map(|(_, case)| case).collect();
    for board in BOARDS {
        planner.board = board;
        let mut many = |count: usize, draw: &mut dyn FnMut(&mut Planner) -> Case| {
            for _ in 0..count {
                cases.push(draw(planner));
            }
        };
        many(QUOTES, &mut Planner::straight_quote);
        many(AUDITS, &mut Planner::straight_audit);
        many(SEARCHES, &mut Planner::straight_search);
        many(WRITES, &mut Planner::straight_write);
        many(READS, &mut Planner::straight_read);
        many(DAMAGED_READS, &mut Planner::damaged_straight_read);
        for _ in 0..SWEPT {
            cases.extend(planner.swept_searches());
        }
    }
    planner.board = Board::Tree;
    cases
}

/// Sizes of all kinds; the larger ones more often.
fn sizes(rng: &mut Random) -> (u8, u8) {
    (rng.of(&[1, 2, 2, 3, 3, 3, 4, 4]), rng.of(&[1, 2, 2, 3, 3, 4]))
}

impl Planner {
    /// None, one, few, or as many as such sizes may well need.
    fn budget_for(&mut self, n: u8, m: u8) -> u32 {
        let few = self.rng.within(2, 9) as u32;
        let many = if n < 4 || m < 3 { u32::MAX } else { 250 };
        self.rng.of(&[0, 0, 1, 1, few, 40, many, many])
    }

    /// Room for any stage, for one of so many selectors, or for a byte less.
    fn room_for(&mut self, m: u8, selectors: u32) -> u16 {
        let length = self.board.length(m.into(), selectors) as u16;
        self.rng.of(&[255, length, length, length - 1])
    }

    /// The room is for the present stage, or for a small one.
    fn straight_quote(&mut self) -> Case {
        let (n, m) = sizes(&mut self.rng);
        let (draft, selectors) = if self.rng.once_in(2) {
            (straight::draft_of_limits(&mut self.rng, n, m), self.rng.within(0, usize::from(m) + 2) as u32)
        } else {
            let tables = straight::tables(&mut self.rng, n, m);
            let draft = straight::draft_of_stage(&mut self.rng, n, m, &tables);
            (draft, self.board.stage_selectors(n.into(), m.into(), &tables))
        };
        let sheet = draft.sheet(&mut self.rng);
        Case::Quote { board: self.board, budget: self.budget_for(n, m), room: self.room_for(m, selectors), sheet }
    }

    /// The present stage, as small as it can be or not, one that is nearly it, or
    /// any.
    fn straight_audit(&mut self) -> Case {
        let (n, m) = sizes(&mut self.rng);
        let tables = straight::tables(&mut self.rng, n, m);
        let sheet = straight::draft_of_stage(&mut self.rng, n, m, &tables).sheet(&mut self.rng);
        let (board, rng) = (self.board, &mut self.rng);
        let stage = match rng.below(5) {
            0 => board.bytes_of(n.into(), m.into(), &tables),
            1 | 2 => boards::padded(board, rng, n, m, &tables),
            3 => boards::turned(board, rng, n, m, &tables),
            _ => straight::stage(board, rng, n, m),
        };
        Case::Audit { board, sheet, stage }
    }

    fn straight_search(&mut self) -> Case {
        let (n, m) = sizes(&mut self.rng);
        let sets = straight::sets(&mut self.rng, n, m);
        Case::Search { board: self.board, n, m, budget: self.budget_for(n, m), sets }
    }

    /// One relation with every small budget: where it takes few visits, one of
    /// them is just enough and one a visit short, whatever is counted.
    fn swept_searches(&mut self) -> Vec<Case> {
        let (n, m) = self.rng.of(&[(2, 3), (3, 2), (3, 3)]);
        let sets = half_dense(&mut self.rng, n.into(), m.into()).sets;
        (0..BUDGETS).map(|budget| Case::Search { board: self.board, n, m, budget, sets }).collect()
    }

    fn straight_write(&mut self) -> Case {
        let (n, m) = sizes(&mut self.rng);
        let tables = straight::tables(&mut self.rng, n, m);
        let need = self.board.bytes_of(n.into(), m.into(), &tables).len();
        Case::Write { board: self.board, n, m, room: self.room(need), tables }
    }

    fn straight_read(&mut self) -> Case {
        let (n, m) = sizes(&mut self.rng);
        let stage = match self.rng.below(5) {
            0 => {
                let tables = straight::tables(&mut self.rng, n, m);
                boards::padded(self.board, &mut self.rng, n, m, &tables)
            }
            _ => straight::stage(self.board, &mut self.rng, n, m),
        };
        Case::Read { board: self.board, stage }
    }

    fn damaged_straight_read(&mut self) -> Case {
        let (n, m) = sizes(&mut self.rng);
        let stage = straight::stage(self.board, &mut self.rng, n, m);
        Case::Read { board: self.board, stage: damage(&mut self.rng, &stage) }
    }
}

#[cfg(test)]
mod tests {
    use super::*;
    use crate::diagram::{Diagram, Entry, FIRST};
    use crate::pick::Picker;
    use crate::plan::selectors;
    use crate::relation::{handed, of_unit, Relation};
    use crate::search::search;
    use crate::sheet::read;
    use crate::stage::Tree;
    use std::cmp::Ordering::{Equal, Greater, Less};
    use std::collections::HashMap;

    fn drawn() -> Vec<Case> {
        cases(&mut Planner { board: Board::Tree, rng: Random::new(106) })
    }

    /// The stages that are read or audited, where they read well.
    fn stages(board: Board) -> Vec<Vec<u8>> {
        let of_case = |case| match case {
            Case::Read { board, stage } | Case::Audit { board, stage, .. } => Some((board, stage)),
            _ => None,
        };
        let all = drawn().into_iter().filter_map(of_case);
        all.filter(|(on, stage)| *on == board && board.read(stage).is_ok()).map(|(_, stage)| stage).collect()
    }

    fn tree(bytes: &mut impl Iterator<Item = u8>) -> Tree {
        match bytes.next().expect("a tree") {
            0x22 => {
                let k = bytes.next().expect("an input");
                let (zero, one) = (tree(bytes), tree(bytes));
                Tree::Selector(k.into(), Box::new(zero), Box::new(one))
            }
            constant => Tree::Constant(constant == 0x24),
        }
    }

    /// What a tree is worth, if it is worth a constant.
    fn worth(tree: &Tree) -> Option<bool> {
        match tree {
            Tree::Constant(bit) => Some(*bit),
            Tree::Selector(_, zero, one) => worth(zero).filter(|bit| worth(one) == Some(*bit)),
        }
    }

    /// Counts each selector of a tree by its depth and by what its branches are:
    /// whether it is free, and what they are worth.
    fn count_selectors(tree: &Tree, depth: usize, met: &mut HashMap<(usize, bool, [Option<bool>; 2]), usize>) {
        if let Tree::Selector(_, zero, one) = tree {
            *met.entry((depth, tree.cells() == 0, [worth(zero), worth(one)])).or_default() += 1;
            count_selectors(zero, depth + 1, met);
            count_selectors(one, depth + 1, met);
        }
    }

    /// At every depth: inputs, inputs inverted, selectors that pass on one
    /// constant; and above the last input those with a larger branch, worth 0 or
    /// 1 as if they were an input.
    #[test]
    fn trees_of_every_make() {
        let mut met = HashMap::new();
        for stage in stages(Board::Tree) {
            let mut bytes = stage.iter().copied().skip(3);
            while bytes.next() == Some(0x21) {
                bytes.next();
                count_selectors(&tree(&mut bytes), 0, &mut met);
            }
        }
        let bits = |zero, one| [Some(zero), Some(one)];
        for depth in 0..4 {
            let count = |free, branches| met.get(&(depth, free, branches)).copied().unwrap_or(0);
            assert!(count(true, bits(false, true)) >= 10, "{depth} {met:?}");
            for branches in [bits(true, false), bits(false, false), bits(true, true)] {
                assert!(count(false, branches) >= 3, "{depth} {branches:?} {met:?}");
            }
            assert!(depth == 3 || count(false, bits(false, true)) >= 5, "{depth} {met:?}");
        }
    }

    /// The lists of a stage.
    fn lists(stage: &[u8]) -> Vec<Diagram> {
        let mut rest = &stage[3..];
        let mut all = Vec::new();
        while let [0x26, _, count, after @ ..] = rest {
            let (entries, after) = after.split_at(3 * usize::from(*count));
            let entries = entries.chunks(3).map(|it| Entry { input: it[0], zero: it[1], one: it[2] }).collect();
            all.push(Diagram { entries, top: after[0] });
            rest = &after[1..];
        }
        all
    }

    /// Inputs that are the top, named by others, listed again, and not reached;
    /// then inputs inverted, entries that pass on one constant, and entries that
    /// name one worth a constant.
    #[test]
    fn lists_of_every_make() {
        let mut met = [0; 8];
        for list in stages(Board::Shared).iter().flat_map(|stage| lists(stage)) {
            let named = |name: u8| list.entries.iter().any(|it| it.zero == name || it.one == name);
            let is_constant = |name: u8| {
                let entry = name.checked_sub(FIRST).map(|at| list.entries[usize::from(at)]);
                entry.is_some_and(|it| it.zero < FIRST && it.zero == it.one)
            };
            for (i, it) in list.entries.iter().enumerate() {
                let name = FIRST + i as u8;
                let straight = (it.zero, it.one) == (0, 1);
                for (met, is) in met.iter_mut().zip([
                    straight && list.top == name,
                    straight && named(name),
                    straight && list.entries[..i].contains(it),
                    straight && list.top != name && !named(name),
                    (it.zero, it.one) == (1, 0),
                    (it.zero, it.one) == (0, 0),
                    (it.zero, it.one) == (1, 1),
                    is_constant(it.zero) || is_constant(it.one),
                ]) {
                    *met += usize::from(is);
                }
            }
        }
        assert!(met.iter().all(|&met| met >= 20), "{met:?}");
    }

    /// What a search or a quote works on: the board, the budget, the relation.
    fn searched(case: &Case) -> Option<(Board, u32, Relation)> {
        let (board, budget, r) = match case {
            Case::Search { board, n, m, budget, sets } => (*board, *budget, handed(*board, *n, *m, sets)),
            Case::Quote { board, budget, sheet, .. } => (*board, *budget, read(sheet).and_then(|unit| of_unit(&unit))),
            _ => return None,
        };
        Some((board, budget, r.expect("drawn to be well defined")))
    }

    /// Searches on either board: such that visit parts, and end best or are
    /// stopped; such that find inputs, or cost nothing; and such that would find
    /// other tables if straight selectors were cells.
    #[test]
    fn searches_of_every_make() {
        let mut picker = Picker::new();
        let mut met = [[0; 5]; 2];
        for (board, budget, r) in drawn().iter().filter_map(searched) {
            let answer = search(board, &r, budget, &mut picker);
            let by_selectors = selectors::search(board, r.n, &r.sets, budget);
            for (met, is) in met[board as usize].iter_mut().zip([
                answer.visits > 0 && !answer.stopped,
                answer.visits > 0 && answer.stopped,
                answer.cells < board.stage_selectors(r.n, r.m, &answer.tables),
                answer.cells == 0,
                answer.tables != by_selectors.tables,
            ]) {
                *met += usize::from(is);
            }
        }
        assert!(met.as_flattened().iter().all(|&met| met >= 40), "{met:?}");
    }

    /// Budgets that are just enough, and a visit short of it.
    #[test]
    fn budgets_on_the_edge() {
        let mut picker = Picker::new();
        let mut met = [[0; 2]; 2];
        for (board, budget, r) in drawn().iter().filter_map(searched) {
            let answer = search(board, &r, budget, &mut picker);
            let one_more = search(board, &r, budget.saturating_add(1), &mut picker);
            let enough = answer.visits > 0 && answer.visits == budget && !answer.stopped;
            let short = answer.stopped && !one_more.stopped;
            for (met, is) in met[board as usize].iter_mut().zip([enough, short]) {
                *met += usize::from(is);
            }
        }
        assert!(met.as_flattened().iter().all(|&met| met >= 20), "{met:?}");
    }

    /// What is written, by the writer or by a quote, where its length is not told
    /// by its cells: into just that length, into less, and into more.
    #[test]
    fn rooms_of_every_length() {
        let mut picker = Picker::new();
        let mut met = HashMap::new();
        for case in drawn() {
            let (board, room, n, m, tables) = match case {
                Case::Write { board, n, m, room, tables } => (board, room, n.into(), m.into(), tables),
                Case::Quote { room, .. } => {
                    let (board, budget, r) = searched(&case).expect("a quote searches");
                    (board, room, r.n, r.m, search(board, &r, budget, &mut picker).tables)
                }
                _ => continue,
            };
            let need = board.length(m, board.stage_selectors(n, m, &tables));
            if board.length(m, board.stage_cells(n, m, &tables)) < need {
                *met.entry((case.kind(), usize::from(room).cmp(&need))).or_insert(0) += 1;
            }
        }
        for (kind, room) in b"QWqw".iter().flat_map(|&kind| [Less, Equal, Greater].map(|room| (kind, room))) {
            assert!(met.get(&(kind, room)).is_some_and(|&met| met >= 10), "{} {met:?}", char::from(kind));
        }
    }
}
