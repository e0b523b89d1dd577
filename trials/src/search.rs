//! Document 01, "Search": exactly as written, one step after another. The board
//! is handed down to where a table's cells are counted.

use crate::board::Board;
use crate::cells::Tables;
use crate::pick::Picker;
use crate::relation::Relation;

/// The search's reply.
#[derive(Clone, Copy, PartialEq, Eq, Debug)]
pub struct Answer {
    pub tables: Tables,
    pub cells: u32,
    pub floor: u32,
    pub visits: u32,
    pub stopped: bool,
}

struct Search<'a> {
    board: Board,
    picker: &'a mut Picker,
    best: Tables,
    best_cells: u32,
    visits: u32,
    budget: u32,
    stopped: bool,
}

pub fn search(board: Board, r: &Relation, budget: u32, picker: &mut Picker) -> Answer {
    let best = first_answer(board, r, picker);
    let root_floor = floor(board, r, picker);
    let best_cells = board.stage_cells(r.n, r.m, &best);
    let mut s = Search { board, picker, best, best_cells, visits: 0, budget, stopped: false };
    s.treat(r);
    Answer {
        tables: s.best,
        cells: s.best_cells,
        floor: if s.stopped { root_floor } else { s.best_cells },
        visits: s.visits,
        stopped: s.stopped,
    }
}

/// The first answer: each wire, the lowest first, is given its pick, and only
/// the values that have it so are kept for the next wire.
pub fn first_answer(board: Board, r: &Relation, picker: &mut Picker) -> Tables {
    let mut left = *r;
    let mut tables = [0; 4];
    for j in 0..r.m {
        let table = picker.pick(board, &crate::pick::project(&left, j));
        for p in 0..r.patterns() {
            left = with_wire(&left, p, j, table >> p & 1);
        }
        tables[j as usize] = table;
    }
    tables
}

/// The floor: the sum of the picks' cells.
pub fn floor(board: Board, r: &Relation, picker: &mut Picker) -> u32 {
    board.stage_cells(r.n, r.m, &picker.picks(board, r))
}

/// The relation with that wire at that bit on that pattern.
fn with_wire(r: &Relation, p: usize, wire: u32, bit: u64) -> Relation {
    let mut part = *r;
    for v in 0..1u64 << r.m {
        if v >> wire & 1 != bit {
            part.sets[p] &= !(1 << v);
        }
    }
    part
}

/// Whether 0 and 1 both occur on that wire at that pattern.
fn has_both(r: &Relation, p: usize, wire: u32) -> bool {
    let occurs = |bit| with_wire(r, p, wire, bit).sets[p] != 0;
    occurs(0) && occurs(1)
}

/// The value the tables give on a pattern.
pub fn value_at(m: u32, tables: &Tables, p: usize) -> u16 {
    (0..m as usize).map(|j| ((tables[j] >> p & 1) as u16) << j).sum()
}

/// The lowest pattern where the tables' value is not in the part.
fn lowest_conflict(r: &Relation, tables: &Tables) -> Option<usize> {
    (0..r.patterns()).find(|&p| r.sets[p] >> value_at(r.m, tables, p) & 1 == 0)
}

impl Search<'_> {
    fn treat(&mut self, part: &Relation) {
        // 1. Discarded at no charge.
        if floor(self.board, part, self.picker) >= self.best_cells {
            return;
        }
        // 2. The budget is used up.
        if self.visits == self.budget {
            self.stopped = true;
            return;
        }
        // 3. One visit.
        self.visits += 1;
        let picks = self.picker.picks(self.board, part);
        let Some(p) = lowest_conflict(part, &picks) else {
            self.best = picks;
            self.best_cells = self.board.stage_cells(part.n, part.m, &picks);
            return;
        };
        // 4. Split.
        let wire = (0..part.m).find(|&j| has_both(part, p, j)).expect("a pattern in conflict has an open wire");
        self.treat(&with_wire(part, p, wire, 0));
        self.treat(&with_wire(part, p, wire, 1));
    }
}
