//! Document 01, "Search": projection, pick and floor, as literally defined: up
//! to four inputs by looking at every table. For five and six, on the tree board,
//! see `halving`.

use crate::board::{Board, BOARDS};
use crate::cells::{full, Tables};
use crate::halving::Halving;
use crate::relation::{Relation, ONE};
use std::collections::HashMap;

/// The projection on one wire: where 0 occurs and where 1 occurs.
#[derive(Clone, Copy, PartialEq, Eq, Hash, Debug)]
pub struct Projection {
    pub n: u32,
    pub zeros: u64,
    pub ones: u64,
}

pub fn project(r: &Relation, wire: u32) -> Projection {
    let mut it = Projection { n: r.n, zeros: 0, ones: 0 };
    for p in 0..r.patterns() {
        let (zero, one) = (r.sets[p] & !ONE[wire as usize], r.sets[p] & ONE[wire as usize]);
        it.zeros |= u64::from(zero != 0) << p;
        it.ones |= u64::from(one != 0) << p;
    }
    it
}

/// Whether every bit of the table occurs in the projection.
pub fn fits(it: &Projection, table: u64) -> bool {
    table & !it.ones == 0 && !table & full(it.n) & !it.zeros == 0
}

/// All tables of n inputs, by (cells, number).
pub fn tables_by_cells(board: Board, n: u32) -> Vec<u64> {
    let mut all: Vec<u64> = (0..=full(n)).collect();
    all.sort_by_cached_key(|&t| (board.cells(n, t), t));
    all
}

/// Finds picks; remembers those found, since the same ones come up often.
pub struct Picker {
    /// For each board, the tables of four inputs.
    by_cells: [Vec<u64>; 2],
    halving: Halving,
    found: HashMap<(Board, Projection), u64>,
}

/// So many are remembered at most; then it begins anew.
const REMEMBERED: usize = 1 << 20;

impl Default for Picker {
    fn default() -> Self {
        Picker::new()
    }
}

impl Picker {
    pub fn new() -> Picker {
        Picker {
            by_cells: BOARDS.map(|board| tables_by_cells(board, 4)),
            halving: Halving::new(),
            found: HashMap::new(),
        }
    }

    /// The pick: fewest cells, then the smallest number.
    pub fn pick(&mut self, board: Board, it: &Projection) -> u64 {
        if let Some(&table) = self.found.get(&(board, *it)) {
            return table;
        }
        let table = match (it.n, board) {
            (1..=3, _) => try_every_table(board, it),
            (4, _) => self.first_that_fits(board, it),
            (_, Board::Tree) => self.halving.pick(it),
            (_, Board::Shared) => unreachable!("this board has at most four inputs"),
        };
        if self.found.len() == REMEMBERED {
            self.found.clear();
        }
        self.found.insert((board, *it), table);
        table
    }

    fn first_that_fits(&self, board: Board, it: &Projection) -> u64 {
        let tables = &self.by_cells[board as usize];
        *tables.iter().find(|&&t| fits(it, t)).expect("a well-defined relation has a pick")
    }

    /// The picks of all wires; 0 past wire m-1.
    pub fn picks(&mut self, board: Board, r: &Relation) -> Tables {
        let mut tables = [0; 4];
        for j in 0..r.m {
            tables[j as usize] = self.pick(board, &project(r, j));
        }
        tables
    }
}

/// Up to three inputs: look at every table.
pub fn try_every_table(board: Board, it: &Projection) -> u64 {
    let mut best: Option<(u32, u64)> = None;
    for table in 0..=full(it.n) {
        if fits(it, table) {
            let price = (board.cells(it.n, table), table);
            if best.is_none_or(|b| price < b) {
                best = Some(price);
            }
        }
    }
    best.expect("a well-defined relation has a pick").1
}
