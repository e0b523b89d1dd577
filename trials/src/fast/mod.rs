//! The search of document 01, tuned for speed: the benchmark's other side, with
//! E4's inputs soldered through, and E5's six inputs on the tree board. So is the
//! forming of a unit's relation, in `forming`. This folder stands alone, but for
//! `board`, `cells`, `relation` and `sheet`, which have the types that it is
//! handed; `tests/agreement.rs` holds it to `search` and to `relation`.
//!
//! * There is one search for every count of cells and every number of inputs. It
//!   is compiled for each, and only the pick looks at the count.
//! * A pick is found as one key, the cells above the table's bits, so that "fewest
//!   cells, then the smallest number" is the smaller key. How, `tree` and
//!   `shared` say.
//! * What is kept for four wires stands in the lanes of one u64, for sixteen
//!   patterns: up to four inputs have one such word, five have two, six have
//!   four (Q). A split looks at the word that its pattern is in.
//! * Where 0 and 1 can stand is kept as the picks look at it, in `masks`, and so
//!   are the values of each pattern. A split changes one pattern's alone, and puts
//!   them back. A pick that still fits is still the pick, since the tables that
//!   fit only become fewer.
//! * A part that will be discarded is never formed: its floor is found first,
//!   and only as far as it takes to reach the best cells.
//! * The relation is also kept the other way round, in `by_value`: conflicts come
//!   out of it sixteen patterns at once. It is that of the whole, and is never
//!   narrowed: where a split has left a wire one bit, the pick has that bit, so
//!   that what the split dropped is no value of the picks anyway.
//! * Below the conflict all was in order. So conflicts are looked for from the
//!   first word on where a pick changed; where none did, the conflict stays.

// Patterns and wires are numbers here; loops go over the numbers.
#![allow(clippy::needless_range_loop)]

mod by_value;
mod forming;
mod lanes;
mod masks;
mod shared;
mod tree;

pub use forming::sets_of;

use crate::board::Board;
use crate::cells::Tables;
use crate::relation::Sets;
use by_value::ByValue;
use lanes::{lane, sides, sum, together, LANES, WIRES};
use masks::{Block, Masks};
use std::marker::PhantomData;

#[derive(Clone, Copy, PartialEq, Eq, Debug)]
pub struct Answer {
    pub tables: Tables,
    pub cells: u32,
    pub floor: u32,
    pub visits: u32,
    pub stopped: bool,
}

/// One cell, in a key of up to four inputs.
pub const CELL: u32 = 1 << 16;
/// The key of a block that no table fits; four of them do not overflow.
pub const NONE: u32 = 1024 * CELL;

/// A table and its cells.
#[derive(Clone, Copy, PartialEq, Eq, Debug)]
pub struct Pick {
    pub cells: u32,
    pub table: u64,
}

impl Pick {
    /// By a key of up to four inputs.
    #[inline(always)]
    pub fn of(key: u32) -> Pick {
        Pick { cells: key / CELL, table: (key % CELL).into() }
    }
}

/// A count of cells, told by its picks.
pub trait Count {
    /// The pick among N-input tables, from the masks of its blocks of eight
    /// patterns, the lower quarter's in the low byte.
    fn pick<const N: usize>(block: impl Fn(usize) -> u32) -> Pick;
}

/// The picks of a part: their tables, and their cells in lanes.
#[derive(Clone, Copy)]
struct Picks<const Q: usize> {
    tables: [u64; Q],
    cells: u64,
}

impl<const Q: usize> Picks<Q> {
    const NONE_YET: Self = Picks { tables: [0; Q], cells: 0 };

    #[inline(always)]
    fn put(&mut self, wire: usize, pick: Pick) {
        let at = 16 * wire;
        let others = !(0xFFFF << at);
        for q in 0..Q {
            self.tables[q] = self.tables[q] & others | u64::from((pick.table >> (16 * q)) as u16) << at;
        }
        self.cells = self.cells & others | u64::from(pick.cells) << at;
    }
}

/// The whole relation by value: its sets, and nothing past the last pattern.
#[inline(always)]
fn by_value<const N: usize, const Q: usize>(sets: &Sets) -> [ByValue; Q] {
    let set = |p: usize| if p < 1 << N { sets[p] } else { 0 };
    let four = |p: usize| together([0, 1, 2, 3].map(|i| set(p + i)));
    std::array::from_fn(|q| ByValue::of([0, 4, 8, 12].map(|p| four(16 * q + p))))
}

/// For each wire in turn the pick in what is left; that of wire 0 is known.
#[inline(always)]
fn first_answer<const N: usize, const Q: usize, C: Count>(whole: &[ByValue; Q], first: Pick) -> Picks<Q> {
    let mut picks = Picks::NONE_YET;
    let (mut left, mut pick) = (*whole, first);
    for j in 0..4 {
        if j > 0 {
            let quarters = left.map(|sixteen| masks::quarters_of(&sixteen, j));
            pick = C::pick::<N>(|number| masks::block_of(&quarters, number));
        }
        picks.put(j, pick);
        for q in 0..Q {
            left[q] = left[q].following(j, (pick.table >> (16 * q)) as u16);
        }
    }
    picks
}

/// A part that is split at a pattern, with the block of masks that it has there.
struct Divided<'a, const Q: usize> {
    tables: &'a [u64; Q],
    cells: u64,
    floor: u32,
    p: usize,
    block: Block,
}

/// The lowest wire whose lane has a bit.
#[inline(always)]
fn wire_of(lanes: u64) -> usize {
    (lanes.trailing_zeros() as usize / 16) & 3
}

struct Search<const N: usize, const Q: usize, C> {
    count: PhantomData<C>,
    whole: [ByValue; Q],
    /// Of the part at hand: for each pattern the values that can stand there, and
    /// for each wire where 0 and 1 can.
    values: Sets,
    masks: Masks,
    best: [u64; Q],
    best_cells: u32,
    visits: u32,
    budget: u32,
    stopped: bool,
}

impl<const N: usize, const Q: usize, C: Count> Search<N, Q, C> {
    /// The pick of a wire in the part at hand.
    #[inline(always)]
    fn pick(&self, wire: usize) -> Pick {
        C::pick::<N>(|number| self.masks.block::<N>(number, wire))
    }

    /// Charges a visit, if the budget has one left.
    #[inline(always)]
    fn charge(&mut self) -> bool {
        if self.visits == self.budget {
            self.stopped = true;
            return false;
        }
        self.visits += 1;
        true
    }

    /// A part that was charged: its picks are best so far, or it is split. Before
    /// that word there is no conflict.
    #[inline(always)]
    fn visit(&mut self, tables: &[u64; Q], cells: u64, word: usize) {
        let every = if N < 4 { (1 << (1 << N)) - 1 } else { u16::MAX };
        for q in word..Q {
            let conflicts = !self.whole[q].agreeing(tables[q]) & every;
            if conflicts != 0 {
                return self.split(tables, cells, 16 * q + conflicts.trailing_zeros() as usize);
            }
        }
        self.best = *tables;
        self.best_cells = sum(cells);
    }

    /// The lowest wire with both 0 and 1 at p: the part with 0, then with 1. The
    /// tables are lent and the cells are not, which was fastest.
    fn split(&mut self, tables: &[u64; Q], cells: u64, p: usize) {
        let (values, block) = (self.values[p], self.masks.at(p));
        let one = lane(WIRES, wire_of(block.open(p)));
        let part = Divided { tables, cells, floor: sum(cells), p, block };
        self.side(&part, values & !one);
        // Once stopped, nothing that is left can change the reply.
        if !self.stopped && part.floor < self.best_cells {
            self.side(&part, values & one);
        }
        self.values[p] = values;
        self.masks.put(p, block);
    }

    /// One side of a split: the values left at its pattern.
    #[inline(always)]
    fn side(&mut self, part: &Divided<Q>, values: u16) {
        let Divided { tables, cells, mut floor, p, block } = *part;
        let (zero, one) = sides(values);
        self.masks.put(p, block.cut(p, zero, one));
        let now = tables[p / 16] >> (p % 16) & LANES;
        let broken = now & !one | (now ^ LANES) & !zero;

        let mut picks = Picks { tables: *tables, cells };
        let mut left = broken;
        while left != 0 {
            let wire = wire_of(left);
            left &= left - 1;
            let pick = self.pick(wire);
            floor += pick.cells - u32::from(lane(cells, wire));
            if floor >= self.best_cells {
                return;
            }
            picks.put(wire, pick);
        }
        if !self.charge() {
            return;
        }
        self.values[p] = values;
        if broken == 0 {
            self.split(&picks.tables, picks.cells, p);
        } else {
            let changed = (0..p / 16).find(|&q| picks.tables[q] != tables[q]);
            self.visit(&picks.tables, picks.cells, changed.unwrap_or(p / 16));
        }
    }
}

fn run<const N: usize, const Q: usize, C: Count>(sets: &Sets, budget: u32) -> Answer {
    let whole = by_value::<N, Q>(sets);
    let mut s = Search::<N, Q, C> {
        count: PhantomData,
        whole,
        values: *sets,
        masks: Masks::of(&whole),
        best: [0; Q],
        best_cells: 0,
        visits: 0,
        budget,
        stopped: false,
    };
    let mut picks = Picks::NONE_YET;
    let found = [0, 1, 2, 3].map(|j| s.pick(j));
    for j in 0..4 {
        picks.put(j, found[j]);
    }
    let first = first_answer::<N, Q, C>(&whole, found[0]);
    (s.best, s.best_cells) = (first.tables, sum(first.cells));
    let floor = sum(picks.cells);
    if floor < s.best_cells && s.charge() {
        s.visit(&picks.tables, picks.cells, 0);
    }
    let table = |j: usize| (0..Q).fold(0, |table, q| table | u64::from(lane(s.best[q], j)) << (16 * q));
    Answer {
        tables: [0, 1, 2, 3].map(table),
        cells: s.best_cells,
        floor: if s.stopped { floor } else { s.best_cells },
        visits: s.visits,
        stopped: s.stopped,
    }
}

/// Searches a well-defined relation: n 1 to 6 on the tree board, 1 to 4 on the
/// other, no set below 2^n empty. Bits from 2^m up are not set, so m need not be
/// known: the wires from m up are 0.
pub fn search(board: Board, n: u32, sets: &Sets, budget: u32) -> Answer {
    match (board, n) {
        (Board::Tree, 5) => run::<5, 2, tree::Cells>(sets, budget),
        (Board::Tree, 6) => run::<6, 4, tree::Cells>(sets, budget),
        (Board::Tree, _) => search_by::<tree::Cells>(n, sets, budget),
        (Board::Shared, _) => search_by::<shared::Cells>(n, sets, budget),
    }
}

/// The same by any count, up to four inputs.
pub fn search_by<C: Count>(n: u32, sets: &Sets, budget: u32) -> Answer {
    match n {
        1 => run::<1, 1, C>(sets, budget),
        2 => run::<2, 1, C>(sets, budget),
        3 => run::<3, 1, C>(sets, budget),
        4 => run::<4, 1, C>(sets, budget),
        _ => panic!("more inputs than the board has, or none"),
    }
}

#[cfg(test)]
pub mod tests {
    use super::*;
    use crate::board::BOARDS;
    use crate::cells::{cells, full};
    use crate::draw::six;
    use crate::halving::Halving;
    use crate::pick::{fits, tables_by_cells, Projection};
    use crate::random::Random;

    fn quarters_of(it: &Projection) -> [u32; 4] {
        [0, 16, 32, 48].map(|p| masks::quarters((it.zeros >> p) as u16, (it.ones >> p) as u16))
    }

    /// The pick by any count, up to four inputs.
    pub fn pick_by<C: Count>(it: &Projection) -> Pick {
        let quarters = quarters_of(it);
        let block = |number: usize| masks::block_of(&quarters, number);
        match it.n {
            1 => C::pick::<1>(block),
            2 => C::pick::<2>(block),
            3 => C::pick::<3>(block),
            4 => C::pick::<4>(block),
            _ => unreachable!("more than four inputs"),
        }
    }

    fn pick(board: Board, it: &Projection) -> Pick {
        let quarters = quarters_of(it);
        let block = |number: usize| masks::block_of(&quarters, number);
        match (board, it.n) {
            (Board::Tree, 5) => tree::Cells::pick::<5>(block),
            (Board::Tree, 6) => tree::Cells::pick::<6>(block),
            (Board::Tree, _) => pick_by::<tree::Cells>(it),
            (Board::Shared, _) => pick_by::<shared::Cells>(it),
        }
    }

    /// A table with its cells.
    fn told(board: Board, n: u32, table: u64) -> Pick {
        Pick { cells: board.cells(n, table), table }
    }

    /// The pick by trying all tables, cheap ones first.
    fn by_trying(board: Board, tables: &[u64], it: &Projection) -> Pick {
        told(board, it.n, *tables.iter().find(|&&t| fits(it, t)).expect("some table fits"))
    }

    /// Up to three inputs, every projection: at each pattern 0, 1 or both.
    #[test]
    fn every_small_pick() {
        for (board, n) in BOARDS.into_iter().flat_map(|board| (1..=3).map(move |n| (board, n))) {
            let tables = tables_by_cells(board, n);
            for zeros in 0..=full(n) {
                for ones in 0..=full(n) {
                    if zeros | ones == full(n) {
                        let it = Projection { n, zeros, ones };
                        assert_eq!(pick(board, &it), by_trying(board, &tables, &it), "{board:?} {it:?}");
                    }
                }
            }
        }
    }

    /// Four inputs: every table by itself, and projections with few, half, many
    /// and nearly all patterns that may be either.
    #[test]
    fn picks_of_four_inputs() {
        for board in BOARDS {
            let tables = tables_by_cells(board, 4);
            for table in 0..=full(4) {
                let it = Projection { n: 4, zeros: !table & full(4), ones: table };
                assert_eq!(pick(board, &it), told(board, 4, table));
            }
            let mut rng = Random::new(15);
            for i in 0..80_000 {
                let (table, any, more) = (rng.word(), rng.word(), rng.word());
                let free = [any & more, any, any | more, any | more | rng.word()][i % 4];
                let it = Projection { n: 4, zeros: (!table | free).into(), ones: (table | free).into() };
                assert_eq!(pick(board, &it), by_trying(board, &tables, &it), "{board:?} {it:?}");
            }
        }
    }

    /// The next projection: at the lowest pattern 0, then 1, then both, then 0
    /// again and on to the next pattern.
    fn next(it: &mut Projection) -> bool {
        for bit in (0..16).map(|p| 1 << p) {
            match (it.zeros & bit != 0, it.ones & bit != 0) {
                (true, true) => it.ones ^= bit,
                (true, false) => {
                    (it.zeros, it.ones) = (it.zeros ^ bit, it.ones ^ bit);
                    return true;
                }
                _ => {
                    it.zeros ^= bit;
                    return true;
                }
            }
        }
        false
    }

    /// Four inputs, every projection: with both at some pattern, the lesser of
    /// the keys with 0 there and with 1 there, which came earlier.
    #[test]
    fn every_pick_of_four_inputs() {
        for board in BOARDS {
            let mut least: Vec<u32> = Vec::with_capacity(3usize.pow(16));
            let mut it = Projection { n: 4, zeros: full(4), ones: 0 };
            loop {
                let both = it.zeros & it.ones;
                let expected = if both == 0 {
                    board.cells(4, it.ones) * CELL + it.ones as u32
                } else {
                    let back = 3usize.pow(both.trailing_zeros());
                    least[least.len() - back].min(least[least.len() - 2 * back])
                };
                assert_eq!(pick(board, &it), Pick::of(expected), "{board:?} {it:?}");
                least.push(expected);
                if !next(&mut it) {
                    break;
                }
            }
            assert_eq!(least.len(), 3usize.pow(16));
        }
    }

    /// A projection that a table fits, with these patterns open.
    fn around(n: u32, table: u64, open: u64) -> Projection {
        Projection { n, zeros: (!table | open) & full(n), ones: (table | open) & full(n) }
    }

    /// Five and six inputs, from no pattern open to all, against the pick of the
    /// trials.
    #[test]
    fn picks_of_six_inputs() {
        let halving = Halving::new();
        let mut rng = Random::new(61);
        let mut met = [0; 64];
        for i in 0..60_000 {
            let n = 5 + i % 2;
            // Often nearly a table of few cells, with some patterns turned that
            // stay open.
            let (any, more, most) = (rng.bits(), rng.bits(), rng.bits());
            let open = rng.of(&[0, any & more & most, any & more, any, any | more, any | more | most, !0]);
            let it = around(n, six::table(&mut rng, n) ^ rng.bits() & open, open);
            let found = pick(Board::Tree, &it);
            assert_eq!(found, told(Board::Tree, n, halving.pick(&it)), "{it:x?}");
            met[found.cells as usize] += 1;
        }
        assert!(met[..24].iter().all(|&met| met >= 50), "{met:?}");
    }

    /// Five and six inputs, up to ten patterns open, against every table that
    /// fits.
    #[test]
    fn picks_where_little_is_open() {
        let mut rng = Random::new(62);
        for i in 0..3_000 {
            let n = 5 + i % 2;
            let table = six::table(&mut rng, n);
            let open = (0..rng.within(0, 10)).fold(0, |open, _| open | 1 << rng.below(1 << n));
            let every = std::iter::successors(Some(open), |part: &u64| part.checked_sub(1).map(|below| below & open));
            let priced = every.map(|part| table & !open | part).map(|table| (cells(n, table), table));
            let (cells, least) = priced.min().expect("one at least");
            let it = around(n, table, open);
            assert_eq!(pick(Board::Tree, &it), Pick { cells, table: least }, "{it:x?}");
        }
    }
}
