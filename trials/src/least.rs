//! The second solver: the least cells of any stage compatible with a
//! relation, found by trying every function, with no splitting, no picks and
//! no first answer. Three ways, the slower ones to check the faster:
//!
//! * `plain`: every function of the whole relation, one after another. For any
//!   number of inputs, where there are few functions; the others are for up to
//!   four inputs, and `products` is for more.
//! * `by_halves`: every function on the lower half of the patterns and every
//!   function on the upper half, joined exactly. For trees alone: what halves
//!   cost together, selectors shared, is not told by what each costs.
//! * `by_tables`: every table for wire 0, then for wire 1, and so on, cheap
//!   ones first, as long as they can still undercut the cheapest stage known.
//!
//! The sets may be empty or not: without a compatible function the reply is
//! `None`.

use crate::board::Board;
use crate::cells::{cells, full, Tables};
use crate::relation::{Sets, ONE};
use std::borrow::Cow;
use std::collections::HashMap;

/// The sets of up to four inputs.
type Narrow = [u16; 16];

/// One table (or part of one) for each wire.
type Tuple = [u8; 4];

fn members(set: u16) -> impl Iterator<Item = usize> {
    (0..16).filter(move |v| set >> v & 1 == 1)
}

/// How many functions the sets allow, or more than can be told.
pub fn functions(sets: &[u16]) -> u64 {
    sets.iter().fold(1, |all, s| all.saturating_mul(s.count_ones().into()))
}

/// Every function of the whole relation, one after another. For few of them.
pub fn plain(board: Board, n: u32, m: u32, sets: &Sets) -> Option<u32> {
    fn go(board: Board, (n, m): (u32, u32), sets: &Sets, p: usize, tables: &mut Tables, least: &mut Option<u32>) {
        if p == 1 << n {
            let price = board.stage_cells(n, m, tables);
            *least = Some(least.map_or(price, |l| l.min(price)));
            return;
        }
        for v in members(sets[p]) {
            for j in 0..m as usize {
                tables[j] = tables[j] & !(1 << p) | ((v >> j & 1) as u64) << p;
            }
            go(board, (n, m), sets, p + 1, tables, least);
        }
        for table in tables.iter_mut() {
            *table &= !(1 << p);
        }
    }
    let mut least = None;
    go(board, (n, m), sets, 0, &mut [0; 4], &mut least);
    least
}

/// Every function on a block of at most 8 patterns.
fn every_function(m: usize, sets: &[u16]) -> Vec<Tuple> {
    let mut all = vec![[0; 4]];
    for (i, &set) in sets.iter().enumerate() {
        let mut longer = Vec::with_capacity(all.len() * set.count_ones() as usize);
        for tuple in &all {
            for v in members(set) {
                let mut next = *tuple;
                for j in 0..m {
                    next[j] |= ((v >> j & 1) as u8) << i;
                }
                longer.push(next);
            }
        }
        all = longer;
    }
    all
}

/// The cheapest entry for each key; an array for short keys.
enum Ledger {
    Short(Vec<u16>),
    Long(HashMap<u32, u16>),
}

impl Ledger {
    fn new(key_bits: usize) -> Ledger {
        if key_bits <= 16 {
            Ledger::Short(vec![u16::MAX; 1 << key_bits])
        } else {
            Ledger::Long(HashMap::new())
        }
    }

    fn lower(&mut self, key: u32, price: u16) {
        let old = match self {
            Ledger::Short(prices) => &mut prices[key as usize],
            Ledger::Long(prices) => prices.entry(key).or_insert(u16::MAX),
        };
        *old = price.min(*old);
    }

    fn get(&self, key: u32) -> Option<u16> {
        match self {
            Ledger::Short(prices) => Some(prices[key as usize]).filter(|&c| c != u16::MAX),
            Ledger::Long(prices) => prices.get(&key).copied(),
        }
    }
}

/// How the two halves of a wire are to go together.
#[derive(Clone, Copy, PartialEq, Eq)]
enum Halves {
    /// One is paid for.
    Equal,
    /// Both are paid for, and a selector.
    Apart,
    /// 0 below and 1 above: nothing is paid for.
    Straight,
}

/// Every choice of these for so many wires.
fn every_choice(wires: usize) -> Vec<Vec<Halves>> {
    let mut all = vec![vec![]];
    for _ in 0..wires {
        let longer = |choice: &Vec<Halves>| {
            [Halves::Equal, Halves::Apart, Halves::Straight].map(|halves| [&choice[..], &[halves]].concat())
        };
        all = all.iter().flat_map(longer).collect();
    }
    all
}

/// Every function on either half. For each choice of how the halves of each wire
/// are to go together: the cheapest lower half and the cheapest upper half that
/// do so. (A wire whose halves are called apart and happen to be equal or
/// straight is only priced too high here, and right where they are called so.)
pub fn by_halves(n: u32, m: u32, sets: &Narrow) -> Option<u32> {
    let width = 1usize << (n - 1);
    let wires = m as usize;
    let lower = every_function(wires, &sets[..width]);
    let upper = every_function(wires, &sets[width..2 * width]);
    let price: Vec<u16> = (0..1u64 << width).map(|t| cells(n - 1, t) as u16).collect();

    let mut least: Option<u16> = None;
    for choice in every_choice(wires) {
        let with = |halves: Halves| (0..wires).filter(|&j| choice[j] == halves).collect::<Vec<usize>>();
        let (equal, apart, straight) = (with(Halves::Equal), with(Halves::Apart), with(Halves::Straight));
        let cost = |tuple: &Tuple, some: &[usize]| -> u16 { some.iter().map(|&j| price[usize::from(tuple[j])]).sum() };
        let key = |tuple: &Tuple| equal.iter().fold(0u32, |key, &j| key << width | u32::from(tuple[j]));
        let suits = |tuple: &&Tuple, half: u64| straight.iter().all(|&j| u64::from(tuple[j]) == half);

        let mut ledger = Ledger::new(width * equal.len());
        for tuple in lower.iter().filter(|tuple| suits(tuple, 0)) {
            ledger.lower(key(tuple), cost(tuple, &apart));
        }
        for tuple in upper.iter().filter(|tuple| suits(tuple, full(n - 1))) {
            if let Some(below) = ledger.get(key(tuple)) {
                let total = below + cost(tuple, &apart) + apart.len() as u16 + cost(tuple, &equal);
                least = Some(least.map_or(total, |l| l.min(total)));
            }
        }
    }
    least.map(u32::from)
}

/// A table and its cells, the cells first.
type Priced = (u32, u16);

/// The cells of all tables on a board.
pub struct Prices {
    board: Board,
    /// For each number of inputs, by the table's number.
    cells: [Vec<u8>; 5],
    /// The same, cheap ones first.
    sorted: [Vec<Priced>; 5],
}

impl Prices {
    pub fn new(board: Board) -> Prices {
        let cells = [0, 1, 2, 3, 4].map(|n| (0..=full(n)).map(|t| board.cells(n, t) as u8).collect::<Vec<u8>>());
        let sorted = [0, 1, 2, 3, 4].map(|n| {
            let mut all: Vec<Priced> = cells[n].iter().map(|&price| price.into()).zip(0..=u16::MAX).collect();
            all.sort_unstable();
            all
        });
        Prices { board, cells, sorted }
    }
}

/// The reply of `by_tables` when it was told to try no more.
#[derive(Clone, Copy, PartialEq, Eq, Debug)]
pub struct GaveUp;

struct ByTables<'a> {
    n: u32,
    m: u32,
    prices: &'a Prices,
    least: Option<u32>,
    steps: u64,
}

/// Every table for each wire in turn; gives up after so many steps, each a look
/// at a table, or at the few that a wire can have.
pub fn by_tables(prices: &Prices, n: u32, m: u32, sets: &Narrow, steps: u64) -> Result<Option<u32>, GaveUp> {
    let mut it = ByTables { n, m, prices, least: None, steps };
    it.wire(0, sets, 0)?;
    Ok(it.least)
}

/// A wire's patterns: those that must be 1, those that may be either; the rest
/// must be 0.
#[derive(Clone, Copy)]
struct Bits {
    must: u16,
    free: u16,
}

impl Bits {
    fn allow(self, table: u16) -> bool {
        table & !self.free == self.must
    }

    /// All tables that are allowed, from the highest down.
    fn allowed(self) -> impl Iterator<Item = u16> {
        let next = move |part: &u16| part.checked_sub(1).map(|below| below & self.free);
        std::iter::successors(Some(self.free), next).map(move |part| self.must | part)
    }
}

impl<'a> ByTables<'a> {
    /// What the sets leave to a wire; `None` if one of them is empty.
    fn bits(&self, sets: &Narrow, wire: u32) -> Option<Bits> {
        let mut bits = Bits { must: 0, free: 0 };
        for p in 0..1usize << self.n {
            let (zero, one) = (sets[p] & !ONE[wire as usize] != 0, sets[p] & ONE[wire as usize] != 0);
            if !zero && !one {
                return None;
            }
            bits.must |= u16::from(!zero) << p;
            bits.free |= u16::from(zero && one) << p;
        }
        Some(bits)
    }

    /// Whether so few tables are allowed that they are better listed than
    /// looked for among all.
    fn are_few(&self, bits: Bits) -> bool {
        self.prices.cells[self.n as usize].len() >> bits.free.count_ones() >= 128
    }

    fn price(&self, table: u16) -> u32 {
        self.prices.cells[self.n as usize][usize::from(table)].into()
    }

    /// The tables to be looked at for a wire, cheap ones first: those that
    /// leave a stage cheaper than the cheapest known, or all.
    fn tables(&self, bits: Bits, spent: u32) -> Cow<'a, [Priced]> {
        if !self.are_few(bits) {
            return Cow::Borrowed(&self.prices.sorted[self.n as usize]);
        }
        let priced = bits.allowed().map(|table| (self.price(table), table));
        let mut all: Vec<Priced> = priced.filter(|&(price, _)| self.undercuts(spent + price)).collect();
        all.sort_unstable();
        Cow::Owned(all)
    }

    /// Whether a stage of so many cells is cheaper than the cheapest known.
    fn undercuts(&self, cells: u32) -> bool {
        self.least.is_none_or(|least| cells < least)
    }

    /// The cells of the cheapest table that a wire can have at all.
    fn cheapest(&mut self, bits: Bits) -> Result<u32, GaveUp> {
        if self.are_few(bits) {
            self.step()?;
            return Ok(bits.allowed().map(|table| self.price(table)).min().expect("one at least"));
        }
        for &(price, table) in &self.prices.sorted[self.n as usize] {
            self.step()?;
            if bits.allow(table) {
                return Ok(price);
            }
        }
        unreachable!("no set is empty")
    }

    fn step(&mut self) -> Result<(), GaveUp> {
        self.steps = self.steps.checked_sub(1).ok_or(GaveUp)?;
        Ok(())
    }

    /// The sets left when the wire follows the table.
    fn left(&self, sets: &Narrow, wire: u32, table: u16) -> Narrow {
        let mut left = *sets;
        for p in 0..1usize << self.n {
            left[p] &= if table >> p & 1 == 1 { ONE[wire as usize] } else { !ONE[wire as usize] };
        }
        left
    }

    fn wire(&mut self, wire: u32, sets: &Narrow, spent: u32) -> Result<(), GaveUp> {
        if wire == self.m {
            self.least = Some(self.least.map_or(spent, |l| l.min(spent)));
            return Ok(());
        }
        let mut rest = 0;
        for later in wire + 1..self.m {
            let Some(bits) = self.bits(sets, later) else { return Ok(()) };
            rest += self.cheapest(bits)?;
            if !self.undercuts(spent + rest) {
                return Ok(());
            }
        }
        let Some(bits) = self.bits(sets, wire) else { return Ok(()) };
        for &(price, table) in self.tables(bits, spent + rest).iter() {
            self.step()?;
            if !self.undercuts(spent + price + rest) {
                break;
            }
            if bits.allow(table) {
                self.wire(wire + 1, &self.left(sets, wire, table), spent + price)?;
            }
        }
        Ok(())
    }
}

/// The least cells of up to four inputs by whichever way is short enough: trees
/// by halves always up to three inputs and for few functions, else by tables until
/// it gives up.
pub fn least(prices: &Prices, n: u32, m: u32, sets: &Narrow) -> Result<Option<u32>, GaveUp> {
    const FEW: u64 = 10_000;
    const STEPS: u64 = 200_000;
    let width = 1usize << (n - 1);
    let most = functions(&sets[..width]).max(functions(&sets[width..2 * width]));
    if prices.board == Board::Tree && (n <= 3 || most <= FEW) {
        Ok(by_halves(n, m, sets))
    } else {
        by_tables(prices, n, m, sets, STEPS)
    }
}

#[cfg(test)]
mod tests {
    use super::*;
    use crate::board::BOARDS;
    use crate::random::Random;
    use crate::sheet::MOST_PATTERNS;

    /// Sets of few values, now and then an empty one.
    fn few(rng: &mut Random, n: u32, m: u32, most: usize) -> Sets {
        let mut sets = [0; MOST_PATTERNS];
        for set in sets.iter_mut().take(1 << n) {
            for _ in 0..rng.within(1, most) {
                *set |= 1 << rng.below(1 << m);
            }
        }
        if rng.once_in(20) {
            sets[rng.below(1 << n)] = 0;
        }
        sets
    }

    /// All sizes, many times over.
    fn drawn(mut each: impl FnMut(u32, u32, &Sets, &Narrow)) {
        let mut rng = Random::new(77);
        for (n, m) in (1..=4).flat_map(|n| (1..=4).map(move |m| (n, m))) {
            for _ in 0..60 {
                let sets = few(&mut rng, n, m, if n == 4 { 2 } else { 4 });
                each(n, m, &sets, sets.first_chunk().expect("enough"));
            }
        }
    }

    #[test]
    fn the_ways_agree() {
        for board in BOARDS {
            let prices = Prices::new(board);
            let mut held = 0;
            drawn(|n, m, sets, narrow| {
                let by_tables = by_tables(&prices, n, m, narrow, 300_000);
                if functions(&sets[..1 << n]) <= 20_000 && by_tables.is_ok() {
                    assert_eq!(by_tables, Ok(plain(board, n, m, sets)));
                    held += 1;
                }
            });
            assert!(held > 400, "{board:?}: {held}");
        }
    }

    #[test]
    fn trees_by_halves_agree() {
        let prices = Prices::new(Board::Tree);
        drawn(|n, m, sets, narrow| {
            let halves = by_halves(n, m, narrow);
            if functions(&sets[..1 << n]) <= 20_000 {
                assert_eq!(plain(Board::Tree, n, m, sets), halves);
            }
            if let Ok(least) = by_tables(&prices, n, m, narrow, 300_000) {
                assert_eq!(least, halves);
            }
        });
    }

    #[test]
    fn no_function_where_a_set_is_empty() {
        let mut sets = [1; MOST_PATTERNS];
        sets[3] = 0;
        let narrow = sets.first_chunk().expect("enough");
        assert_eq!(by_halves(2, 2, narrow), None);
        for board in BOARDS {
            assert_eq!(plain(board, 2, 2, &sets), None);
            assert_eq!(by_tables(&Prices::new(board), 2, 2, narrow, 1), Ok(None));
        }
    }
}
