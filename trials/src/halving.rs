//! The pick on the tree board where there are too many tables to try each
//! (document 02, E5: five and six inputs), in two steps:
//!
//! * the fewest cells of any table that fits, by halving down to three inputs,
//!   where every table was tried for every projection;
//! * then the smallest number of so few cells, one pattern after another from
//!   the highest down: 0 there, if a table of so few cells still fits.
//!
//! It serves any number of inputs; the tests hold it to all tables of up to four,
//! and of five and six to all where few patterns are open, and to all tables of
//! few cells where many are.

use crate::cells::{cells, full};
use crate::pick::Projection;

/// More cells than any table has: nothing fits.
const NONE: u32 = 1_000;

/// The fewest cells of three inputs, by where 0 and where 1 can stand.
pub struct Halving {
    three: Vec<u32>,
}

impl Default for Halving {
    fn default() -> Self {
        Halving::new()
    }
}

impl Halving {
    pub fn new() -> Halving {
        let mut three = vec![NONE; 1 << 16];
        for table in 0..=full(3) {
            let price = cells(3, table);
            // It fits where its ones can be 1 and its zeros 0.
            for zeros in (0..=full(3)).filter(|zeros| !table & full(3) & !zeros == 0) {
                for ones in (0..=full(3)).filter(|ones| table & !ones == 0) {
                    let least = &mut three[(zeros << 8 | ones) as usize];
                    *least = price.min(*least);
                }
            }
        }
        Halving { three }
    }

    /// The fewest cells of any table that fits.
    pub fn fewest(&self, it: &Projection) -> Option<u32> {
        Some(self.least(it.n, it.zeros, it.ones)).filter(|&least| least < NONE)
    }

    fn least(&self, n: u32, zeros: u64, ones: u64) -> u32 {
        if n == 3 {
            return self.three[(zeros << 8 | ones) as usize];
        }
        if n == 0 {
            return if zeros | ones == 0 { NONE } else { 0 };
        }
        let (width, half) = (1 << (n - 1), full(n - 1));
        let (zeros_low, zeros_high) = (zeros & half, zeros >> width);
        let (ones_low, ones_high) = (ones & half, ones >> width);
        // The first input itself.
        if zeros_low == half && ones_high == half {
            return 0;
        }
        let equal = self.least(n - 1, zeros_low & zeros_high, ones_low & ones_high);
        let apart = 1 + self.least(n - 1, zeros_low, ones_low) + self.least(n - 1, zeros_high, ones_high);
        equal.min(apart).min(NONE)
    }

    /// The pick: the smallest number among the tables of fewest cells that fit.
    pub fn pick(&self, it: &Projection) -> u64 {
        let least = self.fewest(it).expect("a well-defined relation has a pick");
        let Projection { n, mut zeros, mut ones } = *it;
        for bit in (0..1u32 << n).rev().map(|p| 1u64 << p) {
            if zeros & ones & bit == 0 {
                continue;
            }
            if self.least(n, zeros, ones & !bit) == least {
                ones &= !bit;
            } else {
                zeros &= !bit;
            }
        }
        ones
    }
}

#[cfg(test)]
mod tests {
    use super::*;
    use crate::board::Board;
    use crate::pick::{fits, tables_by_cells, try_every_table};
    use crate::random::Random;

    fn hold(halving: &Halving, it: &Projection, expected: u64) {
        assert_eq!(halving.pick(it), expected, "{it:x?}");
        assert_eq!(halving.fewest(it), Some(cells(it.n, expected)), "{it:x?}");
    }

    /// Up to three inputs, every projection against every table.
    #[test]
    fn every_small_pick() {
        let halving = Halving::new();
        for n in 1..=3 {
            for (zeros, ones) in (0..=full(n)).flat_map(|zeros| (0..=full(n)).map(move |ones| (zeros, ones))) {
                let it = Projection { n, zeros, ones };
                if zeros | ones == full(n) {
                    hold(&halving, &it, try_every_table(Board::Tree, &it));
                } else {
                    assert_eq!(halving.fewest(&it), None);
                }
            }
        }
    }

    /// A projection around a table, with few, half, many or nearly all patterns
    /// open.
    fn around(rng: &mut Random, n: u32, table: u64) -> Projection {
        let (any, more) = (rng.bits(), rng.bits());
        let open = [any & more & rng.bits(), any & more, any, any | more, any | more | rng.bits()][rng.below(5)];
        Projection { n, zeros: (!table | open) & full(n), ones: (table | open) & full(n) }
    }

    /// Four inputs against every table.
    #[test]
    fn picks_of_four_inputs() {
        let (halving, tables) = (Halving::new(), tables_by_cells(Board::Tree, 4));
        let mut rng = Random::new(51);
        for _ in 0..60_000 {
            let table = rng.bits() & full(4);
            let it = around(&mut rng, 4, table);
            hold(&halving, &it, *tables.iter().find(|&&t| fits(&it, t)).expect("some table fits"));
        }
    }

    /// Five and six inputs against every table that fits, where up to twelve
    /// patterns are open.
    #[test]
    fn picks_where_little_is_open() {
        let halving = Halving::new();
        let mut rng = Random::new(52);
        for i in 0..1_500 {
            let n = 5 + i % 2;
            // Often nearly a table of few cells: an input or two halves alike.
            let low = rng.bits() & full(n - 1);
            let table = match rng.below(4) {
                0 => rng.bits() & full(n),
                1 => low | low << (1 << (n - 1)),
                2 => full(n) / 3,
                _ => full(n) & !full(n - 1),
            };
            let open = (0..rng.within(1, 12)).fold(0, |open, _| open | 1 << rng.below(1 << n));
            let it = Projection { n, zeros: !table & full(n) | open, ones: table | open };
            let every = std::iter::successors(Some(open), |part: &u64| part.checked_sub(1).map(|below| below & open));
            let priced = every.map(|part| table & !open | part).map(|table| (cells(n, table), table));
            hold(&halving, &it, priced.min().expect("one at least").1);
        }
    }

    /// All tables of n inputs by their cells, up to so many: of none the constants
    /// and the inputs; else halves alike, or two that differ and a selector.
    fn by_cells(n: u32, most: usize) -> Vec<Vec<u64>> {
        if n == 0 {
            let mut all = vec![vec![]; most + 1];
            all[0] = vec![0, 1];
            return all;
        }
        let (below, width) = (by_cells(n - 1, most), 1 << (n - 1));
        let mut all: Vec<Vec<u64>> = Vec::new();
        for count in 0..=most {
            let mut some: Vec<u64> = below[count].iter().map(|half| half | half << width).collect();
            if count == 0 {
                some.push(full(n) & !full(n - 1));
            }
            for lower in 0..count {
                for low in &below[lower] {
                    let others = below[count - 1 - lower].iter().filter(|&high| high != low);
                    some.extend(others.map(|high| low | high << width).filter(|&t| t != full(n) & !full(n - 1)));
                }
            }
            some.sort_unstable();
            all.push(some);
        }
        all
    }

    /// Five and six inputs, many patterns open: the first of all tables that fits,
    /// the cheap ones first, where one of few cells does.
    #[test]
    fn picks_of_few_cells() {
        let halving = Halving::new();
        let mut rng = Random::new(53);
        for (n, most) in [(5, 4), (6, 3)] {
            let all = by_cells(n, most);
            for (count, tables) in all.iter().enumerate() {
                assert!(tables.iter().all(|&table| cells(n, table) == count as u32));
                assert!(tables.windows(2).all(|two| two[0] < two[1]));
            }
            let mut met = vec![0; most + 1];
            for _ in 0..1_200 {
                // A table of few cells with some patterns turned that stay open.
                let count = rng.within(0, most);
                let table = rng.of(&all[count]);
                let (any, more) = (rng.bits(), rng.bits());
                let open = rng.of(&[any & more, any, any | more]);
                let turned = table ^ rng.bits() & open;
                let it = Projection { n, zeros: (!turned | open) & full(n), ones: (turned | open) & full(n) };
                let first = all.iter().flatten().find(|&&t| fits(&it, t)).expect("that table fits");
                hold(&halving, &it, *first);
                met[cells(n, *first) as usize] += 1;
            }
            assert!(met.iter().all(|&met| met >= 20), "{met:?}");
        }
    }
}
