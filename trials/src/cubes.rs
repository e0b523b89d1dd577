//! The least cells of one wire that may be 0 here and 1 there, by dynamic
//! programming over the ways down a tree. A way down to input t has taken each
//! input before it as 0, as 1, or has not tested it: 3^t ways, and the patterns
//! that go such a way are a cube. What stands at its end must suit the whole
//! cube. No table is tried, and nothing here is shared with the picks.

/// More cells than any tree needs: nothing suits.
const NONE: u32 = 1_000;

/// A digit of a way: 0, 1, or not tested.
const UNTESTED: usize = 2;

/// What a cube of whole ways is made of.
#[derive(Clone, Copy)]
enum Make {
    /// Every input was tested: one pattern.
    Pattern(u32),
    /// Two cubes that differ in an input that is not tested here.
    Both(usize, usize),
}

/// The ways of n inputs: numbers of base 3, input 1 their highest digit.
pub struct Cubes {
    n: u32,
    makes: Vec<Make>,
}

/// One wire: the least cells, and a table of so few.
#[derive(Clone, Copy, PartialEq, Eq, Debug)]
pub struct Least {
    pub cells: u32,
    pub table: u64,
}

/// What comes next on a way.
#[derive(Clone, Copy, PartialEq, Eq)]
enum Next {
    /// The next input is not tested.
    Skip,
    /// It is soldered through.
    Straight,
    /// A cell on it.
    Cell,
}

impl Cubes {
    pub fn new(n: u32) -> Cubes {
        let makes = (0..3usize.pow(n)).map(|way| make(n, way)).collect();
        Cubes { n, makes }
    }

    /// Where every pattern of a cube is in the mask.
    fn within(&self, mask: u64) -> Vec<bool> {
        let mut all = Vec::with_capacity(self.makes.len());
        for make in &self.makes {
            all.push(match *make {
                Make::Pattern(p) => mask >> p & 1 == 1,
                Make::Both(zero, one) => all[zero] && all[one],
            });
        }
        all
    }

    /// The least cells of a wire that can be 0 on some patterns and 1 on some;
    /// `None` where it can be neither on one.
    pub fn least(&self, zeros: u64, ones: u64) -> Option<Least> {
        let (zero, one) = (self.within(zeros), self.within(ones));
        // From the ends of whole ways up to the top, where no input was tested.
        let mut costs: Vec<u32> = (0..zero.len()).map(|way| if zero[way] || one[way] { 0 } else { NONE }).collect();
        let mut nexts: Vec<Vec<Next>> = Vec::new();
        for left in 1..=self.n {
            // The cube of a way on which nothing more is tested.
            let below = 3usize.pow(left - 1);
            let cube = |way: usize| way * below + below - 1;
            let best = |way: usize| {
                let [a, b, skip] = [0, 1, UNTESTED].map(|digit| 3 * way + digit);
                let straight = if zero[cube(a)] && one[cube(b)] { 0 } else { NONE };
                let cell = 1 + costs[a] + costs[b];
                let least = costs[skip].min(straight).min(cell).min(NONE);
                let next = match least {
                    _ if least == costs[skip] => Next::Skip,
                    _ if least == straight => Next::Straight,
                    _ => Next::Cell,
                };
                (least, next)
            };
            let (above, next) = (0..costs.len() / 3).map(best).unzip();
            costs = above;
            nexts.push(next);
        }
        let cells = Some(costs[0]).filter(|&cells| cells < NONE)?;
        let bit = |p: u32| self.follow(&nexts, &zero, p);
        let table = (0..1u32 << self.n).fold(0, |table, p| table | u64::from(bit(p)) << p);
        Some(Least { cells, table })
    }

    /// The wire on a pattern, down the tree that was found.
    fn follow(&self, nexts: &[Vec<Next>], zero: &[bool], p: u32) -> bool {
        let mut way = 0;
        for left in (1..=self.n).rev() {
            let bit = p >> (left - 1) & 1 == 1;
            way = 3 * way
                + match nexts[left as usize - 1][way] {
                    Next::Skip => UNTESTED,
                    Next::Straight => return bit,
                    Next::Cell => usize::from(bit),
                };
        }
        !zero[way]
    }
}

fn make(n: u32, way: usize) -> Make {
    for place in (0..n).map(|place| 3usize.pow(place)) {
        if way / place % 3 == UNTESTED {
            return Make::Both(way - UNTESTED * place, way - place);
        }
    }
    Make::Pattern((0..n).fold(0, |p, place| p | ((way / 3usize.pow(place) % 3) as u32) << place))
}

#[cfg(test)]
mod tests {
    use super::*;
    use crate::board::Board;
    use crate::cells::{cells, full};
    use crate::halving::Halving;
    use crate::pick::{fits, try_every_table, Projection};
    use crate::random::Random;

    /// The table has the cells that are told, and it fits.
    fn hold(cubes: &Cubes, it: &Projection, expected: u32) {
        let Least { cells: least, table } = cubes.least(it.zeros, it.ones).expect("something suits");
        assert_eq!((least, cells(it.n, table)), (expected, expected), "{it:x?}");
        assert!(fits(it, table), "{it:x?}");
    }

    #[test]
    fn every_small_wire() {
        for n in 1..=3 {
            let cubes = Cubes::new(n);
            for (zeros, ones) in (0..=full(n)).flat_map(|zeros| (0..=full(n)).map(move |ones| (zeros, ones))) {
                if zeros | ones == full(n) {
                    let it = Projection { n, zeros, ones };
                    hold(&cubes, &it, cells(n, try_every_table(Board::Tree, &it)));
                } else {
                    assert_eq!(cubes.least(zeros, ones), None);
                }
            }
        }
    }

    /// Two ways to the least of one wire, for any number of inputs.
    #[test]
    fn cubes_and_halving_agree() {
        let halving = Halving::new();
        let mut rng = Random::new(54);
        for n in 4..=6 {
            let cubes = Cubes::new(n);
            for i in 0..4_000 {
                let (table, any, more) = (rng.bits(), rng.bits(), rng.bits());
                let open = [any & more & rng.bits(), any & more, any, any | more, any | more | rng.bits()][i % 5];
                let it = Projection { n, zeros: (!table | open) & full(n), ones: (table | open) & full(n) };
                hold(&cubes, &it, halving.fewest(&it).expect("something suits"));
            }
        }
    }

    #[test]
    fn tables_by_themselves() {
        let mut rng = Random::new(55);
        let cubes = Cubes::new(6);
        for i in 0..2_000 {
            let table = if i % 2 == 0 { rng.bits() } else { rng.bits() & rng.bits() & rng.bits() };
            let least = cubes.least(!table, table);
            assert_eq!(least, Some(Least { cells: cells(6, table), table }));
        }
    }
}
