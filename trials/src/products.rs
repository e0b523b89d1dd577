//! The second solver where there are too many functions to try each: five and
//! six inputs on the tree board. A set of values is a product where its wires
//! are independent: any bit that occurs on one goes with any that occurs on
//! another. Of a relation whose sets all are products the wires are stages apart,
//! so its least cells are the sum of its wires', which `cubes` finds.
//!
//! Any other relation is told apart into such: a set that is no product is taken
//! to pieces that are, and the relation with each of the pieces is looked at by
//! itself. All functions of the relation are among theirs. What the wires cost
//! apart is the least that any function of a part can cost; a part is done where
//! that undercuts nothing, or where the tables found for the wires agree with its
//! sets. There is no first answer, no pick and no tie, and no order of wires.

use crate::cells::Tables;
use crate::cubes::{Cubes, Least};
use crate::relation::{Sets, ONE};
use crate::search::value_at;

/// What is known of a relation's least cells.
#[derive(Clone, Copy, PartialEq, Eq, Debug)]
pub struct Known {
    /// The sum over the wires: no stage has fewer.
    pub floor: u32,
    /// The fewest cells met so far.
    pub met: u32,
    /// Whether that is the least: nothing was left out.
    pub whole: bool,
}

struct Parts<'a> {
    cubes: &'a Cubes,
    n: u32,
    m: u32,
    met: u32,
    steps: u64,
    whole: bool,
}

/// Looks at up to so many parts. `None` where no function is compatible.
pub fn least(cubes: &Cubes, n: u32, m: u32, sets: &Sets, steps: u64) -> Option<Known> {
    let mut it = Parts { cubes, n, m, met: u32::MAX, steps, whole: true };
    let wires = it.wires(sets)?;
    it.part(sets, &wires);
    Some(Known { floor: sum(&wires), met: it.met, whole: it.whole })
}

fn sum(wires: &[Least]) -> u32 {
    wires.iter().map(|wire| wire.cells).sum()
}

impl Parts<'_> {
    /// Each wire by itself.
    fn wires(&self, sets: &Sets) -> Option<Vec<Least>> {
        (0..self.m as usize).map(|j| self.wire(sets, j)).collect()
    }

    fn wire(&self, sets: &Sets, wire: usize) -> Option<Least> {
        let some = |mask: u16| (0..1 << self.n).fold(0, |all, p| all | u64::from(sets[p] & mask != 0) << p);
        self.cubes.least(some(!ONE[wire]), some(ONE[wire]))
    }

    fn part(&mut self, sets: &Sets, wires: &[Least]) {
        if sum(wires) >= self.met {
            return;
        }
        let Some(left) = self.steps.checked_sub(1) else {
            self.whole = false;
            return;
        };
        self.steps = left;
        let mut tables: Tables = [0; 4];
        for (table, wire) in tables.iter_mut().zip(wires) {
            *table = wire.table;
        }
        // Of the patterns where the tables do not agree, one with few pieces.
        let broken = (0..1 << self.n).filter(|&p| sets[p] >> value_at(self.m, &tables, p) & 1 == 0);
        let Some((pieces, p)) = broken.map(|p| (pieces(self.m, sets[p]), p)).min_by_key(|(all, _)| all.len()) else {
            self.met = sum(wires);
            return;
        };
        let mut parts: Vec<(Sets, Vec<Least>)> = Vec::new();
        for piece in pieces {
            let mut part = *sets;
            part[p] = piece;
            let wires = self.wires(&part).expect("no piece is empty");
            parts.push((part, wires));
        }
        parts.sort_by_key(|(_, wires)| sum(wires));
        for (part, wires) in parts {
            self.part(&part, &wires);
        }
    }
}

/// The values whose every bit occurs on its wire: the product around a set.
fn product(m: u32, set: u16) -> u16 {
    let all = crate::sheet::all_values(m);
    (0..m as usize).fold(all, |product, j| {
        let (zero, one) = (set & !ONE[j] != 0, set & ONE[j] != 0);
        product & if zero { !0 } else { ONE[j] } & if one { !0 } else { !ONE[j] }
    })
}

/// A set as products that have nothing in common.
fn pieces(m: u32, set: u16) -> Vec<u16> {
    if product(m, set) == set {
        return vec![set];
    }
    let open = (0..m as usize).rev().find(|&j| set & !ONE[j] != 0 && set & ONE[j] != 0).expect("it has two values");
    [pieces(m, set & !ONE[open]), pieces(m, set & ONE[open])].concat()
}

#[cfg(test)]
mod tests {
    use super::*;
    use crate::board::Board;
    use crate::draw::six;
    use crate::least::{by_halves, functions, plain};
    use crate::random::Random;
    use crate::sheet::{all_values, MOST_PATTERNS};

    #[test]
    fn products_and_pieces() {
        assert_eq!(product(2, 0b1001), 0b1111);
        assert_eq!(product(2, 0b0101), 0b0101);
        assert_eq!(pieces(2, 0b1001), [0b0001, 0b1000]);
        assert_eq!(pieces(4, 0xFFFF), [0xFFFF]);
        assert_eq!(pieces(4, 0x9669).len(), 8);
        for m in 1..=4 {
            for set in 1..=all_values(m) {
                let all = pieces(m, set);
                assert_eq!(all.iter().fold(0, |sum, piece| sum | piece), set);
                assert_eq!(all.iter().map(|piece| piece.count_ones()).sum::<u32>(), set.count_ones());
                assert!(all.iter().all(|&piece| product(m, piece) == piece));
            }
        }
    }

    /// Sets of few values, now and then an empty one.
    fn drawn(rng: &mut Random, n: u32, m: u32, most: usize) -> Sets {
        let mut sets = [0; MOST_PATTERNS];
        for set in sets.iter_mut().take(1 << n) {
            for _ in 0..rng.within(1, most) {
                *set |= 1 << rng.below(1 << m);
            }
        }
        if rng.once_in(20) {
            sets[rng.below(1 << n)] = 0;
        }
        sets
    }

    /// Up to four inputs, against every function.
    #[test]
    fn products_and_halves_agree() {
        let mut rng = Random::new(56);
        let mut held = 0;
        for (n, m) in (1..=4).flat_map(|n| (1..=4).map(move |m| (n, m))) {
            let cubes = Cubes::new(n);
            for _ in 0..60 {
                let sets = drawn(&mut rng, n, m, if n == 4 { 2 } else { 4 });
                let halves = by_halves(n, m, sets.first_chunk().expect("enough"));
                match least(&cubes, n, m, &sets, 20_000) {
                    None => assert_eq!(halves, None),
                    Some(known) => {
                        let least = halves.expect("there is a function");
                        assert!(known.floor <= least && least <= known.met, "{known:?} {least}");
                        if known.whole {
                            assert_eq!(known.met, least);
                            held += 1;
                        }
                    }
                }
            }
        }
        assert!(held > 850, "{held}");
    }

    /// Five and six inputs, against every function where there are few.
    #[test]
    fn products_and_every_function_agree() {
        let mut rng = Random::new(57);
        let mut met = [0; 2];
        for (n, cubes) in [5, 6].map(|n| (n, Cubes::new(n))) {
            for _ in 0..150 {
                let m = rng.within(1, 4) as u32;
                let sets = six::nearly_one_stage(&mut rng, n as u8, m as u8);
                assert!(functions(&sets[..1 << n]) <= 4_096);
                let known = least(&cubes, n, m, &sets, 100_000).expect("no set is empty");
                assert!(known.whole);
                assert_eq!(plain(Board::Tree, n, m, &sets), Some(known.met));
                met[usize::from(known.floor < known.met)] += 1;
            }
        }
        assert!(met.iter().all(|&met| met > 40), "{met:?}");
    }

    /// Sets that are products are never told apart: the sum over the wires is met.
    #[test]
    fn products_are_sums() {
        let mut rng = Random::new(58);
        for (n, cubes) in [5, 6].map(|n| (n, Cubes::new(n))) {
            for _ in 0..150 {
                let m = rng.within(1, 4) as u8;
                let sets = six::products(&mut rng, n as u8, m);
                assert!(sets[..1 << n].iter().all(|&set| product(m.into(), set) == set));
                let known = least(&cubes, n, m.into(), &sets, 1).expect("no set is empty");
                assert_eq!((known.whole, known.met), (true, known.floor));
            }
        }
    }
}
