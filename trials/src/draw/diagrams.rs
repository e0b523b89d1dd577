//! Lists of entries drawn by chance that are in order, and stages of them.

use crate::cells::{full, halves, Tables};
use crate::diagram::{bytes_of_lists, Diagram, Entry, FIRST, MOST_ENTRIES};
use crate::random::Random;

const EMPTY: Diagram = Diagram { entries: Vec::new(), top: 0 };

/// A constant, or any entry listed already whose input is above that one.
pub(super) fn name_above(rng: &mut Random, list: &Diagram, input: u8) -> u8 {
    let above: Vec<u8> = (FIRST..list.next()).filter(|&name| list.input(name) > input).collect();
    if above.is_empty() || rng.once_in(5) {
        rng.below(2) as u8
    } else {
        rng.of(&above)
    }
}

/// Any entry on that input that may come next; one in a dozen could be done
/// without, since both branches name the same.
fn entry(rng: &mut Random, input: u8, list: &Diagram) -> Entry {
    let alike = rng.once_in(12);
    let zero = name_above(rng, list, input);
    let mut one = zero;
    while one == zero && !alike {
        one = name_above(rng, list, input);
    }
    Entry { input, zero, one }
}

/// A list of so many entries, the lower inputs later on the whole. Some repeat
/// another, and many are not reached from the top: the last of those with the
/// lowest input, the last of all, or any.
pub fn list(rng: &mut Random, n: u8, count: u8) -> Diagram {
    let mut list = EMPTY;
    for i in 0..count {
        let in_turn = n - (u16::from(i) * u16::from(n) / u16::from(count)) as u8;
        let input = if rng.once_in(3) { rng.within(1, n.into()) as u8 } else { in_turn };
        let new = entry(rng, input, &list);
        let repeats = !list.entries.is_empty() && rng.once_in(8);
        list.entries.push(if repeats { rng.of(&list.entries) } else { new });
    }
    let lowest = (0..list.next()).rev().min_by_key(|&name| list.input(name)).expect("there are constants");
    let any = rng.below(list.next().into()) as u8;
    list.top = rng.of(&[lowest, lowest, list.next() - 1, any]);
    list
}

/// Lists for a stage.
pub fn lists(rng: &mut Random, n: u8, m: u8) -> Vec<Diagram> {
    let most = rng.of(&[1, 3, 5, 8, 12, 20]);
    (0..m)
        .map(|_| {
            let count = rng.within(0, most) as u8;
            list(rng, n, count)
        })
        .collect()
}

pub fn stage(rng: &mut Random, n: u8, m: u8) -> Vec<u8> {
    bytes_of_lists(n, &lists(rng, n, m))
}

/// One wire with as many entries as there may be, or nearly; the others short.
pub fn large_stage(rng: &mut Random, n: u8, m: u8) -> Vec<u8> {
    let mut lists = lists(rng, n, m);
    let count = rng.of(&[MOST_ENTRIES, MOST_ENTRIES, MOST_ENTRIES - 1, 128]);
    lists[rng.below(m.into())] = list(rng, n, count);
    bytes_of_lists(n, &lists)
}

/// Every wire with as many entries as there may be.
pub fn largest_stage(rng: &mut Random, n: u8, m: u8) -> Vec<u8> {
    let lists: Vec<Diagram> = (0..m).map(|_| list(rng, n, MOST_ENTRIES)).collect();
    bytes_of_lists(n, &lists)
}

/// Lists a table with entries that it could do without.
struct Padder<'a> {
    rng: &'a mut Random,
    n: u8,
    /// The parts listed so far: inputs left, table, name.
    met: Vec<(u8, u64, u8)>,
    list: Diagram,
}

impl Padder<'_> {
    fn put(&mut self, entry: Entry) -> u8 {
        self.list.entries.push(entry);
        self.list.next() - 1
    }

    /// The name of a part. A constant or a part with equal halves may get a
    /// selector, a part that is listed may be listed again, and now and then
    /// an entry comes that nobody names.
    fn visit(&mut self, left: u8, part: u64) -> u8 {
        let constant = part == 0 || part == full(left.into());
        if left == 0 || constant && !self.rng.once_in(8) {
            return u8::from(part != 0);
        }
        let (zero, one) = halves(left.into(), part);
        if zero == one && !self.rng.once_in(4) {
            return self.visit(left - 1, zero);
        }
        let listed = self.met.iter().find(|it| (it.0, it.1) == (left, part)).map(|it| it.2);
        if let Some(name) = listed.filter(|_| !self.rng.once_in(4)) {
            return name;
        }
        if self.rng.once_in(8) {
            let input = self.rng.within(1, self.n.into()) as u8;
            let idle = entry(self.rng, input, &self.list);
            self.put(idle);
        }
        let entry =
            Entry { input: self.n - left + 1, zero: self.visit(left - 1, zero), one: self.visit(left - 1, one) };
        let name = self.put(entry);
        self.met.push((left, part, name));
        name
    }
}

/// A list of that table, seldom the smallest.
pub fn padded_list(rng: &mut Random, n: u8, table: u64) -> Diagram {
    let mut padder = Padder { rng, n, met: Vec::new(), list: EMPTY };
    padder.list.top = padder.visit(n, table);
    padder.list
}

fn padded_lists(rng: &mut Random, n: u8, m: u8, tables: &Tables) -> Vec<Diagram> {
    tables[..usize::from(m)].iter().map(|&table| padded_list(rng, n, table)).collect()
}

/// A stage of those tables, seldom the smallest.
pub fn padded(rng: &mut Random, n: u8, m: u8, tables: &Tables) -> Vec<u8> {
    bytes_of_lists(n, &padded_lists(rng, n, m, tables))
}

/// The same with one constant turned round, where some wire names one.
pub fn turned(rng: &mut Random, n: u8, m: u8, tables: &Tables) -> Vec<u8> {
    let mut lists = padded_lists(rng, n, m, tables);
    let names = lists.iter_mut().flat_map(|list| {
        let branches = list.entries.iter_mut().flat_map(|it| [&mut it.zero, &mut it.one]);
        branches.chain([&mut list.top])
    });
    let mut constants: Vec<&mut u8> = names.filter(|name| **name < FIRST).collect();
    if !constants.is_empty() {
        let at = rng.below(constants.len());
        *constants[at] ^= 1;
    }
    bytes_of_lists(n, &lists)
}

#[cfg(test)]
mod tests {
    use super::*;
    use crate::diagram::{read, selectors, LONGEST_LISTS};
    use crate::draw::{sizes, stages::table};

    #[test]
    fn stages_are_read() {
        let mut rng = Random::new(25);
        for _ in 0..3_000 {
            let (n, m) = sizes(&mut rng);
            read(&stage(&mut rng, n, m)).expect("drawn to be read");
            let mut tables = [0; 4];
            for t in tables.iter_mut().take(m.into()) {
                *t = table(&mut rng, n.into());
            }
            let padded = read(&padded(&mut rng, n, m, &tables)).expect("drawn to be read");
            assert_eq!(padded.tables, tables);
            read(&turned(&mut rng, n, m, &tables)).expect("drawn to be read");
        }
        let largest = largest_stage(&mut rng, 4, 4);
        assert_eq!(largest.len(), LONGEST_LISTS);
        read(&largest).expect("drawn to be read");
    }

    /// Which entries drive the wire at all.
    fn reached(list: &Diagram) -> usize {
        let mut reached = vec![false; list.next().into()];
        reached[usize::from(list.top)] = true;
        for name in (FIRST..list.next()).rev() {
            if reached[usize::from(name)] {
                let it = list.entries[usize::from(name - FIRST)];
                reached[usize::from(it.zero)] = true;
                reached[usize::from(it.one)] = true;
            }
        }
        reached[usize::from(FIRST)..].iter().filter(|&&it| it).count()
    }

    /// All that a list may have and the smallest has not: entries not reached,
    /// entries that repeat another, entries worth a constant.
    #[test]
    fn lists_are_seldom_the_smallest() {
        let mut rng = Random::new(26);
        let (mut unreached, mut repeated, mut idle, mut large) = (0, 0, 0, 0);
        for _ in 0..2_000 {
            let it = list(&mut rng, 4, 12);
            let table = (0..16).fold(0, |table, p| table | u64::from(it.follow(4, p)) << p);
            unreached += usize::from(reached(&it) < it.entries.len());
            repeated += usize::from((1..12).any(|i| it.entries[..i].contains(&it.entries[i])));
            idle += usize::from(it.entries.iter().any(|e| e.zero == e.one));
            large += usize::from(selectors(4, table) >= 3);
        }
        let met = [unreached, repeated, idle, large];
        assert!(met.iter().all(|&met| met > 800), "{met:?}");
    }
}
