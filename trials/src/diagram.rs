//! Document 02, E2: the board that shares selectors. A wire is a reduced
//! ordered binary decision diagram, told as a list of its nodes. Here are the
//! count, the list, and the writer and the reader of stage sheets. With E4 a
//! node that is an input itself counts nothing.

use crate::board::{Board, Stage};
use crate::cells::{full, halves, is_straight, Tables};
use crate::commands::{Due, Reader};
use crate::refusal::*;

/// A wire has no more entries: with the two constants, all that a byte names.
pub const MOST_ENTRIES: u8 = 253;
/// Room for every stage that is written, as the library's header names it.
/// Nine entries a wire are the most that are needed: 128 bytes.
pub const LONGEST_SHARED: usize = 200;
/// No stage that is read has more bytes: four wires with all their entries.
pub const LONGEST_LISTS: usize = 4 + 4 * (4 + 3 * MOST_ENTRIES as usize);

/// 0 and 1 name the constants; the entries are named from here on.
pub const FIRST: u8 = 2;

/// The different parts of a table that need a selector, that is, whose halves
/// differ, each with how many inputs it has left. A part is what is left of the
/// table where the inputs before it are fixed.
fn parts(n: u32, table: u64) -> Vec<(u32, u64)> {
    let mut level = vec![table];
    let mut needed = Vec::new();
    for left in (1..=n).rev() {
        let split: Vec<(u64, u64)> = level.iter().map(|&part| halves(left, part)).collect();
        needed.extend(level.iter().zip(&split).filter(|(_, (zero, one))| zero != one).map(|(&part, _)| (left, part)));
        level = split.into_iter().flat_map(|(zero, one)| [zero, one]).collect();
        level.sort_unstable();
        level.dedup();
    }
    needed
}

/// The selectors of a table's list.
pub fn selectors(n: u32, table: u64) -> u32 {
    parts(n, table).len() as u32
}

/// The cells of a table: its selectors but for the inputs soldered through.
pub fn count(n: u32, table: u64) -> u32 {
    parts(n, table).iter().filter(|&&(left, part)| !is_straight(left, part)).count() as u32
}

/// A selector on an input, and what it passes on: the entry for 0 or for 1.
#[derive(Clone, Copy, PartialEq, Eq, Debug)]
pub struct Entry {
    pub input: u8,
    pub zero: u8,
    pub one: u8,
}

/// A wire's list and the entry that drives the wire.
#[derive(Clone, PartialEq, Eq, Debug)]
pub struct Diagram {
    pub entries: Vec<Entry>,
    pub top: u8,
}

impl Diagram {
    /// What the next entry will be called.
    pub fn next(&self) -> u8 {
        FIRST + self.entries.len() as u8
    }

    /// The input of what is named; a constant's counts as above all others.
    pub fn input(&self, name: u8) -> u8 {
        match name.checked_sub(FIRST) {
            Some(at) => self.entries[usize::from(at)].input,
            None => u8::MAX,
        }
    }

    /// Every entry is a cell, one that repeats another or is not reached too,
    /// but for those that have the constants 0 and 1 as their branches.
    pub fn cells(&self) -> u32 {
        self.entries.iter().filter(|it| (it.zero, it.one) != (0, 1)).count() as u32
    }

    /// The wire on pattern p, whose highest bit is the first input.
    pub fn follow(&self, n: u32, p: usize) -> bool {
        let mut name = self.top;
        while let Some(at) = name.checked_sub(FIRST) {
            let entry = self.entries[usize::from(at)];
            name = if p >> (n - u32::from(entry.input)) & 1 == 0 { entry.zero } else { entry.one };
        }
        name == 1
    }

    /// The wire's bytes: 26 j c, the entries, the top.
    pub fn write(&self, wire: u8, out: &mut Vec<u8>) {
        out.extend([0x26, wire, self.entries.len() as u8]);
        out.extend(self.entries.iter().flat_map(|it| [it.input, it.zero, it.one]));
        out.push(self.top);
    }
}

/// Lists a table: each part that needs a selector once, behind all that its
/// branches need, those for 0 before those for 1.
pub fn list(n: u32, table: u64) -> Diagram {
    let mut lister = Lister { n, met: Vec::new(), list: Diagram { entries: Vec::new(), top: 0 } };
    lister.list.top = lister.visit(n, table);
    lister.list
}

struct Lister {
    n: u32,
    /// The parts listed so far: how many inputs each has left, and its table.
    met: Vec<(u32, u64)>,
    list: Diagram,
}

impl Lister {
    /// The name of a part.
    fn visit(&mut self, left: u32, part: u64) -> u8 {
        if part == 0 || part == full(left) {
            return u8::from(part != 0);
        }
        let (zero, one) = halves(left, part);
        if zero == one {
            return self.visit(left - 1, zero);
        }
        if let Some(at) = self.met.iter().position(|&it| it == (left, part)) {
            return FIRST + at as u8;
        }
        let (zero, one) = (self.visit(left - 1, zero), self.visit(left - 1, one));
        let name = self.list.next();
        self.met.push((left, part));
        self.list.entries.push(Entry { input: (self.n - left + 1) as u8, zero, one });
        name
    }
}

/// The bytes of a stage in range.
pub fn bytes_of(n: u32, m: u32, tables: &Tables) -> Vec<u8> {
    let diagrams: Vec<Diagram> = (0..m as usize).map(|j| list(n, tables[j])).collect();
    bytes_of_lists(n as u8, &diagrams)
}

/// The bytes of a stage of these lists, a wire each.
pub fn bytes_of_lists(n: u8, diagrams: &[Diagram]) -> Vec<u8> {
    let mut out = vec![0x20, n, diagrams.len() as u8];
    for (j, diagram) in diagrams.iter().enumerate() {
        diagram.write(j as u8, &mut out);
    }
    out.push(0x2F);
    out
}

/// The commands of this kind of stage sheet; a tree's are not among them.
fn known(first: u8) -> Option<(Due, usize)> {
    match first {
        0x20 => Some((Due::Sizes, 2)),
        0x26 => Some((Due::Wire, 2)),
        0x2F => Some((Due::End, 0)),
        _ => None,
    }
}

/// 26 j c: 3 for a wire from m up or for too many entries, then 5 if the wire
/// is not the next. Gives c.
fn wire(reader: &mut Reader, m: u32, next: u32) -> Result<u8, Refusal> {
    let command = reader.next(Due::Wire)?;
    let (j, c) = (u32::from(command.operands[0]), command.operands[1]);
    if j >= m || c > MOST_ENTRIES {
        return refuse(OUT_OF_RANGE, command.place);
    }
    if j != next {
        return refuse(OUT_OF_TURN, command.place);
    }
    Ok(c)
}

/// The next entry: 1, 3 for its input, 6 where either name is not lower than
/// its own, 11 where either named input is not above its own.
fn entry(reader: &mut Reader, n: u32, list: &Diagram) -> Result<Entry, Refusal> {
    let place = reader.place();
    let bytes = reader.take(3)?;
    let it = Entry { input: bytes[0], zero: bytes[1], one: bytes[2] };
    if !(1..=n).contains(&it.input.into()) {
        return refuse(OUT_OF_RANGE, place);
    }
    if it.zero.max(it.one) >= list.next() {
        return refuse(NO_SIGNAL, place);
    }
    if list.input(it.zero).min(list.input(it.one)) <= it.input {
        return refuse(NOT_ASCENDING, place);
    }
    Ok(it)
}

/// The top: 1, then 6 where it names what is not listed.
fn top(reader: &mut Reader, list: &Diagram) -> Result<u8, Refusal> {
    let place = reader.place();
    let top = reader.take(1)?[0];
    if top >= list.next() {
        return refuse(NO_SIGNAL, place);
    }
    Ok(top)
}

/// The stage reader: any lists that are in order.
pub fn read(bytes: &[u8]) -> Result<Stage, Refusal> {
    let mut reader = Reader::new(bytes, known);
    let (n, m) = reader.sizes(Board::Shared.most_inputs())?;
    let mut stage = Stage::without_wires(n, m);
    for j in 0..m {
        let c = wire(&mut reader, m, j)?;
        let mut list = Diagram { entries: Vec::new(), top: 0 };
        for _ in 0..c {
            let entry = entry(&mut reader, n, &list)?;
            list.entries.push(entry);
        }
        list.top = top(&mut reader, &list)?;
        stage.put(j, |p| list.follow(n, p), list.cells());
    }
    reader.end()?;
    Ok(stage)
}

#[cfg(test)]
mod tests {
    use super::*;

    fn refusal(bytes: &[u8]) -> (u8, usize) {
        let r = read(bytes).expect_err("to be refused");
        (r.number, r.place)
    }

    /// What follows the sizes of one input and one wire.
    fn refusal_after_sizes(bytes: &[u8]) -> (u8, usize) {
        refusal(&[&[0x20, 1, 1], bytes].concat())
    }

    /// What follows two inputs, one wire of so many entries.
    fn refusal_in_list(count: u8, bytes: &[u8]) -> (u8, usize) {
        refusal(&[&[0x20, 2, 1, 0x26, 0, count], bytes].concat())
    }

    #[test]
    fn sizes_wires_and_end() {
        assert_eq!(refusal(&[]), (1, 0));
        assert_eq!(refusal(&[0x20, 9]), (1, 0));
        for unknown in [0x00, 0x06, 0x1F, 0x21, 0x22, 0x23, 0x24, 0x25, 0x27, 0x2E, 0x30, 0xFF] {
            assert_eq!(refusal(&[unknown]), (2, 0));
            assert_eq!(refusal_after_sizes(&[unknown]), (2, 3));
            assert_eq!(refusal_after_sizes(&[0x26, 0, 0, 0, unknown]), (2, 7));
        }
        assert_eq!(refusal(&[0x26]), (5, 0));
        assert_eq!(refusal(&[0x2F]), (5, 0));
        assert_eq!(refusal(&[0x20, 0, 1]), (3, 0));
        // Five inputs and more are too many for its boards.
        for n in 5..8 {
            assert_eq!(refusal(&[0x20, n]), (1, 0));
            assert_eq!(refusal(&[0x20, n, 1]), (3, 0));
        }
        assert_eq!(refusal(&[0x20, 4, 1]), (1, 3));
        assert_eq!(refusal(&[0x20, 1, 5]), (3, 0));
        assert_eq!(refusal_after_sizes(&[]), (1, 3));
        assert_eq!(refusal_after_sizes(&[0x26]), (1, 3));
        assert_eq!(refusal_after_sizes(&[0x26, 9]), (1, 3));
        assert_eq!(refusal_after_sizes(&[0x20]), (5, 3));
        assert_eq!(refusal_after_sizes(&[0x2F]), (5, 3));
        assert_eq!(refusal_after_sizes(&[0x26, 1, 0]), (3, 3));
        assert_eq!(refusal_after_sizes(&[0x26, 0, 254]), (3, 3));
        assert_eq!(refusal_after_sizes(&[0x26, 0, 253]), (1, 6));
        assert_eq!(refusal_after_sizes(&[0x26, 0, 0, 0]), (1, 7));
        assert_eq!(refusal_after_sizes(&[0x26, 0, 0, 0, 0x26]), (5, 7));
        assert_eq!(refusal_after_sizes(&[0x26, 0, 0, 0, 0x20, 1, 1]), (5, 7));
        assert_eq!(refusal_after_sizes(&[0x26, 0, 0, 0, 0x2F, 0x2F]), (4, 8));
        assert_eq!(refusal(&[0x20, 1, 2, 0x26, 1, 0]), (5, 3));
        assert_eq!(refusal(&[0x20, 1, 2, 0x26, 1, 254]), (3, 3));
        assert_eq!(refusal(&[0x20, 1, 2, 0x26, 0, 0, 0, 0x26, 0, 0]), (5, 7));
        assert_eq!(refusal(&[0x20, 1, 2, 0x26, 0, 0, 0, 0x26, 2, 0]), (3, 7));
        assert_eq!(refusal(&[0x20, 1, 2, 0x26, 0, 0, 0, 0x2F]), (5, 7));
    }

    #[test]
    fn entries_and_top() {
        assert_eq!(refusal_in_list(1, &[]), (1, 6));
        assert_eq!(refusal_in_list(1, &[9]), (1, 6));
        assert_eq!(refusal_in_list(1, &[9, 9]), (1, 6));
        assert_eq!(refusal_in_list(2, &[1, 0, 0, 9, 9]), (1, 9));
        assert_eq!(refusal_in_list(1, &[0, 0, 1]), (3, 6));
        assert_eq!(refusal_in_list(1, &[3, 0, 1]), (3, 6));
        assert_eq!(refusal_in_list(1, &[3, 9, 9]), (3, 6));
        assert_eq!(refusal_in_list(1, &[2, 2, 0]), (6, 6));
        assert_eq!(refusal_in_list(1, &[2, 0, 2]), (6, 6));
        assert_eq!(refusal_in_list(1, &[2, 0, 255]), (6, 6));
        assert_eq!(refusal_in_list(2, &[1, 0, 1, 2, 3, 0]), (6, 9));
        // The names are all looked at before the inputs.
        assert_eq!(refusal_in_list(2, &[1, 0, 1, 2, 2, 3]), (6, 9));
        assert_eq!(refusal_in_list(2, &[1, 0, 1, 2, 2, 0]), (11, 9));
        assert_eq!(refusal_in_list(2, &[2, 0, 1, 2, 0, 2]), (11, 9));
        assert_eq!(refusal_in_list(3, &[2, 0, 1, 2, 0, 1, 2, 3, 1]), (11, 12));
        assert_eq!(refusal_in_list(0, &[]), (1, 6));
        assert_eq!(refusal_in_list(0, &[2]), (6, 6));
        assert_eq!(refusal_in_list(1, &[1, 0, 1, 3]), (6, 9));
        assert_eq!(refusal_in_list(1, &[1, 0, 1, 2]), (1, 10));
    }

    #[test]
    fn each_part_once_and_0_first() {
        // Input 3 where input 1 is 0, else input 2.
        let entries = vec![
            Entry { input: 3, zero: 0, one: 1 },
            Entry { input: 2, zero: 0, one: 1 },
            Entry { input: 1, zero: 2, one: 3 },
        ];
        assert_eq!(list(3, 0xCA), Diagram { entries, top: 4 });
        assert_eq!(list(4, 0), Diagram { entries: vec![], top: 0 });
        assert_eq!(list(4, 0xFFFF), Diagram { entries: vec![], top: 1 });
    }

    fn table_of(n: u32, list: &Diagram) -> u64 {
        (0..1 << n).fold(0, |table, p| table | u64::from(list.follow(n, p)) << p)
    }

    /// The list has an entry for each selector, as many cells as are counted,
    /// and means the table.
    #[test]
    fn the_list_is_as_counted() {
        let (mut most_selectors, mut most_cells) = (0, 0);
        for n in 1..=4 {
            for table in 0..=full(n) {
                let list = list(n, table);
                let (selectors, cells) = (selectors(n, table), count(n, table));
                assert_eq!((table_of(n, &list), list.entries.len() as u32, list.cells()), (table, selectors, cells));
                assert!(cells <= selectors);
                most_selectors = most_selectors.max(selectors);
                most_cells = most_cells.max(cells);
            }
        }
        assert_eq!((most_selectors, most_cells), (9, 8));
    }

    /// Table, cells, selectors.
    #[test]
    fn counted_by_hand() {
        for (n, table, expected) in [
            (1, 0b01, (1, 1)),
            (1, 0b10, (0, 1)),
            (3, 0xE8, (3, 4)),
            (3, 0x96, (4, 5)),
            (3, 0xCA, (1, 3)),
            (4, 0x6996, (6, 7)),
            (4, 0x8412, (8, 9)),
            // Input 2 below input 1, and input 4 below input 3.
            (4, 0xF888, (3, 4)),
            (4, 0xFF00, (0, 1)),
            (4, 0xF0F0, (0, 1)),
            (4, 0xAAAA, (0, 1)),
            (4, 0x3333, (1, 1)),
        ] {
            assert_eq!((count(n, table), selectors(n, table)), expected, "{table:x}");
        }
    }

    /// Every list that goes on from this one by up to so many entries, each with
    /// every top: none has fewer cells than its table's count.
    fn every_list(n: u32, list: &mut Diagram, more: usize) {
        for top in 0..list.next() {
            list.top = top;
            assert!(count(n, table_of(n, list)) <= list.cells(), "{list:?}");
        }
        if more == 0 {
            return;
        }
        for input in 1..=n as u8 {
            let names: Vec<u8> = (0..list.next()).filter(|&name| list.input(name) > input).collect();
            for &zero in &names {
                for &one in &names {
                    list.entries.push(Entry { input, zero, one });
                    every_list(n, list, more - 1);
                    list.entries.pop();
                }
            }
        }
    }

    /// From nothing on, and from all inputs on, which cost nothing.
    #[test]
    fn no_list_has_fewer_cells() {
        for (n, most) in [(1, 3), (2, 4), (3, 4), (4, 3)] {
            every_list(n, &mut Diagram { entries: vec![], top: 0 }, most);
            let inputs = (1..=n as u8).map(|input| Entry { input, zero: 0, one: 1 });
            every_list(n, &mut Diagram { entries: inputs.collect(), top: 0 }, most - 1);
        }
    }

    /// A wire of two inputs.
    fn cells_of(entries: &[[u8; 3]], top: u8) -> u32 {
        let stage = [&[0x20, 2, 1, 0x26, 0, entries.len() as u8], &entries.concat()[..], &[top, 0x2F]].concat();
        read(&stage).expect("to be read").cells
    }

    #[test]
    fn straight_entries_are_no_cells() {
        assert_eq!(cells_of(&[[1, 0, 1]], 2), 0);
        assert_eq!(cells_of(&[[1, 0, 1], [1, 0, 1], [2, 0, 1]], 2), 0);
        assert_eq!(cells_of(&[[1, 0, 1]], 0), 0);
        assert_eq!(cells_of(&[[1, 1, 0]], 2), 1);
        assert_eq!(cells_of(&[[1, 0, 0]], 2), 1);
        assert_eq!(cells_of(&[[1, 1, 1]], 2), 1);
        assert_eq!(cells_of(&[[1, 1, 1], [1, 1, 0], [1, 1, 0]], 0), 3);
        assert_eq!(cells_of(&[[2, 0, 1], [1, 2, 1]], 3), 1);
        // An entry worth the constant is not the constant.
        assert_eq!(cells_of(&[[2, 0, 0], [1, 2, 1]], 3), 2);
        assert_eq!(cells_of(&[[2, 1, 1], [1, 0, 2]], 3), 2);
    }
}
