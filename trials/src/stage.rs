//! Document 01, "Stage sheet": the tree board's writer and reader. A stage's
//! cells are those of document 02, E4.

use crate::board::{Board, Stage};
use crate::cells::{full, halves, Tables};
use crate::commands::{Due, Reader};
use crate::refusal::*;

/// No stage of trees has more bytes: four wires of six inputs, with 63 selectors
/// each.
pub const LONGEST_STAGE: usize = 4 + 4 * (3 + 3 * 63);

/// One tree: a constant, or a selector on an input with its trees for 0 and 1.
#[derive(Clone, PartialEq, Eq, Debug)]
pub enum Tree {
    Constant(bool),
    Selector(u32, Box<Tree>, Box<Tree>),
}

impl Tree {
    /// The wire on pattern p, whose highest bit is the first input.
    pub fn follow(&self, n: u32, p: usize) -> bool {
        match self {
            Tree::Constant(bit) => *bit,
            Tree::Selector(k, zero, one) => {
                if p >> (n - k) & 1 == 0 {
                    zero.follow(n, p)
                } else {
                    one.follow(n, p)
                }
            }
        }
    }

    /// A selector whose branches are the constants 0 and 1 themselves passes its
    /// input straight through; every other one is a cell.
    pub fn cells(&self) -> u32 {
        match self {
            Tree::Constant(_) => 0,
            Tree::Selector(_, zero, one) => match (&**zero, &**one) {
                (Tree::Constant(false), Tree::Constant(true)) => 0,
                (zero, one) => 1 + zero.cells() + one.cells(),
            },
        }
    }
}

/// The reduced tree of a table whose first input still to be tested is k.
fn write_tree(n: u32, table: u64, k: u8, out: &mut Vec<u8>) {
    if table == 0 {
        out.push(0x23);
    } else if table == full(n) {
        out.push(0x24);
    } else {
        let (zero, one) = halves(n, table);
        if zero == one {
            write_tree(n - 1, zero, k + 1, out);
        } else {
            out.extend([0x22, k]);
            write_tree(n - 1, zero, k + 1, out);
            write_tree(n - 1, one, k + 1, out);
        }
    }
}

/// The bytes of a stage in range.
pub fn bytes_of(n: u32, m: u32, tables: &Tables) -> Vec<u8> {
    let mut out = vec![0x20, n as u8, m as u8];
    for j in 0..m as u8 {
        out.extend([0x21, j]);
        write_tree(n, tables[usize::from(j)], 1, &mut out);
    }
    out.push(0x2F);
    out
}

/// The commands of this kind of stage sheet.
fn known(first: u8) -> Option<(Due, usize)> {
    match first {
        0x20 => Some((Due::Sizes, 2)),
        0x21 => Some((Due::Wire, 1)),
        0x22 => Some((Due::Tree, 1)),
        0x23 | 0x24 => Some((Due::Tree, 0)),
        0x2F => Some((Due::End, 0)),
        _ => None,
    }
}

/// 21 j: 3 from m up, then 5 if it is not the next.
fn wire(reader: &mut Reader, m: u32, next: u32) -> Result<(), Refusal> {
    let command = reader.next(Due::Wire)?;
    let j = u32::from(command.operands[0]);
    if j >= m {
        return refuse(OUT_OF_RANGE, command.place);
    }
    if j != next {
        return refuse(OUT_OF_TURN, command.place);
    }
    Ok(())
}

/// A tree below a selector on input `parent` (0: none).
fn tree(reader: &mut Reader, n: u32, parent: u32) -> Result<Tree, Refusal> {
    let command = reader.next(Due::Tree)?;
    if command.first != 0x22 {
        return Ok(Tree::Constant(command.first == 0x24));
    }
    let k = u32::from(command.operands[0]);
    if !(1..=n).contains(&k) {
        return refuse(OUT_OF_RANGE, command.place);
    }
    if k <= parent {
        return refuse(NOT_ASCENDING, command.place);
    }
    let zero = tree(reader, n, k)?;
    let one = tree(reader, n, k)?;
    Ok(Tree::Selector(k, Box::new(zero), Box::new(one)))
}

/// The stage reader: any ordered tree.
pub fn read(bytes: &[u8]) -> Result<Stage, Refusal> {
    let mut reader = Reader::new(bytes, known);
    let (n, m) = reader.sizes(Board::Tree.most_inputs())?;
    let mut stage = Stage::without_wires(n, m);
    for j in 0..m {
        wire(&mut reader, m, j)?;
        let tree = tree(&mut reader, n, 0)?;
        stage.put(j, |p| tree.follow(n, p), tree.cells());
    }
    reader.end()?;
    Ok(stage)
}

#[cfg(test)]
mod tests {
    use super::*;
    use crate::cells::cells;

    fn refusal(bytes: &[u8]) -> (u8, usize) {
        let r = read(bytes).expect_err("to be refused");
        (r.number, r.place)
    }

    #[test]
    fn numbers_and_places() {
        assert_eq!(refusal(&[]), (1, 0));
        assert_eq!(refusal(&[0x20, 1]), (1, 0));
        assert_eq!(refusal(&[0x20, 1, 1]), (1, 3));
        assert_eq!(refusal(&[0x20, 1, 1, 0x21]), (1, 3));
        assert_eq!(refusal(&[0x20, 1, 1, 0x21, 0]), (1, 5));
        assert_eq!(refusal(&[0x20, 1, 1, 0x21, 0, 0x22]), (1, 5));
        assert_eq!(refusal(&[0x20, 1, 1, 0x21, 0, 0x22, 1, 0x23]), (1, 8));
        assert_eq!(refusal(&[0x20, 1, 1, 0x21, 0, 0x23]), (1, 6));
        assert_eq!(refusal(&[1]), (2, 0));
        assert_eq!(refusal(&[0x20, 1, 1, 0x25]), (2, 3));
        assert_eq!(refusal(&[0x20, 0, 1]), (3, 0));
        assert_eq!(refusal(&[0x20, 7, 1]), (3, 0));
        assert_eq!(refusal(&[0x20, 6, 1]), (1, 3));
        assert_eq!(refusal(&[0x20, 6, 1, 0x21, 0, 0x22, 7]), (3, 5));
        assert_eq!(refusal(&[0x20, 5, 1, 0x21, 0, 0x22, 6]), (3, 5));
        assert_eq!(refusal(&[0x20, 6, 1, 0x21, 0, 0x22, 6, 0x22, 6]), (11, 7));
        assert_eq!(refusal(&[0x20, 6, 1, 0x21, 0, 0x22, 6, 0x22, 5]), (11, 7));
        assert_eq!(refusal(&[0x20, 1, 5]), (3, 0));
        assert_eq!(refusal(&[0x20, 1, 1, 0x21, 1]), (3, 3));
        assert_eq!(refusal(&[0x20, 1, 1, 0x21, 0, 0x22, 0]), (3, 5));
        assert_eq!(refusal(&[0x20, 1, 1, 0x21, 0, 0x22, 2]), (3, 5));
        assert_eq!(refusal(&[0x20, 1, 1, 0x21, 0, 0x23, 0x2F, 0x2F]), (4, 7));
        assert_eq!(refusal(&[0x2F]), (5, 0));
        assert_eq!(refusal(&[0x20, 1, 1, 0x20]), (5, 3));
        assert_eq!(refusal(&[0x20, 1, 1, 0x23]), (5, 3));
        assert_eq!(refusal(&[0x20, 1, 1, 0x2F]), (5, 3));
        assert_eq!(refusal(&[0x20, 1, 1, 0x21, 0, 0x21]), (5, 5));
        assert_eq!(refusal(&[0x20, 1, 2, 0x21, 1]), (5, 3));
        assert_eq!(refusal(&[0x20, 1, 2, 0x21, 0, 0x23, 0x21, 0]), (5, 6));
        assert_eq!(refusal(&[0x20, 2, 1, 0x21, 0, 0x22, 2, 0x22, 1]), (11, 7));
        assert_eq!(refusal(&[0x20, 2, 1, 0x21, 0, 0x22, 2, 0x22, 2]), (11, 7));
        assert_eq!(refusal(&[0x20, 2, 1, 0x21, 0, 0x22, 2, 0x22, 0]), (3, 7));
    }

    /// Where the end is due, 21 is out of turn, whatever follows it.
    #[test]
    fn a_wire_too_many() {
        for more in [vec![0x21], vec![0x21, 0], vec![0x21, 1], vec![0x21, 9]] {
            assert_eq!(refusal(&[vec![0x20, 1, 1, 0x21, 0, 0x23], more].concat()), (5, 6));
        }
    }

    /// A wire of two inputs.
    fn cells_of(tree: &[u8]) -> u32 {
        let stage = [&[0x20, 2, 1, 0x21, 0], tree, &[0x2F]].concat();
        read(&stage).expect("to be read").cells
    }

    #[test]
    fn straight_selectors_are_no_cells() {
        assert_eq!(cells_of(&[0x22, 1, 0x23, 0x24]), 0);
        assert_eq!(cells_of(&[0x22, 2, 0x23, 0x24]), 0);
        assert_eq!(cells_of(&[0x22, 1, 0x24, 0x23]), 1);
        assert_eq!(cells_of(&[0x22, 1, 0x23, 0x23]), 1);
        assert_eq!(cells_of(&[0x22, 1, 0x24, 0x24]), 1);
        assert_eq!(cells_of(&[0x22, 1, 0x22, 2, 0x23, 0x24, 0x24]), 1);
        assert_eq!(cells_of(&[0x22, 1, 0x22, 2, 0x23, 0x24, 0x22, 2, 0x23, 0x24]), 1);
        // A larger branch, though it is worth the constant.
        assert_eq!(cells_of(&[0x22, 1, 0x22, 2, 0x23, 0x23, 0x24]), 2);
        assert_eq!(cells_of(&[0x22, 1, 0x23, 0x22, 2, 0x24, 0x24]), 2);
    }

    /// Every ordered tree on the inputs from k to n.
    fn every_tree(n: u32, k: u32) -> Vec<Tree> {
        if k > n {
            return vec![Tree::Constant(false), Tree::Constant(true)];
        }
        let below = every_tree(n, k + 1);
        let mut all = below.clone();
        for zero in &below {
            all.extend(below.iter().map(|one| Tree::Selector(k, Box::new(zero.clone()), Box::new(one.clone()))));
        }
        all
    }

    /// No tree has fewer cells than its table's count, and one has as many.
    #[test]
    fn no_tree_has_fewer_cells() {
        for (n, count) in [(1, 6), (2, 42), (3, 1_806)] {
            let mut least = vec![u32::MAX; 1 << (1 << n)];
            let trees = every_tree(n, 1);
            assert_eq!(trees.len(), count);
            for tree in trees {
                let table = (0..1 << n).fold(0, |table, p| table | usize::from(tree.follow(n, p)) << p);
                least[table] = least[table].min(tree.cells());
            }
            assert!((0..=full(n)).all(|table| least[table as usize] == cells(n, table)));
        }
    }
}
