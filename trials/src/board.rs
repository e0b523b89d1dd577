//! The two boards: document 01's, where a wire is a tree of selectors, and that
//! of document 02, E2, where a selector may feed several of its wire. A board
//! tells what a table costs and how a stage is written down. The search, the
//! calls and the order of their tests are the same on both, and so is what E4
//! says of both: an input that is soldered through costs nothing, and is written
//! down as any other selector. With E5 the first has up to six inputs, and the
//! other up to four as before.

use crate::buffer::put;
use crate::cells::{self, full, Tables};
use crate::refusal::*;
use crate::sheet::{MOST_INPUTS, MOST_WIRES};
use crate::{diagram, stage};

#[derive(Clone, Copy, PartialEq, Eq, Hash, Debug)]
pub enum Board {
    Tree,
    Shared,
}

pub const BOARDS: [Board; 2] = [Board::Tree, Board::Shared];

/// What a stage sheet says, in whichever form.
#[derive(Clone, Copy, PartialEq, Eq, Debug)]
pub struct Stage {
    pub n: u32,
    pub m: u32,
    /// 0 past wire m-1.
    pub tables: Tables,
    pub cells: u32,
}

impl Stage {
    pub fn without_wires(n: u32, m: u32) -> Stage {
        Stage { n, m, tables: [0; 4], cells: 0 }
    }

    /// Puts in a wire: what it is on each pattern, and its cells.
    pub fn put(&mut self, wire: u32, follow: impl Fn(usize) -> bool, cells: u32) {
        for p in 0..1usize << self.n {
            self.tables[wire as usize] |= u64::from(follow(p)) << p;
        }
        self.cells += cells;
    }
}

impl Board {
    /// How many inputs its stages and relations may have; sheets may have as many
    /// as the tree board.
    pub fn most_inputs(self) -> u8 {
        match self {
            Board::Tree => MOST_INPUTS,
            Board::Shared => 4,
        }
    }

    /// The cells of a table of n inputs.
    pub fn cells(self, n: u32, table: u64) -> u32 {
        match self {
            Board::Tree => cells::cells(n, table),
            Board::Shared => diagram::count(n, table),
        }
    }

    /// The selectors that a table is written with.
    pub fn selectors(self, n: u32, table: u64) -> u32 {
        match self {
            Board::Tree => cells::selectors(n, table),
            Board::Shared => diagram::selectors(n, table),
        }
    }

    /// The cells of a stage: the sum over its wires.
    pub fn stage_cells(self, n: u32, m: u32, tables: &Tables) -> u32 {
        (0..m as usize).map(|j| self.cells(n, tables[j])).sum()
    }

    /// Its selectors likewise.
    pub fn stage_selectors(self, n: u32, m: u32, tables: &Tables) -> u32 {
        (0..m as usize).map(|j| self.selectors(n, tables[j])).sum()
    }

    /// The length of a written stage of so many selectors.
    pub fn length(self, m: u32, selectors: u32) -> usize {
        let wire = match self {
            Board::Tree => 3,
            Board::Shared => 4,
        };
        (4 + wire * m + 3 * selectors) as usize
    }

    /// No written stage is longer.
    pub fn longest(self) -> usize {
        match self {
            Board::Tree => stage::LONGEST_STAGE,
            Board::Shared => diagram::LONGEST_SHARED,
        }
    }

    /// The bytes of a stage in range.
    pub fn bytes_of(self, n: u32, m: u32, tables: &Tables) -> Vec<u8> {
        let bytes = match self {
            Board::Tree => stage::bytes_of(n, m, tables),
            Board::Shared => diagram::bytes_of(n, m, tables),
        };
        assert_eq!(bytes.len(), self.length(m, self.stage_selectors(n, m, tables)));
        bytes
    }

    /// The stage writer: sizes (3 at 0), tables too large (3 at the lowest
    /// wire), then 12; the stage goes to the start of the buffer. Gives its
    /// length.
    pub fn write(self, n: u8, m: u8, tables: &Tables, buffer: &mut [u8]) -> Result<usize, Refusal> {
        if !(1..=self.most_inputs()).contains(&n) || !(1..=MOST_WIRES).contains(&m) {
            return refuse(OUT_OF_RANGE, 0);
        }
        let (n, m) = (u32::from(n), u32::from(m));
        for j in 0..m as usize {
            if tables[j] > full(n) {
                return refuse(OUT_OF_RANGE, j);
            }
        }
        put(&self.bytes_of(n, m, tables), buffer)
    }

    /// The stage reader.
    pub fn read(self, bytes: &[u8]) -> Result<Stage, Refusal> {
        match self {
            Board::Tree => stage::read(bytes),
            Board::Shared => diagram::read(bytes),
        }
    }
}

#[cfg(test)]
mod tests {
    use super::*;

    #[test]
    fn what_is_written_is_read() {
        let sizes = |board: Board| (1..=board.most_inputs()).map(move |n| (board, n.into()));
        for (board, n) in BOARDS.into_iter().flat_map(sizes) {
            for step in 0..2_000u64 {
                let t = |k: u64| step.wrapping_mul(k) & full(n);
                let tables = [t(0x9E37_79B9_7F4A_7C15), t(1), t(77), t(0x1234_5678_9ABC_DEF1)];
                let mut buffer = [0; 772];
                let length = board.write(n as u8, 4, &tables, &mut buffer).unwrap();
                let stage = board.read(&buffer[..length]).unwrap();
                assert_eq!(stage, Stage { n, m: 4, tables, cells: board.stage_cells(n, 4, &tables) });
            }
        }
    }

    #[test]
    fn tests_of_the_writer() {
        for (board, need) in [(Board::Tree, 10), (Board::Shared, 12)] {
            let refusal = |n, m, tables, room| {
                let mut buffer = vec![0xEE; room];
                let r = board.write(n, m, &tables, &mut buffer).expect_err("to be refused");
                assert_eq!(buffer, vec![0xEE; room]);
                (r.number, r.place)
            };
            assert_eq!(refusal(0, 1, [9; 4], 0), (3, 0));
            assert_eq!(refusal(board.most_inputs() + 1, 1, [0; 4], 200), (3, 0));
            assert_eq!(refusal(1, 0, [0; 4], 200), (3, 0));
            assert_eq!(refusal(1, 5, [0; 4], 200), (3, 0));
            assert_eq!(refusal(1, 3, [3, 3, 4, 0], 0), (3, 2));
            assert_eq!(refusal(1, 3, [3, 9, 4, 0], 0), (3, 1));
            // Tables past wire m-1 are not read.
            assert_eq!(refusal(1, 2, [0, 0, 9, 9], need - 1), (12, need));
            assert_eq!(board.write(1, 2, &[0, 0, 9, 9], &mut vec![0; need]), Ok(need));
            // Bits past what a narrower table had.
            assert_eq!(refusal(4, 2, [0xFFFF, 1 << 16, 0, 0], 0), (3, 1));
            assert_eq!(refusal(4, 2, [0, 1 << 63, 0, 0], 0), (3, 1));
        }
    }

    #[test]
    fn wide_stages() {
        let write = |board: Board, n, tables: &Tables| board.write(n, 1, tables, &mut [0; 772]);
        for n in [5, 6] {
            assert_eq!(write(Board::Tree, n, &[0; 4]), Ok(7));
            assert_eq!(write(Board::Shared, n, &[0; 4]), refuse(OUT_OF_RANGE, 0));
        }
        assert_eq!(write(Board::Tree, 5, &[1 << 31, 1 << 32, 0, 0]), Ok(7 + 3 * 5));
        assert_eq!(write(Board::Tree, 5, &[1 << 32, 0, 0, 0]), refuse(OUT_OF_RANGE, 0));
        assert_eq!(write(Board::Tree, 6, &[u64::MAX, 0, 0, 0]), Ok(7));
        const PARITY: u64 = 0x6996_9669_9669_6996;
        for room in 770..=772 {
            let expected = if room < 772 { refuse(SHORT_BUFFER, 772) } else { Ok(772) };
            assert_eq!(Board::Tree.write(6, 4, &[PARITY, !PARITY, PARITY, !PARITY], &mut vec![0; room]), expected);
        }
    }
}
