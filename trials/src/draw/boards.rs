//! Stages drawn by chance, in the form of either board.

use super::damage::{damage_by, LIKELY};
use super::{diagram_faults, diagrams, stage_faults, stages};
use crate::board::Board;
use crate::cells::Tables;
use crate::random::Random;

/// Bytes that are likely to mean something in a stage of lists.
const LIKELY_IN_LISTS: [u8; 16] = [0, 1, 2, 3, 4, 5, 6, 7, 0x20, 0x21, 0x22, 0x26, 0x2F, 0xFD, 0xFE, 0xFF];

fn likely(board: Board) -> &'static [u8] {
    match board {
        Board::Tree => &LIKELY,
        Board::Shared => &LIKELY_IN_LISTS,
    }
}

/// A stage that reads well.
pub fn stage(board: Board, rng: &mut Random, n: u8, m: u8) -> Vec<u8> {
    match board {
        Board::Tree => stages::stage(rng, n, m).concat(),
        Board::Shared => diagrams::stage(rng, n, m),
    }
}

/// A stage of those tables, seldom the smallest.
pub fn padded(board: Board, rng: &mut Random, n: u8, m: u8, tables: &Tables) -> Vec<u8> {
    match board {
        Board::Tree => stages::padded(rng, n, m, tables),
        Board::Shared => diagrams::padded(rng, n, m, tables),
    }
}

/// The same with one constant turned round.
pub fn turned(board: Board, rng: &mut Random, n: u8, m: u8, tables: &Tables) -> Vec<u8> {
    match board {
        Board::Tree => {
            let mut stage = stages::padded(rng, n, m, tables);
            stages::turn_a_constant(rng, &mut stage);
            stage
        }
        Board::Shared => diagrams::turned(rng, n, m, tables),
    }
}

/// A stage with one fault or several.
pub fn faulty(board: Board, rng: &mut Random, n: u8, m: u8) -> Vec<u8> {
    match board {
        Board::Tree => {
            let number = rng.of(&stage_faults::NUMBERS);
            stage_faults::faulty(rng, number, n, m).concat()
        }
        Board::Shared => diagram_faults::faulty(rng, n, m),
    }
}

/// A stage that was damaged.
pub fn damaged(board: Board, rng: &mut Random, n: u8, m: u8) -> Vec<u8> {
    let stage = stage(board, rng, n, m);
    damage_by(rng, &stage, likely(board))
}

/// A few bytes, each likely to mean something.
pub fn scrap(board: Board, rng: &mut Random) -> Vec<u8> {
    let length = rng.below(12);
    (0..length).map(|_| rng.of(likely(board))).collect()
}
