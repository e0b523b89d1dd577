//! Document 01, "Relation": R(p), refusal 10, and relations handed in. With
//! document 02, E5, there are 64 sets, for up to six inputs.

use crate::board::Board;
use crate::refusal::*;
use crate::sheet::{all_values, Row, Unit, MOST_PATTERNS, MOST_WIRES};
use crate::unit::answer;

/// A set of values for each pattern; those past the last one are not read.
pub type Sets = [u16; MOST_PATTERNS];

/// The values where a wire is 1.
pub const ONE: [u16; 4] = [0xAAAA, 0xCCCC, 0xF0F0, 0xFF00];

/// A well-defined relation: no set below 2^n is empty, no set bit is too high.
#[derive(Clone, Copy, PartialEq, Eq, Debug)]
pub struct Relation {
    pub n: u32,
    pub m: u32,
    pub sets: Sets,
}

impl Relation {
    pub fn patterns(&self) -> usize {
        1 << self.n
    }
}

/// The sets R(p), empty ones among them.
pub fn sets_of(unit: &Unit) -> Sets {
    let answers: Vec<Vec<bool>> = (0..1usize << unit.m).map(|v| answer(unit, v)).collect();
    let mut sets = [0; MOST_PATTERNS];
    for p in 0..unit.patterns() {
        for v in 0..answers.len() {
            let permitted = unit.permitted[p] >> v & 1 == 1;
            let alike = match unit.rows[p] {
                Row::Drives(u) => answers[v] == answers[usize::from(u)],
                _ => true,
            };
            if permitted && alike {
                sets[p] |= 1 << v;
            }
        }
    }
    sets
}

/// Forming the relation of a sheet; 10 where some R(p) is empty.
pub fn of_unit(unit: &Unit) -> Result<Relation, Refusal> {
    well_defined(unit.n, unit.m, sets_of(unit))
}

/// A relation handed in: sizes (3 at 0; more inputs than the board has lines are
/// among them), set bits (3 at the lowest pattern), then 10. Sets past the last
/// pattern are not read.
pub fn handed(board: Board, n: u8, m: u8, sets: &Sets) -> Result<Relation, Refusal> {
    if !(1..=board.most_inputs()).contains(&n) || !(1..=MOST_WIRES).contains(&m) {
        return refuse(OUT_OF_RANGE, 0);
    }
    let (n, m) = (u32::from(n), u32::from(m));
    let mut read = [0; MOST_PATTERNS];
    for p in 0..1usize << n {
        if sets[p] & !all_values(m) != 0 {
            return refuse(OUT_OF_RANGE, p);
        }
        read[p] = sets[p];
    }
    well_defined(n, m, read)
}

/// The relation of these sets; 10 at the lowest pattern whose set is empty.
pub fn well_defined(n: u32, m: u32, sets: Sets) -> Result<Relation, Refusal> {
    for p in 0..1usize << n {
        if sets[p] == 0 {
            return refuse(EMPTY, p);
        }
    }
    Ok(Relation { n, m, sets })
}
