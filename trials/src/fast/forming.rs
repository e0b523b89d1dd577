//! The relation of a unit, for all wire values at once: a signal is one word,
//! whose bit v is the signal for wire value v, and a gate is worked out on words.
//!
//! Words have 16 bits also where there are fewer values. What stands in the bits
//! from 2^m up is never asked for: no permitted or present value is there.

use super::lanes::{lane, WIRES};
use crate::relation::Sets;
use crate::sheet::{Row, Unit, MOST_GATES, MOST_OUTPUTS, MOST_PATTERNS};

const MOST_SIGNALS: usize = 4 + MOST_GATES;

/// For each kind, all bits or none: of the words' AND, of their XOR, and of what
/// is turned round at the end. OR is AND and XOR together.
const TERMS: [[u16; 3]; 6] = [[!0, 0, 0], [!0, !0, 0], [0, !0, 0], [!0, 0, !0], [!0, !0, !0], [0, !0, !0]];

/// What a gate makes of two words. There is no branch on the kind, which the
/// processor would often guess wrong.
#[inline(always)]
fn gate(kind: u8, a: u16, b: u16) -> u16 {
    let [and, xor, turned] = TERMS[usize::from(kind)];
    a & b & and ^ (a ^ b) & xor ^ turned
}

/// The wires first, then each gate behind them. Four wires are always there;
/// those past the last one give way to gates.
#[inline(always)]
fn signals(unit: &Unit) -> [u16; MOST_SIGNALS] {
    let mut signals = [0; MOST_SIGNALS];
    for j in 0..4 {
        signals[j] = lane(WIRES, j);
    }
    for (i, g) in unit.gates.iter().enumerate() {
        let (a, b) = (signals[usize::from(g.a)], signals[usize::from(g.b)]);
        signals[unit.m as usize + i] = gate(g.kind, a, b);
    }
    signals
}

/// The outputs; past the last one 0, which is the same for all values.
#[inline(always)]
fn outputs(unit: &Unit) -> [u16; MOST_OUTPUTS] {
    let signals = signals(unit);
    let mut outputs = [0; MOST_OUTPUTS];
    for (word, &s) in outputs.iter_mut().zip(&unit.outputs) {
        *word = signals[usize::from(s)];
    }
    outputs
}

/// The values for which every output is what it is for value u: of each word
/// the ones where bit u is 1, else the zeros. Of eight words always, so that they
/// stand in the lanes of a vector.
#[inline(always)]
fn alike(outputs: &[u16; MOST_OUTPUTS], u: u8) -> u16 {
    outputs.iter().fold(!0, |set, &word| set & (word ^ (word >> u & 1).wrapping_sub(1)))
}

/// The sets R(p), empty ones among them.
pub fn sets_of(unit: &Unit) -> Sets {
    let outputs = outputs(unit);
    let mut sets = [0; MOST_PATTERNS];
    for p in 0..unit.patterns() {
        sets[p] = match unit.rows[p] {
            Row::Drives(u) => unit.permitted[p] & alike(&outputs, u),
            _ => unit.permitted[p],
        };
    }
    sets
}
