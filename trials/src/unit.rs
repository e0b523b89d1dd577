//! Document 01, the gates and G(v): what the unit answers to a wire value.

use crate::sheet::Unit;

/// One gate on two bits.
pub fn gate(kind: u8, a: bool, b: bool) -> bool {
    match kind {
        0 => a && b,
        1 => a || b,
        2 => a != b,
        3 => !(a && b),
        4 => !(a || b),
        5 => a == b,
        _ => unreachable!("the reader refuses other kinds"),
    }
}

/// What the unit puts out where its wires have value v.
pub fn answer(unit: &Unit, v: usize) -> Vec<bool> {
    // The wires first, the lowest bit in front; then each gate behind them.
    let mut signals: Vec<bool> = (0..unit.m).map(|j| v >> j & 1 == 1).collect();
    for g in &unit.gates {
        let (a, b) = (signals[usize::from(g.a)], signals[usize::from(g.b)]);
        signals.push(gate(g.kind, a, b));
    }
    unit.outputs.iter().map(|&s| signals[usize::from(s)]).collect()
}
