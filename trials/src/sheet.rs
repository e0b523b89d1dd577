//! Document 01, "Unit sheet": the reader, refusals 1 to 9; with up to six inputs
//! (document 02, E5), whichever board it is read for.
//!
//! For one command the tests come in the order 2, 5, 1, 3, 6, 7, 8; at the
//! end 4, then 9.

use crate::refusal::*;

pub const MOST_INPUTS: u8 = 6;
pub const MOST_WIRES: u8 = 4;
/// The patterns of six inputs.
pub const MOST_PATTERNS: usize = 1 << MOST_INPUTS;
pub const MOST_GATES: usize = 32;
pub const MOST_OUTPUTS: usize = 8;

/// What the sheet says of one pattern.
#[derive(Clone, Copy, PartialEq, Eq, Debug)]
pub enum Row {
    Unsaid,
    Drives(u8),
    Impossible,
}

/// `04 k a b`.
#[derive(Clone, Copy, PartialEq, Eq, Debug)]
pub struct Gate {
    pub kind: u8,
    pub a: u8,
    pub b: u8,
}

/// A sheet that was read to its end.
#[derive(Clone, PartialEq, Eq, Debug)]
pub struct Unit {
    pub n: u32,
    pub m: u32,
    pub rows: [Row; MOST_PATTERNS],
    /// The intersection of the 06 sets of each pattern; all values without one.
    pub permitted: [u16; MOST_PATTERNS],
    pub gates: Vec<Gate>,
    pub outputs: Vec<u8>,
}

impl Unit {
    pub fn fresh(n: u32, m: u32) -> Unit {
        Unit {
            n,
            m,
            rows: [Row::Unsaid; MOST_PATTERNS],
            permitted: [all_values(m); MOST_PATTERNS],
            gates: Vec::new(),
            outputs: Vec::new(),
        }
    }

    pub fn patterns(&self) -> usize {
        1 << self.n
    }

    fn has_pattern(&self, p: u8) -> bool {
        usize::from(p) < self.patterns()
    }

    fn has_value(&self, v: u8) -> bool {
        u32::from(v) < 1 << self.m
    }

    fn has_signal(&self, s: u8) -> bool {
        usize::from(s) < self.m as usize + self.gates.len()
    }
}

/// The set of all 2^m values.
pub fn all_values(m: u32) -> u16 {
    ((1u32 << (1u32 << m)) - 1) as u16
}

/// How many operand bytes follow a first byte; `None` for an unknown one.
pub fn operand_count(first: u8) -> Option<usize> {
    match first {
        0x00 => Some(0),
        0x01 | 0x02 => Some(2),
        0x03 | 0x05 => Some(1),
        0x04 | 0x06 => Some(3),
        _ => None,
    }
}

/// Reads a whole unit sheet.
pub fn read(bytes: &[u8]) -> Result<Unit, Refusal> {
    let mut unit: Option<Unit> = None;
    let mut at = 0;
    loop {
        let Some(&first) = bytes.get(at) else {
            return refuse(CUT_SHORT, at);
        };
        let Some(count) = operand_count(first) else {
            return refuse(UNKNOWN, at);
        };
        // 01 comes first and only then.
        if (first == 0x01) != unit.is_none() {
            return refuse(OUT_OF_TURN, at);
        }
        let after = at + 1 + count;
        if after > bytes.len() {
            return refuse(CUT_SHORT, at);
        }
        let operands = &bytes[at + 1..after];
        let outcome = match unit.as_mut() {
            None => sizes(operands).map(|fresh| unit = Some(fresh)),
            Some(unit) if first == 0x00 => {
                end(unit, bytes.len(), after)?;
                return Ok(unit.clone());
            }
            Some(unit) => command(unit, first, operands),
        };
        if let Err(number) = outcome {
            return refuse(number, at);
        }
        at = after;
    }
}

/// 01 n m.
fn sizes(operands: &[u8]) -> Result<Unit, u8> {
    let (n, m) = (operands[0], operands[1]);
    if !(1..=MOST_INPUTS).contains(&n) || !(1..=MOST_WIRES).contains(&m) {
        return Err(OUT_OF_RANGE);
    }
    Ok(Unit::fresh(n.into(), m.into()))
}

/// 02 to 06: range (3), signals (6), repeated rows (7), counts (8).
fn command(unit: &mut Unit, first: u8, operands: &[u8]) -> Result<(), u8> {
    match first {
        0x02 => drives(unit, operands[0], operands[1]),
        0x03 => impossible(unit, operands[0]),
        0x04 => gate(unit, operands[0], operands[1], operands[2]),
        0x05 => output(unit, operands[0]),
        _ => permits(unit, operands[0], u16::from_le_bytes([operands[1], operands[2]])),
    }
}

fn drives(unit: &mut Unit, p: u8, v: u8) -> Result<(), u8> {
    if !unit.has_pattern(p) || !unit.has_value(v) {
        return Err(OUT_OF_RANGE);
    }
    say(unit, p, Row::Drives(v))
}

fn impossible(unit: &mut Unit, p: u8) -> Result<(), u8> {
    if !unit.has_pattern(p) {
        return Err(OUT_OF_RANGE);
    }
    say(unit, p, Row::Impossible)
}

fn say(unit: &mut Unit, p: u8, row: Row) -> Result<(), u8> {
    let place = &mut unit.rows[usize::from(p)];
    if *place != Row::Unsaid {
        return Err(REPEATED);
    }
    *place = row;
    Ok(())
}

fn gate(unit: &mut Unit, kind: u8, a: u8, b: u8) -> Result<(), u8> {
    if kind > 5 {
        return Err(OUT_OF_RANGE);
    }
    if !unit.has_signal(a) || !unit.has_signal(b) {
        return Err(NO_SIGNAL);
    }
    if unit.gates.len() == MOST_GATES {
        return Err(TOO_MANY);
    }
    unit.gates.push(Gate { kind, a, b });
    Ok(())
}

fn output(unit: &mut Unit, s: u8) -> Result<(), u8> {
    if !unit.has_signal(s) {
        return Err(NO_SIGNAL);
    }
    if unit.outputs.len() == MOST_OUTPUTS {
        return Err(TOO_MANY);
    }
    unit.outputs.push(s);
    Ok(())
}

fn permits(unit: &mut Unit, p: u8, set: u16) -> Result<(), u8> {
    if !unit.has_pattern(p) || set & !all_values(unit.m) != 0 {
        return Err(OUT_OF_RANGE);
    }
    unit.permitted[usize::from(p)] &= set;
    Ok(())
}

/// 00: nothing may follow (4), every pattern has its row (9).
fn end(unit: &Unit, length: usize, after: usize) -> Result<(), Refusal> {
    if after < length {
        return refuse(TRAILING, after);
    }
    for p in 0..unit.patterns() {
        if unit.rows[p] == Row::Unsaid {
            return refuse(MISSING_ROW, p);
        }
    }
    Ok(())
}

#[cfg(test)]
mod tests {
    use super::*;

    fn refusal(bytes: &[u8]) -> (u8, usize) {
        let r = read(bytes).expect_err("to be refused");
        (r.number, r.place)
    }

    #[test]
    fn numbers_and_places() {
        assert_eq!(refusal(&[]), (1, 0));
        assert_eq!(refusal(&[1, 4]), (1, 0));
        assert_eq!(refusal(&[1, 4, 4]), (1, 3));
        assert_eq!(refusal(&[1, 4, 4, 4, 0, 0]), (1, 3));
        assert_eq!(refusal(&[7]), (2, 0));
        assert_eq!(refusal(&[1, 1, 1, 0x20]), (2, 3));
        assert_eq!(refusal(&[1, 0, 1]), (3, 0));
        assert_eq!(refusal(&[1, 7, 1]), (3, 0));
        assert_eq!(refusal(&[1, 6, 0]), (3, 0));
        assert_eq!(refusal(&[1, 6, 5]), (3, 0));
        assert_eq!(refusal(&[1, 5, 4]), (1, 3));
        assert_eq!(refusal(&[1, 6, 4]), (1, 3));
        assert_eq!(refusal(&[1, 1, 5]), (3, 0));
        assert_eq!(refusal(&[1, 1, 1, 2, 2, 0]), (3, 3));
        assert_eq!(refusal(&[1, 1, 1, 2, 0, 2]), (3, 3));
        assert_eq!(refusal(&[1, 1, 1, 3, 2]), (3, 3));
        assert_eq!(refusal(&[1, 1, 1, 4, 6, 0, 0]), (3, 3));
        assert_eq!(refusal(&[1, 1, 1, 6, 2, 0, 0]), (3, 3));
        assert_eq!(refusal(&[1, 1, 1, 6, 0, 4, 0]), (3, 3));
        assert_eq!(refusal(&[1, 1, 3, 6, 0, 0xFF, 1]), (3, 3));
        assert_eq!(refusal(&[1, 1, 1, 3, 0, 3, 1, 0, 9, 9]), (4, 8));
        assert_eq!(refusal(&[0]), (5, 0));
        assert_eq!(refusal(&[1, 1, 1, 1, 1, 1]), (5, 3));
        assert_eq!(refusal(&[1, 1, 1, 4, 0, 1, 0]), (6, 3));
        assert_eq!(refusal(&[1, 1, 1, 4, 0, 0, 1]), (6, 3));
        assert_eq!(refusal(&[1, 1, 1, 5, 1]), (6, 3));
        assert_eq!(refusal(&[1, 1, 1, 3, 0, 2, 0, 0]), (7, 5));
        assert_eq!(refusal(&[1, 1, 1, 2, 1, 0, 3, 1]), (7, 6));
        assert_eq!(refusal(&[1, 1, 1, 0]), (9, 0));
        assert_eq!(refusal(&[1, 1, 1, 3, 0, 0]), (9, 1));
    }

    /// The last pattern of five inputs and of six, and the first past it.
    #[test]
    fn patterns_of_wide_sheets() {
        for (n, last) in [(5, 31), (6, 63)] {
            for command in [vec![2, last, 0], vec![3, last], vec![6, last, 1, 0]] {
                let past = [&[command[0], last + 1], &command[2..]].concat();
                let length = 3 + command.len();
                assert_eq!(refusal(&[vec![1, n, 1], command].concat()), (1, length));
                assert_eq!(refusal(&[vec![1, n, 1], past].concat()), (3, 3));
            }
            let rows = (0..last).flat_map(|p| [3, p]).collect::<Vec<u8>>();
            assert_eq!(refusal(&[vec![1, n, 1], rows, vec![0]].concat()), (9, last.into()));
        }
    }

    #[test]
    fn order_within_a_command() {
        // 5 before 1 and 3; 1 before 3, 6, 7; 3 before 6 and 7; 4 before 9.
        assert_eq!(refusal(&[2]), (5, 0));
        assert_eq!(refusal(&[1, 1, 1, 1]), (5, 3));
        assert_eq!(refusal(&[1, 1, 1, 1, 9, 9]), (5, 3));
        assert_eq!(refusal(&[1, 9]), (1, 0));
        assert_eq!(refusal(&[1, 1, 1, 4, 9, 9]), (1, 3));
        assert_eq!(refusal(&[1, 1, 1, 3, 0, 3]), (1, 5));
        assert_eq!(refusal(&[1, 1, 1, 4, 9, 9, 9]), (3, 3));
        assert_eq!(refusal(&[1, 1, 1, 3, 0, 2, 0, 9]), (3, 5));
        assert_eq!(refusal(&[1, 1, 1, 0, 0]), (4, 4));
    }

    #[test]
    fn too_many() {
        let gates = |count| [vec![1, 1, 1], [4, 0, 0, 0].repeat(count)].concat();
        assert_eq!(refusal(&gates(32)), (1, 3 + 128));
        assert_eq!(refusal(&gates(33)), (8, 3 + 128));
        // 3 and 6 before 8; the signals are 0 to 32.
        assert_eq!(refusal(&[gates(32), vec![4, 6, 0, 0]].concat()), (3, 131));
        assert_eq!(refusal(&[gates(32), vec![4, 0, 0, 33]].concat()), (6, 131));
        assert_eq!(refusal(&[gates(32), vec![4, 0, 0, 32]].concat()), (8, 131));
        let outputs = |count| [vec![1, 1, 1], [5, 0].repeat(count)].concat();
        assert_eq!(refusal(&outputs(8)), (1, 3 + 16));
        assert_eq!(refusal(&outputs(9)), (8, 3 + 16));
        assert_eq!(refusal(&[outputs(8), vec![5, 1]].concat()), (6, 19));
    }
}
