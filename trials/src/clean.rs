//! Document 02, E1: the clean copy of a unit sheet.

use crate::buffer::put;
use crate::refusal::Refusal;
use crate::sheet::{self, all_values, Row, Unit, MOST_GATES, MOST_OUTPUTS, MOST_PATTERNS};

/// No copy is longer: six inputs with a value and a limit for each pattern,
/// and as many gates and outputs as there may be.
pub const LONGEST_COPY: usize = 3 + MOST_PATTERNS * (3 + 4) + 4 * MOST_GATES + 2 * MOST_OUTPUTS + 1;

/// The one order of what was gathered: sizes, rows, limits, gates, outputs, end.
pub fn copy(unit: &Unit) -> Vec<u8> {
    let mut out = vec![0x01, unit.n as u8, unit.m as u8];
    rows(unit, &mut out);
    limits(unit, &mut out);
    for gate in &unit.gates {
        out.extend([0x04, gate.kind, gate.a, gate.b]);
    }
    for s in &unit.outputs {
        out.extend([0x05, *s]);
    }
    out.push(0x00);
    out
}

fn rows(unit: &Unit, out: &mut Vec<u8>) {
    for p in 0..unit.patterns() {
        match unit.rows[p] {
            Row::Drives(v) => out.extend([0x02, p as u8, v]),
            Row::Impossible => out.extend([0x03, p as u8]),
            Row::Unsaid => unreachable!("the reader refuses a sheet without this row"),
        }
    }
}

/// A set of all values is what a pattern has without a limit, so it gets none,
/// whether or not the sheet had one. An empty set is narrowed like any other.
fn limits(unit: &Unit, out: &mut Vec<u8>) {
    for p in 0..unit.patterns() {
        let set = unit.permitted[p];
        if set != all_values(unit.m) {
            let [low, high] = set.to_le_bytes();
            out.extend([0x06, p as u8, low, high]);
        }
    }
}

/// Cleans a sheet: what reading refuses (1 to 9), then 12. Forming the relation
/// is no part of it, so 10 never comes. Gives the length of the copy.
pub fn clean(sheet: &[u8], buffer: &mut [u8]) -> Result<usize, Refusal> {
    let unit = sheet::read(sheet)?;
    put(&copy(&unit), buffer)
}

#[cfg(test)]
mod tests {
    use super::*;
    use crate::board::Board;
    use crate::draw::sheets::{draft, longest_draft_of};
    use crate::pick::Picker;
    use crate::quote::quote;
    use crate::random::Random;
    use crate::rows::A;

    /// The copy of a sheet, in a buffer that is just long enough.
    fn cleaned(sheet: &[u8]) -> Vec<u8> {
        let mut buffer = [0; LONGEST_COPY];
        let length = clean(sheet, &mut buffer).expect("to be read");
        let mut exact = vec![0; length];
        assert_eq!(clean(sheet, &mut exact), Ok(length));
        exact
    }

    fn refusal(sheet: &[u8], room: usize) -> (u8, usize) {
        let mut buffer = vec![0xEE; room];
        let r = clean(sheet, &mut buffer).expect_err("to be refused");
        assert_eq!(buffer, vec![0xEE; room]);
        (r.number, r.place)
    }

    /// Sheet A's content in a poor order, a limit said in two, and one that
    /// says nothing.
    #[test]
    fn one_order() {
        let sheet = [
            vec![0x01, 0x02, 0x02, 0x06, 0x03, 0x0D, 0x00, 0x05, 0x00, 0x02, 0x03, 0x02, 0x04, 0x02, 0x00, 0x01],
            vec![0x06, 0x00, 0x0F, 0x00, 0x05, 0x02, 0x03, 0x01, 0x06, 0x03, 0x07, 0x00, 0x02, 0x02, 0x00],
            vec![0x02, 0x00, 0x01, 0x04, 0x00, 0x02, 0x01, 0x06, 0x01, 0x00, 0x00, 0x00],
        ];
        let copy = [
            vec![0x01, 0x02, 0x02, 0x02, 0x00, 0x01, 0x03, 0x01, 0x02, 0x02, 0x00, 0x02, 0x03, 0x02],
            vec![0x06, 0x01, 0x00, 0x00, 0x06, 0x03, 0x05, 0x00, 0x04, 0x02, 0x00, 0x01, 0x04, 0x00, 0x02, 0x01],
            vec![0x05, 0x00, 0x05, 0x02, 0x00],
        ];
        assert_eq!(cleaned(&sheet.concat()), copy.concat());
        assert_eq!(cleaned(&A), A);
    }

    #[test]
    fn what_reading_refuses_comes_before_12() {
        assert_eq!(refusal(&[], 0), (1, 0));
        assert_eq!(refusal(&[1, 1, 1, 0], 0), (9, 0));
        assert_eq!(refusal(&A, 0), (12, 28));
        assert_eq!(refusal(&A, 27), (12, 28));
    }

    #[test]
    fn later_bytes_stay() {
        let mut buffer = [0xEE; 40];
        assert_eq!(clean(&A, &mut buffer), Ok(28));
        assert_eq!((&buffer[..28], &buffer[28..]), (&A[..], &[0xEE; 12][..]));
    }

    /// A copy is read as the sheet is, has nothing left to clean, and is
    /// quoted alike, 10 among the replies.
    #[test]
    fn a_copy_stands_for_its_sheet() {
        let mut rng = Random::new(101);
        let mut picker = Picker::new();
        for _ in 0..1_000 {
            let sheet = draft(&mut rng).sheet(&mut rng);
            let copy = cleaned(&sheet);
            assert_eq!(sheet::read(&copy), sheet::read(&sheet));
            assert_eq!(cleaned(&copy), copy);
            let mut quoted = |sheet: &[u8]| {
                let mut stage = [0; 196];
                (quote(Board::Tree, sheet, 50, &mut stage, &mut picker), stage)
            };
            assert_eq!(quoted(&copy), quoted(&sheet));
        }
    }

    #[test]
    fn the_longest_copy() {
        let mut rng = Random::new(102);
        for _ in 0..20 {
            assert_eq!(cleaned(&longest_draft_of(&mut rng, 6).sheet(&mut rng)).len(), LONGEST_COPY);
            assert_eq!(cleaned(&longest_draft_of(&mut rng, 4).sheet(&mut rng)).len(), 260);
        }
        assert_eq!(LONGEST_COPY, 596);
        for _ in 0..1_000 {
            assert!(cleaned(&draft(&mut rng).sheet(&mut rng)).len() <= LONGEST_COPY);
        }
    }
}
