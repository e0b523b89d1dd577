//! Rows for document 02, E6: sheet A and others with a second sheet beside them.

use super::six::nothing_asked;
use super::{before_the_end, limits_only, A, A_SETS, PROGRAM};
use crate::case::Case;

/// The rows by name; the expected replies stand in the tests below.
pub fn joined_rows() -> Vec<(&'static str, Case)> {
    [accepted(), refused()].concat()
}

fn joined(budget: u32, room: u16, first: &[u8], second: &[u8]) -> Case {
    Case::Joined { budget, room, first: first.to_vec(), second: second.to_vec() }
}

/// A sheet with no value left for a pattern.
fn without_value(sheet: &[u8], p: u8) -> Vec<u8> {
    before_the_end(sheet, &[0x06, p, 0x00, 0x00])
}

/// One wire that is put out: 1 on pattern 0, where pattern 1 is impossible; and 0 on
/// pattern 1, where pattern 0 is.
const ONE_FIRST: [u8; 11] = [0x01, 0x01, 0x01, 0x02, 0x00, 0x01, 0x03, 0x01, 0x05, 0x00, 0x00];
const ZERO_LAST: [u8; 11] = [0x01, 0x01, 0x01, 0x03, 0x00, 0x02, 0x01, 0x00, 0x05, 0x00, 0x00];

/// {0,1}, {1,2}, {0,1,3}, {2,3} and {0,2}, {1,3}, {0,3}, {0,2,3}: together B.
const B_FIRST: [u16; 4] = [0b0011, 0b0110, 0b1011, 0b1100];
const B_SECOND: [u16; 4] = [0b0101, 0b1010, 0b1001, 0b1101];

fn accepted() -> Vec<(&'static str, Case)> {
    let row = |name, first: &[u8], second: &[u8]| (name, joined(PROGRAM, 772, first, second));
    let b = [B_FIRST, B_SECOND].map(|sets| limits_only(2, 2, &sets));
    vec![
        row("A with A", &A, &A),
        row("A with nothing asked", &A, &nothing_asked(2, 2)),
        row("nothing asked with A", &nothing_asked(2, 2), &A),
        row("A with its sets as limits", &A, &limits_only(2, 2, &A_SETS)),
        // What is left of {0,3} is {0} on both patterns: A's present stage alone.
        row("A with 0 or 1, and 0 or 2", &A, &limits_only(2, 2, &[0b1111, 0b0011, 0b0101, 0b1111])),
        row("0 or 1, and 0 or 2, with A", &limits_only(2, 2, &[0b1111, 0b0011, 0b0101, 0b1111]), &A),
        row("1 on pattern 0 with 0 on pattern 1", &ONE_FIRST, &ZERO_LAST),
        row("0 on pattern 1 with 1 on pattern 0", &ZERO_LAST, &ONE_FIRST),
        ("B of two", joined(1, 772, &b[0], &b[1])),
        ("B0 of two", joined(0, 772, &b[0], &b[1])),
        ("B of two, the other way round", joined(1, 772, &b[1], &b[0])),
        row("nothing asked of six twice", &nothing_asked(6, 4), &nothing_asked(6, 4)),
        ("A with A in 16 bytes", joined(PROGRAM, 16, &A, &A)),
    ]
}

fn refused() -> Vec<(&'static str, Case)> {
    let row = |name, first: &[u8], second: &[u8]| (name, joined(PROGRAM, 772, first, second));
    // Pattern 0 is impossible, and 0 there all the same.
    let zero_first = before_the_end(&ZERO_LAST, &[0x06, 0x00, 0x01, 0x00]);
    vec![
        ("A with A in 15 bytes", joined(PROGRAM, 15, &A, &A)),
        ("A with A in no bytes", joined(PROGRAM, 0, &A, &A)),
        row("two empty sheets", &[], &[]),
        row("A with an empty sheet", &A, &[]),
        row("an empty sheet with A", &[], &A),
        row("a lone 00 with an empty sheet", &[0x00], &[]),
        row("an empty sheet with a lone 00", &[], &[0x00]),
        row("A with 01 07 01", &A, &[0x01, 0x07, 0x01]),
        row("A with a byte behind it", &A, &[&A[..], &[0x00]].concat()),
        row("A with its last row missing", &A, &[&A[..12], &A[15..]].concat()),
        row("A with no value on 2, and an empty sheet", &without_value(&A, 2), &[]),
        row("A with no value on 2, and A", &without_value(&A, 2), &A),
        row("A, and A with no value on 2", &A, &without_value(&A, 2)),
        row("A with no value on 2, and on 1", &without_value(&A, 2), &without_value(&A, 1)),
        row("A with no value on 1, and on 2", &without_value(&A, 1), &without_value(&A, 2)),
        row("A with other limits on 1 and 2", &A, &limits_only(2, 2, &[0b1111, 0b0110, 0b0110, 0b1111])),
        row("one first with zero first", &ONE_FIRST, &zero_first),
        row("zero first with one first", &zero_first, &ONE_FIRST),
        row("A with three inputs", &A, &nothing_asked(3, 2)),
        row("A with three wires", &A, &nothing_asked(2, 3)),
        row("three inputs and wires with A", &nothing_asked(3, 3), &A),
        row("A with one input and three wires", &A, &nothing_asked(1, 3)),
        row("A with no value on 0, and three inputs", &without_value(&A, 0), &nothing_asked(3, 2)),
        row("A, and three inputs with no value on 0", &A, &without_value(&nothing_asked(3, 2), 0)),
        ("A with three inputs in no bytes", joined(PROGRAM, 0, &A, &nothing_asked(3, 2))),
        row("A, and three inputs with a byte behind", &A, &[&nothing_asked(3, 2)[..], &[0x00]].concat()),
        row("A with its end missing, and three inputs", &A[..27], &nothing_asked(3, 2)),
        row("no value on 63 of the second", &nothing_asked(6, 4), &without_value(&nothing_asked(6, 4), 63)),
        row("five inputs with six", &nothing_asked(5, 4), &nothing_asked(6, 4)),
        ("no value on 2 in no bytes", joined(0, 0, &A, &without_value(&A, 2))),
    ]
}

#[cfg(test)]
mod tests {
    use super::*;
    use crate::pick::Picker;

    fn reply(name: &str) -> String {
        let mut rows = joined_rows().into_iter();
        let (_, case) = rows.find(|(n, _)| *n == name).unwrap_or_else(|| panic!("no row {name}"));
        case.reply(&mut Picker::new()).text
    }

    #[test]
    fn every_refusal_names_its_sheet() {
        let expected = [
            ("A with A in 15 bytes", "second", 12, 16),
            ("A with A in no bytes", "second", 12, 16),
            ("two empty sheets", "first", 1, 0),
            ("A with an empty sheet", "second", 1, 0),
            ("an empty sheet with A", "first", 1, 0),
            ("a lone 00 with an empty sheet", "first", 5, 0),
            ("an empty sheet with a lone 00", "first", 1, 0),
            ("A with 01 07 01", "second", 3, 0),
            ("A with a byte behind it", "second", 4, 28),
            ("A with its last row missing", "second", 9, 3),
            ("A with no value on 2, and an empty sheet", "second", 1, 0),
            ("A with no value on 2, and A", "second", 10, 2),
            ("A, and A with no value on 2", "second", 10, 2),
            ("A with no value on 2, and on 1", "second", 10, 1),
            ("A with no value on 1, and on 2", "second", 10, 1),
            ("A with other limits on 1 and 2", "second", 10, 1),
            ("one first with zero first", "second", 10, 0),
            ("zero first with one first", "second", 10, 0),
            ("A with three inputs", "second", 13, 0),
            ("A with three wires", "second", 13, 0),
            ("three inputs and wires with A", "second", 13, 0),
            ("A with one input and three wires", "second", 13, 0),
            ("A with no value on 0, and three inputs", "second", 13, 0),
            ("A, and three inputs with no value on 0", "second", 13, 0),
            ("A with three inputs in no bytes", "second", 13, 0),
            ("A, and three inputs with a byte behind", "second", 4, 20),
            ("A with its end missing, and three inputs", "first", 1, 27),
            ("no value on 63 of the second", "second", 10, 63),
            ("five inputs with six", "second", 13, 0),
            ("no value on 2 in no bytes", "second", 10, 2),
        ];
        assert_eq!(expected.len(), refused().len());
        for (name, which, number, place) in expected {
            assert_eq!(reply(name), format!("{which} refused {number} at {place} +\n"), "{name}");
        }
    }

    /// Both wires of A's present stage are 1 on one pattern alone, the first and the
    /// last: three cells, where either sheet alone has one or none.
    #[test]
    fn found() {
        let a = "cells 1 floor 1 visits 0 best\n20 02 02 21 00 22 01 24 23 21 01 22 02 23 24 2F +\n";
        for name in [
            "A with A",
            "A with nothing asked",
            "nothing asked with A",
            "A with its sets as limits",
            "A with A in 16 bytes",
        ] {
            assert_eq!(reply(name), a, "{name}");
        }
        let present = "20 02 02 21 00 22 01 22 02 24 23 23 21 01 22 01 23 22 02 23 24 2F +\n";
        for name in ["A with 0 or 1, and 0 or 2", "0 or 1, and 0 or 2, with A"] {
            assert_eq!(reply(name), format!("cells 3 floor 3 visits 0 best\n{present}"), "{name}");
        }
        let inverted = "cells 1 floor 1 visits 0 best\n20 01 01 21 00 22 01 24 23 2F +\n";
        assert_eq!(reply("1 on pattern 0 with 0 on pattern 1"), inverted);
        assert_eq!(reply("0 on pattern 1 with 1 on pattern 0"), inverted);
        let nothing = "cells 0 floor 0 visits 0 best\n20 06 04 21 00 23 21 01 23 21 02 23 21 03 23 2F +\n";
        assert_eq!(reply("nothing asked of six twice"), nothing);
    }

    /// As B and B0 of document 01: input 2 and AND.
    #[test]
    fn b_of_two() {
        let b = "20 02 02 21 00 22 02 23 24 21 01 22 01 23 22 02 23 24 2F +\n";
        assert_eq!(reply("B of two"), format!("cells 1 floor 1 visits 1 best\n{b}"));
        assert_eq!(reply("B of two, the other way round"), reply("B of two"));
        assert_eq!(reply("B0 of two"), format!("cells 1 floor 0 visits 0 stopped\n{b}"));
    }
}
