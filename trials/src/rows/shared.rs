//! Rows for the board of document 02, E2: document 01's on this board, and what
//! the request itself says.

use super::{audit, quote, read, rows, search, write, A, PROGRAM};
use crate::board::Board;
use crate::case::Case;
use crate::diagram::LONGEST_SHARED;

/// The smallest stage of sheet A.
pub const A_LISTS: [u8; 18] =
    [0x20, 0x02, 0x02, 0x26, 0x00, 0x01, 0x01, 0x01, 0x00, 0x02, 0x26, 0x01, 0x01, 0x02, 0x00, 0x01, 0x02, 0x2F];

/// Sheet A's present stage: wire 0 is 0001, wire 1 is 1000; 4 selectors, one of
/// them straight.
const A_PRESENT: [u8; 24] = [
    0x20, 0x02, 0x02, 0x26, 0x00, 0x02, 0x02, 0x01, 0x00, 0x01, 0x02, 0x00, 0x03, 0x26, 0x01, 0x02, 0x02, 0x00, 0x01,
    0x01, 0x00, 0x02, 0x03, 0x2F,
];

/// A stage of one wire: its list, and the top.
pub(super) fn one_wire(n: u8, entries: &[[u8; 3]], top: u8) -> Vec<u8> {
    let mut stage = vec![0x20, n, 0x01, 0x26, 0x00, entries.len() as u8];
    stage.extend(entries.concat());
    stage.extend([top, 0x2F]);
    stage
}

/// The rows by name; the expected replies stand in the tests below. Document
/// 01's come first; their stages are trees, which this board does not know.
pub fn shared_rows() -> Vec<(&'static str, Case)> {
    let room = LONGEST_SHARED as u16;
    let own = [
        ("A with 17 bytes", quote(PROGRAM, 17, &A)),
        ("A with 18 bytes", quote(PROGRAM, 18, &A)),
        ("A's lists audited", audit(&A, &A_LISTS)),
        ("A's present lists audited", audit(&A, &A_PRESENT)),
        ("A's lists read", read(&A_LISTS)),
        ("A's present lists read", read(&A_PRESENT)),
        // Selectors that feed several.
        ("parity of three", write(3, 1, room, [0x96, 0, 0, 0])),
        ("parity of four", write(4, 1, room, [0x6996, 0, 0, 0])),
        ("parity of four, 27 bytes", write(4, 1, 27, [0x6996, 0, 0, 0])),
        ("parity of four, 29 bytes", write(4, 1, 29, [0x6996, 0, 0, 0])),
        ("parity of four handed in", search(4, 1, 0, &[1, 2, 2, 1, 2, 1, 1, 2, 2, 1, 1, 2, 1, 2, 2, 1])),
        // The 0 branch is listed first: input 3 where input 1 is 0, else 2.
        ("two inputs chosen from", write(3, 1, room, [0xCA, 0, 0, 0])),
        ("most selectors", write(4, 4, room, [0x8412, 0x1248, 0x2184, 0x4821])),
    ];
    let mut all: Vec<(&str, Case)> = rows();
    all.extend(own);
    all.extend(read_rows());
    all.into_iter().map(|(name, case)| (name, case.on(Board::Shared))).collect()
}

/// What the reader takes, and what it refuses.
fn read_rows() -> Vec<(&'static str, Case)> {
    let most = vec![[0x01, 0x00, 0x01]; 253];
    let too_many = vec![[0x01, 0x00, 0x01]; 254];
    let row = |name, n, entries: &[[u8; 3]], top| (name, read(&one_wire(n, entries, top)));
    vec![
        row("no entry, top 0", 1, &[], 0),
        row("no entry, top 1", 1, &[], 1),
        row("no entry, top 2", 1, &[], 2),
        row("253 entries, top 254", 1, &most, 254),
        row("253 entries, top 255", 1, &most, 255),
        row("254 entries", 1, &too_many, 254),
        row("an entry twice", 2, &[[2, 0, 1], [2, 0, 1], [1, 2, 3]], 4),
        row("an entry not reached", 2, &[[2, 0, 1], [1, 0, 1]], 2),
        row("an entry worth a constant", 2, &[[2, 1, 1], [1, 0, 2]], 3),
        row("the entry's own number", 1, &[[1, 2, 0]], 2),
        row("a later number", 1, &[[1, 0, 3], [1, 0, 1]], 2),
        row("the same input", 2, &[[2, 0, 1], [2, 0, 2]], 3),
        row("a lower input", 2, &[[1, 0, 1], [2, 2, 1]], 3),
        row("an input passed over", 3, &[[3, 0, 1], [1, 2, 1]], 3),
        row("input 0", 1, &[[0, 9, 9]], 2),
        row("input 3 of 2", 2, &[[3, 0, 1]], 2),
        row("6 on 1 before 11 on 0", 2, &[[2, 0, 1], [2, 2, 3]], 3),
        row("top 3 of one entry", 1, &[[1, 0, 1]], 3),
        ("an entry cut short", read(&[0x20, 1, 1, 0x26, 0, 1, 1, 0])),
        ("no top", read(&[0x20, 1, 1, 0x26, 0, 0])),
        ("a wire cut short", read(&[0x20, 1, 1, 0x26, 0])),
        ("wire 1 of 1", read(&[0x20, 1, 1, 0x26, 1, 0, 0, 0x2F])),
        ("wire 1 first", read(&[0x20, 1, 2, 0x26, 1, 0, 0, 0x2F])),
        ("wire 1 first, 254 entries", read(&[0x20, 1, 2, 0x26, 1, 254, 0, 0x2F])),
        ("a tree's wire", read(&[0x20, 1, 1, 0x21, 0, 0x23, 0x2F])),
        ("an end for a wire", read(&[0x20, 1, 1, 0x2F])),
        ("a wire for the end", read(&[0x20, 1, 1, 0x26, 0, 0, 0, 0x26, 9])),
        ("two ends", read(&[0x20, 1, 1, 0x26, 0, 0, 0, 0x2F, 0x2F])),
    ]
}

#[cfg(test)]
mod tests {
    use super::*;
    use crate::pick::Picker;

    fn reply(name: &str) -> String {
        let mut rows = shared_rows().into_iter();
        let (_, case) = rows.find(|(n, _)| *n == name).unwrap_or_else(|| panic!("no row {name}"));
        case.reply(&mut Picker::new()).text
    }

    const A_LINE: &str = "20 02 02 26 00 01 01 01 00 02 26 01 01 02 00 01 02 2F";

    #[test]
    fn a() {
        let quoted = format!("cells 1 floor 1 visits 0 best\n{A_LINE} +\n");
        assert_eq!(reply("A"), quoted);
        assert_eq!(reply("A with 18 bytes"), quoted);
        assert_eq!(reply("A with 17 bytes"), "refused 12 at 18 +\n");
        assert_eq!(reply("A with 15 bytes"), "refused 12 at 18 +\n");
        assert_eq!(reply("A with 16 bytes"), "refused 12 at 18 +\n");
        assert_eq!(reply("A handed in"), "3 10 0 0 cells 1 floor 1 visits 0 best\n");
        assert_eq!(reply("A's stage written"), format!("18 {A_LINE} +\n"));
        assert_eq!(reply("A's stage audited"), "stage refused 2 at 3\n");
        assert_eq!(reply("A's stage read"), "refused 2 at 3\n");
        assert_eq!(reply("A's lists audited"), "fits 1\n");
        assert_eq!(reply("A's present lists audited"), "fits 3\n");
        assert_eq!(reply("A's lists read"), "2 2 3 10 0 0 cells 1\n");
        assert_eq!(reply("A's present lists read"), "2 2 1 8 0 0 cells 3\n");
        assert_eq!(reply("A with 06 02 02 00"), "refused 10 at 2 +\n");
        assert_eq!(reply("A with 06 02 02 00 audited"), "sheet refused 10 at 2\n");
    }

    /// As on the tree board: two inputs are too few to share anything.
    #[test]
    fn b_and_c() {
        assert_eq!(reply("B"), "10 8 0 0 cells 1 floor 1 visits 1 best\n");
        assert!(reply("B as a sheet").starts_with("cells 1 floor 1 visits 1 best\n"));
        assert_eq!(reply("B0"), "10 8 0 0 cells 1 floor 0 visits 0 stopped\n");
        assert!(reply("B0 as a sheet").starts_with("cells 1 floor 0 visits 0 stopped\n"));
        for name in ["C", "C1"] {
            assert_eq!(reply(name), "0 2 0 0 cells 0 floor 0 visits 0 best\n");
            assert!(reply(&format!("{name} as a sheet")).starts_with("cells 0 floor 0 visits 0 best\n"));
        }
    }

    /// Document 01's tables, counted anew.
    #[test]
    fn tables() {
        for (table, name, count, selectors) in
            [(0x00, "00", 0, 0), (0xAA, "AA", 0, 1), (0xF0, "F0", 0, 1), (0xE8, "E8", 3, 4), (0x96, "96", 4, 5)]
        {
            assert!(reply(&format!("table {name}")).starts_with(&format!("{} 20 03 01 26 00 ", 8 + 3 * selectors)));
            let line = format!("{table} 0 0 0 cells {count} floor {count} visits 0 best\n");
            assert_eq!(reply(&format!("table {name} handed in")), line);
        }
    }

    #[test]
    fn refused_sheets() {
        assert_eq!(reply("empty sheet"), "refused 1 at 0 +\n");
        assert_eq!(reply("lone 00"), "refused 5 at 0 +\n");
        assert_eq!(reply("01 07 01"), "refused 3 at 0 +\n");
        assert_eq!(reply("01 04 04"), "refused 1 at 3 +\n");
    }

    #[test]
    fn written() {
        let three = "23 20 03 01 26 00 05 03 00 01 03 01 00 02 02 03 02 03 02 01 04 05 06 2F +\n";
        assert_eq!(reply("parity of three"), three);
        let four = "29 20 04 01 26 00 07 04 00 01 04 01 00 03 02 03 03 03 02 02 04 05 02 05 04 01 06 07 08 2F +\n";
        assert_eq!(reply("parity of four"), four);
        assert_eq!(reply("parity of four, 29 bytes"), four);
        assert_eq!(reply("parity of four, 27 bytes"), "refused 12 at 29 +\n");
        assert_eq!(reply("parity of four handed in"), "27030 0 0 0 cells 6 floor 6 visits 0 best\n");
        let chosen = "17 20 03 01 26 00 03 03 00 01 02 00 01 01 02 03 04 2F +\n";
        assert_eq!(reply("two inputs chosen from"), chosen);
        assert!(reply("most selectors").starts_with("128 20 04 04 26 00 09 "));
    }

    #[test]
    fn read_and_counted() {
        assert_eq!(reply("no entry, top 0"), "1 1 0 0 0 0 cells 0\n");
        assert_eq!(reply("no entry, top 1"), "1 1 3 0 0 0 cells 0\n");
        assert_eq!(reply("253 entries, top 254"), "1 1 2 0 0 0 cells 0\n");
        assert_eq!(reply("an entry twice"), "2 1 10 0 0 0 cells 1\n");
        assert_eq!(reply("an entry not reached"), "2 1 10 0 0 0 cells 0\n");
        assert_eq!(reply("an entry worth a constant"), "2 1 12 0 0 0 cells 2\n");
        assert_eq!(reply("an input passed over"), "3 1 250 0 0 0 cells 1\n");
    }

    #[test]
    fn refused_lists() {
        for (name, number, place) in [
            ("no entry, top 2", 6, 6),
            ("253 entries, top 255", 6, 765),
            ("254 entries", 3, 3),
            ("the entry's own number", 6, 6),
            ("a later number", 6, 6),
            ("the same input", 11, 9),
            ("a lower input", 11, 9),
            ("input 0", 3, 6),
            ("input 3 of 2", 3, 6),
            ("6 on 1 before 11 on 0", 6, 9),
            ("top 3 of one entry", 6, 9),
            ("an entry cut short", 1, 6),
            ("no top", 1, 6),
            ("a wire cut short", 1, 3),
            ("wire 1 of 1", 3, 3),
            ("wire 1 first", 5, 3),
            ("wire 1 first, 254 entries", 3, 3),
            ("a tree's wire", 2, 3),
            ("an end for a wire", 5, 3),
            ("a wire for the end", 5, 7),
            ("two ends", 4, 8),
        ] {
            assert_eq!(reply(name), format!("refused {number} at {place}\n"), "{name}");
        }
    }
}
