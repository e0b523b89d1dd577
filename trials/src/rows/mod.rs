//! The rows of document 01's "Bench sheets", first among the cases, and what
//! document 02 makes of those sheets.

pub mod joined;
pub mod shared;
pub mod six;
pub mod straight;

use crate::board::Board;
use crate::case::Case;
use crate::cells::Tables;
use crate::sheet::MOST_PATTERNS;

/// Sheet A.
pub const A: [u8; 28] = [
    0x01, 0x02, 0x02, 0x02, 0x00, 0x01, 0x02, 0x01, 0x00, 0x02, 0x02, 0x00, 0x02, 0x03, 0x02, 0x04, 0x02, 0x00, 0x01,
    0x04, 0x00, 0x02, 0x01, 0x05, 0x02, 0x05, 0x03, 0x00,
];

/// A as a relation: {1}, {0,3}, {0,3}, {2}.
const A_SETS: [u16; 4] = [0b0010, 0b1001, 0b1001, 0b0100];
/// B: {0}, {1}, {0,3}, {2,3}.
const B_SETS: [u16; 4] = [0b0001, 0b0010, 0b1001, 0b1100];
/// C: {0,1}, {1,2}.
const C_SETS: [u16; 2] = [0b0011, 0b0110];

/// The budget of the program.
const PROGRAM: u32 = 10_000;

/// The rows by name; the expected replies stand in the tests below.
pub fn rows() -> Vec<(&'static str, Case)> {
    let mut rows = vec![
        ("A", quote(PROGRAM, 196, &A)),
        ("A handed in", search(2, 2, PROGRAM, &A_SETS)),
        ("A's stage audited", audit(&A, &A_STAGE)),
        ("A's present stage audited", audit(&A, &A_PRESENT)),
        ("A's stage read", read(&A_STAGE)),
        ("A's stage written", write(2, 2, 196, [0b0011, 0b1010, 0, 0])),
        ("B", search(2, 2, 1, &B_SETS)),
        ("B as a sheet", quote(1, 196, &limits_only(2, 2, &B_SETS))),
        ("B0", search(2, 2, 0, &B_SETS)),
        ("B0 as a sheet", quote(0, 196, &limits_only(2, 2, &B_SETS))),
        ("C", search(1, 2, 2, &C_SETS)),
        ("C as a sheet", quote(2, 196, &limits_only(1, 2, &C_SETS))),
        ("C1", search(1, 2, 1, &C_SETS)),
        ("C1 as a sheet", quote(1, 196, &limits_only(1, 2, &C_SETS))),
        // Tables: the writer's length is 4 + 3 + 3 * selectors.
        ("table 00", write(3, 1, 196, [0x00, 0, 0, 0])),
        ("table AA", write(3, 1, 196, [0xAA, 0, 0, 0])),
        ("table F0", write(3, 1, 196, [0xF0, 0, 0, 0])),
        ("table E8", write(3, 1, 196, [0xE8, 0, 0, 0])),
        ("table 96", write(3, 1, 196, [0x96, 0, 0, 0])),
        ("empty sheet", quote(PROGRAM, 196, &[])),
        ("lone 00", quote(PROGRAM, 196, &[0x00])),
        ("01 07 01", quote(PROGRAM, 196, &[0x01, 0x07, 0x01])),
        ("01 04 04", quote(PROGRAM, 196, &[0x01, 0x04, 0x04])),
        ("A with 15 bytes", quote(PROGRAM, 15, &A)),
        ("A with 16 bytes", quote(PROGRAM, 16, &A)),
        ("A with 06 02 02 00", quote(PROGRAM, 196, &before_the_end(&A, &[0x06, 0x02, 0x02, 0x00]))),
        ("A with 06 02 02 00 audited", audit(&before_the_end(&A, &[0x06, 0x02, 0x02, 0x00]), &A_STAGE)),
    ];
    // The same tables as relations of one function.
    for (name, table) in [("00", 0x00u16), ("AA", 0xAA), ("F0", 0xF0), ("E8", 0xE8), ("96", 0x96)] {
        let sets: Vec<u16> = (0..8).map(|p| 1 << (table >> p & 1)).collect();
        let name = match name {
            "00" => "table 00 handed in",
            "AA" => "table AA handed in",
            "F0" => "table F0 handed in",
            "E8" => "table E8 handed in",
            _ => "table 96 handed in",
        };
        rows.push((name, search(3, 1, 0, &sets)));
    }
    rows
}

/// Sheet A is its own clean copy; a limit comes before the gates.
pub fn clean_rows() -> Vec<(&'static str, Case)> {
    vec![
        ("A cleaned", clean(260, &A)),
        ("A cleaned with 27 bytes", clean(27, &A)),
        ("A cleaned with 28 bytes", clean(28, &A)),
        ("A with 06 02 02 00 cleaned", clean(260, &before_the_end(&A, &[0x06, 0x02, 0x02, 0x00]))),
        ("A with 06 02 0F 00 cleaned", clean(260, &before_the_end(&A, &[0x06, 0x02, 0x0F, 0x00]))),
        ("empty sheet cleaned", clean(260, &[])),
        ("lone 00 cleaned", clean(260, &[0x00])),
    ]
}

pub const A_STAGE: [u8; 16] =
    [0x20, 0x02, 0x02, 0x21, 0x00, 0x22, 0x01, 0x24, 0x23, 0x21, 0x01, 0x22, 0x02, 0x23, 0x24, 0x2F];

/// Sheet A's present stage: wire 0 is 0001, wire 1 is 1000; 4 selectors, one of
/// them straight.
const A_PRESENT: [u8; 22] = [
    0x20, 0x02, 0x02, 0x21, 0x00, 0x22, 0x01, 0x22, 0x02, 0x24, 0x23, 0x23, 0x21, 0x01, 0x22, 0x01, 0x23, 0x22, 0x02,
    0x23, 0x24, 0x2F,
];

fn quote(budget: u32, room: u16, sheet: &[u8]) -> Case {
    Case::Quote { board: Board::Tree, budget, room, sheet: sheet.to_vec() }
}

fn audit(sheet: &[u8], stage: &[u8]) -> Case {
    Case::Audit { board: Board::Tree, sheet: sheet.to_vec(), stage: stage.to_vec() }
}

fn read(stage: &[u8]) -> Case {
    Case::Read { board: Board::Tree, stage: stage.to_vec() }
}

fn write(n: u8, m: u8, room: u16, tables: Tables) -> Case {
    Case::Write { board: Board::Tree, n, m, room, tables }
}

fn clean(room: u16, sheet: &[u8]) -> Case {
    Case::Clean { room, sheet: sheet.to_vec() }
}

fn search(n: u8, m: u8, budget: u32, few: &[u16]) -> Case {
    let mut sets = [0; MOST_PATTERNS];
    sets[..few.len()].copy_from_slice(few);
    Case::Search { board: Board::Tree, n, m, budget, sets }
}

/// A sheet without gates: every pattern impossible, its set as a limit.
fn limits_only(n: u8, m: u8, sets: &[u16]) -> Vec<u8> {
    let mut sheet = vec![0x01, n, m];
    for (p, set) in sets.iter().enumerate() {
        let [low, high] = set.to_le_bytes();
        sheet.extend([0x03, p as u8, 0x06, p as u8, low, high]);
    }
    sheet.push(0x00);
    sheet
}

fn before_the_end(sheet: &[u8], command: &[u8]) -> Vec<u8> {
    let (end, rest) = sheet.split_last().expect("a sheet with an end");
    let mut longer = rest.to_vec();
    longer.extend(command);
    longer.push(*end);
    longer
}

#[cfg(test)]
mod tests {
    use super::*;
    use crate::cells::cells;
    use crate::pick::Picker;

    fn reply(name: &str) -> String {
        let mut rows = rows().into_iter().chain(clean_rows());
        let (_, case) = rows.find(|(n, _)| *n == name).unwrap_or_else(|| panic!("no row {name}"));
        case.reply(&mut Picker::new()).text
    }

    const A_LINE: &str = "20 02 02 21 00 22 01 24 23 21 01 22 02 23 24 2F";

    #[test]
    fn a() {
        let quoted = format!("cells 1 floor 1 visits 0 best\n{A_LINE} +\n");
        assert_eq!(reply("A"), quoted);
        assert_eq!(reply("A with 16 bytes"), quoted);
        assert_eq!(reply("A with 15 bytes"), "refused 12 at 16 +\n");
        assert_eq!(reply("A handed in"), "3 10 0 0 cells 1 floor 1 visits 0 best\n");
        assert_eq!(reply("A's stage audited"), "fits 1\n");
        assert_eq!(reply("A's present stage audited"), "fits 3\n");
        assert_eq!(reply("A's stage read"), "2 2 3 10 0 0 cells 1\n");
        assert_eq!(reply("A's stage written"), format!("16 {A_LINE} +\n"));
        assert_eq!(reply("A with 06 02 02 00"), "refused 10 at 2 +\n");
        assert_eq!(reply("A with 06 02 02 00 audited"), "sheet refused 10 at 2\n");
    }

    #[test]
    fn a_cleaned() {
        const ROWS: &str = "01 02 02 02 00 01 02 01 00 02 02 00 02 03 02";
        const UNIT: &str = "04 02 00 01 04 00 02 01 05 02 05 03 00";
        let itself = format!("28 {ROWS} {UNIT} +\n");
        assert_eq!(reply("A cleaned"), itself);
        assert_eq!(reply("A cleaned with 28 bytes"), itself);
        assert_eq!(reply("A cleaned with 27 bytes"), "refused 12 at 28 +\n");
        assert_eq!(reply("A with 06 02 02 00 cleaned"), format!("32 {ROWS} 06 02 02 00 {UNIT} +\n"));
        assert_eq!(reply("A with 06 02 0F 00 cleaned"), itself);
    }

    #[test]
    fn a_s_relation() {
        let unit = crate::sheet::read(&A).unwrap();
        assert_eq!(crate::relation::of_unit(&unit).unwrap().sets[..4], A_SETS);
    }

    /// B's first answer is input 2 and AND; in no stage are both wires inputs. C's
    /// first answer is input 1 and a constant: nothing is left to be visited.
    #[test]
    fn b_and_c() {
        assert_eq!(reply("B"), "10 8 0 0 cells 1 floor 1 visits 1 best\n");
        assert!(reply("B as a sheet").starts_with("cells 1 floor 1 visits 1 best\n"));
        assert_eq!(reply("B0"), "10 8 0 0 cells 1 floor 0 visits 0 stopped\n");
        assert!(reply("B0 as a sheet").starts_with("cells 1 floor 0 visits 0 stopped\n"));
        for name in ["C", "C1"] {
            assert_eq!(reply(name), "0 2 0 0 cells 0 floor 0 visits 0 best\n");
            assert!(reply(&format!("{name} as a sheet")).starts_with("cells 0 floor 0 visits 0 best\n"));
        }
    }

    #[test]
    fn tables() {
        for (table, name, count, selectors) in
            [(0x00, "00", 0, 0), (0xAA, "AA", 0, 1), (0xF0, "F0", 0, 1), (0xE8, "E8", 3, 5), (0x96, "96", 5, 7)]
        {
            assert_eq!(cells(3, table), count);
            assert!(reply(&format!("table {name}")).starts_with(&format!("{} 20 03 01 ", 7 + 3 * selectors)));
            let line = format!("{table} 0 0 0 cells {count} floor {count} visits 0 best\n");
            assert_eq!(reply(&format!("table {name} handed in")), line);
        }
    }

    #[test]
    fn refused_rows() {
        assert_eq!(reply("empty sheet"), "refused 1 at 0 +\n");
        assert_eq!(reply("lone 00"), "refused 5 at 0 +\n");
        assert_eq!(reply("01 07 01"), "refused 3 at 0 +\n");
        assert_eq!(reply("01 04 04"), "refused 1 at 3 +\n");
        assert_eq!(reply("empty sheet cleaned"), "refused 1 at 0 +\n");
        assert_eq!(reply("lone 00 cleaned"), "refused 5 at 0 +\n");
    }
}
