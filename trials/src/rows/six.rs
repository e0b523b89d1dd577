//! Rows for document 02, E5: five and six inputs on document 01's board, and what
//! the board that shares selectors makes of them.

use super::{audit, before_the_end, clean, limits_only, quote, read, search, write, A_SETS, A_STAGE, B_SETS, PROGRAM};
use crate::board::Board;
use crate::case::Case;
use crate::cells::Tables;
use crate::draw::six::{one_stage, parity};
use crate::draw::straight::input;
use crate::rows::shared::A_LISTS;

/// The rows by name; the expected replies stand in the tests below.
pub fn six_rows() -> Vec<(&'static str, Case)> {
    [sheets(), searches(), stages(), shared()].concat()
}

/// Sheet A on six lines, of which the last four make no difference.
fn a_on_six() -> Vec<u8> {
    let rows = (0..64u8).flat_map(|p| [0x02, p, [1, 0, 0, 2][usize::from(p >> 4)]]);
    let gates = [0x04, 0x02, 0x00, 0x01, 0x04, 0x00, 0x02, 0x01, 0x05, 0x02, 0x05, 0x03, 0x00];
    [0x01, 0x06, 0x02].into_iter().chain(rows).chain(gates).collect()
}

/// Every pattern is impossible, so that nothing is asked of the wires.
pub fn nothing_asked(n: u8, m: u8) -> Vec<u8> {
    let rows = (0..1u8 << n).flat_map(|p| [0x03, p]);
    [0x01, n, m].into_iter().chain(rows).chain([0x00]).collect()
}

/// Sets of two inputs, for the first two of six.
fn on_six(sets: &[u16; 4]) -> Vec<u16> {
    sets.iter().flat_map(|&set| [set; 16]).collect()
}

/// The last of so many patterns has no row.
fn last_missing(n: u8) -> Vec<u8> {
    let mut sheet = nothing_asked(n, 1);
    sheet.drain(sheet.len() - 3..sheet.len() - 1);
    sheet
}

fn sheets() -> Vec<(&'static str, Case)> {
    let row = |name, sheet: &[u8]| (name, quote(PROGRAM, 772, sheet));
    let after_sizes = |n, command: &[u8]| [&[0x01, n, 0x01], command].concat();
    vec![
        row("01 05 01 alone", &[0x01, 0x05, 0x01]),
        row("01 06 04 alone", &[0x01, 0x06, 0x04]),
        row("01 07 04 alone", &[0x01, 0x07, 0x04]),
        row("01 06 05 alone", &[0x01, 0x06, 0x05]),
        row("02 on pattern 31 of 32", &after_sizes(5, &[0x02, 31, 0])),
        row("02 on pattern 32 of 32", &after_sizes(5, &[0x02, 32, 0])),
        row("03 on pattern 32 of 32", &after_sizes(5, &[0x03, 32])),
        row("06 on pattern 32 of 32", &after_sizes(5, &[0x06, 32, 1, 0])),
        row("02 on pattern 63 of 64", &after_sizes(6, &[0x02, 63, 0])),
        row("02 on pattern 64 of 64", &after_sizes(6, &[0x02, 64, 0])),
        row("03 on pattern 64 of 64", &after_sizes(6, &[0x03, 64])),
        row("06 on pattern 64 of 64", &after_sizes(6, &[0x06, 64, 1, 0])),
        row("pattern 31 missing", &last_missing(5)),
        row("pattern 63 missing", &last_missing(6)),
        row("nothing asked of six", &nothing_asked(6, 4)),
        row("nothing permitted on 63", &before_the_end(&nothing_asked(6, 4), &[0x06, 63, 0, 0])),
        row("nothing permitted on 31", &before_the_end(&nothing_asked(5, 4), &[0x06, 31, 0, 0])),
        row("A on six", &a_on_six()),
        ("A on six with 15 bytes", quote(PROGRAM, 15, &a_on_six())),
        ("A on six with 16 bytes", quote(PROGRAM, 16, &a_on_six())),
        ("B on six as a sheet", quote(1, 772, &limits_only(6, 2, &on_six(&B_SETS)))),
        ("A on six cleaned", clean(596, &a_on_six())),
        ("A on six cleaned with a byte less", clean(207, &a_on_six())),
        ("pattern 63 missing cleaned", clean(596, &last_missing(6))),
        ("nothing permitted on 63 cleaned", clean(596, &before_the_end(&nothing_asked(6, 1), &[0x06, 63, 0, 0]))),
        ("A on six audited", audit(&a_on_six(), &[&[0x20, 6], &A_STAGE[2..]].concat())),
        ("A on six by a stage of two", audit(&a_on_six(), &A_STAGE)),
        ("A by a stage of six", audit(&super::A, &[&[0x20, 6], &A_STAGE[2..]].concat())),
    ]
}

fn searches() -> Vec<(&'static str, Case)> {
    let of_parity = one_stage(6, 1, &[parity(6), 0, 0, 0]);
    let mut one_empty = of_parity;
    one_empty[63] = 0;
    let mut one_wide = one_empty;
    one_wide[62] = 4;
    let mut past = one_stage(5, 1, &[parity(5), 0, 0, 0]);
    past[32..].fill(0xFFFF);
    // Input 6 or constant 0 on all patterns but the last, where it must be 1.
    let mut last_is_one = [0b11; 64];
    last_is_one[63] = 0b10;
    vec![
        ("A on six handed in", search(6, 2, PROGRAM, &on_six(&A_SETS))),
        ("B on six handed in", search(6, 2, 1, &on_six(&B_SETS))),
        ("B0 on six handed in", search(6, 2, 0, &on_six(&B_SETS))),
        ("parity of six handed in", search(6, 1, 0, &of_parity)),
        ("parity of five, more sets behind", search(5, 1, u32::MAX, &past)),
        ("1 on the last of 64", search(6, 1, u32::MAX, &last_is_one)),
        ("all open", search(6, 4, u32::MAX, &[0xFFFF; 64])),
        ("set 63 empty", search(6, 1, 0, &one_empty)),
        ("set 62 too wide, 63 empty", search(6, 1, 0, &one_wide)),
        ("a relation of seven inputs", search(7, 1, 0, &of_parity)),
    ]
}

fn stages() -> Vec<(&'static str, Case)> {
    let longest: Tables = [parity(6), !parity(6), parity(6), !parity(6)];
    let bytes = Board::Tree.bytes_of(6, 4, &longest);
    let one_wire = |n, tree: &[u8]| read(&[&[0x20, n, 0x01, 0x21, 0x00], tree, &[0x2F]].concat());
    vec![
        ("longest in 771 bytes", write(6, 4, 771, longest)),
        ("longest in 772 bytes", write(6, 4, 772, longest)),
        ("longest in 773 bytes", write(6, 4, 773, longest)),
        ("longest read", read(&bytes)),
        ("longest with a byte more", read(&[&bytes[..], &[0x2F]].concat())),
        ("longest with a byte less", read(&bytes[..771])),
        ("inputs 3 to 6 written", write(6, 4, 28, [3, 4, 5, 6].map(|k| input(6, k)))),
        ("the last pattern of five", write(5, 1, 40, [1 << 31, 0, 0, 0])),
        ("all patterns of five", write(5, 1, 40, [0xFFFF_FFFF, 0, 0, 0])),
        ("all patterns of six", write(6, 1, 40, [u64::MAX, 0, 0, 0])),
        ("pattern 32 of five", write(5, 1, 0, [1 << 32, 0, 0, 0])),
        ("pattern 32 of five on wire 3", write(5, 4, 0, [0, 0xFFFF_FFFF, 0, 1 << 32])),
        ("pattern 63 of five on wires 1 and 2", write(5, 4, 0, [0, 1 << 63, 1 << 63, 0])),
        ("pattern 32 of five past the wires", write(5, 2, 10, [0, 0, 1 << 32, 1 << 63])),
        ("pattern 16 of four", write(4, 2, 0, [0, 1 << 16, 0, 0])),
        ("a stage of seven inputs written", write(7, 1, 772, [0; 4])),
        ("a stage of seven inputs read", read(&[0x20, 7, 1, 0x21, 0, 0x23, 0x2F])),
        ("input 6 of six", one_wire(6, &[0x22, 6, 0x23, 0x24])),
        ("input 1 of six", one_wire(6, &[0x22, 1, 0x23, 0x24])),
        ("input 7 of six", one_wire(6, &[0x22, 7, 0x23, 0x24])),
        ("input 6 of five", one_wire(5, &[0x22, 6, 0x23, 0x24])),
        ("6 below 6", one_wire(6, &[0x22, 6, 0x22, 6, 0x23, 0x24, 0x24])),
        ("5 below 6", one_wire(6, &[0x22, 6, 0x23, 0x22, 5, 0x23, 0x24])),
        ("7 below 6", one_wire(6, &[0x22, 6, 0x22, 7, 0x23, 0x24, 0x24])),
        ("0 below 6", one_wire(6, &[0x22, 6, 0x22, 0, 0x23, 0x24, 0x24])),
    ]
}

/// The board that shares selectors, for which these inputs are too many.
fn shared() -> Vec<(&'static str, Case)> {
    let constant = |n| [0x20, n, 0x01, 0x26, 0x00, 0x00, 0x00, 0x2F];
    let rows = vec![
        ("shared: A on six", quote(PROGRAM, 200, &a_on_six())),
        ("shared: A on six, no bytes", quote(PROGRAM, 0, &a_on_six())),
        ("shared: nothing asked of five", quote(0, 0, &nothing_asked(5, 1))),
        ("shared: nothing asked of four", quote(0, 0, &nothing_asked(4, 1))),
        ("shared: nothing permitted on 63", quote(0, 0, &before_the_end(&nothing_asked(6, 4), &[0x06, 63, 0, 0]))),
        ("shared: pattern 63 missing", quote(0, 0, &last_missing(6))),
        ("shared: 01 05 01 alone", quote(0, 0, &[0x01, 0x05, 0x01])),
        ("shared: relation of five", search(5, 1, 0, &[1; 32])),
        ("shared: relation of six, all empty", search(6, 4, 0, &[0; 64])),
        ("shared: five written", write(5, 1, 200, [0; 4])),
        ("shared: six written in no bytes", write(6, 4, 0, [u64::MAX; 4])),
        ("shared: pattern 16 of four", write(4, 2, 0, [0, 1 << 16, 0, 0])),
        ("shared: stage of four", read(&constant(4))),
        ("shared: stage of five", read(&constant(5))),
        ("shared: stage of six", read(&constant(6))),
        ("shared: stage of five, cut", read(&[0x20, 5])),
        ("shared: stage of five, then unknown", read(&[0x20, 5, 1, 0xFF])),
        ("shared: A on six by five", audit(&a_on_six(), &constant(5))),
        ("shared: A on six by six", audit(&a_on_six(), &[&[0x20, 6], &A_LISTS[2..]].concat())),
        ("shared: A on six by A's lists", audit(&a_on_six(), &A_LISTS)),
        ("shared: A on six by nothing", audit(&a_on_six(), &[])),
        ("shared: A by six", audit(&super::A, &[&[0x20, 6], &A_LISTS[2..]].concat())),
        (
            "shared: nothing permitted on 63 audited",
            audit(&before_the_end(&nothing_asked(6, 4), &[0x06, 63, 0, 0]), &constant(6)),
        ),
    ];
    rows.into_iter().map(|(name, case)| (name, case.on(Board::Shared))).collect()
}

#[cfg(test)]
mod tests {
    use super::*;
    use crate::pick::Picker;

    fn reply(name: &str) -> String {
        let mut rows = six_rows().into_iter();
        let (_, case) = rows.find(|(n, _)| *n == name).unwrap_or_else(|| panic!("no row {name}"));
        case.reply(&mut Picker::new()).text
    }

    /// Refusals of calls with a buffer, and of calls without.
    #[test]
    fn refused() {
        for (name, number, place) in [
            ("01 05 01 alone", 1, 3),
            ("01 06 04 alone", 1, 3),
            ("01 07 04 alone", 3, 0),
            ("01 06 05 alone", 3, 0),
            ("02 on pattern 31 of 32", 1, 6),
            ("02 on pattern 32 of 32", 3, 3),
            ("03 on pattern 32 of 32", 3, 3),
            ("06 on pattern 32 of 32", 3, 3),
            ("02 on pattern 63 of 64", 1, 6),
            ("02 on pattern 64 of 64", 3, 3),
            ("03 on pattern 64 of 64", 3, 3),
            ("06 on pattern 64 of 64", 3, 3),
            ("pattern 31 missing", 9, 31),
            ("pattern 63 missing", 9, 63),
            ("nothing permitted on 63", 10, 63),
            ("nothing permitted on 31", 10, 31),
            ("A on six with 15 bytes", 12, 16),
            ("A on six cleaned with a byte less", 12, 208),
            ("pattern 63 missing cleaned", 9, 63),
            ("longest in 771 bytes", 12, 772),
            ("pattern 32 of five", 3, 0),
            ("pattern 32 of five on wire 3", 3, 3),
            ("pattern 63 of five on wires 1 and 2", 3, 1),
            ("pattern 16 of four", 3, 1),
            ("a stage of seven inputs written", 3, 0),
            ("shared: A on six", 15, 0),
            ("shared: A on six, no bytes", 15, 0),
            ("shared: nothing asked of five", 15, 0),
            ("shared: nothing asked of four", 12, 8),
            ("shared: nothing permitted on 63", 10, 63),
            ("shared: pattern 63 missing", 9, 63),
            ("shared: 01 05 01 alone", 1, 3),
            ("shared: five written", 3, 0),
            ("shared: six written in no bytes", 3, 0),
            ("shared: pattern 16 of four", 3, 1),
        ] {
            assert_eq!(reply(name), format!("refused {number} at {place} +\n"), "{name}");
        }
        for (name, number, place) in [
            ("set 63 empty", 10, 63),
            ("set 62 too wide, 63 empty", 3, 62),
            ("a relation of seven inputs", 3, 0),
            ("longest with a byte more", 4, 772),
            ("longest with a byte less", 1, 771),
            ("a stage of seven inputs read", 3, 0),
            ("input 7 of six", 3, 5),
            ("input 6 of five", 3, 5),
            ("6 below 6", 11, 7),
            ("5 below 6", 11, 8),
            ("7 below 6", 3, 7),
            ("0 below 6", 3, 7),
            ("shared: relation of five", 3, 0),
            ("shared: relation of six, all empty", 3, 0),
            ("shared: stage of five", 3, 0),
            ("shared: stage of six", 3, 0),
            ("shared: stage of five, cut", 1, 0),
            ("shared: stage of five, then unknown", 3, 0),
        ] {
            assert_eq!(reply(name), format!("refused {number} at {place}\n"), "{name}");
        }
    }

    #[test]
    fn audited() {
        for (name, line) in [
            ("A on six audited", "fits 1"),
            ("A on six by a stage of two", "stage refused 13 at 0"),
            ("A by a stage of six", "stage refused 13 at 0"),
            ("shared: A on six by five", "stage refused 3 at 0"),
            ("shared: A on six by six", "stage refused 3 at 0"),
            ("shared: A on six by A's lists", "stage refused 13 at 0"),
            ("shared: A on six by nothing", "stage refused 1 at 0"),
            ("shared: A by six", "stage refused 3 at 0"),
            ("shared: nothing permitted on 63 audited", "sheet refused 10 at 63"),
        ] {
            assert_eq!(reply(name), format!("{line}\n"), "{name}");
        }
    }

    /// As with two inputs: the others make no difference.
    #[test]
    fn a_and_b_on_six() {
        let quoted = "cells 1 floor 1 visits 0 best\n20 06 02 21 00 22 01 24 23 21 01 22 02 23 24 2F +\n";
        assert_eq!(reply("A on six"), quoted);
        assert_eq!(reply("A on six with 16 bytes"), quoted);
        let tables = [0x0000_0000_FFFF_FFFF_u64, 0xFFFF_0000_FFFF_0000];
        let line = format!("{} {} 0 0 cells 1 floor 1 visits 0 best\n", tables[0], tables[1]);
        assert_eq!(reply("A on six handed in"), line);
        let tables = [0xFFFF_0000_FFFF_0000_u64, 0xFFFF_0000_0000_0000];
        let of_b = |rest: &str| format!("{} {} 0 0 cells 1 floor {rest}\n", tables[0], tables[1]);
        assert_eq!(reply("B on six handed in"), of_b("1 visits 1 best"));
        assert_eq!(reply("B0 on six handed in"), of_b("0 visits 0 stopped"));
        assert!(reply("B on six as a sheet").starts_with("cells 1 floor 1 visits 1 best\n20 06 02 "));
        assert!(reply("A on six cleaned").starts_with("208 01 06 02 02 00 01 02 01 01 "));
        assert_eq!(reply("nothing permitted on 63 cleaned").split(' ').next(), Some("136"));
    }

    #[test]
    fn found() {
        assert_eq!(
            reply("nothing asked of six"),
            "cells 0 floor 0 visits 0 best\n20 06 04 21 00 23 21 01 23 21 02 23 21 03 23 2F +\n"
        );
        for (name, table, cells) in [
            ("parity of six handed in", 0x6996_9669_9669_6996_u64, 47),
            ("parity of five, more sets behind", 0x9669_6996, 23),
            ("1 on the last of 64", 0xAAAA_AAAA_AAAA_AAAA, 0),
            ("all open", 0, 0),
        ] {
            let line = format!("{table} 0 0 0 cells {cells} floor {cells} visits 0 best\n");
            assert_eq!(reply(name), line, "{name}");
        }
    }

    #[test]
    fn written_and_read() {
        assert!(
            reply("longest in 772 bytes").starts_with("772 20 06 04 21 00 22 01 22 02 22 03 22 04 22 05 22 06 23 24 ")
        );
        assert_eq!(reply("longest in 773 bytes"), reply("longest in 772 bytes"));
        let [even, odd] = [!0x6996_9669_9669_6996_u64, 0x6996_9669_9669_6996];
        assert_eq!(reply("longest read"), format!("6 4 {odd} {even} {odd} {even} cells 188\n"));
        let straight = "21 00 22 03 23 24 21 01 22 04 23 24 21 02 22 05 23 24 21 03 22 06 23 24 2F +\n";
        assert_eq!(reply("inputs 3 to 6 written"), format!("28 20 06 04 {straight}"));
        let last = "22 20 05 01 21 00 22 01 23 22 02 23 22 03 23 22 04 23 22 05 23 24 2F +\n";
        assert_eq!(reply("the last pattern of five"), last);
        assert_eq!(reply("all patterns of five"), "7 20 05 01 21 00 24 2F +\n");
        assert_eq!(reply("all patterns of six"), "7 20 06 01 21 00 24 2F +\n");
        assert_eq!(reply("pattern 32 of five past the wires"), "10 20 05 02 21 00 23 21 01 23 2F +\n");
        assert_eq!(reply("input 6 of six"), "6 1 12297829382473034410 0 0 0 cells 0\n");
        assert_eq!(reply("input 1 of six"), "6 1 18446744069414584320 0 0 0 cells 0\n");
        assert_eq!(reply("shared: stage of four"), "4 1 0 0 0 0 cells 0\n");
    }
}
