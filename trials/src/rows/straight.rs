//! Rows for document 02, E4: selectors that pass an input straight through, and
//! those that only look like it, on both boards.

use super::shared::one_wire;
use super::{audit, limits_only, quote, read, search, write, A, A_STAGE, PROGRAM};
use crate::board::Board;
use crate::case::Case;
use crate::cells::{full, Tables};

/// A stage of one wire and two inputs.
fn one_tree(tree: &[u8]) -> Vec<u8> {
    [&[0x20, 0x02, 0x01, 0x21, 0x00], tree, &[0x2F]].concat()
}

/// The inputs of a box of four.
const INPUTS: Tables = [0xFF00, 0xF0F0, 0xCCCC, 0xAAAA];

/// Sheet A's stage with input 2 chosen from twice.
const A_CHOSEN: [u8; 22] = [
    0x20, 0x02, 0x02, 0x21, 0x00, 0x22, 0x01, 0x24, 0x23, 0x21, 0x01, 0x22, 0x01, 0x22, 0x02, 0x23, 0x24, 0x22, 0x02,
    0x23, 0x24, 0x2F,
];

/// The rows by name, trees first; the expected replies stand in the tests below.
pub fn straight_rows() -> Vec<(&'static str, Case)> {
    let on_both = [both(Board::Tree), both(Board::Shared)].concat();
    [trees(), lists(), on_both].concat()
}

fn trees() -> Vec<(&'static str, Case)> {
    let row = |name, tree: &[u8]| (name, read(&one_tree(tree)));
    let four: Vec<u8> = (0..4).flat_map(|j| [0x21, j, 0x22, j + 1, 0x23, 0x24]).collect();
    vec![
        row("tree: input 1", &[0x22, 1, 0x23, 0x24]),
        row("tree: input 2", &[0x22, 2, 0x23, 0x24]),
        row("tree: input 1 inverted", &[0x22, 1, 0x24, 0x23]),
        row("tree: 0 on both branches", &[0x22, 1, 0x23, 0x23]),
        row("tree: 1 on both branches", &[0x22, 1, 0x24, 0x24]),
        row("tree: a larger branch for 0", &[0x22, 1, 0x22, 2, 0x23, 0x23, 0x24]),
        row("tree: a larger branch for 1", &[0x22, 1, 0x23, 0x22, 2, 0x24, 0x24]),
        row("tree: an input below", &[0x22, 1, 0x23, 0x22, 2, 0x23, 0x24]),
        row("tree: an input below twice", &[0x22, 1, 0x22, 2, 0x23, 0x24, 0x22, 2, 0x23, 0x24]),
        row("tree: an input and one inverted below", &[0x22, 1, 0x22, 2, 0x23, 0x24, 0x22, 2, 0x24, 0x23]),
        ("tree: every input", read(&[&[0x20, 4, 4], &four[..], &[0x2F]].concat())),
        ("tree: A with input 2 chosen", audit(&A, &A_CHOSEN)),
        ("tree: A with a constant turned", audit(&A, &[&A_STAGE[..13], &[0x24, 0x23, 0x2F]].concat())),
    ]
}

fn lists() -> Vec<(&'static str, Case)> {
    let row = |name, entries: &[[u8; 3]], top| (name, read(&one_wire(2, entries, top)).on(Board::Shared));
    let four =
        (0..4).flat_map(|j| [&[0x26, j, 253], [[1, 1, 0]; 253].as_flattened(), &[254]].concat()).collect::<Vec<u8>>();
    vec![
        row("list: input 1", &[[1, 0, 1]], 2),
        row("list: input 2", &[[2, 0, 1]], 2),
        row("list: input 1 inverted", &[[1, 1, 0]], 2),
        row("list: 0 on both branches", &[[1, 0, 0]], 2),
        row("list: 1 on both branches", &[[1, 1, 1]], 2),
        row("list: an entry worth 0", &[[2, 0, 0], [1, 2, 1]], 3),
        row("list: an entry worth 1", &[[2, 1, 1], [1, 0, 2]], 3),
        row("list: an input again", &[[2, 0, 1], [2, 0, 1], [1, 0, 1]], 3),
        row("list: inputs not reached", &[[2, 0, 1], [1, 0, 1], [2, 1, 0]], 1),
        row("list: an input inverted again", &[[2, 1, 0], [2, 1, 0], [2, 0, 1]], 3),
        row("list: an entry worth an input", &[[2, 0, 1], [1, 2, 2]], 3),
        row("list: an input below", &[[2, 0, 1], [1, 0, 2]], 3),
        row("list: as many as there can be", &[[1, 1, 0]; 253], 254),
        ("list: as many on four wires", read(&[&[0x20, 2, 4], &four[..], &[0x2F]].concat()).on(Board::Shared)),
    ]
}

/// What both boards are asked.
fn both(board: Board) -> Vec<(&'static str, Case)> {
    let name = |tree, list| if board == Board::Tree { tree } else { list };
    let (length, inverted) = (board.length(4, 4) as u16, INPUTS.map(|input| !input & full(4)));
    // Wire 0 follows input 2, wire 1 input 1; then both turned round.
    let (follow, turn) = ([1, 2, 4, 8], [8, 4, 2, 1]);
    let rows = vec![
        (name("tree: inputs written", "list: inputs written"), write(4, 4, length, INPUTS)),
        (name("tree: inputs in a byte less", "list: inputs in a byte less"), write(4, 4, length - 1, INPUTS)),
        (name("tree: inverted written", "list: inverted written"), write(4, 4, length, inverted)),
        (name("tree: inputs handed in", "list: inputs handed in"), search(2, 2, 0, &follow)),
        (name("tree: inputs as a sheet", "list: inputs as a sheet"), quote(0, 196, &limits_only(2, 2, &follow))),
        (name("tree: inverted handed in", "list: inverted handed in"), search(2, 2, 0, &turn)),
        (
            name("tree: inverted as a sheet", "list: inverted as a sheet"),
            quote(PROGRAM, 196, &limits_only(2, 2, &turn)),
        ),
        // Constant 1 costs nothing either, and has the larger number.
        (name("tree: an input or 1", "list: an input or 1"), search(1, 1, 0, &[0b11, 0b10])),
        // Constant 0 has the smaller number.
        (name("tree: an input or 0", "list: an input or 0"), search(1, 1, 0, &[0b01, 0b11])),
    ];
    rows.into_iter().map(|(name, case)| (name, case.on(board))).collect()
}

#[cfg(test)]
mod tests {
    use super::*;
    use crate::pick::Picker;

    fn reply(name: &str) -> String {
        let mut rows = straight_rows().into_iter();
        let (_, case) = rows.find(|(n, _)| *n == name).unwrap_or_else(|| panic!("no row {name}"));
        case.reply(&mut Picker::new()).text
    }

    #[test]
    fn trees_read() {
        for (name, table, cells) in [
            ("input 1", 12, 0),
            ("input 2", 10, 0),
            ("input 1 inverted", 3, 1),
            ("0 on both branches", 0, 1),
            ("1 on both branches", 15, 1),
            ("a larger branch for 0", 12, 2),
            ("a larger branch for 1", 12, 2),
            ("an input below", 8, 1),
            ("an input below twice", 10, 1),
            ("an input and one inverted below", 6, 2),
        ] {
            assert_eq!(reply(&format!("tree: {name}")), format!("2 1 {table} 0 0 0 cells {cells}\n"), "{name}");
        }
        assert_eq!(reply("tree: every input"), "4 4 65280 61680 52428 43690 cells 0\n");
        assert_eq!(reply("tree: A with input 2 chosen"), "fits 2\n");
        assert_eq!(reply("tree: A with a constant turned"), "differs 2\n");
    }

    #[test]
    fn lists_read() {
        for (name, table, cells) in [
            ("input 1", 12, 0),
            ("input 2", 10, 0),
            ("input 1 inverted", 3, 1),
            ("0 on both branches", 0, 1),
            ("1 on both branches", 15, 1),
            ("an entry worth 0", 12, 2),
            ("an entry worth 1", 12, 2),
            ("an input again", 10, 0),
            ("inputs not reached", 15, 1),
            ("an input inverted again", 5, 2),
            ("an entry worth an input", 10, 1),
            ("an input below", 8, 1),
            ("as many as there can be", 3, 253),
        ] {
            assert_eq!(reply(&format!("list: {name}")), format!("2 1 {table} 0 0 0 cells {cells}\n"), "{name}");
        }
        assert_eq!(reply("list: as many on four wires"), "2 4 3 3 3 3 cells 1012\n");
    }

    #[test]
    fn inputs_on_both_boards() {
        for (form, length) in [("tree", 28), ("list", 32)] {
            let reply = |name: &str| reply(&format!("{form}: {name}"));
            assert!(reply("inputs written").starts_with(&format!("{length} 20 04 04 ")));
            assert_eq!(reply("inputs in a byte less"), format!("refused 12 at {length} +\n"));
            assert!(reply("inverted written").starts_with(&format!("{length} 20 04 04 ")));
            assert_eq!(reply("inputs handed in"), "10 12 0 0 cells 0 floor 0 visits 0 best\n");
            assert!(reply("inputs as a sheet").starts_with("cells 0 floor 0 visits 0 best\n20 02 02 "));
            assert_eq!(reply("inverted handed in"), "5 3 0 0 cells 2 floor 2 visits 0 best\n");
            assert!(reply("inverted as a sheet").starts_with("cells 2 floor 2 visits 0 best\n20 02 02 "));
            assert_eq!(reply("an input or 1"), "2 0 0 0 cells 0 floor 0 visits 0 best\n");
            assert_eq!(reply("an input or 0"), "0 0 0 0 cells 0 floor 0 visits 0 best\n");
        }
    }
}
