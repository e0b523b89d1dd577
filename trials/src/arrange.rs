//! A second way to the clean copy of document 02, E1, without what the reader
//! gathers and without the writer: the sheet's own commands are put in order.
//! Of the reader it takes the lengths of the commands and the set of all values.

use crate::sheet::{all_values, operand_count};

/// The clean copy of a sheet that reads well.
pub fn arrange(sheet: &[u8]) -> Vec<u8> {
    let mut all = commands(sheet);
    // This sort keeps the order of commands that have the same place: gates
    // and outputs stay among themselves as they came.
    all.sort_by_key(|command| place(command));
    all.dedup_by(|later, earlier| narrowed(earlier, later));
    let everything = all_values(sheet[2].into()).to_le_bytes();
    all.retain(|command| command[0] != 0x06 || command[2..] != everything);
    all.concat()
}

fn commands(mut sheet: &[u8]) -> Vec<Vec<u8>> {
    let mut all = Vec::new();
    while let Some(&first) = sheet.first() {
        let count = operand_count(first).expect("a sheet that reads well");
        let (command, rest) = sheet.split_at(1 + count);
        all.push(command.to_vec());
        sheet = rest;
    }
    all
}

/// The block of the copy, and the pattern in blocks that go by patterns.
fn place(command: &[u8]) -> (u8, u8) {
    match command[0] {
        0x01 => (0, 0),
        0x02 | 0x03 => (1, command[1]),
        0x06 => (2, command[1]),
        0x04 => (3, 0),
        0x05 => (4, 0),
        _ => (5, 0),
    }
}

/// Whether both limit the same pattern; then the earlier takes in the later.
fn narrowed(earlier: &mut [u8], later: &[u8]) -> bool {
    let alike = earlier[0] == 0x06 && later.starts_with(&earlier[..2]);
    if alike {
        earlier[2] &= later[2];
        earlier[3] &= later[3];
    }
    alike
}
