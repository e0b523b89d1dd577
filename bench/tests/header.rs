//! The header against the archive: a caller in C is compiled with it and linked, and must print what the calls give
//! through the declarations of this crate. Its constants, and what it says of a sheet that is too wide for the board that
//! shares selectors, must be the independent solver's.

use bench::{Told, BEST, DIFFERS, FITS, REFUSED, STAGE_REFUSED, STOPPED, WRITTEN};
use std::path::{Path, PathBuf};
use std::process::{Command, Output};
use trials::board::{Board, BOARDS};
use trials::cells::Tables;
use trials::clean::LONGEST_COPY;
use trials::diagram::{LONGEST_LISTS, LONGEST_SHARED};
use trials::pick::Picker;
use trials::refusal::*;
use trials::relation::Sets;
use trials::rows::A;
use trials::sheet::{MOST_PATTERNS, MOST_WIRES};
use trials::stage::LONGEST_STAGE;

const BUDGET: u32 = 10_000;

/// A as a relation.
fn a_sets() -> Sets {
    let mut sets = [0; MOST_PATTERNS];
    sets[..4].copy_from_slice(&[0b0010, 0b1001, 0b1001, 0b0100]);
    sets
}

/// Six inputs and one wire, which is 1 on the last pattern alone.
fn last_alone() -> Sets {
    let mut sets = [0b01; MOST_PATTERNS];
    sets[MOST_PATTERNS - 1] = 0b10;
    sets
}

/// Five inputs and one wire, with every pattern impossible.
fn five_inputs() -> Vec<u8> {
    let rows = (0..1u8 << 5).flat_map(|p| [0x03, p]);
    [0x01, 0x05, 0x01].into_iter().chain(rows).chain([0x00]).collect()
}

fn numbers_line<N: ToString>(numbers: impl IntoIterator<Item = N>) -> String {
    numbers.into_iter().map(|n| n.to_string()).collect::<Vec<_>>().join(" ") + "\n"
}

/// The places of a reply's numbers and their count, the outcomes, the refusals and the sizes, in the header's order.
fn constants() -> String {
    let outcomes = [BEST, STOPPED, FITS, DIFFERS, WRITTEN, REFUSED, STAGE_REFUSED];
    let of_commands = [CUT_SHORT, UNKNOWN, OUT_OF_RANGE, TRAILING, OUT_OF_TURN, NO_SIGNAL, REPEATED, TOO_MANY];
    let of_wholes = [MISSING_ROW, EMPTY, NOT_ASCENDING, SHORT_BUFFER, SIZES_DIFFER, TOO_WIDE];
    let inputs = [Board::Tree, Board::Shared].map(|board| board.most_inputs().into());
    let limits = inputs.into_iter().chain([MOST_PATTERNS, MOST_WIRES.into()]);
    let sizes = limits.chain([LONGEST_STAGE, LONGEST_SHARED, LONGEST_LISTS, LONGEST_COPY]);
    let refusals = of_commands.into_iter().chain(of_wholes);
    numbers_line(0..=6) + &numbers_line(outcomes) + &numbers_line(refusals) + &numbers_line(sizes)
}

/// What the independent solver says of five inputs on the board that shares selectors: 15, at the front of the sheet.
fn five_refused() -> Told {
    let refused = trials::quote::quote(Board::Shared, &five_inputs(), BUDGET, &mut [], &mut Picker::new());
    let refusal = refused.expect_err("more inputs than the board has");
    assert_eq!((refusal.number, refusal.place), (TOO_WIDE, 0));
    Told { refusal: refusal.number.into(), outcome: REFUSED, cells: 0, floor: 0, visits: 0, length: 0, place: 0 }
}

fn tables_line(tables: Tables) -> String {
    numbers_line(tables)
}

fn line(t: &Told) -> String {
    format!("{} {} {} {} {} {} {}\n", t.refusal, t.outcome, t.cells, t.floor, t.visits, t.length, t.place)
}

fn bytes_line(bytes: &[u8]) -> String {
    bytes.iter().map(|b| format!("{b:02x} ")).collect::<String>() + "\n"
}

fn expected() -> String {
    let (mut replies, mut lent) = (constants(), String::new());
    for board in BOARDS {
        let mut buffer = vec![0; board.longest()];
        let quote = bench::quote(board, &A, BUDGET, &mut buffer);
        let stage = &buffer[..quote.length as usize];
        let (search, tables) = bench::search(board, 2, 2, &a_sets(), BUDGET);
        replies += &[quote, bench::audit(board, &A, stage), search].map(|told| line(&told)).concat();
        lent += &(bytes_line(stage) + &tables_line(tables));
    }
    let mut copy = [0; LONGEST_COPY];
    let clean = bench::clean(&A, &mut copy);
    let (wide, wide_tables) = bench::search(Board::Tree, 6, 1, &last_alone(), BUDGET);
    replies += &[clean, five_refused(), wide].map(|told| line(&told)).concat();
    replies + &lent + &bytes_line(&copy[..clean.length as usize]) + &tables_line(wide_tables)
}

fn run(command: &mut Command) -> Output {
    let output = command.output().expect("the command starts");
    assert!(output.status.success(), "{}", String::from_utf8_lossy(&output.stderr));
    output
}

#[test]
fn header_fits_archive() {
    let here = Path::new(env!("CARGO_MANIFEST_DIR"));
    let program: PathBuf = Path::new(env!("CARGO_TARGET_TMPDIR")).join("header");
    run(Command::new("cc")
        .args(["-std=c99", "-Wall", "-Wextra", "-Werror", "-pedantic", "-o"])
        .arg(&program)
        .arg(here.join("tests/header.c"))
        .arg(here.join("../crates/capi_c/out/libcapi.a")));
    let output = run(&mut Command::new(&program));
    assert_eq!(String::from_utf8(output.stdout).expect("text"), expected());
}
