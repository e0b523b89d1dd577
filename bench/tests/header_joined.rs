//! The header's declaration of the joint quote against the archive: a caller in C is compiled with it and linked, and must
//! print what the calls give through the declarations of this crate. What it says of a sheet of another size than a second
//! one must be the independent solver's.

use bench::{Told, SECOND_REFUSED};
use std::path::{Path, PathBuf};
use std::process::{Command, Output};
use trials::clean::LONGEST_COPY;
use trials::joined::Which;
use trials::pick::Picker;
use trials::refusal::SIZES_DIFFER;
use trials::rows::A;
use trials::stage::LONGEST_STAGE;

const BUDGET: u32 = 10_000;

/// Five inputs and one wire, with every pattern impossible.
fn five_inputs() -> Vec<u8> {
    let rows = (0..1u8 << 5).flat_map(|p| [0x03, p]);
    [0x01, 0x05, 0x01].into_iter().chain(rows).chain([0x00]).collect()
}

/// What the independent solver says of five inputs beside sheet A: 13, at the front of the second.
fn other_size_refused() -> Told {
    let refused = trials::joined::quote_joined(&five_inputs(), &A, BUDGET, &mut [], &mut Picker::new());
    let it = refused.expect_err("of another size");
    assert_eq!((it.which, it.refusal.number, it.refusal.place), (Which::Second, SIZES_DIFFER, 0));
    let refusal = SIZES_DIFFER.into();
    Told { refusal, outcome: SECOND_REFUSED, cells: 0, floor: 0, visits: 0, length: 0, place: 0 }
}

fn line(t: &Told) -> String {
    format!("{} {} {} {} {} {} {}\n", t.refusal, t.outcome, t.cells, t.floor, t.visits, t.length, t.place)
}

fn bytes_line(bytes: &[u8]) -> String {
    bytes.iter().map(|b| format!("{b:02x} ")).collect::<String>() + "\n"
}

fn expected() -> String {
    let mut copy = [0; LONGEST_COPY];
    let clean = bench::clean(&A, &mut copy);
    let copy = &copy[..clean.length as usize];
    let mut buffer = [0; LONGEST_STAGE];
    let joined = bench::quote_joined(&A, copy, BUDGET, &mut buffer);
    let replies = [clean, other_size_refused(), joined].map(|told| line(&told)).concat();
    format!("{SECOND_REFUSED}\n") + &replies + &bytes_line(copy) + &bytes_line(&buffer[..joined.length as usize])
}

fn run(command: &mut Command) -> Output {
    let output = command.output().expect("the command starts");
    assert!(output.status.success(), "{}", String::from_utf8_lossy(&output.stderr));
    output
}

#[test]
fn header_of_the_joint_quote_fits_archive() {
    let here = Path::new(env!("CARGO_MANIFEST_DIR"));
    let program: PathBuf = Path::new(env!("CARGO_TARGET_TMPDIR")).join("header_joined");
    run(Command::new("cc")
        .args(["-std=c99", "-Wall", "-Wextra", "-Werror", "-pedantic", "-o"])
        .arg(&program)
        .arg(here.join("tests/header_joined.c"))
        .arg(here.join("../crates/capi_c/out/libcapi.a")));
    let output = run(&mut Command::new(&program));
    assert_eq!(String::from_utf8(output.stdout).expect("text"), expected());
}
