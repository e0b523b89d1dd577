//! `trials write DIR` writes DIR/stdin and DIR/stdout; `trials count` prints
//! how many cases there are of each kind and refusal; `trials program PATH`
//! runs the built program as a process and compares what it writes.

use std::path::Path;
use std::process::ExitCode;
use trials::board::Board;
use trials::check::{Checked, Checker, Wide};
use trials::pick::Picker;
use trials::plan::cases;
use trials::program::Outcomes;
use trials::tally::tallied;

const NAMES: [(&str, Board); 2] = [("trees", Board::Tree), ("shared selectors", Board::Shared)];

fn main() -> ExitCode {
    let arguments: Vec<String> = std::env::args().skip(1).collect();
    let words: Vec<&str> = arguments.iter().map(String::as_str).collect();
    match words[..] {
        ["write", directory] => write(Path::new(directory)),
        ["count"] => count(),
        ["program", path] => program(Path::new(path)),
        _ => {
            eprintln!("trials write DIR | trials count | trials program PATH");
            ExitCode::from(2)
        }
    }
}

/// Every reply is checked before anything is written.
fn write(directory: &Path) -> ExitCode {
    let mut picker = Picker::new();
    let mut checker = Checker::default();
    let mut input = Vec::new();
    let mut output = String::new();
    for case in cases() {
        let reply = case.reply(&mut picker);
        checker.check(&case, &reply.outcome);
        case.record(&mut input);
        output.push_str(&reply.text);
    }
    let Checked { wide, joined_left, .. } = checker.checked;
    assert_eq!((wide.best_left, joined_left), (0, 0), "called best, and not held against every part");
    let written = std::fs::create_dir_all(directory)
        .and_then(|()| std::fs::write(directory.join("stdin"), input))
        .and_then(|()| std::fs::write(directory.join("stdout"), output));
    match written {
        Ok(()) => ExitCode::SUCCESS,
        Err(error) => {
            eprintln!("{}: {error}", directory.display());
            ExitCode::FAILURE
        }
    }
}

fn count() -> ExitCode {
    let (tally, Checked { held, left, wide, copies, stages, written, joined, joined_empty, joined_left }) = tallied();
    print!("{}", tally.report());
    for (name, board) in NAMES {
        let (held, left) = (held[board as usize], left[board as usize]);
        println!("{name}, up to 4 inputs: searches held against the second solver: {held}, too long for it: {left}");
    }
    let Wide { sums, parts, stopped_left, best_left, every_function } = wide;
    println!("trees, 5 and 6 inputs: held against sums over wires: {sums}, against parts told apart: {parts},");
    println!("  too long: {stopped_left} stopped, {best_left} best; of all, against every function: {every_function}");
    println!("clean copies held against their sheets: {copies}");
    println!("stages held against their tables' count: {stages} read, {written} written");
    println!(
        "joined quotes held against each of their sheets: {joined} found, {joined_empty} with no value somewhere,"
    );
    println!("  up to 4 inputs, best, and too long to be told apart: {joined_left}");
    ExitCode::SUCCESS
}

/// The first differences are printed; there should be none.
fn program(path: &Path) -> ExitCode {
    let outcomes = match trials::program::run(path) {
        Ok(outcomes) => outcomes,
        Err(error) => {
            eprintln!("{}: {error}", path.display());
            return ExitCode::FAILURE;
        }
    };
    for fault in outcomes.faults.iter().take(10) {
        eprintln!("{fault}");
    }
    let Outcomes { quotes, audits, copies, joined, complaints, faults } = outcomes;
    let faults = faults.len();
    for (name, board) in NAMES {
        println!("program, {name}: {} quotes, {} audits", quotes[board as usize], audits[board as usize]);
    }
    println!("program: {joined} joined quotes");
    println!("program: {copies} copies, {complaints} complaints, {faults} not as expected");
    if faults == 0 {
        ExitCode::SUCCESS
    } else {
        ExitCode::FAILURE
    }
}
