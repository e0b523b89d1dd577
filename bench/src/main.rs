//! Prints the library's times beside those of the tuned Rust search and forming, on the same relations and sheets in the
//! same run.

mod clock;
mod inputs;
mod rows;
mod timing;

use inputs::{full_sheet, sheet, two_sheets, FAMILIES};
use rows::{copies, joined_quotes, quotes, shared_quotes, Relations, Searches, Sheets, BUDGET};
use trials::board::{Board, BOARDS};
use trials::random::Random;
use trials::sheet::{MOST_GATES, MOST_OUTPUTS};

/// Of both boards, and of the tree board alone: the other has four input lines.
const SIZES: [(u8, u8); 4] = [(2, 2), (3, 3), (4, 3), (4, 4)];
const WIDE: [(u8, u8); 2] = [(5, 4), (6, 4)];
/// Of full sheets.
const FULL: [(u8, u8); 2] = [(4, 4), (6, 4)];

/// How many relations, sheets or pairs of sheets a row has.
const COUNT: usize = 100;
const ROUNDS: usize = 25;

fn header() {
    println!("The library, through the C boundary, beside the tuned Rust search: release builds, the same relations,");
    println!(
        "the same run, thread CPU time, the least of {ROUNDS} rounds; {COUNT} relations, sheets or pairs to a row."
    );
    println!("Buffers were warm: each relation was searched once by both before timing, and the replies agreed.");
    println!("The library tests each relation that it is handed; the Rust search does not. Budget {BUDGET}.");
    println!("The ratio is the library's time over Rust's.");
}

fn print_searches(board: Board, searches: &[Searches]) {
    match board {
        Board::Tree => println!("\nSearches. A visit: what a search takes longer than with budget 0, over its visits."),
        Board::Shared => println!("\nSearches on the board that shares selectors, of the same relations."),
    }
    println!("                                        us a search                 ns a visit");
    println!("size   relations     visits    library      Rust  ratio    library      Rust  ratio");
    for row in searches {
        println!("{}", row.line());
    }
}

fn print_sheets<const EACH: usize, const ROOM: usize>(what: &str, rust: &str, sheets: &[Sheets<EACH, ROOM>]) {
    println!("\n{what}. On Rust's side {rust}");
    println!("of the trials, which are not tuned.");
    println!("                         us a {}", if EACH == 1 { "sheet" } else { "pair" });
    println!("size       bytes    library      Rust  ratio");
    for row in sheets {
        println!("{}", row.line());
    }
}

fn print_relations(formed: &[Relations]) {
    print!("\nRelations formed of the units' sheets and, in the last two rows, of sheets with {MOST_GATES} gates and ");
    println!("{MOST_OUTPUTS} outputs.");
    println!("The library is asked for an audit with no bytes for a stage: it reads the sheet, forms its relation");
    println!("and refuses the stage. On Rust's side stand the reader of the trials, which is not tuned, and the");
    println!("tuned forming, whose sets were compared with those of the trials; the library's call hands out no sets.");
    println!("Forming alone: of the library what it takes longer than with the last byte off, where it reads all");
    println!("other commands, is refused and forms nothing; so the tests at the end and for 10 and the refusal of");
    println!("the stage are in it, less the blank sheet that a refused one is given. Of Rust the sets alone.");
    println!("                  us a sheet, read and formed        ns, forming alone");
    println!("size       gates    library      Rust  ratio    library      Rust  ratio");
    for row in formed {
        println!("{}", row.line());
    }
}

/// So many of a kind.
fn drawn<T>(draw: impl FnMut() -> T) -> Vec<T> {
    std::iter::repeat_with(draw).take(COUNT).collect()
}

/// A round goes through all rows. So the rounds of a row are spread over the run, and where something else slows the
/// machine for a while, the row has others.
fn main() {
    let mut rng = Random::new(20_131_111);
    let mut searched = BOARDS.map(|_| Vec::new());
    let (mut quoted, mut shared, mut copied, mut formed) = (Vec::new(), Vec::new(), Vec::new(), Vec::new());
    for (n, m) in SIZES {
        for (name, draw) in FAMILIES {
            let relations = drawn(|| draw(&mut rng, n, m));
            for board in BOARDS {
                searched[board as usize].push(Searches::new(board, name, (n, m), relations.clone()));
            }
        }
        let sheets = drawn(|| sheet(&mut rng, n, m));
        quoted.push(quotes((n, m), sheets.clone()));
        shared.push(shared_quotes((n, m), sheets.clone()));
        copied.push(copies((n, m), sheets.clone()));
        formed.push(Relations::new((n, m), sheets));
    }
    // Full sheets after all that, and then what is wide, so that the rows that were there keep what was drawn for them.
    formed.push(Relations::new(FULL[0], drawn(|| full_sheet(&mut rng, FULL[0]))));
    for (n, m) in WIDE {
        for (name, draw) in FAMILIES {
            let relations = drawn(|| draw(&mut rng, n, m));
            searched[Board::Tree as usize].push(Searches::new(Board::Tree, name, (n, m), relations));
        }
        let sheets = drawn(|| sheet(&mut rng, n, m));
        quoted.push(quotes((n, m), sheets.clone()));
        copied.push(copies((n, m), sheets));
    }
    formed.push(Relations::new(FULL[1], drawn(|| full_sheet(&mut rng, FULL[1]))));
    // Two sheets after all others, likewise.
    let mut joined: Vec<_> = SIZES
        .into_iter()
        .chain(WIDE)
        .map(|(n, m)| joined_quotes((n, m), drawn(|| two_sheets(&mut rng, n, m))))
        .collect();
    for _ in 0..ROUNDS {
        searched.iter_mut().flatten().for_each(Searches::round);
        quoted.iter_mut().for_each(Sheets::round);
        shared.iter_mut().for_each(Sheets::round);
        copied.iter_mut().for_each(Sheets::round);
        joined.iter_mut().for_each(Sheets::round);
        formed.iter_mut().for_each(Relations::round);
    }
    header();
    for board in BOARDS {
        print_searches(board, &searched[board as usize]);
    }
    let between = "the tuned search stands between the reader and the writer";
    print_sheets("Quotes of the units' sheets", between, &quoted);
    print_sheets("Sharing quotes of the units' sheets", between, &shared);
    print_sheets("Clean copies of the units' sheets", "stand the reader and the copy", &copied);
    print_sheets("Joined quotes of two units' sheets", between, &joined);
    print_relations(&formed);
}
