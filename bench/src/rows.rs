//! The rows of the tables: what is timed together. Each reply is compared once, before the timing.

use crate::timing::{columns, Timing};
use bench::{Told, REFUSED, STAGE_REFUSED};
use std::hint::black_box;
use trials::board::Board;
use trials::clean::{self, LONGEST_COPY};
use trials::diagram::LONGEST_SHARED;
use trials::fast;
use trials::joined::join;
use trials::refusal::CUT_SHORT;
use trials::relation::{self, Sets};
use trials::sheet::Unit;
use trials::stage::LONGEST_STAGE;

/// The budget of the program.
pub const BUDGET: u32 = 10_000;
/// A row with fewer visits a search than this tells nothing of the time of a visit.
const FEW: f64 = 2.0;

/// Searches of relations of n inputs and m wires on a board, at the budget and at budget 0.
pub struct Searches {
    board: Board,
    name: &'static str,
    n: u8,
    m: u8,
    drawn: Vec<Sets>,
    visits: u64,
    whole: Timing,
    start: Timing,
}

impl Searches {
    pub fn new(board: Board, name: &'static str, (n, m): (u8, u8), drawn: Vec<Sets>) -> Searches {
        let visits = drawn.iter().map(|sets| compared_search(board, n, m, sets)).sum();
        Searches { board, name, n, m, drawn, visits, whole: Timing::new(), start: Timing::new() }
    }

    pub fn round(&mut self) {
        let (board, n, m) = (self.board, self.n, self.m);
        for (timing, budget) in [(&mut self.whole, BUDGET), (&mut self.start, 0)] {
            timing.round(
                &self.drawn,
                |sets| bench::search(board, n, m, sets, budget).0.visits,
                |sets| fast::search(board, n.into(), sets, budget).visits.into(),
            );
        }
    }

    pub fn line(&self) -> String {
        let visits = self.visits as f64 / self.drawn.len() as f64;
        let a_visit = [0, 1].map(|side| (self.whole.least[side] - self.start.least[side]) / visits);
        let last = if visits < FEW { String::new() } else { columns(a_visit, 1.0) };
        let first = columns(self.whole.least, 1e3);
        format!("({},{})  {:10} {visits:9.1}  {first}  {last}", self.n, self.m, self.name).trim_end().to_string()
    }
}

/// The visits of a search by both.
fn compared_search(board: Board, n: u8, m: u8, sets: &Sets) -> u64 {
    let (told, tables) = bench::search(board, n, m, sets, BUDGET);
    let a = fast::search(board, n.into(), sets, BUDGET);
    let same = (told.refusal, told.cells, told.floor, told.visits, told.outcome)
        == (0, a.cells.into(), a.floor.into(), a.visits.into(), a.stopped.into());
    assert!(same && tables == a.tables, "the two searches differ on {board:?} {n} {m} {sets:?}");
    told.visits
}

/// What is made of sheets at the start of a buffer: its length.
type Call<const EACH: usize> = fn(&[Vec<u8>; EACH], &mut [u8]) -> u64;

/// Quotes or clean copies of so many sheets of n inputs and m wires each, with room for the longest.
pub struct Sheets<const EACH: usize, const ROOM: usize> {
    size: (u8, u8),
    drawn: Vec<[Vec<u8>; EACH]>,
    library: Call<EACH>,
    rust: Call<EACH>,
    whole: Timing,
}

pub type Quotes = Sheets<1, LONGEST_STAGE>;
pub type SharedQuotes = Sheets<1, LONGEST_SHARED>;
pub type Copies = Sheets<1, LONGEST_COPY>;
pub type JoinedQuotes = Sheets<2, LONGEST_STAGE>;

/// Each sheet by itself.
fn apart(drawn: Vec<Vec<u8>>) -> Vec<[Vec<u8>; 1]> {
    drawn.into_iter().map(|sheet| [sheet]).collect()
}

pub fn quotes(size: (u8, u8), drawn: Vec<Vec<u8>>) -> Quotes {
    Sheets::new(
        size,
        apart(drawn),
        |[sheet], buffer| bench::quote(Board::Tree, sheet, BUDGET, buffer).length,
        |[sheet], buffer| rust_quote(Board::Tree, sheet, buffer),
    )
}

pub fn shared_quotes(size: (u8, u8), drawn: Vec<Vec<u8>>) -> SharedQuotes {
    Sheets::new(
        size,
        apart(drawn),
        |[sheet], buffer| bench::quote(Board::Shared, sheet, BUDGET, buffer).length,
        |[sheet], buffer| rust_quote(Board::Shared, sheet, buffer),
    )
}

pub fn joined_quotes(size: (u8, u8), drawn: Vec<[Vec<u8>; 2]>) -> JoinedQuotes {
    Sheets::new(
        size,
        drawn,
        |[first, second], buffer| bench::quote_joined(first, second, BUDGET, buffer).length,
        |[first, second], buffer| rust_joined(first, second, buffer),
    )
}

pub fn copies(size: (u8, u8), drawn: Vec<Vec<u8>>) -> Copies {
    Sheets::new(
        size,
        apart(drawn),
        |[sheet], buffer| bench::clean(sheet, buffer).length,
        |[sheet], buffer| rust_copy(sheet, buffer),
    )
}

impl<const EACH: usize, const ROOM: usize> Sheets<EACH, ROOM> {
    fn new(size: (u8, u8), drawn: Vec<[Vec<u8>; EACH]>, library: Call<EACH>, rust: Call<EACH>) -> Self {
        for sheets in &drawn {
            let (mut ours, mut theirs) = ([0; ROOM], [0; ROOM]);
            let lengths = (library(sheets, &mut ours), rust(sheets, &mut theirs));
            assert!(lengths.0 == lengths.1 && ours == theirs, "the two sides differ on {sheets:?}");
        }
        Sheets { size, drawn, library, rust, whole: Timing::new() }
    }

    pub fn round(&mut self) {
        let (library, rust) = (self.library, self.rust);
        self.whole.round(&self.drawn, |sheets| library(sheets, &mut [0; ROOM]), |sheets| rust(sheets, &mut [0; ROOM]));
    }

    pub fn line(&self) -> String {
        let bytes = self.drawn.iter().flatten().map(Vec::len).sum::<usize>() as f64 / self.drawn.len() as f64;
        format!("({},{})  {bytes:9.1}  {}", self.size.0, self.size.1, columns(self.whole.least, 1e3))
    }
}

/// The reader, relation and writer of the trials about the tuned search: the length written.
fn rust_quote(board: Board, sheet: &[u8], buffer: &mut [u8]) -> u64 {
    let unit = trials::sheet::read(sheet).expect("drawn to be read");
    let r = relation::of_unit(&unit).expect("drawn to be well defined");
    let answer = fast::search(board, r.n, &r.sets, BUDGET);
    board.write(r.n as u8, r.m as u8, &answer.tables, buffer).expect("long enough") as u64
}

/// The same of two sheets: two readings, and the relation of what both leave.
fn rust_joined(first: &[u8], second: &[u8], buffer: &mut [u8]) -> u64 {
    let [first, second] = [first, second].map(|sheet| trials::sheet::read(sheet).expect("drawn to be read"));
    let r = join(&first, &second).expect("drawn to be well defined");
    let answer = fast::search(Board::Tree, r.n, &r.sets, BUDGET);
    Board::Tree.write(r.n as u8, r.m as u8, &answer.tables, buffer).expect("long enough") as u64
}

/// The reader and the copy of the trials.
fn rust_copy(sheet: &[u8], buffer: &mut [u8]) -> u64 {
    clean::clean(sheet, buffer).expect("drawn to be read") as u64
}

/// Relations of sheets of n inputs and m wires, each sheet with what the reader of the trials makes of it.
pub struct Relations {
    size: (u8, u8),
    drawn: Vec<(Vec<u8>, Unit)>,
    /// Each sheet read and its relation formed.
    whole: Timing,
    /// By the library the sheet with its last byte off, where all other commands are read and nothing is formed; by Rust
    /// the forming alone, of a sheet that was read.
    apart: Timing,
}

impl Relations {
    pub fn new(size: (u8, u8), sheets: Vec<Vec<u8>>) -> Relations {
        let drawn = sheets.into_iter().map(compared_forming).collect();
        Relations { size, drawn, whole: Timing::new(), apart: Timing::new() }
    }

    pub fn round(&mut self) {
        self.whole.round(&self.drawn, |(sheet, _)| formed(sheet).place, |(sheet, _)| rust_formed(sheet));
        self.apart.round(&self.drawn, |(sheet, _)| formed(cut(sheet)).place, |(_, unit)| rust_sets(unit));
    }

    pub fn line(&self) -> String {
        let gates = self.drawn.iter().map(|(_, unit)| unit.gates.len()).sum::<usize>() as f64 / self.drawn.len() as f64;
        let forming = [self.whole.least[0] - self.apart.least[0], self.apart.least[1]];
        let (first, last) = (columns(self.whole.least, 1e3), columns(forming, 1.0));
        format!("({},{})  {gates:9.1}  {first}  {last}", self.size.0, self.size.1)
    }
}

/// A sheet with its last byte off, the command that ends it.
fn cut(sheet: &[u8]) -> &[u8] {
    &sheet[..sheet.len() - 1]
}

/// An audit with no bytes of a stage: the sheet is read, its relation formed, and the stage refused.
fn formed(sheet: &[u8]) -> Told {
    bench::audit(Board::Tree, sheet, &[])
}

/// The reader of the trials and the tuned forming.
fn rust_formed(sheet: &[u8]) -> u64 {
    rust_sets(&trials::sheet::read(sheet).expect("drawn to be read"))
}

/// All sets are formed, and one of them is handed back.
fn rust_sets(unit: &Unit) -> u64 {
    black_box(fast::sets_of(unit))[0].into()
}

/// A sheet with its unit. Both replies of the library are the refusals that tell what is timed, and the tuned sets are
/// those of the trials.
fn compared_forming(sheet: Vec<u8>) -> (Vec<u8>, Unit) {
    let refused = |outcome, place| Told {
        refusal: CUT_SHORT.into(),
        outcome,
        cells: 0,
        floor: 0,
        visits: 0,
        length: 0,
        place: place as u64,
    };
    let told = (formed(&sheet), formed(cut(&sheet)));
    assert_eq!(told, (refused(STAGE_REFUSED, 0), refused(REFUSED, sheet.len() - 1)), "the replies to {sheet:?}");
    let unit = trials::sheet::read(&sheet).expect("drawn to be read");
    assert_eq!(fast::sets_of(&unit), relation::sets_of(&unit), "the sets of {sheet:?}");
    (sheet, unit)
}
