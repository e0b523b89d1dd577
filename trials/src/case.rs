//! One case: its record in `stdin` and the reply expected in `stdout`.
//!
//! Records follow each other with nothing between. Each begins with a kind
//! byte; numbers of more than one byte come low byte first.
//!
//! * `Q` quote: budget (4 bytes), buffer length (2), sheet length (2), sheet.
//! * `A` audit: sheet length (2), stage length (2), sheet, stage.
//! * `S` search: n (1), m (1), budget (4), 64 sets (2 each).
//! * `W` write a stage: n (1), m (1), buffer length (2), four tables (8 each).
//! * `R` read a stage: length (2), stage.
//! * `C` clean a sheet: buffer length (2), sheet length (2), sheet.
//! * `J` joined quote of two sheets: budget (4), buffer length (2), first sheet's
//!   length (2), second sheet's length (2), first sheet, second sheet.
//! * `q`, `a`, `s`, `w`, `r`: the same for the board that shares selectors, with
//!   stages in its form (at most 3,056 bytes, or 3,057 to be refused).
//!
//! No buffer is longer than 800 bytes (`MOST_ROOM`), and no sheet than 700; of two
//! sheets neither is longer than 300.
//!
//! Replies, a line each (a quote that is not refused has two):
//!
//! * `Q`: "cells C floor F visits V best" (or "stopped") and the stage as hex
//!   pairs, " +"; or "refused N at P +".
//! * `A`: "fits C", "differs C", "sheet refused N at P", "stage refused N at P".
//! * `S`: "T0 T1 T2 T3 cells C floor F visits V best" (or "stopped"), the tables
//!   as decimal numbers of up to 20 digits; or "refused N at P".
//! * `W`, `C`: "LENGTH PAIRS +"; or "refused N at P +".
//! * `R`: "N M T0 T1 T2 T3 cells C"; or "refused N at P".
//! * `J`: as `Q`, but "first refused N at P +" or "second refused N at P +".
//! * A small letter: as its capital.
//!
//! Buffers start filled with EE. The + says that every byte of the buffer past
//! the stage or the copy (on a refusal: every byte) still is EE.

use crate::audit::{audit, Audit};
use crate::board::Board;
use crate::cells::Tables;
use crate::clean::clean;
use crate::joined::{quote_joined, Refused, Which};
use crate::pick::Picker;
use crate::quote::{quote, Quote};
use crate::refusal::Refusal;
use crate::relation::{handed, Relation, Sets};
use crate::search::{search, Answer};
use crate::sheet::MOST_PATTERNS;

/// What lent buffers are filled with at the start.
const FILL: u8 = 0xEE;

/// No buffer of a case is longer: above every stage and every copy.
pub const MOST_ROOM: usize = 800;

#[derive(Clone, PartialEq, Eq, Debug)]
pub enum Case {
    Quote { board: Board, budget: u32, room: u16, sheet: Vec<u8> },
    Audit { board: Board, sheet: Vec<u8>, stage: Vec<u8> },
    Search { board: Board, n: u8, m: u8, budget: u32, sets: Sets },
    Write { board: Board, n: u8, m: u8, room: u16, tables: Tables },
    Read { board: Board, stage: Vec<u8> },
    Clean { room: u16, sheet: Vec<u8> },
    Joined { budget: u32, room: u16, first: Vec<u8>, second: Vec<u8> },
}

/// Whom a refusal belongs to, or what came out.
#[derive(Clone, Copy, PartialEq, Eq, Debug)]
pub enum Outcome {
    Refused(Refusal),
    StageRefused(Refusal),
    /// One of two sheets.
    RefusedOf(Which, Refusal),
    Found(Answer),
    Judged {
        fits: bool,
    },
    Written,
    Read,
}

pub struct Reply {
    pub text: String,
    pub outcome: Outcome,
}

impl Case {
    /// Small letters are the board that shares selectors.
    pub fn kind(&self) -> u8 {
        let (letter, board) = match self {
            Case::Quote { board, .. } => (b'Q', *board),
            Case::Audit { board, .. } => (b'A', *board),
            Case::Search { board, .. } => (b'S', *board),
            Case::Write { board, .. } => (b'W', *board),
            Case::Read { board, .. } => (b'R', *board),
            Case::Clean { .. } => (b'C', Board::Tree),
            Case::Joined { .. } => (b'J', Board::Tree),
        };
        match board {
            Board::Tree => letter,
            Board::Shared => letter.to_ascii_lowercase(),
        }
    }

    /// The same call on that board. Panics on a clean copy, which has none, and on a
    /// joined quote, which the tree board alone has.
    pub fn on(mut self, to: Board) -> Case {
        match &mut self {
            Case::Quote { board, .. }
            | Case::Audit { board, .. }
            | Case::Search { board, .. }
            | Case::Write { board, .. }
            | Case::Read { board, .. } => *board = to,
            Case::Clean { .. } | Case::Joined { .. } => panic!("it has no choice of a board"),
        }
        self
    }

    /// Appends the record: the kind byte, then numbers low byte first.
    pub fn record(&self, out: &mut Vec<u8>) {
        out.push(self.kind());
        match self {
            Case::Quote { budget, room, sheet, .. } => {
                out.extend(budget.to_le_bytes());
                out.extend(room.to_le_bytes());
                out.extend(length(sheet));
                out.extend(sheet);
            }
            Case::Audit { sheet, stage, .. } => {
                out.extend(length(sheet));
                out.extend(length(stage));
                out.extend(sheet);
                out.extend(stage);
            }
            Case::Search { n, m, budget, sets, .. } => {
                out.extend([*n, *m]);
                out.extend(budget.to_le_bytes());
                out.extend(sets.iter().flat_map(|s| s.to_le_bytes()));
            }
            Case::Write { n, m, room, tables, .. } => {
                out.extend([*n, *m]);
                out.extend(room.to_le_bytes());
                out.extend(tables.iter().flat_map(|t| t.to_le_bytes()));
            }
            Case::Read { stage, .. } => {
                out.extend(length(stage));
                out.extend(stage);
            }
            Case::Clean { room, sheet } => {
                out.extend(room.to_le_bytes());
                out.extend(length(sheet));
                out.extend(sheet);
            }
            Case::Joined { budget, room, first, second } => {
                out.extend(budget.to_le_bytes());
                out.extend(room.to_le_bytes());
                out.extend(length(first));
                out.extend(length(second));
                out.extend(first);
                out.extend(second);
            }
        }
    }

    /// The expected reply, lines with their line ends.
    pub fn reply(&self, picker: &mut Picker) -> Reply {
        match self {
            Case::Quote { board, budget, room, sheet } => quote_reply(*board, sheet, *budget, *room, picker),
            Case::Audit { board, sheet, stage } => audit_reply(*board, sheet, stage),
            Case::Search { board, n, m, budget, sets } => {
                search_reply(*board, handed(*board, *n, *m, sets), *budget, picker)
            }
            Case::Write { board, n, m, room, tables } => {
                write_reply((*room).into(), |b| board.write(*n, *m, tables, b))
            }
            Case::Read { board, stage } => read_reply(*board, stage),
            Case::Clean { room, sheet } => write_reply((*room).into(), |b| clean(sheet, b)),
            Case::Joined { budget, room, first, second } => joined_reply(first, second, *budget, *room, picker),
        }
    }
}

fn take<'a>(bytes: &mut &'a [u8], count: usize) -> &'a [u8] {
    let (taken, rest) = bytes.split_at(count);
    *bytes = rest;
    taken
}

fn number(bytes: &mut &[u8], count: usize) -> u64 {
    take(bytes, count).iter().rev().fold(0, |n, &b| n << 8 | u64::from(b))
}

/// The cases of a sequence of records. Panics on anything else.
pub fn read_records(mut bytes: &[u8]) -> Vec<Case> {
    let mut cases = Vec::new();
    while !bytes.is_empty() {
        cases.push(read_record(&mut bytes));
    }
    cases
}

fn read_record(it: &mut &[u8]) -> Case {
    let kind = take(it, 1)[0];
    let board = if kind.is_ascii_lowercase() { Board::Shared } else { Board::Tree };
    match kind.to_ascii_uppercase() {
        b'Q' => {
            let (budget, room, length) = (number(it, 4) as u32, number(it, 2) as u16, number(it, 2) as usize);
            Case::Quote { board, budget, room, sheet: take(it, length).to_vec() }
        }
        b'A' => {
            let (sheet, stage) = (number(it, 2) as usize, number(it, 2) as usize);
            Case::Audit { board, sheet: take(it, sheet).to_vec(), stage: take(it, stage).to_vec() }
        }
        b'S' => {
            let (n, m, budget) = (number(it, 1) as u8, number(it, 1) as u8, number(it, 4) as u32);
            Case::Search { board, n, m, budget, sets: [0; MOST_PATTERNS].map(|_: u16| number(it, 2) as u16) }
        }
        b'W' => {
            let (n, m, room) = (number(it, 1) as u8, number(it, 1) as u8, number(it, 2) as u16);
            Case::Write { board, n, m, room, tables: [0; 4].map(|_: u64| number(it, 8)) }
        }
        b'R' => {
            let length = number(it, 2) as usize;
            Case::Read { board, stage: take(it, length).to_vec() }
        }
        b'C' if board == Board::Tree => {
            let (room, length) = (number(it, 2) as u16, number(it, 2) as usize);
            Case::Clean { room, sheet: take(it, length).to_vec() }
        }
        b'J' if board == Board::Tree => {
            let (budget, room) = (number(it, 4) as u32, number(it, 2) as u16);
            let (first, second) = (number(it, 2) as usize, number(it, 2) as usize);
            Case::Joined { budget, room, first: take(it, first).to_vec(), second: take(it, second).to_vec() }
        }
        _ => panic!("no kind {kind}"),
    }
}

fn length(bytes: &[u8]) -> [u8; 2] {
    u16::try_from(bytes.len()).expect("short enough").to_le_bytes()
}

/// "+" where every byte is still as lent.
fn untouched(bytes: &[u8]) -> &'static str {
    if bytes.iter().all(|&b| b == FILL) {
        "+"
    } else {
        "-"
    }
}

pub fn pairs(bytes: &[u8]) -> String {
    let pairs: Vec<String> = bytes.iter().map(|b| format!("{b:02X}")).collect();
    pairs.join(" ")
}

pub fn refused(r: &Refusal) -> String {
    format!("refused {} at {}", r.number, r.place)
}

/// "cells C floor F visits V best" (or "stopped").
pub fn found(a: &Answer) -> String {
    let mark = if a.stopped { "stopped" } else { "best" };
    format!("cells {} floor {} visits {} {mark}", a.cells, a.floor, a.visits)
}

fn numbers(tables: &Tables) -> String {
    let [a, b, c, d] = tables;
    format!("{a} {b} {c} {d}")
}

/// What was written at the start of a buffer, and whether the rest stayed.
fn written(buffer: &[u8], length: usize) -> String {
    let (start, later) = buffer.split_at(length);
    format!("{} {}", pairs(start), untouched(later))
}

/// The refusal, and whether the buffer stayed.
fn unwritten(buffer: &[u8], r: Refusal) -> Reply {
    Reply { text: format!("{} {}\n", refused(&r), untouched(buffer)), outcome: Outcome::Refused(r) }
}

fn quote_reply(board: Board, sheet: &[u8], budget: u32, room: u16, picker: &mut Picker) -> Reply {
    let mut buffer = vec![FILL; room.into()];
    match quote(board, sheet, budget, &mut buffer, picker) {
        Ok(q) => quoted(&buffer, q),
        Err(r) => unwritten(&buffer, r),
    }
}

/// A quote that is not refused: its numbers and the stage.
fn quoted(buffer: &[u8], quote: Quote) -> Reply {
    let text = format!("{}\n{}\n", found(&quote.answer), written(buffer, quote.length));
    Reply { text, outcome: Outcome::Found(quote.answer) }
}

fn joined_reply(first: &[u8], second: &[u8], budget: u32, room: u16, picker: &mut Picker) -> Reply {
    let mut buffer = vec![FILL; room.into()];
    match quote_joined(first, second, budget, &mut buffer, picker) {
        Ok(q) => quoted(&buffer, q),
        Err(Refused { which, refusal }) => {
            let Reply { text, .. } = unwritten(&buffer, refusal);
            Reply { text: format!("{} {text}", which.word()), outcome: Outcome::RefusedOf(which, refusal) }
        }
    }
}

fn audit_reply(board: Board, sheet: &[u8], stage: &[u8]) -> Reply {
    match audit(board, sheet, stage) {
        Audit::Judged { fits, cells } => {
            let word = if fits { "fits" } else { "differs" };
            Reply { text: format!("{word} {cells}\n"), outcome: Outcome::Judged { fits } }
        }
        Audit::SheetRefused(r) => Reply { text: format!("sheet {}\n", refused(&r)), outcome: Outcome::Refused(r) },
        Audit::StageRefused(r) => Reply { text: format!("stage {}\n", refused(&r)), outcome: Outcome::StageRefused(r) },
    }
}

fn search_reply(board: Board, handed: Result<Relation, Refusal>, budget: u32, picker: &mut Picker) -> Reply {
    match handed {
        Ok(r) => {
            let answer = search(board, &r, budget, picker);
            let text = format!("{} {}\n", numbers(&answer.tables), found(&answer));
            Reply { text, outcome: Outcome::Found(answer) }
        }
        Err(r) => Reply { text: format!("{}\n", refused(&r)), outcome: Outcome::Refused(r) },
    }
}

/// A writer of stages or of copies, lent a buffer of that length.
fn write_reply(room: usize, write: impl FnOnce(&mut [u8]) -> Result<usize, Refusal>) -> Reply {
    let mut buffer = vec![FILL; room];
    match write(&mut buffer) {
        Ok(length) => Reply { text: format!("{length} {}\n", written(&buffer, length)), outcome: Outcome::Written },
        Err(r) => unwritten(&buffer, r),
    }
}

fn read_reply(board: Board, bytes: &[u8]) -> Reply {
    match board.read(bytes) {
        Ok(s) => {
            let text = format!("{} {} {} cells {}\n", s.n, s.m, numbers(&s.tables), s.cells);
            Reply { text, outcome: Outcome::Read }
        }
        Err(r) => Reply { text: format!("{}\n", refused(&r)), outcome: Outcome::Refused(r) },
    }
}
