//! An independent reading of document 01 and of the requests of document 02
//! that have landed, used to check the project's own program from outside.
//!
//! * `sheet`, `unit`, `relation`, `cells`, `pick`, `search`, `stage`, `quote`,
//!   `audit`: document 01, one subject each, as literally as it is written.
//! * `clean`: document 02, E1; `buffer`: how all writers treat what is lent.
//! * `diagram`: document 02, E2; `board`: which of the two boards it is, handed
//!   to all calls; `commands`: what their stage sheets have in common.
//! * Document 02, E4, is where cells are counted: of tables in `cells` and
//!   `diagram`, of what is read in `stage` and `diagram`.
//! * Document 02, E5: `halving`, the pick where there are too many tables to try
//!   each; the sizes, 64 patterns and tables of 64 bits are everywhere.
//! * `joined`: document 02, E6.
//! * `least`: a second solver that tries every function, free of the search;
//!   `cubes` and `products`: the same for five and six inputs, where there are too
//!   many functions to try each.
//! * `arrange`: a second way to the clean copy, by sorting the sheet's commands.
//! * `fast`: the same search as `search` and the same sets as `relation`, tuned
//!   for speed, for the benchmark.
//! * `random`, `draw`, `rows`, `plan`: the cases, from a fixed seed.
//! * `case`, `check`: a case's record and reply, and what must hold of it.
//! * `program`: the built program, run as a process.

// Patterns and wires are numbers here; loops go over the numbers.
#![allow(clippy::needless_range_loop)]

pub mod arrange;
pub mod audit;
pub mod board;
pub mod buffer;
pub mod case;
pub mod cells;
pub mod check;
pub mod clean;
pub mod commands;
pub mod cubes;
pub mod diagram;
pub mod draw;
pub mod fast;
pub mod halving;
pub mod joined;
pub mod least;
pub mod pick;
pub mod plan;
pub mod products;
pub mod program;
pub mod quote;
pub mod random;
pub mod refusal;
pub mod relation;
pub mod rows;
pub mod search;
pub mod sheet;
pub mod stage;
pub mod tally;
pub mod unit;
