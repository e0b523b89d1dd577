//! Document 01, "Audit": does a stage's value lie in R(p) for every p? Of
//! either board: the sheet is the same, and only the stage is read otherwise. A
//! sheet that is too wide for the board (document 02, E5) is judged like any
//! other. Its reader accepts no stage as wide as that sheet, and one that it
//! accepts is 13.

use crate::board::Board;
use crate::refusal::{Refusal, SIZES_DIFFER};
use crate::search::value_at;
use crate::{relation, sheet};

#[derive(Clone, Copy, PartialEq, Eq, Debug)]
pub enum Audit {
    Judged { fits: bool, cells: u32 },
    SheetRefused(Refusal),
    StageRefused(Refusal),
}

/// The sheet (with 10) is judged before the stage; 13 is the stage's.
pub fn audit(board: Board, sheet: &[u8], stage: &[u8]) -> Audit {
    let r = match sheet::read(sheet).and_then(|unit| relation::of_unit(&unit)) {
        Ok(r) => r,
        Err(refusal) => return Audit::SheetRefused(refusal),
    };
    let stage = match board.read(stage) {
        Ok(stage) => stage,
        Err(refusal) => return Audit::StageRefused(refusal),
    };
    if stage.n != r.n || stage.m != r.m {
        return Audit::StageRefused(Refusal { number: SIZES_DIFFER, place: 0 });
    }
    let fits = (0..r.patterns()).all(|p| r.sets[p] >> value_at(r.m, &stage.tables, p) & 1 == 1);
    Audit::Judged { fits, cells: stage.cells }
}
