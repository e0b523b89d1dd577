//! Document 01, "Quote": sheet in, stage out. Document 02, E2, has the same
//! for the other board, which with E5 turns away sheets that are too wide for it.

use crate::board::Board;
use crate::pick::Picker;
use crate::refusal::{refuse, Refusal, TOO_WIDE};
use crate::search::{search, Answer};
use crate::{relation, sheet};

/// What the quote tells, beside the bytes it writes.
#[derive(Clone, Copy, PartialEq, Eq, Debug)]
pub struct Quote {
    pub answer: Answer,
    pub length: usize,
}

/// The whole way from the bytes of a sheet to the bytes of its stage: what
/// reading refuses, 10, then 15 where the board has fewer lines, then 12.
pub fn quote(
    board: Board,
    sheet: &[u8],
    budget: u32,
    buffer: &mut [u8],
    picker: &mut Picker,
) -> Result<Quote, Refusal> {
    let unit = sheet::read(sheet)?;
    let r = relation::of_unit(&unit)?;
    if r.n > board.most_inputs().into() {
        return refuse(TOO_WIDE, 0);
    }
    let answer = search(board, &r, budget, picker);
    let length = board.write(r.n as u8, r.m as u8, &answer.tables, buffer)?;
    Ok(Quote { answer, length })
}
