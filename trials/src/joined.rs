//! Document 02, E6: one stage for two sheets of equal sizes, on document 01's
//! board. For each pattern both sheets' values must hold, so its set is what the
//! two sets have in common.

use crate::board::Board;
use crate::pick::Picker;
use crate::quote::Quote;
use crate::refusal::{refuse, Refusal, SIZES_DIFFER};
use crate::relation::{sets_of, well_defined, Relation, Sets};
use crate::search::search;
use crate::sheet::{self, Unit};

/// Which of two sheets a refusal is told of.
#[derive(Clone, Copy, PartialEq, Eq, Hash, Debug)]
pub enum Which {
    First,
    Second,
}

pub const BOTH: [Which; 2] = [Which::First, Which::Second];

impl Which {
    pub fn word(self) -> &'static str {
        match self {
            Which::First => "first",
            Which::Second => "second",
        }
    }

    fn refused(self, refusal: Refusal) -> Refused {
        Refused { which: self, refusal }
    }
}

/// A refusal with its sheet.
#[derive(Clone, Copy, PartialEq, Eq, Debug)]
pub struct Refused {
    pub which: Which,
    pub refusal: Refusal,
}

/// What reading the first refuses, what reading the second refuses, 13, 10 on what
/// both leave, then 12: the last three count as the second's.
pub fn quote_joined(
    first: &[u8],
    second: &[u8],
    budget: u32,
    buffer: &mut [u8],
    picker: &mut Picker,
) -> Result<Quote, Refused> {
    let first = sheet::read(first).map_err(|r| Which::First.refused(r))?;
    let of_second = |r| Which::Second.refused(r);
    let second = sheet::read(second).map_err(of_second)?;
    let r = join(&first, &second).map_err(of_second)?;
    let answer = search(Board::Tree, &r, budget, picker);
    let length = Board::Tree.write(r.n as u8, r.m as u8, &answer.tables, buffer).map_err(of_second)?;
    Ok(Quote { answer, length })
}

/// The relation of two sheets that were read: 13 where their sizes differ, then 10.
pub fn join(first: &Unit, second: &Unit) -> Result<Relation, Refusal> {
    if (first.n, first.m) != (second.n, second.m) {
        return refuse(SIZES_DIFFER, 0);
    }
    well_defined(first.n, first.m, in_common(&sets_of(first), &sets_of(second)))
}

/// The values that are in both sets of a pattern.
pub fn in_common(first: &Sets, second: &Sets) -> Sets {
    std::array::from_fn(|p| first[p] & second[p])
}

#[cfg(test)]
mod tests {
    use super::*;
    use crate::rows::{A, A_STAGE};

    /// Sheet A's relation is {1}, {0,3}, {0,3}, {2}.
    #[test]
    fn a_sheet_with_itself() {
        let mut buffer = [0xEE; 20];
        let quote = quote_joined(&A, &A, 10_000, &mut buffer, &mut Picker::new()).expect("to be quoted");
        assert_eq!((quote.answer.cells, quote.answer.visits, quote.length), (1, 0, 16));
        assert_eq!((&buffer[..16], &buffer[16..]), (&A_STAGE[..], &[0xEE; 4][..]));
    }

    /// What is refused, of which sheet, leaves the buffer as it was.
    #[test]
    fn refusals_in_their_order() {
        let with = |command: &[u8]| [&A[..27], command, &[0]].concat();
        let (nothing_on_1, nothing_on_2) = (with(&[6, 1, 0, 0]), with(&[6, 2, 0, 0]));
        let wider =
            [1, 3, 2].into_iter().chain((0..8).flat_map(|p| [3, p])).chain([6, 0, 0, 0, 0]).collect::<Vec<u8>>();
        let mut picker = Picker::new();
        let mut refusal = |first: &[u8], second: &[u8], room: usize| {
            let mut buffer = vec![0xEE; room];
            let it = quote_joined(first, second, 9, &mut buffer, &mut picker).expect_err("to be refused");
            assert_eq!(buffer, vec![0xEE; room]);
            (it.which, it.refusal.number, it.refusal.place)
        };
        assert_eq!(refusal(&[], &[0], 9), (Which::First, 1, 0));
        assert_eq!(refusal(&nothing_on_1, &[0], 9), (Which::Second, 5, 0));
        assert_eq!(refusal(&nothing_on_1, &wider, 9), (Which::Second, 13, 0));
        assert_eq!(refusal(&wider, &A, 9), (Which::Second, 13, 0));
        assert_eq!(refusal(&nothing_on_2, &nothing_on_1, 9), (Which::Second, 10, 1));
        assert_eq!(refusal(&nothing_on_2, &A, 0), (Which::Second, 10, 2));
        assert_eq!(refusal(&A, &A, 15), (Which::Second, 12, 16));
    }
}
