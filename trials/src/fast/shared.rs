//! The pick on the board of document 02, E2, where selectors are shared, with
//! E4's inputs soldered through.
//!
//! A table of four inputs is four quarters, functions of the last two inputs.
//! How many selectors there are on inputs 1 and 2 is told by which quarters
//! coincide: fifteen ways. Below them stand a selector on input 3 for each
//! different quarter that needs one, and one for the last input inverted, if a
//! quarter has that as a half. So for each way, once with the inverted input and
//! once without it, every class of coinciding quarters takes, apart from the
//! others, its least function between the masks that its quarters have in
//! common. The least sum is the pick: every sum is reached by a table with no
//! more cells, and a table's own way gives its own cells.
//!
//! Inputs 3 and 4 themselves are free in the tables of quarters. Inputs 1 and 2
//! are tables, or halves of them, whose quarters are constants: each is one key
//! more beside the ways. No way across the halves needs them, since a constant
//! costs nothing, shared or not.
//!
//! With one table, and masks that leave the quarters no inverted half, a visit
//! of (4,4) took 3 to 6 % more; so did looking first whether the pick has an
//! inverted half at all.

use super::masks::{straight_or, BOTH_HALVES, LOWER_HALF, UPPER_HALF, WHOLE};
use super::{tree, Count, Pick, CELL, NONE};

/// The keys of the quarters by their masks. A key has a cell where the quarter
/// needs a selector on input 3, above its function four times.
type Quarters = [u32; 256];

/// Those with an inverted half are among them, or are left out.
static WITH_INVERTED: Quarters = least_quarters(true);
static WITHOUT: Quarters = least_quarters(false);

const fn least_quarters(inverted: bool) -> Quarters {
    let mut all = [NONE; 256];
    let mut at = 0;
    while at < 256 {
        let (zeros, ones) = (at >> 4, at & 15);
        let mut quarter = 0;
        while quarter < 16 {
            let (zero, one) = (quarter & 3, quarter >> 2);
            let left_out = !inverted && (zero == 1 || one == 1);
            let fits = quarter & !ones == 0 && !quarter & 15 & !zeros == 0;
            let selector = zero != one && quarter != 0b1100;
            let key = selector as u32 * CELL + quarter as u32 * 0x1111;
            if fits && !left_out && key < all[at] {
                all[at] = key;
            }
            quarter += 1;
        }
        at += 1;
    }
    all
}

/// The least function of a class, in the places of its quarters.
#[inline(always)]
fn class(all: &Quarters, masks: u32, places: u32) -> u32 {
    all[(masks & 255) as usize] & (0xFFFF_0000 | places)
}

/// The least key over the ways. A sum may be met by a table whose quarters
/// coincide in more ways than it counts with; then it is too high, and another
/// sum has that table's cells.
#[inline(always)]
fn least_of_four(all: &Quarters, masks: u32) -> u32 {
    let class = |masks: u32, places: u32| class(all, masks, places);
    let (a, b, c, d) = (masks, masks >> 8, masks >> 16, masks >> 24);
    let (qa, qb, qc, qd) = (class(a, 0x000F), class(b, 0x00F0), class(c, 0x0F00), class(d, 0xF000));
    let (ab, cd) = (class(a & b, 0x00FF), class(c & d, 0xFF00));
    let (ac, bd) = (class(a & c, 0x0F0F), class(b & d, 0xF0F0));
    let (ad, bc) = (class(a & d, 0xF00F), class(b & c, 0x0FF0));
    let three = (class(a & b & c, 0x0FFF) + qd)
        .min(class(a & b & d, 0xF0FF) + qc)
        .min(class(a & c & d, 0xFF0F) + qb)
        .min(class(b & c & d, 0xFFF0) + qa);
    // A half without a selector on input 2, input 2 itself, or with one.
    let lower = ab.min(straight_or(CELL + qa + qb, masks, LOWER_HALF, 0x00F0));
    let upper = cd.min(straight_or(CELL + qc + qd, masks, UPPER_HALF, 0xF000));
    // All alike; input 2 or input 1 itself; halves alike; halves that differ;
    // three alike; then what is alike across the halves.
    class(a & b & c & d, 0xFFFF)
        .min(straight_or(CELL + ac + bd, masks, BOTH_HALVES, 0xF0F0))
        .min(straight_or(CELL + lower + upper, masks, WHOLE, 0xFF00))
        .min(2 * CELL + three)
        .min(3 * CELL + ac.min(qa + qc) + bd.min(qb + qd))
        .min(3 * CELL + ad.min(qa + qd) + bc.min(qb + qc))
}

/// Three inputs: the table is two quarters, alike or not.
#[inline(always)]
fn least_of_two(all: &Quarters, masks: u32) -> u32 {
    let (a, b) = (masks, masks >> 8);
    class(all, a & b, 0xFF).min(straight_or(CELL + class(all, a, 0x0F) + class(all, b, 0xF0), masks, LOWER_HALF, 0xF0))
}

/// The lesser of two keys: the inverted input is there and costs a cell, or is
/// not there.
#[inline(always)]
fn least_choice(masks: u32, least: impl Fn(&Quarters, u32) -> u32) -> u32 {
    least(&WITHOUT, masks).min(CELL + least(&WITH_INVERTED, masks))
}

/// The cells of lists.
pub struct Cells;

impl Count for Cells {
    #[inline(always)]
    fn pick<const N: usize>(block: impl Fn(usize) -> u32) -> Pick {
        match N {
            // Up to two inputs nothing can be shared.
            1 | 2 => tree::Cells::pick::<N>(block),
            3 => Pick::of(least_choice(block(0), least_of_two)),
            _ => Pick::of(least_choice(block(0) | block(1) << 16, least_of_four)),
        }
    }
}
