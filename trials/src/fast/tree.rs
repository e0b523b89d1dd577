//! The pick on document 01's board, with E4's inputs soldered through: by
//! halving, up to the six inputs of E5. Equal halves, the first input itself, or
//! a selector on two halves: the least key of the three is the pick. A sum may
//! be met by a table whose halves are equal or straight; then it is too high, and
//! another of the three has that table's cells.
//!
//! The keys of three inputs stand in a table of 13 KB, by the masks of both
//! quarters. By halving once more, with a small table for each place that two
//! inputs can have, a visit took 6 to 10 % more at (4,4), 7 to 9 % at (5,4) and
//! 12 to 15 % at (6,4).

use super::masks::{straight_or, WHOLE};
use super::{Count, Pick, CELL};

/// Up to three inputs a key is cells * 256 + table. This one is of masks that no
/// table fits: more cells than any table has, and sums of it do not overflow.
const FAR: u16 = 64 << 8;

/// The least keys of two inputs by their masks.
static TWO: [u16; 256] = twos();

const fn twos() -> [u16; 256] {
    let mut all = [FAR; 256];
    let mut at = 0;
    while at < 256 {
        let (zeros, ones) = (at >> 4, at & 15);
        let mut block = 0;
        while block < 16 {
            let fits = block & !ones == 0 && !block & 15 & !zeros == 0;
            let key = two_input_cells(block) << 8 | block as u16;
            if fits && key < all[at] {
                all[at] = key;
            }
            block += 1;
        }
        at += 1;
    }
    all
}

/// Of the one-input halves only 01, the inverted input, has a cell; 1100 is the
/// block's first input itself.
const fn two_input_cells(block: usize) -> u16 {
    let (zero, one) = (block & 3, block >> 2);
    let (below_zero, below_one) = ((zero == 1) as u16, (one == 1) as u16);
    if zero == one {
        below_zero
    } else if block == 0b1100 {
        0
    } else {
        1 + below_zero + below_one
    }
}

/// The least keys of three inputs. 81 masks of a quarter leave no pattern
/// without a value, and have a row and a column each; 0 is those of all others.
static THREE: [u16; PLACES * PLACES] = threes();
static ROW: [u16; 256] = places(PLACES as u16);
static COLUMN: [u16; 256] = places(1);
const PLACES: usize = 82;

const fn places(distance: u16) -> [u16; 256] {
    let mut all = [0; 256];
    let (mut at, mut place) = (0, 0);
    while at < 256 {
        if (at >> 4 | at & 15) == 15 {
            place += distance;
            all[at] = place;
        }
        at += 1;
    }
    all
}

const fn threes() -> [u16; PLACES * PLACES] {
    let (row, column, two) = (places(PLACES as u16), places(1), twos());
    let mut all = [FAR; PLACES * PLACES];
    let mut lower = 0;
    while lower < 256 {
        let mut upper = 0;
        while upper < 256 {
            if column[lower] > 0 && row[upper] > 0 {
                all[(column[lower] + row[upper]) as usize] = three_by_halves(&two, lower, upper);
            }
            upper += 1;
        }
        lower += 1;
    }
    all
}

const fn three_by_halves(two: &[u16; 256], lower: usize, upper: usize) -> u16 {
    let (equal, zero, one) = (two[lower & upper], two[lower], two[upper]);
    let selector = (1 << 8) + zero + (one & 0xFF00) + ((one & 15) << 4);
    let straight = lower >> 4 == 15 && upper & 15 == 15;
    let apart = if straight { 0xF0 } else { selector };
    let equal = equal + ((equal & 15) << 4);
    if equal < apart {
        equal
    } else {
        apart
    }
}

#[inline(always)]
fn three(quarters: u32) -> u32 {
    let (lower, upper) = ((quarters & 255) as usize, (quarters >> 8 & 255) as usize);
    THREE[usize::from(COLUMN[lower]) + usize::from(ROW[upper])].into()
}

/// A key of up to three inputs as one of four.
#[inline(always)]
fn widened(key: u32) -> u32 {
    (key & 0xFF00) << 8 | key & 0xFF
}

/// Of four inputs: cells * 2^16 + table.
#[inline(always)]
fn four(quarters: u32) -> u32 {
    let (zero, one, common) = (three(quarters), three(quarters >> 16), three(quarters & quarters >> 16));
    let equal = common << 8 | common & 0xFF;
    let selector = CELL + widened(zero) + (one << 8);
    equal.min(straight_or(selector, quarters, WHOLE, 0xFF00))
}

/// Whether some pattern can be neither 0 nor 1. Then there are no equal halves,
/// which is worth asking for where they have four inputs or more.
#[inline(always)]
fn is_empty(quarters: u32) -> bool {
    (quarters | quarters >> 4) & 0x0F0F_0F0F != 0x0F0F_0F0F
}

/// What must be there of all zeros, and of all ones, if a half is constant.
const ZEROS: u32 = 0xF0F0_F0F0;
const ONES: u32 = 0x0F0F_0F0F;

/// Of five inputs: cells * 2^32 + table.
#[inline(always)]
fn five(lower: u32, upper: u32) -> u64 {
    let cells = |key: u32| u64::from(key >> 16) << 32;
    let table = |key: u32| u64::from(key & 0xFFFF);
    let (zero, one, common) = (four(lower), four(upper), lower & upper);
    let equal = if is_empty(common) {
        u64::MAX
    } else {
        let half = four(common);
        cells(half) + table(half) * 0x1_0001
    };
    let straight = (lower & ZEROS | upper & ONES) == !0;
    let selector = (1 << 32) + cells(zero) + cells(one) + (table(one) << 16 | table(zero));
    equal.min(if straight { 0xFFFF_0000 } else { selector })
}

/// Of six inputs: cells * 2^64 + table.
#[inline(always)]
fn six([a, b, c, d]: [u32; 4]) -> u128 {
    let cells = |key: u64| u128::from(key >> 32) << 64;
    let table = |key: u64| u128::from(key & 0xFFFF_FFFF);
    let (zero, one) = (five(a, b), five(c, d));
    let equal = if is_empty(a & c) || is_empty(b & d) {
        u128::MAX
    } else {
        let half = five(a & c, b & d);
        cells(half) + table(half) * 0x1_0000_0001
    };
    let straight = (a & b & ZEROS | c & d & ONES) == !0;
    let selector = (1 << 64) + cells(zero) + cells(one) + (table(one) << 32 | table(zero));
    equal.min(if straight { 0xFFFF_FFFF_0000_0000 } else { selector })
}

/// The cells of trees.
pub struct Cells;

impl Count for Cells {
    #[inline(always)]
    fn pick<const N: usize>(block: impl Fn(usize) -> u32) -> Pick {
        let sixteen = |q: usize| block(2 * q) | block(2 * q + 1) << 16;
        match N {
            // Two inputs, the first of which makes no difference.
            1 => Pick::of(widened((TWO[(block(0) * 5) as usize & 255] & !0b1100).into())),
            2 => Pick::of(widened(TWO[block(0) as usize & 255].into())),
            3 => Pick::of(widened(three(block(0)))),
            4 => Pick::of(four(sixteen(0))),
            5 => {
                let key = five(sixteen(0), sixteen(1));
                Pick { cells: (key >> 32) as u32, table: key & 0xFFFF_FFFF }
            }
            _ => {
                let key = six([0, 1, 2, 3].map(sixteen));
                Pick { cells: (key >> 64) as u32, table: key as u64 }
            }
        }
    }
}
