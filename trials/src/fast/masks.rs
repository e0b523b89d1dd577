//! Where the quarters of tables can be 0 and 1, as both boards' picks look at it:
//! the masks of a quarter, zeros * 16 + ones, are a byte. Two quarters are a
//! block of eight patterns, and four stand side by side in a u32.

use super::by_value::ByValue;
use super::lanes::{apart, lane, together, LANES};

/// The masks of the four quarters of sixteen patterns, of those that a narrower
/// table has.
#[inline(always)]
pub fn quarters(zeros: u16, ones: u16) -> u32 {
    let spread = |x: u16| {
        let x = (u32::from(x) | u32::from(x) << 8) & 0x00FF_00FF;
        (x | x << 4) & 0x0F0F_0F0F
    };
    spread(zeros) << 4 | spread(ones)
}

/// The same of a wire, from the sets by value.
#[inline(always)]
pub fn quarters_of(sixteen: &ByValue, wire: usize) -> u32 {
    let (zeros, ones) = sixteen.sides(wire);
    quarters(zeros, ones)
}

/// A block of those that they are, two to a word.
#[inline(always)]
pub fn block_of(quarters: &[u32], number: usize) -> u32 {
    quarters[number / 2] >> (number % 2 * 16) & 0xFFFF
}

/// The masks of all wires by blocks.
pub struct Masks([[u16; 4]; 8]);

/// The masks of all wires in one block, in lanes.
#[derive(Clone, Copy)]
pub struct Block(u64);

impl Masks {
    #[inline(always)]
    pub fn of(whole: &[ByValue]) -> Masks {
        let mut masks = [[0; 4]; 8];
        for (q, sixteen) in whole.iter().enumerate() {
            for j in 0..4 {
                let quarters = quarters_of(sixteen, j);
                masks[2 * q][j] = quarters as u16;
                masks[2 * q + 1][j] = (quarters >> 16) as u16;
            }
        }
        Masks(masks)
    }

    /// A block of a wire. Up to three inputs there is one, and its lanes are at
    /// hand; where there are more, each lane is read by itself, which is faster
    /// than shifting them all.
    #[inline(always)]
    pub fn block<const N: usize>(&self, number: usize, wire: usize) -> u32 {
        if N <= 3 {
            lane(together(self.0[0]), wire).into()
        } else {
            self.0[number][wire].into()
        }
    }

    /// The block that a pattern is in.
    #[inline(always)]
    pub fn at(&self, p: usize) -> Block {
        Block(together(self.0[p / 8]))
    }

    #[inline(always)]
    pub fn put(&mut self, p: usize, block: Block) {
        self.0[p / 8] = apart(block.0);
    }
}

/// Where a pattern's bit for 1 is in its block; that for 0 is four higher.
#[inline(always)]
fn seat(p: usize) -> usize {
    p % 8 / 4 * 8 + p % 4
}

impl Block {
    /// The wires that can be both 0 and 1 on a pattern.
    #[inline(always)]
    pub fn open(self, p: usize) -> u64 {
        (self.0 & self.0 >> 4) >> seat(p) & LANES
    }

    /// The block with these wires left 0, and these left 1, on a pattern.
    #[inline(always)]
    pub fn cut(self, p: usize, zero: u64, one: u64) -> Block {
        Block(self.0 & !(((zero ^ LANES) << 4 | one ^ LANES) << seat(p)))
    }
}

/// What the masks must have for each part of a table that can be an input
/// itself: zeros in the quarters where it is 0, ones where it is 1.
pub const LOWER_HALF: u32 = 0x0000_0FF0;
pub const UPPER_HALF: u32 = 0x0FF0_0000;
pub const BOTH_HALVES: u32 = LOWER_HALF | UPPER_HALF;
pub const WHOLE: u32 = 0x0F0F_F0F0;

/// The key of a part that is an input itself, where the masks leave it so: it
/// has no cells. Else its key with a selector above two halves, which has one at
/// least.
#[inline(always)]
pub fn straight_or(selector: u32, quarters: u32, needed: u32, table: u32) -> u32 {
    if quarters & needed == needed {
        table
    } else {
        selector
    }
}
