//! The sets of sixteen patterns the other way round: for each value the patterns
//! where it can stand. So what is asked of a pattern is told of all sixteen at
//! once.

use super::lanes::{lane, LANES};

/// Value 4 * k + j is lane j of word k; bit p of a lane is pattern p.
#[derive(Clone, Copy)]
pub struct ByValue([u64; 4]);

/// Lanes full where the wire of this number is 1 in values of one word.
const ODD: u64 = 0xFFFF_0000_FFFF_0000;
const UPPER: u64 = 0xFFFF_FFFF_0000_0000;

/// Bits of `one` where `table` has 1, of `zero` elsewhere.
#[inline(always)]
fn choose(table: u64, zero: u64, one: u64) -> u64 {
    zero ^ (zero ^ one) & table
}

/// The bits of `y` under `mask`, and those of `x` so many places higher, in each
/// other's place.
#[inline(always)]
fn exchanged(x: u64, y: u64, shift: u32, mask: u64) -> (u64, u64) {
    let differing = (x >> shift ^ y) & mask;
    (x ^ differing << shift, y ^ differing)
}

/// The same within one word.
#[inline(always)]
fn exchanged_within(x: u64, shift: u32, mask: u64) -> u64 {
    let differing = (x >> shift ^ x) & mask;
    x ^ differing ^ differing << shift
}

/// All lanes laid over each other.
#[inline(always)]
fn any_lane(x: u64) -> u16 {
    let x = x | x >> 32;
    (x | x >> 16) as u16
}

impl ByValue {
    /// Of sixteen sets, four to a word. They are a square of bits, which is
    /// turned about its diagonal: blocks of 8 by 8, then of 4, of 2 and of 1.
    #[inline(always)]
    pub fn of([a, b, c, d]: [u64; 4]) -> ByValue {
        let ((a, c), (b, d)) = (exchanged(a, c, 8, 0x00FF * LANES), exchanged(b, d, 8, 0x00FF * LANES));
        let ((a, b), (c, d)) = (exchanged(a, b, 4, 0x0F0F * LANES), exchanged(c, d, 4, 0x0F0F * LANES));
        let two = |x: u64| exchanged_within(x, 30, 0xCCCC_CCCC);
        let one = |x: u64| exchanged_within(x, 15, 0x0000_AAAA_0000_AAAA);
        ByValue([a, b, c, d].map(|x| one(two(x))))
    }

    /// The patterns where the tables' value can stand: the values are chosen from
    /// by wire 3, then 2, 1 and 0.
    #[inline(always)]
    pub fn agreeing(&self, tables: u64) -> u16 {
        let [t0, t1, t2, t3] = [0, 1, 2, 3].map(|j| u64::from(lane(tables, j)));
        let [a, b, c, d] = self.0;
        let (t3, t2) = (t3 * LANES, t2 * LANES);
        let four = choose(t2, choose(t3, a, c), choose(t3, b, d));
        let two = choose(t1 * 0x1_0001, four, four >> 32);
        choose(t0, two, two >> 16) as u16
    }

    /// Where a wire can be 0, and where it can be 1.
    #[inline(always)]
    pub fn sides(&self, wire: usize) -> (u16, u16) {
        let [a, b, c, d] = self.0;
        let all = a | b | c | d;
        let (zero, one) = match wire {
            0 => (all & !ODD, all & ODD),
            1 => (all & !UPPER, all & UPPER),
            2 => (a | c, b | d),
            _ => (a | b, c | d),
        };
        (any_lane(zero), any_lane(one))
    }

    /// What is left when a wire follows a table.
    #[inline(always)]
    pub fn following(&self, wire: usize, table: u16) -> ByValue {
        let one = u64::from(table) * LANES;
        let zero = !one;
        let by_word = match wire {
            0 => [choose(ODD, zero, one); 4],
            1 => [choose(UPPER, zero, one); 4],
            2 => [zero, one, zero, one],
            _ => [zero, zero, one, one],
        };
        ByValue([0, 1, 2, 3].map(|k| self.0[k] & by_word[k]))
    }
}
