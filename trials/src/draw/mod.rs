//! What the cases are drawn from.

pub mod boards;
pub mod damage;
pub mod diagram_faults;
pub mod diagrams;
pub mod limits;
pub mod relations;
pub mod sheet_faults;
pub mod sheets;
pub mod six;
pub mod stage_faults;
pub mod stages;
pub mod straight;
pub mod two_units;

use crate::random::Random;

/// A sheet or stage as its commands, one after another.
pub type Commands = Vec<Vec<u8>>;

/// All sizes alike.
pub fn sizes(rng: &mut Random) -> (u8, u8) {
    (rng.within(1, 4) as u8, rng.within(1, 4) as u8)
}

/// A byte that is too large: the first such, 255, or any.
pub fn too_large(rng: &mut Random, limit: u8) -> u8 {
    match rng.below(8) {
        0..=3 => limit,
        4 => 255,
        _ => rng.within(limit.into(), 255) as u8,
    }
}

/// The sets that relations had before document 02, E5, brought 64.
pub const NARROW: usize = 16;

/// A size outside 1 to 4. As a number of inputs it may still be in range: those
/// that were drawn before document 02, E5, are no longer all refused.
pub fn bad_size(rng: &mut Random) -> u8 {
    size_above(rng, 4)
}

/// A size that is 0 or above that one.
pub fn size_above(rng: &mut Random, most: u8) -> u8 {
    match rng.below(4) {
        0 => 0,
        _ => too_large(rng, most + 1),
    }
}

/// A bit of a 16-bit word from `least` up: the first, the last, or any.
pub fn high_bit(rng: &mut Random, least: usize) -> u16 {
    let any = rng.within(least, 15);
    1 << rng.of(&[least, 15, any])
}
