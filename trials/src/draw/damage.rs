//! Damage done to bytes, whatever they mean.

use crate::random::Random;

/// Bytes that are likely to mean something in a unit sheet or in a stage of
/// trees.
pub const LIKELY: [u8; 16] = [0, 1, 2, 3, 4, 5, 6, 7, 0x20, 0x21, 0x22, 0x23, 0x24, 0x25, 0x2F, 0xFF];

/// One to three wounds.
pub fn damage(rng: &mut Random, bytes: &[u8]) -> Vec<u8> {
    damage_by(rng, bytes, &LIKELY)
}

/// The same, where other bytes are likely to mean something.
pub fn damage_by(rng: &mut Random, bytes: &[u8], likely: &[u8]) -> Vec<u8> {
    let mut hurt = bytes.to_vec();
    for _ in 0..rng.of(&[1, 1, 1, 2, 3]) {
        wound(rng, &mut hurt, likely);
    }
    hurt
}

fn wound(rng: &mut Random, bytes: &mut Vec<u8>, likely: &[u8]) {
    if bytes.is_empty() {
        bytes.push(rng.of(likely));
        return;
    }
    let at = rng.below(bytes.len());
    match rng.below(9) {
        0 | 1 => bytes[at] ^= 1 << rng.below(8),
        2 => bytes[at] = rng.of(likely),
        3 => bytes[at] = rng.byte(),
        4 => bytes.insert(at, rng.of(likely)),
        5 => bytes.insert(at, rng.byte()),
        6 => {
            bytes.remove(at);
        }
        7 => bytes.truncate(at),
        _ => {
            let other = rng.below(bytes.len());
            bytes.swap(at, other);
        }
    }
}

/// A byte that is likely to mean something.
pub fn small(rng: &mut Random) -> u8 {
    rng.of(&LIKELY)
}
