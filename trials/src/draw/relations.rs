//! Relations drawn by chance, handed straight to the search.

use super::{bad_size, high_bit, sheets, size_above};
use crate::random::Random;
use crate::relation::{Relation, Sets};
use crate::sheet::{all_values, MOST_PATTERNS};

/// Well-defined sets of those sizes, up to four inputs.
pub fn sets(rng: &mut Random, n: u8, m: u8) -> Sets {
    let all = all_values(m.into());
    let style = rng.below(9);
    let density = rng.within(1, 15);
    let functions: Vec<u16> = (0..16).map(|_| rng.word()).collect();
    let mut sets = [0; MOST_PATTERNS];
    if style >= 7 {
        // A unit's relation, parities among them.
        let draft = if style == 8 { sheets::hard_draft_of(rng, n, m) } else { sheets::draft_of(rng, n, m) };
        sets = draft.sets();
    }
    for (p, set) in sets.iter_mut().enumerate().take(1 << n) {
        let any = 1u16 << rng.below(1 << m);
        *set = match style {
            0..=2 => thin(rng, density),
            3 => 1 << rng.below(1 << m),
            // A value and its opposite, as {0,3}.
            4 => {
                let v = rng.below(1 << m);
                1 << v | 1 << ((1 << m) - 1 - v)
            }
            // Two or three functions laid over each other.
            5 | 6 => (0..style - 3).fold(0, |s, f| s | 1 << ((functions[f] >> p) as usize & ((1 << m) - 1))),
            _ => *set,
        } & all;
        if *set == 0 {
            *set = any;
        }
    }
    sets
}

/// Every value with density/16.
pub fn thin(rng: &mut Random, density: usize) -> u16 {
    (0..16).filter(|_| rng.below(16) < density).fold(0, |set, v| set | 1 << v)
}

/// Half of all values, as the benchmark draws them.
pub fn half_dense(rng: &mut Random, n: u32, m: u32) -> Relation {
    let mut sets = [0; MOST_PATTERNS];
    for set in sets.iter_mut().take(1 << n) {
        while *set == 0 {
            *set = rng.word() & all_values(m);
        }
    }
    Relation { n, m, sets }
}

/// What is past the last pattern is not read: anything may stand there.
pub fn junk_past_the_last(rng: &mut Random, n: u8, sets: &mut [u16]) {
    junk(rng, sets.get_mut(1 << n..).unwrap_or_default());
}

/// Sets that would be refused if they were read, most of them.
pub fn junk(rng: &mut Random, sets: &mut [u16]) {
    for set in sets {
        let any = rng.word();
        *set = rng.of(&[0, 1, 0xFFFF, any]);
    }
}

/// Sizes or sets that are refused, of up to four inputs: sizes, wide sets, empty
/// sets, or several of these at once.
pub fn malformed(rng: &mut Random, n: u8, m: u8) -> (u8, u8, Sets) {
    let sets = sets(rng, n, m);
    spoilt(rng, (n, m), sets, 4)
}

/// The same of any sets of up to so many inputs.
pub fn spoilt(rng: &mut Random, (n, m): (u8, u8), mut sets: Sets, most: u8) -> (u8, u8, Sets) {
    if rng.once_in(2) {
        junk_past_the_last(rng, n, &mut sets[..1 << most]);
    }
    // 1: empty sets, 2: wide sets, 4: sizes.
    let what = rng.of(&[1, 1, 1, 2, 2, 2, 3, 3, 3, 4, 5, 6, 7]);
    if what & 1 != 0 {
        for _ in 0..rng.of(&[1, 1, 2, 4]) {
            sets[rng.below(1 << n)] = 0;
        }
    }
    if what & 2 != 0 && m < 4 {
        for _ in 0..rng.of(&[1, 1, 2, 4]) {
            sets[rng.below(1 << n)] |= high_bit(rng, 1 << m);
        }
    }
    if what & 4 == 0 {
        return (n, m, sets);
    }
    match rng.below(3) {
        0 => (size_above(rng, most), m, sets),
        1 => (n, bad_size(rng), sets),
        _ => (size_above(rng, most), bad_size(rng), sets),
    }
}
