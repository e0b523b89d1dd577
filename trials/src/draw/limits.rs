//! Limits drawn by chance, from the sets that they shall leave.

use crate::random::Random;
use crate::sheet::all_values;

/// A set for each pattern: all values everywhere, few narrowed, many, or all.
pub fn permitted(rng: &mut Random, n: u8, m: u8) -> Vec<u16> {
    let narrowed = rng.of(&[0, 1, 1, 3, 8]);
    (0..1 << n).map(|_| if rng.below(8) < narrowed { narrow(rng, m) } else { all_values(m.into()) }).collect()
}

/// Nothing, one value, all but one, or any.
fn narrow(rng: &mut Random, m: u8) -> u16 {
    let all = all_values(m.into());
    let one = 1 << rng.below(1 << m);
    match rng.below(6) {
        0 => 0,
        1 => one,
        2 | 3 => all & !one,
        _ => rng.word() & all,
    }
}

/// Limits that leave just these sets; two draws seldom say it alike.
pub fn limits_leaving(rng: &mut Random, m: u8, permitted: &[u16]) -> Vec<(u8, u16)> {
    let all = all_values(m.into());
    // How many limits there are that could be done without.
    let idle = rng.of(&[0, 0, 1, 4]);
    let mut limits = Vec::new();
    for (p, &set) in permitted.iter().enumerate() {
        let mut sets = needed(rng, all, set);
        while rng.below(8) < idle {
            let any = rng.word();
            sets.push((set | rng.of(&[0, all, any])) & all);
        }
        limits.extend(sets.into_iter().map(|w| (p as u8, w)));
    }
    limits
}

/// The set itself, or two wider ones that leave it; none where it is all.
fn needed(rng: &mut Random, all: u16, set: u16) -> Vec<u16> {
    if set == all {
        return Vec::new();
    }
    if rng.once_in(3) {
        let any = rng.word();
        return vec![(set | any) & all, (set | !any) & all];
    }
    vec![set]
}
