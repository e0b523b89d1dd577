//! Faults planted in stage sheets, one function for each refusal.

use super::stages::stage;
use super::{bad_size, size_above, too_large, Commands};
use crate::random::Random;

/// The refusals the stage reader has.
pub const NUMBERS: [u8; 6] = [1, 2, 3, 4, 5, 11];

/// A stage of those sizes, up to four inputs, with a fault of that number, mostly.
pub fn faulty(rng: &mut Random, number: u8, n: u8, m: u8) -> Commands {
    faulty_up_to(rng, 4, number, n, m)
}

/// The same with up to so many inputs.
pub fn faulty_up_to(rng: &mut Random, most: u8, number: u8, n: u8, m: u8) -> Commands {
    let mut all = if number == 11 { loose_stage(rng, n, m) } else { stage(rng, n, m) };
    match number {
        1 => cut(rng, &mut all),
        2 => unknown(rng, &mut all),
        3 => range(rng, &mut all, most, n, m),
        4 => trailing(rng, &mut all),
        5 => turn(rng, &mut all, m),
        _ => {}
    }
    all
}

/// 1: the bytes end between commands or inside one.
fn cut(rng: &mut Random, all: &mut Commands) {
    all.truncate(rng.within(1, all.len()));
    let last = all.last_mut().expect("not empty");
    last.truncate(rng.below(last.len()));
}

/// 2: a byte no stage sheet knows where a command is due.
fn unknown(rng: &mut Random, all: &mut Commands) {
    let first = match rng.below(4) {
        0 => rng.below(0x20) as u8,
        1 => rng.within(0x25, 0x2E) as u8,
        2 => rng.within(0x30, 0xFF) as u8,
        _ => rng.below(7) as u8,
    };
    let at = rng.below(all.len());
    if rng.once_in(2) {
        all[at][0] = first;
    } else {
        all.insert(at, vec![first]);
    }
}

/// Refusal 3, in one of its three places: the sizes, a wire, a selector.
fn range(rng: &mut Random, all: &mut Commands, most: u8, n: u8, m: u8) {
    let of = |first: u8, all: &Commands| -> Vec<usize> { (0..all.len()).filter(|&i| all[i][0] == first).collect() };
    let selectors = of(0x22, all);
    match rng.below(6) {
        0 => all[0][1] = size_above(rng, most),
        1 => all[0][2] = bad_size(rng),
        2 | 3 => {
            let wires = of(0x21, all);
            all[rng.of(&wires)][1] = too_large(rng, m);
        }
        _ if selectors.is_empty() => {
            let at = of(0x21, all)[0] + 1;
            all[at] = vec![0x22, rng.of(&[0, n + 1])];
        }
        _ => all[rng.of(&selectors)][1] = if rng.once_in(2) { 0 } else { too_large(rng, n + 1) },
    }
}

/// 4: bytes after the end.
fn trailing(rng: &mut Random, all: &mut Commands) {
    let more = (0..rng.within(1, 4)).map(|_| rng.of(&[0x00, 0x20, 0x21, 0x23, 0x2F, 0xEE])).collect();
    all.push(more);
}

/// 5: a known command out of turn, or a wire that is not the next.
fn turn(rng: &mut Random, all: &mut Commands, m: u8) {
    let wires: Vec<usize> = (0..all.len()).filter(|&i| all[i][0] == 0x21).collect();
    match rng.below(7) {
        0 | 1 => {
            // Wires in another order; also one wire twice.
            let at = rng.of(&wires);
            all[at][1] = rng.below(m.into()) as u8;
        }
        2 => {
            let wire = vec![0x21, rng.below(m as usize + 1) as u8];
            let last = all.len() - 1;
            all.insert(last, wire);
        }
        3 => {
            let at = rng.below(all.len());
            all[at] = any_known(rng, m);
        }
        4 => {
            // Out of turn and cut short: still 5.
            all.truncate(rng.within(1, all.len() - 1));
            all.push(vec![rng.of(&[0x20, 0x21, 0x22, 0x2F])]);
        }
        _ => {
            let at = rng.below(all.len());
            let command = any_known(rng, m);
            all.insert(at, command);
        }
    }
}

fn any_known(rng: &mut Random, m: u8) -> Vec<u8> {
    match rng.below(6) {
        0 => vec![0x20, rng.within(1, 4) as u8, m],
        1 => vec![0x21, rng.below(m.into()) as u8],
        2 => vec![0x22, 1],
        3 => vec![0x23],
        4 => vec![0x24],
        _ => vec![0x2F],
    }
}

/// 11: selectors that need not ascend, now and then one outside 1 to n.
fn loose_stage(rng: &mut Random, n: u8, m: u8) -> Commands {
    let mut all = vec![vec![0x20, n, m]];
    for j in 0..m {
        all.push(vec![0x21, j]);
        loose_tree(rng, n, 0, 0, &mut all);
    }
    all.push(vec![0x2F]);
    all
}

fn loose_tree(rng: &mut Random, n: u8, parent: u8, depth: usize, out: &mut Commands) {
    if depth > 5 || rng.below(8) >= 5 {
        out.push(vec![rng.of(&[0x23, 0x24])]);
        return;
    }
    let k = match rng.below(10) {
        0 => rng.below(n as usize + 2) as u8,
        1..=3 => rng.within(1, n.into()) as u8,
        4 | 5 => parent.max(1),
        _ => (parent + 1).min(n),
    };
    out.push(vec![0x22, k]);
    loose_tree(rng, n, k, depth + 1, out);
    loose_tree(rng, n, k, depth + 1, out);
}

#[cfg(test)]
mod tests {
    use super::*;
    use crate::stage::read;

    #[test]
    fn faults_are_met() {
        let mut rng = Random::new(31);
        for (most, number) in [4, 6].into_iter().flat_map(|most| NUMBERS.map(|number| (most, number))) {
            let mut met = 0;
            for _ in 0..400 {
                let (n, m) = (rng.within(most - 3, most) as u8, rng.within(1, 4) as u8);
                let reply = read(&faulty_up_to(&mut rng, most as u8, number, n, m).concat());
                met += usize::from(matches!(reply, Err(r) if r.number == number));
            }
            assert!(met > 180, "refusal {number}: {met} of 400");
        }
    }
}
