//! Stage sheets drawn by chance that read well.

use super::Commands;
use crate::cells::{full, halves, Tables};
use crate::random::Random;

/// An ordered tree, reduced or not; `more` sets how large it grows.
fn tree(rng: &mut Random, n: u8, parent: u8, more: usize, out: &mut Commands) {
    if parent >= n || rng.below(8) >= more {
        out.push(vec![rng.of(&[0x23, 0x24])]);
        return;
    }
    let k = if rng.once_in(3) { rng.within(parent as usize + 1, n.into()) as u8 } else { parent + 1 };
    out.push(vec![0x22, k]);
    tree(rng, n, k, more, out);
    tree(rng, n, k, more, out);
}

/// A stage of ordered trees.
pub fn stage(rng: &mut Random, n: u8, m: u8) -> Commands {
    let more = rng.of(&[2, 4, 5, 6, 7, 8]);
    let mut all = vec![vec![0x20, n, m]];
    for j in 0..m {
        all.push(vec![0x21, j]);
        tree(rng, n, 0, more, &mut all);
    }
    all.push(vec![0x2F]);
    all
}

/// A tree of that table with selectors it could do without. `k` is the input
/// whose bit is highest among those left.
fn padded_tree(rng: &mut Random, n: u8, k: u8, table: u64, out: &mut Vec<u8>) {
    let left = u32::from(n + 1 - k);
    let constant = table == 0 || table == full(left);
    if k > n || constant && !rng.once_in(5) {
        out.push(if table == 0 { 0x23 } else { 0x24 });
        return;
    }
    let (zero, one) = halves(left, table);
    if zero == one && !rng.once_in(3) {
        padded_tree(rng, n, k + 1, zero, out);
    } else {
        out.extend([0x22, k]);
        padded_tree(rng, n, k + 1, zero, out);
        padded_tree(rng, n, k + 1, one, out);
    }
}

/// A stage of those tables, seldom the smallest.
pub fn padded(rng: &mut Random, n: u8, m: u8, tables: &Tables) -> Vec<u8> {
    let mut out = vec![0x20, n, m];
    for j in 0..m {
        out.extend([0x21, j]);
        padded_tree(rng, n, 1, tables[usize::from(j)], &mut out);
    }
    out.push(0x2F);
    out
}

/// Turns one constant of a stage round.
pub fn turn_a_constant(rng: &mut Random, stage: &mut [u8]) {
    let constants: Vec<usize> = (0..stage.len()).filter(|&i| matches!(stage[i], 0x23 | 0x24)).collect();
    if !constants.is_empty() {
        stage[rng.of(&constants)] ^= 0x23 ^ 0x24;
    }
}

/// A table of n inputs, up to four: any, or one of a simple make.
pub fn table(rng: &mut Random, n: u32) -> u64 {
    let all = full(n);
    match rng.below(6) {
        0 => rng.of(&[0, all]),
        1 => rng.of(&[0xAAAA, 0xCCCC, 0xF0F0, 0xFF00, 0x6666, 0x9669, 0xE8E8]) & all,
        2 => u64::from(rng.word() & rng.word()) & all,
        _ => u64::from(rng.word()) & all,
    }
}

#[cfg(test)]
mod tests {
    use super::*;
    use crate::stage::read;

    #[test]
    fn stages_are_read() {
        let mut rng = Random::new(5);
        for _ in 0..2_000 {
            let (n, m) = crate::draw::sizes(&mut rng);
            read(&stage(&mut rng, n, m).concat()).expect("drawn to be read");
            let mut tables = [0; 4];
            for t in tables.iter_mut().take(m.into()) {
                *t = table(&mut rng, n.into());
            }
            let padded = read(&padded(&mut rng, n, m, &tables)).expect("drawn to be read");
            assert_eq!(padded.tables, tables);
        }
    }
}
