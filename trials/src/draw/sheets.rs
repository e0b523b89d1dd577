//! Unit sheets drawn by chance that read well.

use super::{sizes, Commands};
use crate::random::Random;
use crate::relation::Sets;
use crate::sheet::{all_values, Gate, Unit, MOST_GATES, MOST_OUTPUTS, MOST_PATTERNS};
use crate::unit::{answer, gate};

/// What is to be said, before an order is chosen.
#[derive(Clone, Debug)]
pub struct Draft {
    pub n: u8,
    pub m: u8,
    pub gates: Vec<[u8; 3]>,
    pub outputs: Vec<u8>,
    /// The present value of each pattern; `None`: impossible.
    pub rows: Vec<Option<u8>>,
    pub limits: Vec<(u8, u16)>,
}

pub fn draft(rng: &mut Random) -> Draft {
    let (n, m) = sizes(rng);
    draft_of(rng, n, m)
}

pub fn draft_of(rng: &mut Random, n: u8, m: u8) -> Draft {
    let (gates, outputs) = second_stage(rng, m);
    let rows = rows(rng, n, m);
    let mut it = Draft { n, m, gates, outputs, rows, limits: Vec::new() };
    it.limits = limits(rng, &it);
    it
}

/// The hard ones for the search: parities as outputs, few impossible patterns.
pub fn hard_draft(rng: &mut Random) -> Draft {
    let (n, m) = (rng.within(2, 4) as u8, rng.within(2, 4) as u8);
    hard_draft_of(rng, n, m)
}

pub fn hard_draft_of(rng: &mut Random, n: u8, m: u8) -> Draft {
    let mut it = draft_of(rng, n, m);
    (it.gates, it.outputs) = if rng.once_in(2) { parity(rng, m) } else { pair_parities(rng, m) };
    if rng.once_in(3) {
        it.outputs.push(rng.below(m.into()) as u8);
    }
    it.limits = limits(rng, &it);
    it
}

/// As much as a sheet of four inputs can say.
pub fn longest_draft(rng: &mut Random) -> Draft {
    longest_draft_of(rng, 4)
}

/// As much as a sheet can say: a value and a limit for each pattern of n inputs,
/// and no gate or output more.
pub fn longest_draft_of(rng: &mut Random, n: u8) -> Draft {
    let m = rng.within(1, 4) as u8;
    let gates = gates(rng, m, MOST_GATES, MOST_GATES, &ALL);
    let made = m + gates.len() as u8;
    let outputs = (0..MOST_OUTPUTS).map(|_| signal(rng, made)).collect();
    let rows = (0..1 << n).map(|_| Some(rng.below(1 << m) as u8)).collect();
    let limits = (0..1 << n).map(|p| (p, all_values(m.into()) & !(1 << rng.below(1 << m)))).collect();
    Draft { n, m, gates, outputs, rows, limits }
}

type SecondStage = (Vec<[u8; 3]>, Vec<u8>);

fn second_stage(rng: &mut Random, m: u8) -> SecondStage {
    match rng.below(16) {
        0 => (Vec::new(), Vec::new()),
        1 => (gates(rng, m, 1, 4, &ALL), Vec::new()),
        2 => (Vec::new(), (0..m).collect()),
        3 => straight(rng, m),
        4 => parity(rng, m),
        5 | 6 => pair_parities(rng, m),
        7 | 8 => with_outputs(rng, m, 1, 3, &[0, 1], 2),
        9 => with_outputs(rng, m, 1, 5, &[2, 5], 2),
        10 => with_outputs(rng, m, 4, 9, &ALL, 8),
        11 if rng.once_in(6) => with_outputs(rng, m, 28, 32, &ALL, 8),
        _ => with_outputs(rng, m, 1, 5, &ALL, 3),
    }
}

const ALL: [u8; 6] = [0, 1, 2, 3, 4, 5];

fn gates(rng: &mut Random, m: u8, least: usize, most: usize, kinds: &[u8]) -> Vec<[u8; 3]> {
    let count = rng.within(least, most) as u8;
    (0..count).map(|g| [rng.of(kinds), signal(rng, m + g), signal(rng, m + g)]).collect()
}

/// Any signal made so far; late ones a little more often.
fn signal(rng: &mut Random, made: u8) -> u8 {
    if rng.once_in(3) {
        made - 1
    } else {
        rng.below(made.into()) as u8
    }
}

fn with_outputs(rng: &mut Random, m: u8, least: usize, most: usize, kinds: &[u8], outputs: usize) -> SecondStage {
    let gates = gates(rng, m, least, most, kinds);
    let made = m + gates.len() as u8;
    let outputs = (0..rng.within(1, outputs)).map(|_| signal(rng, made)).collect();
    (gates, outputs)
}

/// Some wires as outputs, repeats among them.
fn straight(rng: &mut Random, m: u8) -> SecondStage {
    (Vec::new(), (0..rng.within(1, 8)).map(|_| rng.below(m.into()) as u8).collect())
}

/// One output: the parity of all wires (now and then turned round).
fn parity(rng: &mut Random, m: u8) -> SecondStage {
    let mut gates = Vec::new();
    let mut last = 0;
    for wire in 1..m {
        gates.push([rng.of(&[2, 2, 5]), last, wire]);
        last = m + gates.len() as u8 - 1;
    }
    (gates, vec![last])
}

/// Outputs that are parities of two wires each.
fn pair_parities(rng: &mut Random, m: u8) -> SecondStage {
    let count = rng.within(1, 3) as u8;
    let pick = |rng: &mut Random| rng.below(m.into()) as u8;
    let gates = (0..count).map(|_| [rng.of(&[2, 5]), pick(rng), pick(rng)]).collect();
    (gates, (m..m + count).collect())
}

fn rows(rng: &mut Random, n: u8, m: u8) -> Vec<Option<u8>> {
    let impossible = rng.of(&[0, 0, 0, 1, 2, 4, 8]);
    let style = rng.below(3);
    let two = [rng.below(1 << m) as u8, rng.below(1 << m) as u8];
    (0..1u32 << n)
        .map(|p| {
            let v = match style {
                0 => rng.of(&two),
                1 => (p.count_ones() + p) as u8 & ((1 << m) - 1),
                _ => rng.below(1 << m) as u8,
            };
            Some(v).filter(|_| rng.below(8) >= impossible)
        })
        .collect()
}

/// Limits that mostly leave something: each pattern keeps a value of its
/// class, which need not be the present one.
pub fn limits(rng: &mut Random, it: &Draft) -> Vec<(u8, u16)> {
    let kept: Vec<u8> = (0..it.rows.len()).map(|p| kept(rng, it, p)).collect();
    let count = match rng.below(8) {
        0..=3 => 0,
        4 | 5 => rng.within(1, 3),
        6 => rng.within(1, it.rows.len()),
        _ => rng.within(1, it.rows.len() + 6),
    };
    (0..count)
        .map(|_| {
            let p = rng.below(it.rows.len());
            (p as u8, limit(rng, it.m, kept[p]))
        })
        .collect()
}

fn limit(rng: &mut Random, m: u8, kept: u8) -> u16 {
    let all = all_values(m.into());
    let keep = 1u16 << kept;
    match rng.below(40) {
        0 => 0,
        1 => rng.word() & all,
        2..=5 => all,
        6..=9 => keep,
        10..=19 => all & !(1 << rng.below(1 << m)) | keep,
        _ => rng.word() & all | keep,
    }
}

/// A value that answers as the present one does.
fn kept(rng: &mut Random, it: &Draft, p: usize) -> u8 {
    let any = rng.below(1 << it.m) as u8;
    let Some(u) = it.rows[p] else { return any };
    let unit = it.unit();
    let alike = answer(&unit, any.into()) == answer(&unit, u.into());
    if alike {
        any
    } else {
        u
    }
}

impl Draft {
    fn unit(&self) -> Unit {
        let mut unit = Unit::fresh(self.n.into(), self.m.into());
        unit.gates = self.gates.iter().map(|&[kind, a, b]| Gate { kind, a, b }).collect();
        unit.outputs = self.outputs.clone();
        unit
    }

    /// The relation told by the draft alone, as a rival is told: each value is
    /// tried on the gates from the outputs backward.
    pub fn sets(&self) -> Sets {
        let mut sets = [0; MOST_PATTERNS];
        for p in 0..self.rows.len() {
            for v in 0..1u8 << self.m {
                let permitted = self.limits.iter().all(|&(q, w)| usize::from(q) != p || w >> v & 1 == 1);
                let alike = self.rows[p].is_none_or(|u| self.alike(v, u));
                if permitted && alike {
                    sets[p] |= 1 << v;
                }
            }
        }
        sets
    }

    /// Whether the unit answers alike to two wire values.
    pub fn alike(&self, v: u8, u: u8) -> bool {
        self.outputs.iter().all(|&s| self.bit(s, v) == self.bit(s, u))
    }

    /// Signal s for wire value v, by going back through the gates.
    fn bit(&self, s: u8, v: u8) -> bool {
        if s < self.m {
            return v >> s & 1 == 1;
        }
        let [kind, a, b] = self.gates[usize::from(s - self.m)];
        gate(kind, self.bit(a, v), self.bit(b, v))
    }

    /// The commands in an order drawn by chance, 01 first and 00 last.
    pub fn commands(&self, rng: &mut Random) -> Commands {
        let mut free: Commands = Vec::new();
        for (p, row) in self.rows.iter().enumerate() {
            free.push(match row {
                Some(v) => vec![0x02, p as u8, *v],
                None => vec![0x03, p as u8],
            });
        }
        for (p, w) in &self.limits {
            let [low, high] = w.to_le_bytes();
            free.push(vec![0x06, *p, low, high]);
        }
        if !rng.once_in(3) {
            rng.shuffle(&mut free);
        }
        let mut all = vec![vec![0x01, self.n, self.m]];
        all.extend(self.merged(rng, free));
        all.push(vec![0x00]);
        all
    }

    /// Gates and outputs keep their order, and an output comes after its gate.
    fn merged(&self, rng: &mut Random, free: Commands) -> Commands {
        let in_blocks = rng.once_in(3);
        let mut all = Vec::new();
        let (mut f, mut g, mut o) = (0, 0, 0);
        loop {
            let left = [free.len() - f, self.gates.len() - g, self.outputs.len() - o];
            let total: usize = left.iter().sum();
            if total == 0 {
                return all;
            }
            let draw = if in_blocks { 0 } else { rng.below(total) };
            if draw < left[0] {
                all.push(free[f].clone());
                f += 1;
            } else if o < self.outputs.len() && draw >= left[0] + left[1] && self.outputs[o] < self.m + g as u8 {
                all.push(vec![0x05, self.outputs[o]]);
                o += 1;
            } else if g < self.gates.len() {
                let [kind, a, b] = self.gates[g];
                all.push(vec![0x04, kind, a, b]);
                g += 1;
            } else {
                all.push(vec![0x05, self.outputs[o]]);
                o += 1;
            }
        }
    }

    pub fn sheet(&self, rng: &mut Random) -> Vec<u8> {
        self.commands(rng).concat()
    }
}

#[cfg(test)]
mod tests {
    use super::*;
    use crate::relation::sets_of;
    use crate::sheet::read;

    /// The reader and the relation against the draft's own meaning.
    #[test]
    fn sheets_mean_what_was_drawn() {
        let mut rng = Random::new(4242);
        for i in 0..6_000 {
            let draft = if i % 3 == 0 { hard_draft(&mut rng) } else { draft(&mut rng) };
            let unit = read(&draft.sheet(&mut rng)).expect("drawn to be read");
            assert_eq!(sets_of(&unit), draft.sets(), "{draft:?}");
        }
    }
}
