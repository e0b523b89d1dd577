//! What document 02, E5, turns on: sheets, relations, tables and stages of five
//! and six inputs. No search is run for what is drawn here.

use super::relations::thin;
use super::sheets::{draft_of, hard_draft_of, Draft};
use super::straight::{draft_of_stage, input};
use super::{stage_faults, stages};
use crate::cells::{full, Tables};
use crate::least::functions;
use crate::random::Random;
use crate::relation::{Sets, ONE};
use crate::search::value_at;
use crate::sheet::{all_values, MOST_INPUTS, MOST_PATTERNS};

/// Five or six inputs, six more often; and so many wires.
pub fn sizes(rng: &mut Random) -> (u8, u8) {
    (rng.of(&[5, 6, 6]), rng.within(1, 4) as u8)
}

/// The parity of n inputs: no tree has more selectors than its and its inverse's.
pub fn parity(n: u32) -> u64 {
    (0..1u32 << n).fold(0, |table, p| table | u64::from(p.count_ones() & 1) << p)
}

// Tables.

/// A table of n inputs: a constant, an input, what two or three of them make, few
/// patterns or all but few, any, the parity, or put together of halves like that,
/// alike or not.
pub fn table(rng: &mut Random, n: u32) -> u64 {
    let all = full(n);
    if n < 2 {
        return rng.bits() & all;
    }
    let [a, b, c] = [0; 3].map(|_| input(n, rng.within(1, n as usize) as u32));
    match rng.below(16) {
        0 => rng.of(&[0, all]),
        1 => rng.of(&[a, !a & all]),
        2 => rng.of(&[a & b, a | b, a ^ b, !(a & b) & all]),
        3 => rng.of(&[a & b | c, a ^ b ^ c, a & b ^ c, a & b | !a & c]),
        4 => rng.bits() & rng.bits() & rng.bits() & all,
        5 => (rng.bits() | rng.bits() | rng.bits()) & all,
        6 | 7 => rng.bits() & all,
        8 => rng.of(&[parity(n), !parity(n) & all]),
        9..=11 => {
            let half = table(rng, n - 1);
            half | half << (1 << (n - 1))
        }
        _ => table(rng, n - 1) | table(rng, n - 1) << (1 << (n - 1)),
    }
}

/// Tables for so many wires; 0 past them.
pub fn tables(rng: &mut Random, n: u8, m: u8) -> Tables {
    let mut tables = [0; 4];
    for it in tables.iter_mut().take(m.into()) {
        *it = table(rng, n.into());
    }
    tables
}

/// Wires with as many selectors as there may be.
pub fn longest_tables(rng: &mut Random, n: u8, m: u8) -> Tables {
    let mut tables = [0; 4];
    for it in tables.iter_mut().take(m.into()) {
        *it = parity(n.into()) ^ rng.of(&[0, full(n.into())]);
    }
    tables
}

// Stages of trees.

/// A stage that is read: any, or one of tables like these, seldom the smallest.
pub fn stage(rng: &mut Random, n: u8, m: u8) -> Vec<u8> {
    if rng.once_in(2) {
        let tables = tables(rng, n, m);
        stages::padded(rng, n, m, &tables)
    } else {
        stages::stage(rng, n, m).concat()
    }
}

/// A stage with a fault.
pub fn faulty_stage(rng: &mut Random, n: u8, m: u8) -> Vec<u8> {
    let number = rng.of(&stage_faults::NUMBERS);
    stage_faults::faulty_up_to(rng, MOST_INPUTS, number, n, m).concat()
}

// Relations.

/// The sets of one stage: a value for each pattern.
pub fn one_stage(n: u8, m: u8, tables: &Tables) -> Sets {
    let mut sets = [0; MOST_PATTERNS];
    for (p, set) in sets.iter_mut().enumerate().take(1 << n) {
        *set = 1 << value_at(m.into(), tables, p);
    }
    sets
}

/// One stage, and on few patterns other values beside its own: so few functions
/// that each can be tried.
pub fn nearly_one_stage(rng: &mut Random, n: u8, m: u8) -> Sets {
    let mut sets = one_stage(n, m, &tables(rng, n, m));
    let most = rng.of(&[2, 30, 400, 2_000]);
    while functions(&sets[..1 << n]) < most {
        sets[rng.below(1 << n)] |= 1 << rng.below(1 << m);
    }
    sets
}

/// Sets that leave the wires independent: on each wire some patterns are open,
/// whatever the others are.
pub fn products(rng: &mut Random, n: u8, m: u8) -> Sets {
    let mut sets = one_stage(n, m, &tables(rng, n, m));
    for j in 0..usize::from(m) {
        let (few, half) = (rng.bits() & rng.bits(), rng.bits());
        let open = rng.of(&[0, few, half, half | few, !0]);
        for (p, set) in sets.iter_mut().enumerate().take(1 << n) {
            if open >> p & 1 == 1 {
                // The values that differ from these on this wire alone.
                *set |= (*set & ONE[j]) >> (1 << j) | (*set & !ONE[j]) << (1 << j);
            }
        }
    }
    sets
}

/// Two or three stages laid over each other; or one, where each value has another
/// for company, or all with its parity, as a second stage may leave it.
fn laid_over(rng: &mut Random, n: u8, m: u8) -> Sets {
    const EVEN: u16 = 0x9669;
    let stages: Vec<Tables> = (0..rng.of(&[1, 1, 2, 3])).map(|_| tables(rng, n, m)).collect();
    let turned = rng.within(1, (1 << m) - 1);
    let company = stages.len() == 1;
    let parity = rng.once_in(2);
    let mut sets = [0; MOST_PATTERNS];
    for (p, set) in sets.iter_mut().enumerate().take(1 << n) {
        for v in stages.iter().map(|tables| value_at(m.into(), tables, p)) {
            *set |= match (company, parity) {
                (false, _) => 1 << v,
                (true, false) => 1 << v | 1 << (usize::from(v) ^ turned),
                (true, true) if EVEN >> v & 1 == 1 => EVEN & all_values(m.into()),
                (true, true) => !EVEN & all_values(m.into()),
            };
        }
    }
    sets
}

/// Each value with some chance; or what a unit leaves, parities among them.
fn any_sets(rng: &mut Random, n: u8, m: u8) -> Sets {
    let density = rng.within(1, 15);
    let mut sets = match rng.below(4) {
        0 => draft_of(rng, n, m).sets(),
        1 => hard_draft_of(rng, n, m).sets(),
        _ => [0; MOST_PATTERNS].map(|_: u16| thin(rng, density) & all_values(m.into())),
    };
    sets[1 << n..].fill(0);
    for set in sets.iter_mut().take(1 << n).filter(|set| **set == 0) {
        *set = 1 << rng.below(1 << m);
    }
    sets
}

/// Sets of fewer inputs, the first or the last ones; the others make no difference,
/// but that at times there is a value more.
fn repeated(rng: &mut Random, n: u8, m: u8) -> Sets {
    let fewer = rng.within(2, 4) as u8;
    let few = any_sets(rng, fewer, m);
    let first = rng.once_in(2);
    let mut sets = [0; MOST_PATTERNS];
    for (p, set) in sets.iter_mut().enumerate().take(1 << n) {
        *set = few[if first { p >> (n - fewer) } else { p % (1 << fewer) }];
    }
    if rng.once_in(2) {
        sets[rng.below(1 << n)] |= 1 << rng.below(1 << m);
    }
    sets
}

/// Well-defined sets of any of these makes.
pub fn sets(rng: &mut Random, n: u8, m: u8) -> Sets {
    match rng.below(8) {
        0 | 1 => nearly_one_stage(rng, n, m),
        2 => products(rng, n, m),
        3 | 4 => laid_over(rng, n, m),
        5 => repeated(rng, n, m),
        _ => any_sets(rng, n, m),
    }
}

// Sheets.

/// A unit of one of these makes: any, parities behind it, with much left open or
/// little, one with a present stage that its limits leave, or limits alone.
pub fn draft(rng: &mut Random, n: u8, m: u8) -> Draft {
    match rng.below(8) {
        0 | 1 => draft_of(rng, n, m),
        2 => hard_draft_of(rng, n, m),
        3 | 4 => narrowed_draft(rng, n, m),
        5 | 6 => {
            let tables = tables(rng, n, m);
            draft_of_stage(rng, n, m, &tables)
        }
        _ => {
            let sets = sets(rng, n, m);
            draft_of_sets(n, m, &sets)
        }
    }
}

/// A unit with parities behind it, whose limits leave most patterns their present
/// value alone: a search has not much to do.
pub fn narrowed_draft(rng: &mut Random, n: u8, m: u8) -> Draft {
    let tables = tables(rng, n, m);
    let mut it = hard_draft_of(rng, n, m);
    let open = rng.within(4, 20);
    it.limits.clear();
    for p in 0..1u8 << n {
        let v = value_at(m.into(), &tables, p.into());
        it.rows[usize::from(p)] = Some(v as u8);
        if rng.below(1 << n) >= open {
            it.limits.push((p, 1 << v));
        }
    }
    it
}

/// A sheet without gates that leaves these sets: every pattern is impossible.
pub fn draft_of_sets(n: u8, m: u8, sets: &Sets) -> Draft {
    let limited = (0..1 << n).filter(|&p| sets[usize::from(p)] != all_values(m.into()));
    let limits = limited.map(|p: u8| (p, sets[usize::from(p)])).collect();
    Draft { n, m, gates: Vec::new(), outputs: Vec::new(), rows: vec![None; 1 << n], limits }
}

/// A unit that puts out all its wires: its present stage is all that fits.
pub fn draft_of_tables(n: u8, m: u8, tables: &Tables) -> Draft {
    let rows = (0..1 << n).map(|p| Some(value_at(m.into(), tables, p) as u8)).collect();
    Draft { n, m, gates: Vec::new(), outputs: (0..m).collect(), rows, limits: Vec::new() }
}
