//! What document 02, E4, turns on: inputs soldered through at every depth, and
//! what only looks like it. No count of cells is asked for what is drawn here.

use super::diagrams::name_above;
use super::sheets::{draft_of, hard_draft_of, Draft};
use crate::board::Board;
use crate::cells::{full, Tables};
use crate::diagram::{bytes_of_lists, Diagram, Entry};
use crate::random::Random;
use crate::relation::Sets;
use crate::search::value_at;
use crate::sheet::{all_values, MOST_PATTERNS};

/// Input k of n, as a table.
pub fn input(n: u32, k: u32) -> u64 {
    (0..1u32 << n).fold(0, |table, p| table | u64::from(p >> (n - k) & 1) << p)
}

/// A table of up to four inputs that is an input, inverted or not, or a constant,
/// or put together of halves like that; now and then any.
pub fn table(rng: &mut Random, n: u32) -> u64 {
    let all = full(n);
    if n == 0 {
        return rng.of(&[0, all]);
    }
    let input = input(n, rng.within(1, n as usize) as u32);
    match rng.below(10) {
        0 => rng.of(&[0, all]),
        1..=3 => input,
        4 => !input & all,
        5 => u64::from(rng.word()) & all,
        _ => table(rng, n - 1) | table(rng, n - 1) << (1 << (n - 1)),
    }
}

/// Tables for so many wires; 0 past them.
pub fn tables(rng: &mut Random, n: u8, m: u8) -> Tables {
    let mut tables = [0; 4];
    for it in tables.iter_mut().take(m.into()) {
        *it = table(rng, n.into());
    }
    tables
}

// Stages.

pub fn stage(board: Board, rng: &mut Random, n: u8, m: u8) -> Vec<u8> {
    match board {
        Board::Tree => stage_of_trees(rng, n, m),
        Board::Shared => bytes_of_lists(n, &(0..m).map(|_| list(rng, n)).collect::<Vec<Diagram>>()),
    }
}

fn stage_of_trees(rng: &mut Random, n: u8, m: u8) -> Vec<u8> {
    let mut out = vec![0x20, n, m];
    for j in 0..m {
        out.extend([0x21, j]);
        tree(rng, n, 0, &mut out);
    }
    out.push(0x2F);
    out
}

fn constant(bit: bool) -> u8 {
    0x23 + u8::from(bit)
}

/// An input above the parent's: the next, or any.
fn input_above(rng: &mut Random, n: u8, parent: u8) -> u8 {
    let any = rng.within(parent as usize + 1, n.into()) as u8;
    rng.of(&[parent + 1, any])
}

/// A tree below a selector on input `parent` (0: none): a constant, an input,
/// one inverted, a selector that passes on one constant, one whose branches are
/// worth 0 and 1 and mostly larger, or any other selector.
fn tree(rng: &mut Random, n: u8, parent: u8, out: &mut Vec<u8>) {
    let what = rng.below(14);
    if parent >= n || what == 0 {
        out.push(constant(rng.once_in(2)));
        return;
    }
    out.extend([0x22, input_above(rng, n, parent)]);
    let k = out[out.len() - 1];
    match what {
        1..=3 => out.extend([0x23, 0x24]),
        4 => out.extend([0x24, 0x23]),
        5 => out.extend([constant(rng.once_in(2)); 2]),
        6 | 7 => {
            worth(rng, n, k, false, out);
            worth(rng, n, k, true, out);
        }
        _ => {
            tree(rng, n, k, out);
            tree(rng, n, k, out);
        }
    }
}

/// A tree worth a constant, the constant itself or not.
fn worth(rng: &mut Random, n: u8, parent: u8, bit: bool, out: &mut Vec<u8>) {
    if parent >= n || rng.once_in(3) {
        out.push(constant(bit));
        return;
    }
    out.extend([0x22, input_above(rng, n, parent)]);
    let k = out[out.len() - 1];
    worth(rng, n, k, bit, out);
    worth(rng, n, k, bit, out);
}

/// A list of inputs, some of them again, with others between and behind them.
/// Which of them the top reaches is left to chance.
fn list(rng: &mut Random, n: u8) -> Diagram {
    let mut list = Diagram { entries: Vec::new(), top: 0 };
    for _ in 0..rng.within(0, 9) {
        let next = entry(rng, n, &list);
        list.entries.push(next);
    }
    let lowest = (0..list.next()).rev().min_by_key(|&name| list.input(name)).expect("there are constants");
    let any = rng.below(list.next().into()) as u8;
    list.top = rng.of(&[lowest, list.next() - 1, any]);
    list
}

/// An entry that may come next: an input, one inverted, one that passes on one
/// constant, or any that names what is listed.
fn entry(rng: &mut Random, n: u8, list: &Diagram) -> Entry {
    let input = rng.within(1, n.into()) as u8;
    let (zero, one) = match rng.below(12) {
        0..=4 => (0, 1),
        5 => (1, 0),
        6 => (0, 0),
        7 => (1, 1),
        _ => (name_above(rng, list, input), name_above(rng, list, input)),
    };
    Entry { input, zero, one }
}

// Relations and sheets.

/// Well-defined sets that such tables fit: up to three stages of them laid over
/// each other, or what a second stage would leave of one, where a value has
/// others for company; and at times a few values more.
pub fn sets(rng: &mut Random, n: u8, m: u8) -> Sets {
    const EVEN: u16 = 0x9669;
    let count = rng.of(&[0, 0, 1, 2, 3]);
    let stages: Vec<Tables> = (0..count.max(1)).map(|_| tables(rng, n, m)).collect();
    let turned = rng.within(1, (1 << m) - 1);
    let parity = rng.once_in(2);
    let more = rng.of(&[0, 0, 0, 1, 3]);
    let mut sets = [0; MOST_PATTERNS];
    for (p, set) in sets.iter_mut().enumerate().take(1 << n) {
        let values = stages.iter().map(|tables| value_at(m.into(), tables, p));
        *set = match (count, parity) {
            (0, false) => values.fold(0, |set, v| set | 1 << v | 1 << (usize::from(v) ^ turned)),
            (0, true) => values.fold(0, |set, v| set | if EVEN >> v & 1 == 1 { EVEN } else { !EVEN }),
            _ => values.fold(0, |set, v| set | 1 << v),
        } & all_values(m.into());
        while rng.below(8) < more {
            *set |= 1 << rng.below(1 << m);
        }
    }
    sets
}

/// A sheet without gates that leaves such sets: every pattern is impossible.
pub fn draft_of_limits(rng: &mut Random, n: u8, m: u8) -> Draft {
    let sets = sets(rng, n, m);
    let limits = (0..1 << n).map(|p| (p, sets[usize::from(p)])).collect();
    Draft { n, m, gates: Vec::new(), outputs: Vec::new(), rows: vec![None; 1 << n], limits }
}

/// A unit whose present stage has these tables, which its limits leave it.
pub fn draft_of_stage(rng: &mut Random, n: u8, m: u8, tables: &Tables) -> Draft {
    let impossible = rng.of(&[0, 0, 1, 3]);
    let limited = rng.of(&[0, 0, 1, 4]);
    let mut it = if rng.once_in(3) { draft_of(rng, n, m) } else { hard_draft_of(rng, n, m) };
    it.limits.clear();
    for p in 0..1u8 << n {
        let v = value_at(m.into(), tables, p.into());
        it.rows[usize::from(p)] = Some(v as u8).filter(|_| rng.below(8) >= impossible);
        if rng.below(8) < limited {
            it.limits.push((p, rng.word() & all_values(m.into()) | 1 << v));
        }
    }
    it
}

#[cfg(test)]
mod tests {
    use super::*;
    use crate::cells::{cells, is_straight};
    use crate::draw::sizes;

    #[test]
    fn inputs_are_inputs() {
        for n in 1..=6 {
            assert!(is_straight(n, input(n, 1)));
            for k in 1..=n {
                let bits = (0..1 << n).filter(|p| input(n, k) >> p & 1 == 1);
                assert!(bits.eq((0..1 << n).filter(|p| p >> (n - k) & 1 == 1)));
                assert_eq!((cells(n, input(n, k)), cells(n, !input(n, k) & full(n))), (0, 1));
            }
        }
    }

    #[test]
    fn stages_are_read() {
        let mut rng = Random::new(41);
        for _ in 0..3_000 {
            let (n, m) = sizes(&mut rng);
            for board in crate::board::BOARDS {
                board.read(&stage(board, &mut rng, n, m)).expect("drawn to be read");
            }
        }
    }

    /// The present stage of a unit drawn for it fits.
    #[test]
    fn the_present_stage_is_left() {
        let mut rng = Random::new(42);
        for _ in 0..3_000 {
            let (n, m) = sizes(&mut rng);
            let tables = tables(&mut rng, n, m);
            let sets = draft_of_stage(&mut rng, n, m, &tables).sets();
            assert!((0..1 << n).all(|p| sets[p] >> value_at(m.into(), &tables, p) & 1 == 1));
        }
    }
}
