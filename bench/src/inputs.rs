//! The relations and sheets that are timed, drawn from a fixed seed.

use trials::draw::relations::thin;
use trials::draw::sheets::{draft_of, Draft};
use trials::draw::six;
use trials::draw::two_units::{pair, sets_of_both};
use trials::random::Random;
use trials::relation::Sets;
use trials::sheet::{all_values, MOST_GATES, MOST_OUTPUTS, MOST_PATTERNS};

/// Draws the sets of a relation of n inputs and m wires.
type Draw = fn(&mut Random, u8, u8) -> Sets;

pub const FAMILIES: [(&str, Draw); 5] = [
    ("random 1/4", |rng, n, m| random(rng, n, m, 4)),
    ("random 1/2", |rng, n, m| random(rng, n, m, 8)),
    ("random 3/4", |rng, n, m| random(rng, n, m, 12)),
    ("units", |rng, n, m| unit(rng, n, m).sets()),
    ("parity", parity),
];

/// Each value with density/16; an empty set is drawn again.
fn random(rng: &mut Random, n: u8, m: u8, density: usize) -> Sets {
    let mut sets = [0; MOST_PATTERNS];
    for set in sets.iter_mut().take(1 << n) {
        while *set == 0 {
            *set = thin(rng, density) & all_values(m.into());
        }
    }
    sets
}

/// A unit, drawn as the sheets of the trials are, that is not refused. Those of five and six inputs have makes of their
/// own.
fn unit(rng: &mut Random, n: u8, m: u8) -> Draft {
    loop {
        let draft = if n > 4 { six::draft(rng, n, m) } else { draft_of(rng, n, m) };
        if is_whole(&draft.sets(), n) {
            return draft;
        }
    }
}

/// The second stage is the parity of the wires: all even values or all odd ones.
fn parity(rng: &mut Random, n: u8, m: u8) -> Sets {
    const EVEN: u16 = 0x9669;
    let mut sets = [0; MOST_PATTERNS];
    for set in sets.iter_mut().take(1 << n) {
        *set = rng.of(&[EVEN, !EVEN]) & all_values(m.into());
    }
    sets
}

/// Whether every pattern of n inputs has a value.
fn is_whole(sets: &Sets, n: u8) -> bool {
    sets[..1 << n].iter().all(|&set| set != 0)
}

/// The bytes of two units' sheets, drawn as those of the trials are, that a value is left for on every pattern.
pub fn two_sheets(rng: &mut Random, n: u8, m: u8) -> [Vec<u8>; 2] {
    loop {
        let units = pair(rng, n, m);
        if is_whole(&sets_of_both(&units), n) {
            return units.map(|unit| unit.sheet(rng));
        }
    }
}

/// The bytes of a unit's sheet.
pub fn sheet(rng: &mut Random, n: u8, m: u8) -> Vec<u8> {
    unit(rng, n, m).sheet(rng)
}

const GATE_KINDS: usize = 6;

/// The bytes of a sheet that takes as much forming as any: all the gates and outputs that there may be, and a present
/// value for each pattern. Having no limits, it is not refused.
pub fn full_sheet(rng: &mut Random, (n, m): (u8, u8)) -> Vec<u8> {
    let made = |gates: usize| usize::from(m) + gates;
    // A kind, and two of the signals made so far.
    let gates = (0..MOST_GATES).map(|g| [GATE_KINDS, made(g), made(g)].map(|limit| rng.below(limit) as u8)).collect();
    let outputs = (0..MOST_OUTPUTS).map(|_| rng.below(made(MOST_GATES)) as u8).collect();
    let rows = (0..1 << n).map(|_| Some(rng.below(1 << m) as u8)).collect();
    Draft { n, m, gates, outputs, rows, limits: Vec::new() }.sheet(rng)
}
