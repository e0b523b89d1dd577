//! What document 02, E6, turns on: two units of one size, with other soldered
//! stages or other second stages, whose sets mostly meet on every pattern. No
//! search is run for what is drawn here.

use super::relations;
use super::sheets::{draft_of, hard_draft_of, limits, Draft};
use super::six;
use super::straight;
use crate::cells::Tables;
use crate::random::Random;
use crate::relation::Sets;
use crate::search::value_at;
use crate::sheet::{all_values, MOST_PATTERNS};

pub type Pair = [Draft; 2];

/// Up to four inputs; the smaller sizes more often, since they take fewer bytes.
pub fn sizes(rng: &mut Random) -> (u8, u8) {
    (rng.of(&[1, 2, 2, 2, 3, 3, 3, 4, 4]), rng.of(&[1, 2, 2, 3, 3, 4]))
}

/// Two units of any of these makes.
pub fn pair(rng: &mut Random, n: u8, m: u8) -> Pair {
    match rng.below(12) {
        0..=3 => about_one_stage(rng, n, m),
        4 | 5 => same_rows(rng, n, m),
        6 | 7 => same_gates(rng, n, m),
        8 => other_limits(rng, n, m),
        9 | 10 => {
            let sets = sets(rng, n, m);
            leaving(rng, n, m, &sets)
        }
        _ => [unit(rng, n, m), unit(rng, n, m)],
    }
}

/// Any unit, parities behind it or not.
fn unit(rng: &mut Random, n: u8, m: u8) -> Draft {
    if rng.once_in(3) {
        hard_draft_of(rng, n, m)
    } else {
        draft_of(rng, n, m)
    }
}

fn tables(rng: &mut Random, n: u8, m: u8) -> Tables {
    if n > 4 {
        six::tables(rng, n, m)
    } else {
        straight::tables(rng, n, m)
    }
}

/// Well-defined sets.
fn sets(rng: &mut Random, n: u8, m: u8) -> Sets {
    match rng.below(3) {
        _ if n > 4 => six::sets(rng, n, m),
        0 => straight::sets(rng, n, m),
        1 => relations::half_dense(rng, n.into(), m.into()).sets,
        _ => relations::sets(rng, n, m),
    }
}

/// Two units that have nothing to do with each other, but that one stage fits
/// both.
pub fn about_one_stage(rng: &mut Random, n: u8, m: u8) -> Pair {
    let tables = tables(rng, n, m);
    [0; 2].map(|_| about(rng, n, m, &tables))
}

/// A unit that this stage fits: on each pattern its present value answers alike, or
/// the pattern is impossible, and limits leave the stage's value.
fn about(rng: &mut Random, n: u8, m: u8, tables: &Tables) -> Draft {
    let impossible = rng.of(&[0, 0, 1, 3]);
    let limited = if n > 4 { rng.of(&[0, 0, 1]) } else { rng.of(&[0, 0, 1, 4]) };
    let mut it = unit(rng, n, m);
    it.limits.clear();
    for p in 0..1u8 << n {
        let v = value_at(m.into(), tables, p.into()) as u8;
        let present = value_alike(rng, &it, v);
        it.rows[usize::from(p)] = Some(present).filter(|_| rng.below(8) >= impossible);
        if rng.below(8) < limited {
            it.limits.push((p, rng.word() & all_values(m.into()) | 1 << v));
        }
    }
    it
}

/// Any value that the unit answers alike.
fn value_alike(rng: &mut Random, it: &Draft, v: u8) -> u8 {
    let alike: Vec<u8> = (0..1 << it.m).filter(|&u| it.alike(v, u)).collect();
    rng.of(&alike)
}

/// One soldered stage with two second stages behind it; at times with the limits
/// that each was drawn with.
pub fn same_rows(rng: &mut Random, n: u8, m: u8) -> Pair {
    let [first, mut second] = [unit(rng, n, m), unit(rng, n, m)];
    second.rows.clone_from(&first.rows);
    let mut pair = [first, second];
    if rng.below(3) > 0 {
        pair.iter_mut().for_each(|it| it.limits.clear());
    }
    pair
}

/// One second stage behind two soldered stages: most patterns have values that are
/// answered alike, some are impossible in one of them, and few have any.
pub fn same_gates(rng: &mut Random, n: u8, m: u8) -> Pair {
    let first = unit(rng, n, m);
    let mut second = first.clone();
    let (impossible, other) = (rng.of(&[0, 1, 3]), rng.of(&[0, 0, 0, 1]));
    for p in 0..1usize << n {
        let any = rng.below(1 << m) as u8;
        second.rows[p] = match first.rows[p] {
            _ if rng.below(8) < impossible => None,
            Some(_) if rng.below(8) < other => Some(any),
            Some(v) => Some(value_alike(rng, &first, v)),
            None => Some(any),
        };
    }
    if rng.once_in(2) {
        second.limits.clear();
    }
    [first, second]
}

/// One unit with other limits.
pub fn other_limits(rng: &mut Random, n: u8, m: u8) -> Pair {
    let first = unit(rng, n, m);
    let mut second = first.clone();
    second.limits = limits(rng, &second);
    [first, second]
}

/// Limits alone, such that both together leave just these sets. What else the one
/// permits, the other does not.
pub fn leaving(rng: &mut Random, n: u8, m: u8, sets: &Sets) -> Pair {
    let mut wider = [*sets; 2];
    for p in 0..1usize << n {
        let more = all_values(m.into()) & !sets[p];
        let (any, kept) = (rng.word(), rng.word() | rng.word());
        wider[0][p] |= more & any & kept;
        wider[1][p] |= more & !any & kept;
    }
    wider.map(|sets| six::draft_of_sets(n, m, &sets))
}

/// Two units that leave nothing but one stage: each puts out some of the wires,
/// and together they put out all. Where a pattern is impossible in one of them, its
/// limit says it.
pub fn leaving_one_stage(rng: &mut Random, n: u8, m: u8) -> (Pair, Tables) {
    let tables = tables(rng, n, m);
    let of_first = rng.below(1 << m);
    let impossible = if n > 4 { 0 } else { rng.of(&[0, 1, 2]) };
    let mut pair = [0; 2].map(|_| six::draft_of_tables(n, m, &tables));
    for (i, it) in pair.iter_mut().enumerate() {
        it.outputs.retain(|&wire| (of_first >> wire & 1 == 1) == (i == 0));
    }
    for p in 0..1u8 << n {
        if rng.below(8) < impossible {
            let it = &mut pair[rng.below(2)];
            it.rows[usize::from(p)] = None;
            it.limits.push((p, 1 << value_at(m.into(), &tables, p.into())));
        }
    }
    (pair, tables)
}

/// Two units where every pattern that is impossible in the one is possible in the
/// other.
pub fn impossible_in_turn(rng: &mut Random, n: u8, m: u8) -> Pair {
    let mut pair = about_one_stage(rng, n, m);
    let in_first = rng.of(&[1, 4, 7]);
    for p in 0..1usize << n {
        let any = rng.below(1 << m) as u8;
        let i = usize::from(rng.below(8) >= in_first);
        pair[i].rows[p] = None;
        pair[1 - i].rows[p] = Some(pair[1 - i].rows[p].unwrap_or(any));
    }
    pair
}

/// Takes from one pattern all values: those of both, of the first alone, or of the
/// second; or leaves each unit a value that the other has not.
pub fn take_all_values(rng: &mut Random, pair: &mut Pair) {
    let m = pair[0].m;
    let p = rng.below(pair[0].rows.len());
    let all = all_values(m.into());
    let of_first = pair[0].sets()[p];
    let what = rng.below(8);
    let mut limit = |i: usize, set: u16| pair[i].limits.push((p as u8, set & all));
    match what {
        0 => limit(0, 0),
        1 => limit(1, 0),
        2 => {
            limit(0, 0);
            limit(1, 0);
        }
        // Whatever the sets are, the two limits do not meet.
        3 | 4 => {
            let any = rng.word();
            limit(0, any);
            limit(1, !any);
        }
        // Each keeps something where the sets allow it.
        _ => {
            let v = value_of(rng, of_first);
            limit(0, 1 << v);
            limit(1, !(1 << v));
        }
    }
}

/// A value of a set; 0 where there is none.
fn value_of(rng: &mut Random, set: u16) -> u8 {
    let values: Vec<u8> = (0..16).filter(|v| set >> v & 1 == 1).collect();
    if values.is_empty() {
        0
    } else {
        rng.of(&values)
    }
}

/// Two units of other sizes: other inputs, other wires, or both.
pub fn of_other_sizes(rng: &mut Random, (n, m): (u8, u8), most: u8) -> Pair {
    let other_n = other(rng, n, most);
    let other_m = other(rng, m, 4);
    let (n2, m2) = rng.of(&[(other_n, m), (n, other_m), (other_n, other_m)]);
    [unit(rng, n, m), unit(rng, n2, m2)]
}

/// Another size from 1 to the most.
fn other(rng: &mut Random, size: u8, most: u8) -> u8 {
    let near = if size < most { size + 1 } else { size - 1 };
    let any = rng.within(1, most.into()) as u8;
    if any == size {
        near
    } else {
        rng.of(&[near, any])
    }
}

/// The sets that two units leave together.
pub fn sets_of_both(pair: &Pair) -> Sets {
    let [first, second] = pair.each_ref().map(Draft::sets);
    let mut sets = [0; MOST_PATTERNS];
    for (p, set) in sets.iter_mut().enumerate() {
        *set = first[p] & second[p];
    }
    sets
}

#[cfg(test)]
mod tests {
    use super::*;
    use crate::joined::join;
    use crate::sheet::read;

    fn drawn(mut draw: impl FnMut(&mut Random, u8, u8) -> Pair) -> impl Iterator<Item = (Pair, Sets)> {
        let mut rng = Random::new(151);
        (0..600).map(move |i| {
            let (n, m) = if i % 8 == 0 { six::sizes(&mut rng) } else { sizes(&mut rng) };
            let pair = draw(&mut rng, n, m);
            let sets = sets_of_both(&pair);
            (pair, sets)
        })
    }

    fn is_whole(pair: &Pair, sets: &Sets) -> bool {
        sets[..1 << pair[0].n].iter().all(|&set| set != 0)
    }

    /// What the reader and the joining make of the sheets is what was drawn.
    #[test]
    fn pairs_mean_what_was_drawn() {
        let mut rng = Random::new(152);
        for (pair, sets) in drawn(pair) {
            let [first, second] = pair.each_ref().map(|it| read(&it.sheet(&mut rng)).expect("drawn to be read"));
            match join(&first, &second) {
                Ok(r) => assert_eq!(r.sets, sets),
                Err(r) => assert!(r.number == 10 && sets[r.place] == 0 && !sets[..r.place].contains(&0)),
            }
        }
    }

    #[test]
    fn one_stage_is_left() {
        assert!(drawn(about_one_stage).all(|(pair, sets)| is_whole(&pair, &sets)));
        let mut rng = Random::new(153);
        for _ in 0..300 {
            let (n, m) = sizes(&mut rng);
            let (pair, tables) = leaving_one_stage(&mut rng, n, m);
            assert_eq!(sets_of_both(&pair), six::one_stage(n, m, &tables));
        }
    }

    /// Most pairs meet everywhere; those from which values were taken do not.
    #[test]
    fn most_meet() {
        let met = drawn(pair).filter(|(pair, sets)| is_whole(pair, sets)).count();
        assert!((400..580).contains(&met), "{met} of 600");
        let taken = |rng: &mut Random, n, m| {
            let mut pair = about_one_stage(rng, n, m);
            take_all_values(rng, &mut pair);
            pair
        };
        assert!(drawn(taken).all(|(pair, sets)| !is_whole(&pair, &sets)));
    }
}
