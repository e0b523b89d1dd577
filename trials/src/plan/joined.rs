//! The cases of document 02, E6, behind all others: two sheets and one stage. No
//! search is run to draw them, so that they stay as they are whatever is counted.

use super::Planner;
use crate::board::Board;
use crate::case::{Case, MOST_ROOM};
use crate::clean::copy;
use crate::draw::damage::damage;
use crate::draw::relations::half_dense;
use crate::draw::sheet_faults::plant_up_to;
use crate::draw::sheets::{draft_of, Draft};
use crate::draw::six;
use crate::draw::two_units::{self, Pair};
use crate::joined::join;
use crate::random::Random;
use crate::relation::Relation;
use crate::rows::joined::joined_rows;
use crate::sheet::{self, MOST_INPUTS};
use crate::stage::LONGEST_STAGE;

/// How many of each are drawn; those of five and six inputs are fewer, for their
/// sheets are long.
const ALIKE: usize = 55;
const WIDE_ALIKE: usize = 5;
const PAIRS: usize = 900;
const WIDE_PAIRS: usize = 150;
const IN_TURN: usize = 200;
const SWAPPED: usize = 110;
const WIDE_SWAPPED: usize = 10;
const EXACT: usize = 190;
const WIDE_EXACT: usize = 30;
const ROOMS: usize = 30;
const EMPTY: usize = 420;
const WIDE_EMPTY: usize = 40;
const OTHER_SIZES: usize = 240;
const WIDE_OTHER_SIZES: usize = 20;
const DAMAGED: usize = 400;
const LONG: usize = 16;
/// Of each number from 1 to 9.
const FAULTY_FIRST: usize = 36;
const FAULTY_SECOND: usize = 36;
const FAULTY_BOTH: usize = 24;
const FAULTY_AND_OTHER_SIZES: usize = 16;
const FAULTY_AND_EMPTY: usize = 16;
/// Pairs that are quoted with each of the smallest budgets.
const SWEPT: usize = 36;
const BUDGETS: u32 = 10;

/// The longest sheet of these cases.
const LONGEST: usize = 300;
/// The program's budget.
const PROGRAM: u32 = 10_000;

pub fn cases(planner: &mut Planner) -> Vec<Case> {
    let mut cases: Vec<Case> = joined_rows().into_iter().map(|(_, case)| case).collect();
    let mut many = |count: usize, draw: &mut dyn FnMut(&mut Planner) -> Vec<Case>| {
        for _ in 0..count {
            cases.extend(draw(planner));
        }
    };
    many(ALIKE, &mut |it| it.sheets_that_say_the_same(two_units::sizes));
    many(WIDE_ALIKE, &mut |it| it.sheets_that_say_the_same(six::sizes));
    many(PAIRS, &mut |it| vec![it.joined(two_units::sizes, two_units::pair)]);
    many(WIDE_PAIRS, &mut |it| vec![it.joined(six::sizes, two_units::pair)]);
    many(IN_TURN, &mut |it| vec![it.joined(two_units::sizes, two_units::impossible_in_turn)]);
    many(SWAPPED, &mut |it| it.swapped(two_units::sizes));
    many(WIDE_SWAPPED, &mut |it| it.swapped(six::sizes));
    many(SWEPT, &mut |it| it.swept_joined());
    many(EXACT, &mut |it| vec![it.exact_joined(two_units::sizes)]);
    many(WIDE_EXACT, &mut |it| vec![it.exact_joined(six::sizes)]);
    many(ROOMS, &mut |it| it.rooms_about_joined());
    many(EMPTY, &mut |it| vec![it.joined(two_units::sizes, without_a_value)]);
    many(WIDE_EMPTY, &mut |it| vec![it.joined(six::sizes, without_a_value)]);
    many(OTHER_SIZES, &mut |it| vec![it.other_sizes(two_units::sizes, 4)]);
    many(WIDE_OTHER_SIZES, &mut |it| vec![it.other_sizes(six::sizes, MOST_INPUTS)]);
    for number in 1..=9 {
        many(FAULTY_FIRST, &mut |it| vec![it.faulty_joined([Some(number), None])]);
        many(FAULTY_SECOND, &mut |it| vec![it.faulty_joined([None, Some(number)])]);
        many(FAULTY_BOTH, &mut |it| vec![it.both_faulty(number)]);
        many(FAULTY_AND_OTHER_SIZES, &mut |it| vec![it.faulty_and_other_sizes(number)]);
        many(FAULTY_AND_EMPTY, &mut |it| vec![it.faulty_and_empty(number)]);
    }
    many(DAMAGED, &mut |it| vec![it.damaged_joined()]);
    many(LONG, &mut |it| vec![it.long_joined()]);
    cases
}

type Sizes = fn(&mut Random) -> (u8, u8);
type Draw = fn(&mut Random, u8, u8) -> Pair;

/// Two units that have no value in common on one pattern or more.
fn without_a_value(rng: &mut Random, n: u8, m: u8) -> Pair {
    let mut pair = if rng.once_in(3) { two_units::pair(rng, n, m) } else { two_units::about_one_stage(rng, n, m) };
    for _ in 0..rng.of(&[1, 1, 2, 3]) {
        two_units::take_all_values(rng, &mut pair);
    }
    pair
}

/// What two sheets leave together, if they are not refused before.
fn joined_relation([first, second]: &[Vec<u8>; 2]) -> Option<Relation> {
    join(&sheet::read(first).ok()?, &sheet::read(second).ok()?).ok()
}

fn are_short(sheets: &[Vec<u8>; 2]) -> bool {
    sheets.iter().all(|sheet| sheet.len() <= LONGEST)
}

/// The same with the sheets the other way round.
fn turned_round(case: &Case) -> Case {
    let Case::Joined { budget, room, first, second } = case.clone() else { panic!("no joined quote: {case:?}") };
    Case::Joined { budget, room, first: second, second: first }
}

impl Planner {
    // Budgets, buffers, and pairs of sheets that are not too long.

    /// None, one, few, or as many as such sizes may well need.
    fn joined_budget(&mut self, n: u32, m: u32) -> u32 {
        let few = self.rng.within(2, 9) as u32;
        let many = if m == 1 || n < 4 || (n, m) == (4, 2) { u32::MAX } else { 250 };
        self.rng.of(&[0, 1, few, 40, many, many, many.min(PROGRAM), many.min(PROGRAM)])
    }

    /// Room for any stage, for one of few selectors, or for a byte less.
    fn joined_room(&mut self, m: u32) -> u16 {
        let few = Board::Tree.length(m, self.rng.within(0, m as usize + 3) as u32) as u16;
        let longest = LONGEST_STAGE as u16;
        self.rng.of(&[MOST_ROOM as u16, longest, longest, longest, longest, few, few - 1, 0])
    }

    fn sheets_of(&mut self, size: Sizes, draw: Draw) -> [Vec<u8>; 2] {
        loop {
            let (n, m) = size(&mut self.rng);
            let sheets = draw(&mut self.rng, n, m).map(|it| it.sheet(&mut self.rng));
            if are_short(&sheets) {
                return sheets;
            }
        }
    }

    fn joined_of(&mut self, sheets: [Vec<u8>; 2]) -> Case {
        let (budget, room) = match joined_relation(&sheets) {
            Some(r) => (self.joined_budget(r.n, r.m), self.joined_room(r.m)),
            None => (self.any_budget(), self.rng.of(&[0, 1, 16, LONGEST_STAGE as u16])),
        };
        let [first, second] = sheets;
        Case::Joined { budget, room, first, second }
    }

    // Quotes.

    fn joined(&mut self, size: Sizes, draw: Draw) -> Case {
        let sheets = self.sheets_of(size, draw);
        self.joined_of(sheets)
    }

    /// A sheet with itself, with its commands in another order, and with its clean
    /// copy on either side: one reply for all.
    fn sheets_that_say_the_same(&mut self, size: Sizes) -> Vec<Case> {
        let [sheet, other] = self.sheets_of(size, |rng, n, m| {
            let [it, _] = two_units::pair(rng, n, m);
            [it.clone(), it]
        });
        let copy = copy(&sheet::read(&sheet).expect("drawn to be read"));
        let Case::Joined { budget, room, .. } = self.joined_of([sheet.clone(), other.clone()]) else { unreachable!() };
        let of = |first: &Vec<u8>, second: &Vec<u8>| Case::Joined {
            budget,
            room,
            first: first.clone(),
            second: second.clone(),
        };
        vec![of(&sheet, &sheet), of(&sheet, &other), of(&sheet, &copy), of(&copy, &sheet)]
    }

    /// A pair on both ways round, with one budget and one room: both come out alike.
    fn swapped(&mut self, size: Sizes) -> Vec<Case> {
        let case = self.joined(size, two_units::pair);
        vec![case.clone(), turned_round(&case)]
    }

    /// One pair with every small budget: where it takes few visits, one of them is
    /// just enough and one a visit short, whatever is counted.
    fn swept_joined(&mut self) -> Vec<Case> {
        let (n, m) = self.rng.of(&[(2, 3), (3, 2), (3, 3)]);
        let sets = half_dense(&mut self.rng, n.into(), m.into()).sets;
        let sheets = two_units::leaving(&mut self.rng, n, m, &sets).map(|it| it.sheet(&mut self.rng));
        let [first, second] = sheets;
        let of =
            |budget| Case::Joined { budget, room: LONGEST_STAGE as u16, first: first.clone(), second: second.clone() };
        (0..BUDGETS).map(of).collect()
    }

    /// Two sheets that leave one stage, and the length of it.
    fn sheets_of_one_stage(&mut self, size: Sizes) -> ([Vec<u8>; 2], usize) {
        loop {
            let (n, m) = size(&mut self.rng);
            let (pair, tables) = two_units::leaving_one_stage(&mut self.rng, n, m);
            let sheets = pair.map(|it| it.sheet(&mut self.rng));
            if are_short(&sheets) {
                return (sheets, Board::Tree.bytes_of(n.into(), m.into(), &tables).len());
            }
        }
    }

    /// The buffer is around the one stage's length.
    fn exact_joined(&mut self, size: Sizes) -> Case {
        let ([first, second], need) = self.sheets_of_one_stage(size);
        let room = self.room_around(need, LONGEST_STAGE, MOST_ROOM) as u16;
        Case::Joined { budget: self.any_budget(), room, first, second }
    }

    /// The same in no bytes, in a byte too few, in just enough and in one more.
    fn rooms_about_joined(&mut self) -> Vec<Case> {
        let ([first, second], need) = self.sheets_of_one_stage(two_units::sizes);
        let budget = self.any_budget();
        let of = |room| Case::Joined { budget, room: room as u16, first: first.clone(), second: second.clone() };
        [0, need - 1, need, need + 1].map(of).to_vec()
    }

    /// The program's budget for many inputs and wires: it is often used up.
    fn long_joined(&mut self) -> Case {
        let wide: Sizes = |rng| (rng.of(&[4, 5, 6]), rng.of(&[3, 4]));
        loop {
            let sheets = self.sheets_of(wide, two_units::about_one_stage);
            if joined_relation(&sheets).is_some() {
                let [first, second] = sheets;
                return Case::Joined { budget: PROGRAM, room: LONGEST_STAGE as u16, first, second };
            }
        }
    }

    // Refusals.

    /// Other inputs, other wires, or both; at times with a pattern of no value in one
    /// of them or in both.
    fn other_sizes(&mut self, size: Sizes, most: u8) -> Case {
        loop {
            let sizes = size(&mut self.rng);
            let mut empty = || self.rng.once_in(3).then_some(10);
            let numbers = [empty(), empty()];
            let pair = two_units::of_other_sizes(&mut self.rng, sizes, most);
            let sheets = self.with_faults(pair, numbers);
            if are_short(&sheets) {
                return self.joined_of(sheets);
            }
        }
    }

    /// Sheets with these faults; without them they are as they were drawn.
    fn with_faults(&mut self, pair: Pair, numbers: [Option<u8>; 2]) -> [Vec<u8>; 2] {
        let [first, second] = pair;
        [(first, numbers[0]), (second, numbers[1])].map(|(it, number)| {
            let mut commands = it.commands(&mut self.rng);
            if let Some(number) = number {
                plant_up_to(&mut self.rng, MOST_INPUTS, number, &mut commands);
            }
            commands.concat()
        })
    }

    /// A pair of one size, now and then of five or six inputs, with these faults.
    fn faulty_joined(&mut self, numbers: [Option<u8>; 2]) -> Case {
        loop {
            let (n, m) = if self.rng.once_in(24) { six::sizes(&mut self.rng) } else { two_units::sizes(&mut self.rng) };
            let pair = [0; 2].map(|_| self.small_unit(n, m));
            let sheets = self.with_faults(pair, numbers);
            if are_short(&sheets) {
                return self.joined_of(sheets);
            }
        }
    }

    /// A unit with few gates.
    fn small_unit(&mut self, n: u8, m: u8) -> Draft {
        loop {
            let it = draft_of(&mut self.rng, n, m);
            if it.gates.len() <= 5 {
                return it;
            }
        }
    }

    /// The second has the same fault, or any other.
    fn both_faulty(&mut self, number: u8) -> Case {
        let other = self.rng.within(1, 9) as u8;
        let second = self.rng.of(&[number, other, other]);
        self.faulty_joined([Some(number), Some(second)])
    }

    /// A fault of the second, less often of the first, and sizes that differ: the
    /// fault is told.
    fn faulty_and_other_sizes(&mut self, number: u8) -> Case {
        let in_first = self.rng.once_in(4);
        let numbers = if in_first { [Some(number), None] } else { [None, Some(number)] };
        loop {
            let sizes = two_units::sizes(&mut self.rng);
            let pair = two_units::of_other_sizes(&mut self.rng, sizes, 4);
            let sheets = self.with_faults(pair, numbers);
            if are_short(&sheets) {
                return self.joined_of(sheets);
            }
        }
    }

    /// A fault of the one, and a pattern of no value in the other: the fault is told,
    /// whichever comes first.
    fn faulty_and_empty(&mut self, number: u8) -> Case {
        let in_first = self.rng.once_in(3);
        self.faulty_joined(if in_first { [Some(number), Some(10)] } else { [Some(10), Some(number)] })
    }

    /// Damage to the first, to the second, or to both.
    fn damaged_joined(&mut self) -> Case {
        let size: Sizes = |rng| if rng.once_in(20) { six::sizes(rng) } else { two_units::sizes(rng) };
        let mut sheets = self.sheets_of(size, two_units::about_one_stage);
        let hurt = self.rng.of(&[1, 1, 2, 2, 2, 3]);
        for (i, sheet) in sheets.iter_mut().enumerate() {
            if hurt >> i & 1 == 1 {
                *sheet = damage(&mut self.rng, sheet);
            }
        }
        self.joined_of(sheets)
    }
}

#[cfg(test)]
mod tests {
    use super::*;
    use crate::case::{Outcome, Reply};
    use crate::fast;
    use crate::joined::Which::{self, First, Second};
    use crate::pick::Picker;
    use crate::refusal::{Refusal, EMPTY, SHORT_BUFFER, SIZES_DIFFER};
    use crate::relation::{of_unit, sets_of};
    use crate::search::Answer;
    use crate::sheet::{Row, Unit};
    use std::collections::HashMap;

    /// Those of the plan, without the rows.
    fn drawn() -> Vec<Case> {
        let joined = |case: &Case| case.kind() == b'J';
        crate::plan::cases().into_iter().filter(joined).skip(joined_rows().len()).collect()
    }

    /// A case with its reply, and what reading makes of its sheets.
    struct Met {
        budget: u32,
        room: usize,
        sheets: [Vec<u8>; 2],
        read: [Result<Unit, Refusal>; 2],
        reply: Reply,
    }

    fn all_met() -> Vec<Met> {
        let mut picker = Picker::new();
        let met = |case: Case| {
            let reply = case.reply(&mut picker);
            let Case::Joined { budget, room, first, second } = case else { panic!("no joined quote") };
            let read = [sheet::read(&first), sheet::read(&second)];
            Met { budget, room: room.into(), sheets: [first, second], read, reply }
        };
        drawn().into_iter().map(met).collect()
    }

    impl Met {
        fn refused(&self) -> Option<(Which, u8, usize)> {
            match self.reply.outcome {
                Outcome::RefusedOf(which, r) => Some((which, r.number, r.place)),
                _ => None,
            }
        }

        fn is_refused_with(&self, number: u8) -> bool {
            self.refused().is_some_and(|(_, it, _)| it == number)
        }

        fn found(&self) -> Option<&Answer> {
            match &self.reply.outcome {
                Outcome::Found(answer) => Some(answer),
                _ => None,
            }
        }

        /// Both, where both are read.
        fn units(&self) -> Option<[&Unit; 2]> {
            match &self.read {
                [Ok(first), Ok(second)] => Some([first, second]),
                _ => None,
            }
        }

        /// The sizes that the first bytes tell, whether they are read or not.
        fn differ(&self) -> bool {
            let [first, second] = &self.sheets;
            first.len() > 2 && second.len() > 2 && first[1..3] != second[1..3]
        }

        /// Whether a sheet by itself is refused with 10.
        fn is_empty(&self, i: usize) -> bool {
            matches!(&self.read[i], Ok(unit) if of_unit(unit).is_err())
        }

        /// How many patterns have no value in both.
        fn empty_patterns(&self) -> usize {
            self.units().map_or(0, |[first, second]| {
                let (one, two) = (sets_of(first), sets_of(second));
                (0..first.patterns()).filter(|&p| one[p] & two[p] == 0).count()
            })
        }

        /// A pattern is impossible in this sheet and possible in the other.
        fn is_impossible_in(&self, i: usize, p: usize) -> bool {
            self.units().is_some_and(|units| {
                units[i].rows[p] == Row::Impossible && matches!(units[1 - i].rows[p], Row::Drives(_))
            })
        }

        fn has_impossible_in(&self, i: usize) -> bool {
            self.units().is_some_and(|units| (0..units[0].patterns()).any(|p| self.is_impossible_in(i, p)))
        }

        fn need(&self) -> Option<usize> {
            let [first, second] = self.units()?;
            let r = join(first, second).ok()?;
            let answer = fast::search(Board::Tree, r.n, &r.sets, self.budget);
            Some(Board::Tree.bytes_of(r.n, r.m, &answer.tables).len())
        }
    }

    /// The fewest of each that there must be.
    fn hold_counts(met: &HashMap<String, usize>, names: &[(&str, usize)]) {
        for (name, least) in names {
            let count = met.get(*name).copied().unwrap_or(0);
            assert!(count >= *least, "{name}: {count}; {met:#?}");
        }
    }

    fn counted(all: &[Met], of: impl Fn(&Met) -> Vec<(&'static str, bool)>) -> HashMap<String, usize> {
        let mut met = HashMap::new();
        for (name, is) in all.iter().flat_map(of) {
            *met.entry(name.to_string()).or_default() += usize::from(is);
        }
        met
    }

    /// Each refusal of reading from either sheet, alone and beside others.
    #[test]
    fn refusals_of_reading() {
        let all = all_met();
        for (which, i) in [(First, 0), (Second, 1)] {
            for number in 1..=9 {
                let told = |it: &&Met| it.refused().is_some_and(|(w, n, _)| (w, n) == (which, number));
                let alone = all.iter().filter(told).filter(|it| it.read[1 - i].is_ok()).count();
                assert!(alone >= 12, "{number} of the {} alone: {alone}", which.word());
            }
        }
        let met = counted(&all, |it| {
            let numbers = it.read.each_ref().map(|read| read.as_ref().err().map(|r| r.number));
            let told = it.refused();
            let first_told = told.is_some_and(|(which, ..)| which == First);
            let second_told = told.is_some_and(|(which, number, _)| which == Second && number < EMPTY);
            vec![
                ("both, with one number", first_told && numbers[1].is_some() && numbers[0] == numbers[1]),
                ("both, the second's lower", first_told && numbers[1].is_some_and(|n| Some(n) < numbers[0])),
                ("both, the second's higher", first_told && numbers[1] > numbers[0]),
                ("the first's beside other sizes", first_told && it.differ()),
                ("the second's beside other sizes", second_told && numbers[0].is_none() && it.differ()),
                ("the first's beside no value", first_told && it.is_empty(1)),
                ("the second's beside no value", second_told && it.is_empty(0)),
                ("in no bytes", (first_told || second_told) && it.room == 0),
            ]
        });
        hold_counts(
            &met,
            &[
                ("both, with one number", 40),
                ("both, the second's lower", 30),
                ("both, the second's higher", 30),
                ("the first's beside other sizes", 20),
                ("the second's beside other sizes", 60),
                ("the first's beside no value", 20),
                ("the second's beside no value", 40),
                ("in no bytes", 100),
            ],
        );
    }

    /// 13, 10 and 12, which are the second's, each with all that comes behind it.
    #[test]
    fn refusals_of_joining() {
        let all = all_met();
        let of_second = |it: &Met| it.refused().is_some_and(|(which, number, _)| which == Second && number >= EMPTY);
        assert!(all.iter().all(|it| it.refused().is_none_or(|(_, number, _)| number < EMPTY) || of_second(it)));
        let met = counted(&all, |it| {
            let [thirteen, ten] = [SIZES_DIFFER, EMPTY].map(|number| it.is_refused_with(number));
            let sizes = it.units().map(|units| units.map(|unit| (unit.n, unit.m)));
            let other = |n, m| sizes.is_some_and(|[a, b]| (a.0 != b.0, a.1 != b.1) == (n, m));
            let place = it.refused().map_or(0, |(.., place)| place);
            let [first, second] = [0, 1].map(|i| it.is_empty(i));
            vec![
                ("other inputs", thirteen && other(true, false)),
                ("other wires", thirteen && other(false, true)),
                ("other inputs and wires", thirteen && other(true, true)),
                ("other sizes, of five or six", thirteen && sizes.is_some_and(|[a, b]| a.0 > 4 || b.0 > 4)),
                ("other sizes, and no value in the first", thirteen && first && !second),
                ("other sizes, and no value in the second", thirteen && second && !first),
                ("other sizes, and no value in either", thirteen && second && first),
                ("other sizes in no bytes", thirteen && it.room == 0),
                ("no value in the first", ten && first && !second),
                ("no value in the second", ten && second && !first),
                ("no value in either", ten && first && second),
                ("no value in both together", ten && !first && !second),
                ("no value on two patterns or more", ten && it.empty_patterns() > 1),
                ("no value past the first pattern", ten && place > 0),
                ("no value on a high pattern", ten && place > 31),
                ("no value where the first is impossible", ten && !first && !second && it.is_impossible_in(0, place)),
                ("no value where the second is impossible", ten && !first && !second && it.is_impossible_in(1, place)),
                ("no value in no bytes", ten && it.room == 0),
                ("a byte too few", it.is_refused_with(SHORT_BUFFER) && it.room + 1 == place),
                ("no bytes", it.is_refused_with(SHORT_BUFFER) && it.room == 0),
                ("too few, and stopped", it.is_refused_with(SHORT_BUFFER) && it.budget == 0),
                ("just enough", it.found().is_some() && it.need() == Some(it.room)),
                ("a byte more", it.found().is_some() && it.need().is_some_and(|need| need + 1 == it.room)),
            ]
        });
        hold_counts(
            &met,
            &[
                ("other inputs", 50),
                ("other wires", 50),
                ("other inputs and wires", 50),
                ("other sizes, of five or six", 10),
                ("other sizes, and no value in the first", 30),
                ("other sizes, and no value in the second", 30),
                ("other sizes, and no value in either", 20),
                ("other sizes in no bytes", 30),
                ("no value in the first", 40),
                ("no value in the second", 40),
                ("no value in either", 30),
                ("no value in both together", 150),
                ("no value on two patterns or more", 80),
                ("no value past the first pattern", 200),
                ("no value on a high pattern", 5),
                ("no value where the first is impossible", 15),
                ("no value where the second is impossible", 15),
                ("no value in no bytes", 80),
                ("a byte too few", 60),
                ("no bytes", 100),
                ("too few, and stopped", 20),
                ("just enough", 80),
                ("a byte more", 30),
            ],
        );
    }

    /// Each sheet's own cells, where its own search ends.
    fn own_cells(it: &Met) -> Option<[u32; 2]> {
        let mut own = [0; 2];
        for (cells, unit) in own.iter_mut().zip(it.units()?) {
            let r = of_unit(unit).ok()?;
            let answer = fast::search(Board::Tree, r.n, &r.sets, 300);
            *cells = Some(answer.cells).filter(|_| !answer.stopped)?;
        }
        Some(own)
    }

    /// What is found: at every size, stopped or best, with more cells than either
    /// sheet has by itself, and never with fewer.
    #[test]
    fn quotes_of_every_make() {
        let mut sizes = [[0; 5]; 7];
        let mut met = [0; 8];
        for it in all_met() {
            let (Some(answer), Some([first, _])) = (it.found(), it.units()) else { continue };
            sizes[first.n as usize][first.m as usize] += 1;
            let own = own_cells(&it);
            assert!(answer.stopped || own.is_none_or(|own| own.iter().all(|&own| own <= answer.cells)), "{own:?}");
            let r = join(first, it.units().expect("read")[1]).expect("found");
            let one_more = |budget: u32| fast::search(Board::Tree, r.n, &r.sets, budget + 1);
            for (met, is) in met.iter_mut().zip([
                !answer.stopped && own.is_some_and(|own| own.iter().all(|&own| own < answer.cells)),
                !answer.stopped && own.is_some_and(|own| own[0] != own[1] && own.contains(&answer.cells)),
                answer.visits > 0 && !answer.stopped,
                answer.visits > 0 && answer.stopped,
                answer.visits > 0 && answer.visits == it.budget && !answer.stopped,
                answer.stopped && it.budget < 60 && !one_more(it.budget).stopped,
                it.has_impossible_in(0) && answer.cells > 0,
                it.has_impossible_in(1) && answer.cells > 0,
            ]) {
                *met += usize::from(is);
            }
        }
        assert!((1..=4).all(|n| sizes[n][1..].iter().all(|&met| met >= 10)), "{sizes:?}");
        assert!((5..=6).all(|n| sizes[n][1..].iter().all(|&met| met >= 4)), "{sizes:?}");
        let least = [180, 300, 250, 150, 20, 20, 200, 200];
        assert!(met.iter().zip(least).all(|(&met, least)| met >= least), "{met:?}");
    }

    /// Sheets that say the same are quoted alike, and as the one sheet alone is.
    #[test]
    fn sheets_that_say_the_same_are_one() {
        let mut planner = Planner { board: Board::Tree, rng: Random::new(154) };
        let mut picker = Picker::new();
        let mut accepted = 0;
        for i in 0..200 {
            let cases = planner.sheets_that_say_the_same(if i % 10 == 0 { six::sizes } else { two_units::sizes });
            let replies: Vec<String> = cases.iter().map(|case| case.reply(&mut picker).text).collect();
            assert!(replies.iter().all(|reply| *reply == replies[0]), "{cases:?}");
            let Case::Joined { budget, room, first, .. } = &cases[0] else { panic!("no joined quote") };
            let alone = Case::Quote { board: Board::Tree, budget: *budget, room: *room, sheet: first.clone() };
            let alone = alone.reply(&mut picker).text;
            let of_second = if alone.starts_with("refused") { format!("second {alone}") } else { alone };
            assert_eq!(replies[0], of_second);
            accepted += usize::from(replies[0].starts_with("cells"));
        }
        assert!(accepted > 100, "{accepted}");
    }

    #[test]
    fn nothing_is_too_long() {
        for it in all_met() {
            assert!(it.sheets.iter().all(|sheet| sheet.len() <= LONGEST) && it.room <= MOST_ROOM);
        }
    }
}
