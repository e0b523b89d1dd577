//! All cases, in order: the bench rows, then what is drawn from the seed. What
//! a request of document 02 adds comes behind what was there before it, so that
//! earlier cases stay as they are.

mod clean;
mod joined;
mod selectors;
mod shared;
mod six;
mod straight;

use crate::board::Board;
use crate::case::Case;
use crate::cells::Tables;
use crate::draw::boards;
use crate::draw::damage::damage;
use crate::draw::relations::{half_dense, junk, junk_past_the_last, malformed, sets, thin};
use crate::draw::sheet_faults::{plant, soup};
use crate::draw::sheets::{draft, draft_of, hard_draft, hard_draft_of, Draft};
use crate::draw::{bad_size, high_bit, sizes, stages, NARROW};
use crate::fast::Answer;
use crate::random::Random;
use crate::relation::{handed, of_unit, Relation, Sets};
use crate::rows::rows;
use crate::sheet::{self, MOST_PATTERNS};

const SEED: u64 = 0x5EED_2013_0F57_A6E5;
/// Apart from the draw, for the sets that E5 added to earlier records.
const SEED_PAST_SIXTEEN: u64 = 0x0A57_51C7_EE45_E75D;

/// How many of each are drawn.
const GOOD_QUOTES: usize = 3_000;
const HARD_QUOTES: usize = 1_300;
const LONG_QUOTES: usize = 24;
const FAULTY_QUOTES: usize = 3_600;
const DAMAGED_QUOTES: usize = 1_700;
const AUDITS: usize = 4_800;
const SEARCHES: usize = 5_000;
const LONG_SEARCHES: usize = 110;
const STOPPED_SEARCHES: usize = 8;
const MALFORMED_SEARCHES: usize = 1_300;
const WRITES: usize = 3_000;
const READS: usize = 2_400;
const FAULTY_READS: usize = 3_200;

/// The longest sheet or stage of a case, but for a few stages of long lists, and
/// for what E5 brought.
const LONGEST: usize = 400;
/// The longest stage of up to four inputs on either board, and the longest buffer
/// that was lent before E5.
const LONGEST_NARROW: [usize; 2] = [196, 200];
const MOST_NARROW_ROOM: usize = 255;

/// A search that takes more visits than this is long. There are few of them,
/// so that all cases run in seconds.
const LONG: u32 = 250;
/// No search among the cases takes more visits than this.
const MOST_VISITS: u32 = 30_000;

pub fn cases() -> Vec<Case> {
    let mut cases: Vec<Case> = rows().into_iter().map(|(_, case)| case).collect();
    let mut planner = Planner { board: Board::Tree, rng: Random::new(SEED) };
    let mut many = |count: usize, draw: &mut dyn FnMut(&mut Planner) -> Case| {
        for _ in 0..count {
            cases.push(draw(&mut planner));
        }
    };
    many(GOOD_QUOTES, &mut Planner::good_quote);
    many(HARD_QUOTES, &mut Planner::hard_quote);
    many(LONG_QUOTES, &mut Planner::long_quote);
    many(FAULTY_QUOTES, &mut Planner::faulty_quote);
    many(DAMAGED_QUOTES, &mut Planner::damaged_quote);
    many(AUDITS, &mut Planner::audit);
    many(SEARCHES, &mut Planner::search);
    many(LONG_SEARCHES, &mut Planner::long_search);
    many(STOPPED_SEARCHES, &mut Planner::stopped_search);
    many(MALFORMED_SEARCHES, &mut Planner::malformed_search);
    many(WRITES, &mut Planner::write);
    many(READS, &mut Planner::read);
    many(FAULTY_READS, &mut Planner::faulty_read);
    cases.extend(clean::cases(&mut planner));
    cases.extend(shared::cases(&mut planner));
    cases.extend(straight::cases(&mut planner));
    fill_past_sixteen(&mut cases);
    cases.extend(six::cases(&mut planner));
    cases.extend(joined::cases(&mut planner));
    cases
}

/// With E5 a relation brings 64 sets. What comes behind the sixteen of earlier
/// records is not read, where it has no more than four inputs: anything stands
/// there. (Some of those that were drawn to be refused for their inputs have five
/// or six; those are in range now, and these sets are theirs.)
fn fill_past_sixteen(cases: &mut [Case]) {
    let mut rng = Random::new(SEED_PAST_SIXTEEN);
    for case in cases {
        if let Case::Search { sets, .. } = case {
            junk(&mut rng, &mut sets[NARROW..]);
        }
    }
}

fn well_defined(n: u8, m: u8, sets: &Sets) -> Relation {
    handed(Board::Tree, n, m, sets).expect("drawn to be well defined")
}

struct Planner {
    /// Which board the calls are for.
    board: Board,
    rng: Random,
}

impl Planner {
    // How long a search is, and what it finds: for the fewest selectors.

    fn search_of(&self, r: &Relation, budget: u32) -> Answer {
        selectors::search(self.board, r.n, &r.sets, budget)
    }

    /// Whether the search does not end with its first answer.
    fn is_open(&self, r: &Relation) -> bool {
        self.search_of(r, 1).visits > 0
    }

    // Budgets and buffers.

    /// Any budget, for input that is refused.
    fn any_budget(&mut self) -> u32 {
        self.rng.of(&[0, 1, 2, 10_000, u32::MAX])
    }

    /// A budget for a relation: 0, 1, few, many, or around what a search for the
    /// fewest selectors takes.
    fn budget(&mut self, r: &Relation) -> u32 {
        let visits = self.search_of(r, LONG + 1).visits;
        let budget = match self.rng.below(12) {
            0 => 0,
            1 => 1,
            2 => self.rng.within(2, 9) as u32,
            3 => self.rng.within(10, 60) as u32,
            4 | 5 => 10_000,
            6 | 7 => u32::MAX,
            8 => visits,
            9 => visits.saturating_sub(1),
            10 => visits + 1,
            _ => self.rng.below(visits as usize + 1) as u32,
        };
        if visits.min(budget) > LONG {
            return self.rng.within(0, 60) as u32;
        }
        budget
    }

    /// A buffer length around a stage's.
    fn room(&mut self, need: usize) -> u16 {
        self.room_around(need, LONGEST_NARROW[self.board as usize], MOST_NARROW_ROOM) as u16
    }

    /// A buffer length around the need; `longest` is the longest need there is.
    fn room_around(&mut self, need: usize, longest: usize, most: usize) -> usize {
        let rng = &mut self.rng;
        let room = match rng.below(12) {
            0..=3 => most,
            4 | 5 => need,
            6 => need - 1,
            7 => need + 1,
            8 => rng.within(need.saturating_sub(4), need + 4),
            9 => rng.below(need),
            10 => rng.within(need, most),
            _ => rng.of(&[0, 1, need / 2, longest]),
        };
        room.min(most)
    }

    // Quotes.

    fn good_quote(&mut self) -> Case {
        let sheet = draft(&mut self.rng).sheet(&mut self.rng);
        self.quote_of(sheet)
    }

    /// Parities, and mostly such that the first answer is not the end of it.
    fn hard_quote(&mut self) -> Case {
        loop {
            let sheet = hard_draft(&mut self.rng).sheet(&mut self.rng);
            let formed = sheet::read(&sheet).and_then(|unit| of_unit(&unit));
            if formed.is_ok_and(|r| self.is_open(&r)) || self.rng.once_in(6) {
                return self.quote_of(sheet);
            }
        }
    }

    /// A quote of many visits by selectors, with the program's budget or a larger
    /// one.
    fn long_quote(&mut self) -> Case {
        loop {
            let (n, m) = (self.rng.of(&[3, 4]), self.rng.of(&[3, 4]));
            let sheet = hard_draft_of(&mut self.rng, n, m).sheet(&mut self.rng);
            let Ok(r) = sheet::read(&sheet).and_then(|unit| of_unit(&unit)) else { continue };
            if (LONG + 1..=10_000).contains(&self.search_of(&r, MOST_VISITS).visits) {
                let budget = self.rng.of(&[10_000, u32::MAX]);
                return Case::Quote { board: self.board, budget, room: MOST_NARROW_ROOM as u16, sheet };
            }
        }
    }

    /// A quote of any sheet, good or not.
    fn quote_of(&mut self, sheet: Vec<u8>) -> Case {
        assert!(sheet.len() <= LONGEST);
        match sheet::read(&sheet).and_then(|unit| of_unit(&unit)) {
            Ok(r) => {
                let budget = self.budget(&r);
                let selectors = self.search_of(&r, budget).cells;
                let room = self.room(self.board.length(r.m, selectors));
                Case::Quote { board: self.board, budget, room, sheet }
            }
            Err(_) => {
                let (budget, room) = (self.any_budget(), self.rng.of(&[0, 1, 16, 196]));
                Case::Quote { board: self.board, budget, room, sheet }
            }
        }
    }

    /// A draft whose sheet is not long.
    fn short_draft(&mut self, inputs: &[u8]) -> Draft {
        loop {
            let n = self.rng.of(inputs);
            let m = self.rng.within(1, 4) as u8;
            let it = draft_of(&mut self.rng, n, m);
            if it.gates.len() <= 6 {
                return it;
            }
        }
    }

    /// A sheet with one fault or several.
    fn faulty_sheet(&mut self) -> Vec<u8> {
        loop {
            let mut numbers = vec![self.rng.within(1, 10) as u8];
            while self.rng.once_in(4) {
                numbers.push(self.rng.within(1, 10) as u8);
            }
            // Cutting leaves pieces that nothing more can be planted in, and
            // what comes after the end is put there last but one.
            numbers.sort_by_key(|&number| match number {
                1 => 2,
                4 => 1,
                _ => 0,
            });
            numbers.dedup();
            // More patterns where the place is a pattern.
            let inputs: &[u8] = if matches!(numbers[0], 9 | 10) { &[2, 3, 4, 4, 4] } else { &[1, 2, 3, 4] };
            let mut commands = self.short_draft(inputs).commands(&mut self.rng);
            for number in numbers {
                plant(&mut self.rng, number, &mut commands);
            }
            let sheet = commands.concat();
            if sheet.len() <= LONGEST {
                return sheet;
            }
        }
    }

    /// A sheet with faults, or commands without a plan.
    fn any_faulty_sheet(&mut self) -> Vec<u8> {
        if self.rng.once_in(12) {
            soup(&mut self.rng)
        } else {
            self.faulty_sheet()
        }
    }

    fn faulty_quote(&mut self) -> Case {
        let sheet = self.any_faulty_sheet();
        self.quote_of(sheet)
    }

    fn damaged_quote(&mut self) -> Case {
        let sheet = self.short_draft(&[1, 2, 3, 4]).sheet(&mut self.rng);
        let hurt = damage(&mut self.rng, &sheet);
        self.quote_of(hurt)
    }

    // Audits.

    fn audit(&mut self) -> Case {
        let sheet = match self.rng.below(12) {
            0 => self.faulty_sheet(),
            1 => {
                let sheet = self.short_draft(&[1, 2, 3, 4]).sheet(&mut self.rng);
                damage(&mut self.rng, &sheet)
            }
            _ => self.short_draft(&[1, 2, 3, 4]).sheet(&mut self.rng),
        };
        let stage = match sheet::read(&sheet).and_then(|unit| of_unit(&unit)) {
            Ok(r) => self.stage_for(&r),
            Err(_) => {
                let (n, m) = sizes(&mut self.rng);
                self.any_stage(n, m)
            }
        };
        Case::Audit { board: self.board, sheet, stage }
    }

    /// A stage that fits the relation, nearly fits, or does not.
    fn stage_for(&mut self, r: &Relation) -> Vec<u8> {
        let (n, m) = (r.n as u8, r.m as u8);
        match self.rng.below(12) {
            0 | 1 => {
                let found = self.search_of(r, 20);
                self.board.bytes_of(r.n, r.m, &found.tables)
            }
            2..=4 => {
                let tables = self.compatible(r);
                boards::padded(self.board, &mut self.rng, n, m, &tables)
            }
            5 | 6 => {
                let tables = self.compatible(r);
                boards::turned(self.board, &mut self.rng, n, m, &tables)
            }
            7 => {
                // Other sizes.
                let (n, m) = match self.rng.below(3) {
                    0 => (n, m % 4 + 1),
                    1 => (n % 4 + 1, m),
                    _ => sizes(&mut self.rng),
                };
                boards::stage(self.board, &mut self.rng, n, m)
            }
            _ => self.any_stage(n, m),
        }
    }

    /// Any function compatible with the relation.
    fn compatible(&mut self, r: &Relation) -> Tables {
        let mut tables = [0; 4];
        for p in 0..r.patterns() {
            let values: Vec<u64> = (0..16).filter(|v| r.sets[p] >> v & 1 == 1).collect();
            let v = self.rng.of(&values);
            for (j, table) in tables.iter_mut().enumerate() {
                *table |= (v >> j & 1) << p;
            }
        }
        tables
    }

    /// A stage of those sizes: good, with a fault, or damaged.
    fn any_stage(&mut self, n: u8, m: u8) -> Vec<u8> {
        let (board, rng) = (self.board, &mut self.rng);
        match rng.below(4) {
            0 => boards::stage(board, rng, n, m),
            1 => boards::damaged(board, rng, n, m),
            _ => boards::faulty(board, rng, n, m),
        }
    }

    // Searches.

    fn search(&mut self) -> Case {
        let (n, m) = sizes(&mut self.rng);
        let mut drawn = sets(&mut self.rng, n, m);
        // Half of those that end with the first answer are drawn again.
        let mut r = well_defined(n, m, &drawn);
        if !self.is_open(&r) && self.rng.once_in(2) {
            drawn = sets(&mut self.rng, n, m);
            r = well_defined(n, m, &drawn);
        }
        let budget = self.budget(&r);
        if self.rng.once_in(2) {
            junk_past_the_last(&mut self.rng, n, &mut drawn[..NARROW]);
        }
        Case::Search { board: self.board, n, m, budget, sets: drawn }
    }

    /// A search of many visits by selectors: to its end, one visit short of it, or
    /// neither.
    fn long_search(&mut self) -> Case {
        loop {
            let (n, m, sets) = if self.rng.once_in(3) {
                (4, 4, half_dense(&mut self.rng, 4, 4).sets)
            } else {
                let (n, m) = (self.rng.of(&[3, 4]), self.rng.of(&[3, 4]));
                (n, m, sets(&mut self.rng, n, m))
            };
            let r = well_defined(n, m, &sets);
            let probe = self.search_of(&r, MOST_VISITS);
            let whole = probe.visits;
            // Few of the longest.
            if probe.stopped || whole <= LONG || whole > 4_000 && !self.rng.once_in(4) {
                continue;
            }
            let any = self.rng.within(0, whole as usize) as u32;
            let budget = self.rng.of(&[u32::MAX, u32::MAX, u32::MAX, 10_000, 10_000, whole, whole - 1, any]);
            return Case::Search { board: self.board, n, m, budget, sets };
        }
    }

    /// A search that, by selectors, is stopped at 10,000 visits.
    fn stopped_search(&mut self) -> Case {
        loop {
            let mut sets = [0; MOST_PATTERNS];
            for set in &mut sets[..NARROW] {
                while *set == 0 {
                    *set = thin(&mut self.rng, 5);
                }
            }
            if self.search_of(&well_defined(4, 4, &sets), 10_000).stopped {
                return Case::Search { board: self.board, n: 4, m: 4, budget: 10_000, sets };
            }
        }
    }

    fn malformed_search(&mut self) -> Case {
        // Many patterns, for many places.
        let n = self.rng.of(&[1, 2, 3, 3, 4, 4, 4]);
        let m = self.rng.of(&[1, 2, 3, 4]);
        let (n, m, sets) = malformed(&mut self.rng, n, m);
        let budget = match handed(self.board, n, m, &sets) {
            Ok(r) => self.budget(&r),
            Err(_) => self.any_budget(),
        };
        Case::Search { board: self.board, n, m, budget, sets }
    }

    // Stages.

    fn write(&mut self) -> Case {
        let (mut n, mut m) = sizes(&mut self.rng);
        let mut tables = self.tables(n, m);
        let need = self.board.bytes_of(n.into(), m.into(), &tables).len();
        if self.rng.once_in(2) {
            // Past wire m-1 anything may stand.
            for table in tables.iter_mut().skip(m.into()) {
                *table = self.rng.word().into();
            }
        }
        let mut room = self.room(need);
        if self.rng.once_in(10) && n < 4 {
            for _ in 0..self.rng.of(&[1, 1, 2]) {
                let j = self.rng.below(m.into());
                tables[j] |= u64::from(high_bit(&mut self.rng, 1 << n));
            }
            room = self.rng.of(&[0, room, 255]);
        }
        if self.rng.once_in(12) {
            match self.rng.below(3) {
                0 => n = bad_size(&mut self.rng),
                1 => m = bad_size(&mut self.rng),
                _ => (n, m) = (bad_size(&mut self.rng), bad_size(&mut self.rng)),
            }
        }
        Case::Write { board: self.board, n, m, room, tables }
    }

    /// Tables for so many wires; 0 past them.
    fn tables(&mut self, n: u8, m: u8) -> Tables {
        let mut tables = [0; 4];
        for table in tables.iter_mut().take(m.into()) {
            *table = stages::table(&mut self.rng, n.into());
        }
        tables
    }

    fn read(&mut self) -> Case {
        let (n, m) = sizes(&mut self.rng);
        let stage = if self.rng.once_in(3) {
            let tables = self.tables(n, m);
            boards::padded(self.board, &mut self.rng, n, m, &tables)
        } else {
            boards::stage(self.board, &mut self.rng, n, m)
        };
        Case::Read { board: self.board, stage }
    }

    fn faulty_read(&mut self) -> Case {
        let (board, rng) = (self.board, &mut self.rng);
        let (n, m) = sizes(rng);
        let stage = match rng.below(16) {
            0 => boards::scrap(board, rng),
            1..=5 => boards::damaged(board, rng, n, m),
            _ => boards::faulty(board, rng, n, m),
        };
        assert!(stage.len() <= LONGEST);
        Case::Read { board, stage }
    }
}

#[cfg(test)]
mod tests {
    use super::*;
    use crate::case::read_records;
    use crate::check::Wide;
    use crate::joined::Which;
    use crate::refusal::TOO_LONG;
    use crate::tally::{tallied, NUMBERS};

    /// Every case holds; there are enough cases, and enough of every refusal
    /// that the calls have.
    #[test]
    fn every_case_holds() {
        let (tally, checked) = tallied();
        assert!(tally.cases() >= 20_000);
        for number in (0..NUMBERS).filter(|&number| number != TOO_LONG.into()) {
            assert!(tally.refusals(number) >= 100, "refusal {number}: {}", tally.refusals(number));
        }
        // What each call that a request added has, and at least how often; 0
        // is what it accepts.
        for (kind, numbers, least) in [
            (b'C', &[0, 1, 2, 3, 4, 5, 6, 7, 8, 9, 12][..], 50),
            (b'q', &[0, 1, 2, 3, 4, 5, 6, 7, 8, 9, 10, 12, 15], 10),
            (b'a', &[0, 1, 2, 3, 4, 5, 6, 7, 8, 9, 10, 11, 13], 3),
            (b's', &[0, 3, 10], 50),
            (b'w', &[0, 3, 12], 80),
            (b'r', &[0, 1, 2, 3, 4, 5, 6, 11], 80),
            (b'J', &[0, 1, 2, 3, 4, 5, 6, 7, 8, 9, 10, 12, 13], 70),
        ] {
            for number in 0..NUMBERS {
                let met = tally.refusals_of(kind, number);
                let met_enough = if numbers.contains(&number) { met >= least } else { met == 0 };
                assert!(met_enough, "refusal {number} of {}: {met}", char::from(kind));
            }
        }
        // Which of two sheets is named: the first where it is not read.
        for (which, numbers) in [(Which::First, &[][..]), (Which::Second, &[10, 12, 13])] {
            for number in 1..NUMBERS {
                let met = tally.refusals_naming(which, number);
                let is_told = number < 10 || numbers.contains(&number);
                assert!(if is_told { met >= 30 } else { met == 0 }, "{number} of the {}: {met}", which.word());
            }
        }
        assert!(checked.joined > 1_500 && checked.joined_empty > 500 && checked.joined_left == 0);
        assert!(checked.held[0] > 5_000 && checked.held[1] > 1_500);
        let Wide { sums, parts, stopped_left, best_left, every_function } = checked.wide;
        assert!(sums > 400 && parts > 200 && stopped_left < 200 && best_left == 0 && every_function > 400);
        assert!(checked.copies > 1_500 && checked.stages > 5_000 && checked.written > 10_000);
    }

    #[test]
    fn the_draw_is_fixed_and_the_records_tell_it() {
        let cases = cases();
        let mut input = Vec::new();
        for case in &cases {
            case.record(&mut input);
        }
        assert_eq!(read_records(&input), cases);
        assert_eq!(self::cases(), cases);
    }

    /// Where a relation has fewer than six inputs, something stands past its last
    /// pattern that would be refused if it were read, and is not.
    #[test]
    fn sets_past_the_last_pattern() {
        let mut met = [[0; 7]; 2];
        for case in cases() {
            let Case::Search { board, n: n @ 1..=6, m: m @ 1..=4, sets, .. } = case else { continue };
            let mut cut = sets;
            cut[1 << n..].fill(1);
            assert_eq!(handed(board, n, m, &sets), handed(board, n, m, &cut));
            met[board as usize][usize::from(n)] += usize::from(sets[1 << n..].contains(&0));
        }
        assert!(met[0][1..=5].iter().all(|&met| met >= 150), "{met:?}");
        assert!(met[1][1..=4].iter().all(|&met| met >= 150), "{met:?}");
    }
}
