//! The cases of document 02, E5, behind all others: five and six inputs on the
//! tree board, and what the board that shares selectors, which has at most four
//! inputs, makes of them. No search is run to draw them, so that they stay as they
//! are whatever is counted.

use super::Planner;
use crate::board::Board;
use crate::case::{Case, MOST_ROOM};
use crate::clean::{copy, LONGEST_COPY};
use crate::draw::damage::damage;
use crate::draw::limits::{limits_leaving, permitted};
use crate::draw::relations::{junk_past_the_last, spoilt};
use crate::draw::sheet_faults::{plant_up_to, soup_up_to};
use crate::draw::sheets::{draft_of, hard_draft_of, longest_draft_of, Draft};
use crate::draw::six;
use crate::draw::{diagrams, size_above, stages, too_large};
use crate::relation::of_unit;
use crate::rows::six::six_rows;
use crate::sheet::{self, MOST_INPUTS};
use crate::stage::LONGEST_STAGE;

/// How many of each are drawn.
const QUOTES: usize = 300;
const EXACT_QUOTES: usize = 60;
const LONGEST_QUOTES: usize = 4;
const LONG_QUOTES: usize = 60;
const PAST_QUOTES: usize = 14;
const FAULTY_QUOTES: usize = 220;
const DAMAGED_QUOTES: usize = 120;
const AUDITS: usize = 320;
const SEARCHES: usize = 400;
const SPOILT_SEARCHES: usize = 160;
const LONG_SEARCHES: usize = 16;
const WRITES: usize = 240;
const LONGEST_WRITES: usize = 8;
const TOO_LARGE_WRITES: usize = 40;
const WRITTEN_READS: usize = 60;
const READS: usize = 180;
const FAULTY_READS: usize = 220;
const DAMAGED_READS: usize = 60;
const COPIES: usize = 160;
const TWINS: usize = 50;
const LONGEST_COPIES: usize = 12;
const FAULTY_COPIES: usize = 90;
const DAMAGED_COPIES: usize = 40;
/// Relations that are searched with each of the smallest budgets.
const SWEPT: usize = 24;
const BUDGETS: u32 = 12;
/// On the board that shares selectors.
const SHARED_QUOTES: usize = 150;
const SHARED_FAULTY_QUOTES: usize = 70;
const SHARED_DAMAGED_QUOTES: usize = 30;
const SHARED_AUDITS: usize = 150;
const SHARED_SEARCHES: usize = 90;
const SHARED_WRITES: usize = 60;
const SHARED_TOO_LARGE_WRITES: usize = 14;
const SHARED_READS: usize = 90;

/// The longest sheet of these cases.
const LONGEST: usize = 700;
/// The program's budget.
const PROGRAM: u32 = 10_000;

pub fn cases(planner: &mut Planner) -> Vec<Case> {
    let mut cases: Vec<Case> = six_rows().into_iter().map(|(_, case)| case).collect();
    planner.board = Board::Tree;
    let mut many = |count: usize, draw: &mut dyn FnMut(&mut Planner) -> Vec<Case>| {
        for _ in 0..count {
            cases.extend(draw(planner));
        }
    };
    many(QUOTES, &mut |it| vec![it.six_quote()]);
    many(EXACT_QUOTES, &mut |it| vec![it.exact_six_quote()]);
    many(LONGEST_QUOTES, &mut |it| it.longest_six_quotes());
    many(LONG_QUOTES, &mut |it| vec![it.long_six_quote()]);
    many(PAST_QUOTES, &mut |it| it.past_six_quotes());
    many(FAULTY_QUOTES, &mut |it| vec![it.faulty_six_quote()]);
    many(DAMAGED_QUOTES, &mut |it| vec![it.damaged_six_quote()]);
    many(AUDITS, &mut |it| vec![it.six_audit()]);
    many(SEARCHES, &mut |it| vec![it.six_search()]);
    many(SWEPT, &mut |it| it.swept_six_searches());
    many(SPOILT_SEARCHES, &mut |it| vec![it.spoilt_six_search()]);
    many(LONG_SEARCHES, &mut |it| vec![it.long_six_search()]);
    many(WRITES, &mut |it| vec![it.six_write()]);
    many(LONGEST_WRITES, &mut |it| it.longest_six_writes());
    many(TOO_LARGE_WRITES, &mut |it| it.too_large_writes(Board::Tree));
    many(WRITTEN_READS, &mut |it| it.written_six_read());
    many(READS, &mut |it| vec![it.six_read()]);
    many(FAULTY_READS, &mut |it| vec![it.faulty_six_read()]);
    many(DAMAGED_READS, &mut |it| vec![it.damaged_six_read()]);
    many(COPIES, &mut |it| vec![it.six_copy()]);
    many(TWINS, &mut |it| it.six_twins());
    many(LONGEST_COPIES, &mut |it| vec![it.longest_six_copy()]);
    many(FAULTY_COPIES, &mut |it| vec![it.faulty_six_copy()]);
    many(DAMAGED_COPIES, &mut |it| vec![it.damaged_six_copy()]);
    many(SHARED_QUOTES, &mut |it| vec![it.shared_six_quote()]);
    many(SHARED_FAULTY_QUOTES, &mut |it| vec![it.faulty_six_quote().on(Board::Shared)]);
    many(SHARED_DAMAGED_QUOTES, &mut |it| vec![it.damaged_six_quote().on(Board::Shared)]);
    many(SHARED_AUDITS, &mut |it| vec![it.shared_six_audit()]);
    many(SHARED_SEARCHES, &mut |it| vec![it.shared_six_search()]);
    many(SHARED_WRITES, &mut |it| vec![it.shared_six_write()]);
    many(SHARED_TOO_LARGE_WRITES, &mut |it| it.too_large_writes(Board::Shared));
    many(SHARED_READS, &mut |it| vec![it.shared_six_read()]);
    cases
}

/// A byte too few, just enough, a byte more, and as many as there may be.
fn rooms_about(need: usize) -> [u16; 4] {
    [need - 1, need, need + 1, MOST_ROOM].map(|room| room as u16)
}

impl Planner {
    // Budgets and buffers.

    /// None, one, few, or some; with one wire, which takes no visit, any.
    fn six_budget(&mut self, m: u8) -> u32 {
        let few = self.rng.within(2, 9) as u32;
        let some = self.rng.within(10, 120) as u32;
        let most = if m == 1 { u32::MAX } else { 250 };
        self.rng.of(&[0, 0, 1, 1, few, some, most, most])
    }

    /// Room for any stage, or often too little of it.
    fn six_room(&mut self) -> u16 {
        let any = self.rng.below(MOST_ROOM + 1);
        let longest = LONGEST_STAGE as u16;
        self.rng.of(&[MOST_ROOM as u16, MOST_ROOM as u16, longest, longest, longest, any as u16, 0, 16])
    }

    /// A length around what is needed.
    fn six_room_around(&mut self, need: usize, longest: usize) -> u16 {
        self.room_around(need, longest, MOST_ROOM) as u16
    }

    // Sheets.

    fn six_draft(&mut self) -> Draft {
        let (n, m) = six::sizes(&mut self.rng);
        six::draft(&mut self.rng, n, m)
    }

    fn six_sheet(&mut self) -> Vec<u8> {
        loop {
            let sheet = self.six_draft().sheet(&mut self.rng);
            if sheet.len() <= LONGEST {
                return sheet;
            }
        }
    }

    /// A sheet with one fault or two, or commands without a plan.
    fn faulty_six_sheet(&mut self) -> Vec<u8> {
        if self.rng.once_in(16) {
            let sizes = six::sizes(&mut self.rng);
            return soup_up_to(&mut self.rng, MOST_INPUTS, sizes);
        }
        loop {
            let mut numbers = vec![self.rng.within(1, 10) as u8];
            if self.rng.once_in(4) {
                numbers.push(self.rng.within(1, 10) as u8);
            }
            // Cutting comes last, and what is behind the end last but one.
            numbers.sort_by_key(|&number| match number {
                1 => 2,
                4 => 1,
                _ => 0,
            });
            numbers.dedup();
            let mut commands = self.six_draft().commands(&mut self.rng);
            for number in numbers {
                plant_up_to(&mut self.rng, MOST_INPUTS, number, &mut commands);
            }
            let sheet = commands.concat();
            if sheet.len() <= LONGEST {
                return sheet;
            }
        }
    }

    fn damaged_six_sheet(&mut self) -> Vec<u8> {
        let sheet = self.six_sheet();
        damage(&mut self.rng, &sheet)
    }

    // Quotes.

    /// A quote of any sheet, good or not, with a budget that is soon used up.
    fn six_quote_of(&mut self, sheet: Vec<u8>) -> Case {
        let (budget, room) = match sheet::read(&sheet).and_then(|unit| of_unit(&unit)) {
            Ok(r) => (self.six_budget(r.m as u8), self.six_room()),
            Err(_) => (self.any_budget(), self.rng.of(&[0, 1, 16, LONGEST_STAGE as u16])),
        };
        Case::Quote { board: self.board, budget, room, sheet }
    }

    fn six_quote(&mut self) -> Case {
        let sheet = self.six_sheet();
        self.six_quote_of(sheet)
    }

    /// The present stage is all that fits, so its length is the quote's: the
    /// buffer is around it.
    fn exact_six_quote(&mut self) -> Case {
        let (n, m) = six::sizes(&mut self.rng);
        let tables = six::tables(&mut self.rng, n, m);
        let need = self.board.bytes_of(n.into(), m.into(), &tables).len();
        let room = self.six_room_around(need, LONGEST_STAGE);
        let sheet = six::draft_of_tables(n, m, &tables).sheet(&mut self.rng);
        let budget = self.any_budget();
        Case::Quote { board: self.board, budget, room, sheet }
    }

    /// The same with as many selectors as there may be: in too few bytes, in just
    /// enough, and in more.
    fn longest_six_quotes(&mut self) -> Vec<Case> {
        let tables = six::longest_tables(&mut self.rng, 6, 4);
        let sheet = six::draft_of_tables(6, 4, &tables).sheet(&mut self.rng);
        let budget = self.any_budget();
        let of_room = |room| Case::Quote { board: self.board, budget, room, sheet: sheet.clone() };
        rooms_about(LONGEST_STAGE).map(of_room).to_vec()
    }

    /// Past what five or six inputs have: a command on the first pattern that is
    /// not there, or a later one; seven inputs or more; a row or all values of the
    /// last pattern, or of one among the last, gone.
    fn past_six_quotes(&mut self) -> Vec<Case> {
        let draft = self.six_draft();
        let (n, m) = (draft.n, draft.m);
        let commands = draft.commands(&mut self.rng);
        let past = too_large(&mut self.rng, 1 << n);
        let late = self.rng.within(1 << (n - 1), (1 << n) - 1) as u8;
        let late = self.rng.of(&[late, (1 << n) - 1]);
        let mut with = |command: Vec<u8>| {
            let at = self.rng.within(1, commands.len() - 1);
            let mut more = commands.clone();
            more.insert(at, command);
            more
        };
        let mut all = vec![
            with(vec![0x02, past, m - 1]),
            with(vec![0x03, past]),
            with(vec![0x06, past, 1, 0]),
            with(vec![0x06, late, 0, 0]),
            commands.clone(),
            commands.clone(),
        ];
        all[4][0][1] = size_above(&mut self.rng, MOST_INPUTS);
        all[5].retain(|it| !matches!(it[..], [0x02 | 0x03, p, ..] if p == late));
        all.into_iter().map(|commands| self.six_quote_of(commands.concat())).collect()
    }

    /// The program's budget for a unit of many inputs and wires: it is often used
    /// up.
    fn long_six_quote(&mut self) -> Case {
        let m = self.rng.of(&[3, 4, 4, 4]);
        let draft = match self.rng.below(3) {
            0 => draft_of(&mut self.rng, 6, m),
            1 => hard_draft_of(&mut self.rng, 6, m),
            _ => six::narrowed_draft(&mut self.rng, 6, m),
        };
        let sheet = draft.sheet(&mut self.rng);
        Case::Quote { board: self.board, budget: PROGRAM, room: LONGEST_STAGE as u16, sheet }
    }

    fn faulty_six_quote(&mut self) -> Case {
        let sheet = self.faulty_six_sheet();
        self.six_quote_of(sheet)
    }

    fn damaged_six_quote(&mut self) -> Case {
        let sheet = self.damaged_six_sheet();
        self.six_quote_of(sheet)
    }

    // Audits.

    /// The present stage, as small as it can be or not, one that is nearly it, one
    /// of other sizes, any, with a fault, or damaged; now and then of a sheet that
    /// is refused.
    fn six_audit(&mut self) -> Case {
        let (n, m) = six::sizes(&mut self.rng);
        let tables = six::tables(&mut self.rng, n, m);
        let rng = &mut self.rng;
        let stage = match rng.below(12) {
            0 | 1 => self.board.bytes_of(n.into(), m.into(), &tables),
            2..=4 => stages::padded(rng, n, m, &tables),
            5 | 6 => {
                let mut stage = stages::padded(rng, n, m, &tables);
                stages::turn_a_constant(rng, &mut stage);
                stage
            }
            7 => {
                let (n, m) = rng.of(&[(11 - n, m), (n, m % 4 + 1), (4, m)]);
                six::stage(rng, n, m)
            }
            8 => six::stage(rng, n, m),
            9 => {
                let stage = six::stage(rng, n, m);
                damage(rng, &stage)
            }
            _ => six::faulty_stage(rng, n, m),
        };
        let sheet = match self.rng.below(12) {
            0 => self.faulty_six_sheet(),
            1 => self.damaged_six_sheet(),
            2..=4 => six::draft_of_tables(n, m, &tables).sheet(&mut self.rng),
            _ => crate::draw::straight::draft_of_stage(&mut self.rng, n, m, &tables).sheet(&mut self.rng),
        };
        Case::Audit { board: self.board, sheet, stage }
    }

    // Searches.

    /// With anything past the last pattern of five inputs.
    fn six_search(&mut self) -> Case {
        let (n, m) = six::sizes(&mut self.rng);
        let (sets, free) = match self.rng.below(8) {
            // Nothing is to be visited: any budget.
            0 => (six::products(&mut self.rng, n, m), true),
            1 | 2 => (six::nearly_one_stage(&mut self.rng, n, m), false),
            _ => (six::sets(&mut self.rng, n, m), false),
        };
        let mut sets = sets;
        junk_past_the_last(&mut self.rng, n, &mut sets);
        let budget = if free { self.any_budget() } else { self.six_budget(m) };
        Case::Search { board: self.board, n, m, budget, sets }
    }

    /// One relation with every small budget.
    fn swept_six_searches(&mut self) -> Vec<Case> {
        let (n, m) = (self.rng.of(&[5, 6]), self.rng.within(2, 4) as u8);
        let sets = six::nearly_one_stage(&mut self.rng, n, m);
        (0..BUDGETS).map(|budget| Case::Search { board: self.board, n, m, budget, sets }).collect()
    }

    fn spoilt_six_search(&mut self) -> Case {
        let (n, m) = six::sizes(&mut self.rng);
        let sets = six::sets(&mut self.rng, n, m);
        let (n, m, sets) = spoilt(&mut self.rng, (n, m), sets, MOST_INPUTS);
        Case::Search { board: self.board, n, m, budget: self.six_budget(2), sets }
    }

    fn long_six_search(&mut self) -> Case {
        let (n, m) = self.rng.of(&[(5, 4), (6, 3), (6, 4), (6, 4)]);
        let sets = six::sets(&mut self.rng, n, m);
        Case::Search { board: self.board, n, m, budget: PROGRAM, sets }
    }

    // Stages.

    /// Tables past the wires are any; now and then the sizes are out of range.
    fn six_write(&mut self) -> Case {
        let (mut n, mut m) = six::sizes(&mut self.rng);
        let mut tables = six::tables(&mut self.rng, n, m);
        let need = self.board.bytes_of(n.into(), m.into(), &tables).len();
        let room = self.six_room_around(need, LONGEST_STAGE);
        for table in tables.iter_mut().skip(m.into()) {
            *table = self.rng.bits();
        }
        if self.rng.once_in(10) {
            match self.rng.below(2) {
                0 => n = size_above(&mut self.rng, MOST_INPUTS),
                _ => m = size_above(&mut self.rng, 4),
            }
        }
        Case::Write { board: self.board, n, m, room, tables }
    }

    /// As many selectors as there may be, in too few bytes, in just enough, and in
    /// more.
    fn longest_six_writes(&mut self) -> Vec<Case> {
        let (n, m) = self.rng.of(&[(6, 4), (6, 4), (6, 3), (5, 4)]);
        let tables = six::longest_tables(&mut self.rng, n, m);
        let need = self.board.bytes_of(n.into(), m.into(), &tables).len();
        rooms_about(need).map(|room| Case::Write { board: self.board, n, m, room, tables }).to_vec()
    }

    /// Each wire in turn with a bit past the last pattern, the first or a later one;
    /// those behind it at times too, and such as are not read.
    fn too_large_writes(&mut self, board: Board) -> Vec<Case> {
        let n = match board {
            Board::Tree => self.rng.of(&[1, 2, 3, 4, 5, 5, 5, 5]),
            Board::Shared => self.rng.within(1, 4) as u8,
        };
        let m = self.rng.of(&[1, 2, 3, 4, 4, 4]);
        let tables = six::tables(&mut self.rng, n, m);
        let room = self.six_room();
        let mut past = || {
            let (least, any) = (1 << n, self.rng.within(1 << n, 63));
            1 << self.rng.of(&[least, any, 63])
        };
        let mut cases = Vec::new();
        for wire in 0..4 {
            let mut tables = tables;
            tables[wire] |= past();
            if wire == 1 {
                tables[3] |= past();
            }
            cases.push(Case::Write { board, n, m, room, tables });
        }
        cases
    }

    /// A stage as the writer makes it, and the writing of it.
    fn written_six_read(&mut self) -> Vec<Case> {
        let (n, m) = six::sizes(&mut self.rng);
        let (n, m, tables) = if self.rng.once_in(6) {
            (6, 4, six::longest_tables(&mut self.rng, 6, 4))
        } else {
            (n, m, six::tables(&mut self.rng, n, m))
        };
        let stage = self.board.bytes_of(n.into(), m.into(), &tables);
        let room = stage.len() as u16;
        vec![Case::Write { board: self.board, n, m, room, tables }, Case::Read { board: self.board, stage }]
    }

    fn six_read(&mut self) -> Case {
        let (n, m) = six::sizes(&mut self.rng);
        Case::Read { board: self.board, stage: six::stage(&mut self.rng, n, m) }
    }

    fn faulty_six_read(&mut self) -> Case {
        let (n, m) = six::sizes(&mut self.rng);
        let mut stage = six::faulty_stage(&mut self.rng, n, m);
        if self.rng.once_in(16) {
            stage = six::stage(&mut self.rng, n, m);
            stage[1] = size_above(&mut self.rng, MOST_INPUTS);
        }
        Case::Read { board: self.board, stage }
    }

    fn damaged_six_read(&mut self) -> Case {
        let (n, m) = six::sizes(&mut self.rng);
        let stage = six::stage(&mut self.rng, n, m);
        Case::Read { board: self.board, stage: damage(&mut self.rng, &stage) }
    }

    // Clean copies.

    fn six_copy_of(&mut self, sheet: Vec<u8>) -> Case {
        let room = match sheet::read(&sheet) {
            Ok(unit) => self.six_room_around(copy(&unit).len(), LONGEST_COPY),
            Err(_) => self.rng.of(&[0, 1, 28, LONGEST_COPY as u16]),
        };
        Case::Clean { room, sheet }
    }

    fn six_copy(&mut self) -> Case {
        let sheet = self.six_sheet();
        self.six_copy_of(sheet)
    }

    /// Two orders of one content, with other limits that leave the same sets, and
    /// equal buffers.
    fn six_twins(&mut self) -> Vec<Case> {
        loop {
            let mut content = self.six_draft();
            let permitted = permitted(&mut self.rng, content.n, content.m);
            let sheets = [0; 2].map(|_| {
                content.limits = limits_leaving(&mut self.rng, content.m, &permitted);
                content.sheet(&mut self.rng)
            });
            if sheets.iter().all(|sheet| sheet.len() <= LONGEST) {
                let unit = sheet::read(&sheets[0]).expect("drawn to be read");
                let room = self.six_room_around(copy(&unit).len(), LONGEST_COPY);
                return sheets.map(|sheet| Case::Clean { room, sheet }).to_vec();
            }
        }
    }

    fn longest_six_copy(&mut self) -> Case {
        let sheet = longest_draft_of(&mut self.rng, 6).sheet(&mut self.rng);
        self.six_copy_of(sheet)
    }

    fn faulty_six_copy(&mut self) -> Case {
        let sheet = self.faulty_six_sheet();
        self.six_copy_of(sheet)
    }

    fn damaged_six_copy(&mut self) -> Case {
        let sheet = self.damaged_six_sheet();
        self.six_copy_of(sheet)
    }

    // The board that shares selectors.

    /// Too wide, whatever the budget and the buffer; now and then with a pattern
    /// that no value is left for, which is told before.
    fn shared_six_quote(&mut self) -> Case {
        let mut commands = self.six_draft().commands(&mut self.rng);
        if self.rng.once_in(4) {
            plant_up_to(&mut self.rng, MOST_INPUTS, 10, &mut commands);
        }
        let (budget, room) = (self.any_budget(), self.rng.of(&[0, 1, 16, 200, MOST_ROOM as u16]));
        Case::Quote { board: Board::Shared, budget, room, sheet: commands.concat() }
    }

    /// Lists of as many inputs, which are refused, or of fewer, which differ; with
    /// faults, cut, or trees. The sheet is judged first; now and then it has four
    /// inputs and the stage more.
    fn shared_six_audit(&mut self) -> Case {
        let (n, m) = six::sizes(&mut self.rng);
        let sheet = match self.rng.below(8) {
            0 => self.faulty_six_sheet(),
            1 => self.damaged_six_sheet(),
            2 => draft_of(&mut self.rng, 4, m).sheet(&mut self.rng),
            _ => six::draft(&mut self.rng, n, m).sheet(&mut self.rng),
        };
        let stage = self.shared_six_stage(n, m);
        Case::Audit { board: Board::Shared, sheet, stage }
    }

    fn shared_six_stage(&mut self, n: u8, m: u8) -> Vec<u8> {
        let rng = &mut self.rng;
        match rng.below(8) {
            0..=2 => diagrams::stage(rng, n, m),
            3 | 4 => diagrams::stage(rng, 4, m),
            5 => {
                let stage = diagrams::stage(rng, n, m);
                damage(rng, &stage)
            }
            6 => {
                let mut stage = diagrams::stage(rng, n, m);
                stage.truncate(rng.below(4));
                stage
            }
            _ => six::stage(rng, n, m),
        }
    }

    /// Refused for its inputs, whatever its sets are; now and then a relation of
    /// four inputs, with anything in the sets past them.
    fn shared_six_search(&mut self) -> Case {
        let board = Board::Shared;
        if self.rng.once_in(3) {
            let m = self.rng.within(1, 4) as u8;
            let mut sets = crate::draw::relations::sets(&mut self.rng, 4, m);
            junk_past_the_last(&mut self.rng, 4, &mut sets);
            return Case::Search { board, n: 4, m, budget: self.six_budget(m), sets };
        }
        match self.spoilt_six_search() {
            Case::Search { n, m, budget, sets, .. } if self.rng.once_in(2) => {
                Case::Search { board, n, m, budget, sets }
            }
            _ => self.six_search().on(board),
        }
    }

    fn shared_six_write(&mut self) -> Case {
        self.six_write().on(Board::Shared)
    }

    fn shared_six_read(&mut self) -> Case {
        let (n, m) = six::sizes(&mut self.rng);
        Case::Read { board: Board::Shared, stage: self.shared_six_stage(n, m) }
    }
}

#[cfg(test)]
mod tests {
    use super::*;
    use crate::case::Outcome;
    use crate::pick::Picker;
    use crate::random::Random;
    use crate::relation::{handed, Relation};
    use crate::search::{search, Answer};
    use std::cmp::Ordering::{Equal, Greater, Less};
    use std::collections::HashMap;

    /// Those of the plan, without the rows.
    fn drawn() -> Vec<Case> {
        let mut all = crate::plan::cases();
        // What came later has a letter of its own.
        all.retain(|case| case.kind() != b'J');
        let count = cases(&mut Planner { board: Board::Tree, rng: Random::new(107) }).len();
        all.split_off(all.len() - count + six_rows().len())
    }

    /// The command of a sheet at a place is about a pattern past the last.
    fn is_past_the_last(sheet: &[u8], place: usize) -> bool {
        matches!(sheet[place..], [0x02 | 0x03 | 0x06, p, ..] if u32::from(p) >= 1 << sheet[1])
    }

    /// The command of a stage at a place is a selector.
    fn is_selector(stage: &[u8], place: usize) -> bool {
        stage[place] == 0x22
    }

    /// What E5 lets through, and what it refuses, counted by name.
    fn name(case: &Case, outcome: &Outcome) -> Option<&'static str> {
        let refused = |it: &Outcome| match it {
            Outcome::Refused(r) => Some((r.number, r.place)),
            _ => None,
        };
        let name = match (case.kind(), case, refused(outcome)) {
            (b'Q', Case::Quote { sheet, .. }, None) if sheet[1] == 5 => "a quote of five",
            (b'Q', _, None) => "a quote of six",
            (b'Q', Case::Quote { sheet, .. }, Some((3, 0))) if sheet[1] == 7 => "a sheet of seven",
            (b'Q', Case::Quote { sheet, .. }, Some((3, place))) if is_past_the_last(sheet, place) => {
                match (sheet[1], sheet[place]) {
                    (5, 0x02) => "02 from 32 up",
                    (5, 0x03) => "03 from 32 up",
                    (5, 0x06) => "06 from 32 up",
                    (6, 0x02) => "02 from 64 up",
                    (6, 0x03) => "03 from 64 up",
                    (6, 0x06) => "06 from 64 up",
                    _ => return None,
                }
            }
            (b'Q', _, Some((9, 32..))) => "no row for a high pattern",
            (b'Q', _, Some((10, 32..))) => "no value for a high pattern",
            (b'Q', _, Some((12, 256..))) => "a quote in too few bytes, but many",
            (b'S', Case::Search { n: 5, .. }, None) => "a search of five",
            (b'S', Case::Search { n: 6, .. }, None) => "a search of six",
            (b'S', Case::Search { n: 7, .. }, Some((3, 0))) => "a relation of seven",
            (b'S', _, Some((3, 32..))) => "a wide set on a high pattern",
            (b'S', _, Some((10, 32..))) => "an empty set on a high pattern",
            (b'W', Case::Write { n: 5, .. }, None) => "five written",
            (b'W', Case::Write { n: 6, .. }, None) => "six written",
            (b'W', Case::Write { n: 7, .. }, Some((3, 0))) => "seven written",
            (b'W', Case::Write { n: 5, m: 1..=4, .. }, Some((3, 0))) => "too large for five on wire 0",
            (b'W', Case::Write { n: 5, m: 1..=4, .. }, Some((3, 1))) => "too large for five on wire 1",
            (b'W', Case::Write { n: 5, m: 1..=4, .. }, Some((3, 2))) => "too large for five on wire 2",
            (b'W', Case::Write { n: 5, m: 1..=4, .. }, Some((3, 3))) => "too large for five on wire 3",
            (b'W', Case::Write { n: 4, m: 1..=4, .. }, Some((3, _))) => "too large for four",
            (b'W', _, Some((12, 256..))) => "a stage in too few bytes, but many",
            (b'R', Case::Read { stage, .. }, None) if stage[1] == 5 => "a stage of five",
            (b'R', Case::Read { stage, .. }, None) if stage.len() == LONGEST_STAGE => "the longest stage",
            (b'R', Case::Read { .. }, None) => "a stage of six",
            (b'R', Case::Read { stage, .. }, Some((3, 0))) if stage[1] == 7 => "a stage of seven",
            (b'R', Case::Read { stage, .. }, Some((3, place))) if is_selector(stage, place) => "no such input",
            (b'R', _, Some((11, _))) => "not ascending",
            (b'C', _, None) => "a copy",
            (b'C', _, Some((12, 256..))) => "a copy in too few bytes, but many",
            (b'q', Case::Quote { room: 0, .. }, Some((15, 0))) => "too wide, no bytes",
            (b'q', Case::Quote { .. }, Some((15, 0))) => "too wide",
            (b'q', Case::Quote { sheet, .. }, Some((10, _))) if sheet[1] > 4 => "no value, and too wide",
            (b'a', Case::Audit { sheet, .. }, Some((10, _))) if sheet[1] > 4 => "no value, audited",
            (b's', Case::Search { n: 4, .. }, None) => "a shared search of four",
            (b's', Case::Search { n: 5, .. }, Some((3, 0))) => "a shared search of five",
            (b's', Case::Search { n: 6, .. }, Some((3, 0))) => "a shared search of six",
            (b'w', Case::Write { n: 5 | 6, .. }, Some((3, 0))) => "shared selectors for five or six",
            (b'w', Case::Write { n: 4, .. }, Some((3, _))) => "shared selectors, too large for four",
            (b'r', Case::Read { stage, .. }, Some((3, 0))) if stage[1] == 5 => "lists of five",
            (b'r', Case::Read { stage, .. }, Some((3, 0))) if stage[1] == 6 => "lists of six",
            (b'r', Case::Read { .. }, None) => "lists of four",
            (b'A', Case::Audit { .. }, _) | (b'a', Case::Audit { .. }, None) => return audit_name(case, outcome),
            _ => return None,
        };
        Some(name)
    }

    fn audit_name(case: &Case, outcome: &Outcome) -> Option<&'static str> {
        let Case::Audit { board, sheet, .. } = case else { return None };
        let name = match (board, outcome) {
            (Board::Tree, Outcome::Judged { fits: true }) => "a stage that fits",
            (Board::Tree, Outcome::Judged { fits: false }) => "a stage that does not",
            (Board::Tree, Outcome::StageRefused(r)) if r.number == 13 => "a stage of other sizes",
            (Board::Tree, Outcome::StageRefused(_)) => "a stage refused",
            (Board::Tree, Outcome::Refused(_)) => "a sheet refused",
            (Board::Shared, Outcome::StageRefused(r)) if sheet[1] > 4 && (r.number, r.place) == (3, 0) => {
                "lists as wide as the sheet"
            }
            (Board::Shared, Outcome::StageRefused(r)) if sheet[1] > 4 && r.number == 13 => "lists of fewer inputs",
            (Board::Shared, Outcome::StageRefused(r)) if sheet[1] > 4 && r.number == 1 => "lists cut short",
            _ => return None,
        };
        Some(name)
    }

    /// Whatever E5 touches, each of it often enough.
    #[test]
    fn everything_is_met() {
        let mut picker = Picker::new();
        let mut met: HashMap<&str, usize> = HashMap::new();
        for case in drawn() {
            let outcome = case.reply(&mut picker).outcome;
            if let Some(name) = name(&case, &outcome) {
                *met.entry(name).or_default() += 1;
            }
        }
        assert_eq!(met.len(), 54, "{met:#?}");
        assert!(met.values().all(|&met| met >= 3), "{met:#?}");
    }

    /// The searches and the quotes of trees: the budget and the relation.
    fn searched(case: &Case) -> Option<(u32, Relation)> {
        let (budget, r) = match case {
            Case::Search { board: Board::Tree, n, m, budget, sets } => (*budget, handed(Board::Tree, *n, *m, sets)),
            Case::Quote { board: Board::Tree, budget, sheet, .. } => {
                (*budget, sheet::read(sheet).and_then(|unit| of_unit(&unit)))
            }
            _ => return None,
        };
        r.ok().filter(|r| r.n > 4).map(|r| (budget, r))
    }

    /// Searches that visit parts, and end best or are stopped; at the program's
    /// budget too, on units of six inputs and four wires; and budgets that are just
    /// enough, or a visit short.
    #[test]
    fn searches_of_every_make() {
        let mut picker = Picker::new();
        let mut met = [0; 8];
        for case in drawn() {
            let Some((budget, r)) = searched(&case) else { continue };
            let Answer { visits, stopped, .. } = search(Board::Tree, &r, budget, &mut picker);
            let unit = matches!(case, Case::Quote { .. }) && (r.n, r.m, budget) == (6, 4, PROGRAM);
            let edge = budget < 1_000 && stopped && !search(Board::Tree, &r, budget + 1, &mut picker).stopped;
            for (met, is) in met.iter_mut().zip([
                visits > 0 && !stopped,
                visits > 0 && stopped,
                visits == 0 && stopped,
                visits == 0 && !stopped,
                unit && stopped,
                unit && !stopped && visits > 0,
                !stopped && visits > 0 && visits == budget,
                edge,
            ]) {
                *met += usize::from(is);
            }
        }
        let least = [100, 60, 20, 200, 6, 6, 8, 8];
        assert!(met.iter().zip(least).all(|(&met, least)| met >= least), "{met:?}");
    }

    /// What is written, by the writer or by a quote, into just its length, into
    /// less, and into more; long stages among them, and the longest.
    #[test]
    fn rooms_of_every_length() {
        let mut picker = Picker::new();
        let mut met = HashMap::new();
        for case in drawn() {
            let (room, need) = match &case {
                Case::Write { board: Board::Tree, n, m, room, tables } => {
                    match Board::Tree.write(*n, *m, tables, &mut [0; MOST_ROOM]) {
                        Ok(need) => (*room, need),
                        Err(_) => continue,
                    }
                }
                Case::Quote { room, .. } => {
                    let Some((budget, r)) = searched(&case) else { continue };
                    let tables = search(Board::Tree, &r, budget, &mut picker).tables;
                    (*room, Board::Tree.bytes_of(r.n, r.m, &tables).len())
                }
                _ => continue,
            };
            let long = [false, need > 255, need == LONGEST_STAGE];
            for length in 0..3 {
                if length == 0 || long[length] {
                    *met.entry((case.kind(), length, usize::from(room).cmp(&need))).or_insert(0) += 1;
                }
            }
        }
        for (kind, length, room) in b"QW".iter().flat_map(|&kind| {
            [0, 1, 2].into_iter().flat_map(move |length| [Less, Equal, Greater].map(|room| (kind, length, room)))
        }) {
            let count = met.get(&(kind, length, room)).copied().unwrap_or(0);
            assert!(count >= [10, 5, 1][length], "{} {length} {room:?} {met:?}", char::from(kind));
        }
    }

    #[test]
    fn twins_give_the_same_line() {
        let mut planner = Planner { board: Board::Tree, rng: Random::new(108) };
        let mut picker = Picker::new();
        for _ in 0..200 {
            let lines: Vec<String> = planner.six_twins().iter().map(|case| case.reply(&mut picker).text).collect();
            assert_eq!(lines[0], lines[1]);
        }
    }

    #[test]
    fn nothing_is_too_long() {
        for case in drawn() {
            let (room, sheet) = match &case {
                Case::Quote { room, sheet, .. } => (*room, sheet.len()),
                Case::Clean { room, sheet } => (*room, sheet.len()),
                Case::Write { room, .. } => (*room, 0),
                Case::Audit { sheet, .. } => (0, sheet.len()),
                _ => (0, 0),
            };
            assert!(usize::from(room) <= MOST_ROOM && sheet <= LONGEST, "{case:?}");
        }
    }
}
