//! What must hold of the cases: of every search, told by the second solver; of
//! every clean copy, told by the sheet's own commands; of every stage that is
//! read, written or found, told by its tables; of every joined quote, told by each
//! of its sheets alone.

use crate::arrange::arrange;
use crate::audit::{audit, Audit};
use crate::board::{Board, Stage, BOARDS};
use crate::case::{Case, Outcome};
use crate::cells::Tables;
use crate::clean::{clean, copy};
use crate::cubes::Cubes;
use crate::joined::Which;
use crate::least::{functions, least, plain, Prices};
use crate::products::{self, Known};
use crate::refusal::{Refusal, EMPTY, SHORT_BUFFER, SIZES_DIFFER, TOO_WIDE};
use crate::relation::{sets_of, Sets};
use crate::search::{value_at, Answer};
use crate::sheet::{self, all_values, Row, Unit, MOST_PATTERNS};
use crate::unit::answer;
use crate::{fast, relation};

/// Searches of five and six inputs: how many were held against the sum over
/// wires, which some stage meets; how many against the parts of `products`, where
/// none does, to the last of them; how many had too many of those, and were held
/// to what they tell so far, such as were stopped and such as are called best; and
/// how many of all these against every function.
#[derive(Clone, Copy, Default)]
pub struct Wide {
    pub sums: usize,
    pub parts: usize,
    pub stopped_left: usize,
    pub best_left: usize,
    pub every_function: usize,
}

/// How many searches of up to four inputs were held against the second solver and
/// how many were too long for it, on each board; how many of more inputs; how many
/// copies were held against their sheets; how many stages against their tables,
/// read ones and written ones; how many joined quotes against each of their
/// sheets, those that found a stage and those with a pattern of no value; and how
/// many of up to four inputs were called best and had too many parts.
#[derive(Default)]
pub struct Checked {
    pub held: [usize; 2],
    pub left: [usize; 2],
    pub wide: Wide,
    pub copies: usize,
    pub stages: usize,
    pub written: usize,
    pub joined: usize,
    pub joined_empty: usize,
    pub joined_left: usize,
}

pub struct Checker {
    prices: [Prices; 2],
    /// For one input, and so on up to six.
    cubes: [Cubes; 6],
    pub checked: Checked,
}

/// The most inputs whose tables are all tried.
const NARROW: u32 = 4;

impl Default for Checker {
    fn default() -> Self {
        Checker {
            prices: BOARDS.map(Prices::new),
            cubes: [1, 2, 3, 4, 5, 6].map(Cubes::new),
            checked: Checked::default(),
        }
    }
}

impl Checker {
    /// Panics where something fails that must hold of this case.
    pub fn check(&mut self, case: &Case, outcome: &Outcome) {
        match case {
            Case::Clean { room, sheet } => self.check_clean((*room).into(), sheet, outcome),
            Case::Quote { board, budget, .. } | Case::Search { board, budget, .. } => {
                self.check_search(*board, *budget, case, outcome);
            }
            Case::Audit { board, stage, .. } | Case::Read { board, stage } => self.check_stage(*board, stage),
            Case::Write { board, n, m, tables, .. } if *outcome == Outcome::Written => {
                self.check_written(*board, (*n).into(), (*m).into(), tables);
            }
            Case::Write { .. } => {}
            Case::Joined { first, second, .. } => self.check_joined(case, [first, second], outcome),
        }
    }

    /// No stage of either form has fewer cells than its tables count.
    fn check_stage(&mut self, board: Board, stage: &[u8]) {
        if let Ok(it) = board.read(stage) {
            assert!(board.stage_cells(it.n, it.m, &it.tables) <= it.cells, "fewer cells than counted: {stage:?}");
            self.checked.stages += 1;
        }
    }

    /// The stage that is written of some tables reads as those tables, with the
    /// cells that they count: no more than its selectors.
    fn check_written(&mut self, board: Board, n: u32, m: u32, tables: &Tables) {
        let cells = board.stage_cells(n, m, tables);
        let mut meant = Stage { n, m, tables: *tables, cells };
        meant.tables[m as usize..].fill(0);
        assert_eq!(board.read(&board.bytes_of(n, m, tables)), Ok(meant), "written otherwise on {board:?}");
        assert!(cells <= board.stage_selectors(n, m, tables), "more cells than selectors: {tables:?} on {board:?}");
        self.checked.written += 1;
    }

    /// Document 02, E1: what reading refuses, then 12 at the copy's length, and
    /// nothing else. The copy is looked at even where the buffer is too short.
    fn check_clean(&mut self, room: usize, sheet: &[u8], outcome: &Outcome) {
        let expected = match sheet::read(sheet) {
            Ok(unit) => {
                let length = hold_copy(sheet, &unit);
                self.checked.copies += 1;
                if room < length {
                    Outcome::Refused(Refusal { number: SHORT_BUFFER, place: length })
                } else {
                    Outcome::Written
                }
            }
            Err(r) => Outcome::Refused(r),
        };
        assert_eq!(*outcome, expected, "a clean copy of {sheet:?} in {room} bytes");
    }

    /// * best: the cells are the least there are;
    /// * always: floor <= least <= cells;
    /// * refusal 10 just where no function is compatible;
    /// * else refusal 15 just where the board has fewer lines than the sheet.
    fn check_search(&mut self, board: Board, budget: u32, case: &Case, outcome: &Outcome) {
        let Some((n, m, sets)) = sets_of_case(case) else { return };
        let refused = match outcome {
            Outcome::Refused(r) | Outcome::RefusedOf(_, r) => Some(r.number),
            _ => None,
        };
        let answer = match outcome {
            Outcome::Found(answer) => Some(answer),
            _ => None,
        };
        let empty = refused == Some(EMPTY);
        if n > NARROW {
            self.check_wide(n, m, &sets, case, answer, empty);
        } else {
            self.check_narrow(board, (n, m), &sets, case, answer, empty);
        }
        let too_wide = !empty && n > board.most_inputs().into();
        assert_eq!(refused == Some(TOO_WIDE), too_wide, "refused for its width, or not: {case:?}");
        if let Some(answer) = answer {
            same_as_fast(answer, &fast::search(board, n, &sets, budget));
            let fits = |p: usize| sets[p] >> value_at(m, &answer.tables, p) & 1 == 1;
            assert!((0..1 << n).all(fits), "not compatible: {case:?}");
            assert!(answer.visits <= budget && (!answer.stopped || answer.visits == budget), "miscounted: {case:?}");
            assert_eq!(answer.cells, board.stage_cells(n, m, &answer.tables), "miscounted: {case:?}");
            self.check_written(board, n, m, &answer.tables);
        }
    }

    /// Document 02, E6: a refusal of the first, then of the second; then 13; then 10
    /// just where some pattern has no value that keeps to both, and there; then as
    /// any search. What is found fits each of the sheets, by an audit of its own.
    fn check_joined(&mut self, case: &Case, sheets: [&[u8]; 2], outcome: &Outcome) {
        let Case::Joined { budget, room, .. } = case else { return };
        if let Some(refused) = refused_before_joining(sheets) {
            assert_eq!(*outcome, refused, "{case:?}");
            return;
        }
        let (n, m, sets) = sets_of_case(case).expect("both are read, and of one size");
        self.check_search(Board::Tree, *budget, case, outcome);
        let of_second = |number, place| Outcome::RefusedOf(Which::Second, Refusal { number, place });
        let empty = (0..1 << n).find(|&p| sets[p] == 0);
        for sheet in sheets {
            // A pattern without a value in one of them has none in both.
            if let Audit::SheetRefused(own) = audit(Board::Tree, sheet, &[]) {
                assert!(own.number == EMPTY && empty.is_some_and(|p| p <= own.place), "{case:?}");
            }
        }
        if let Some(p) = empty {
            assert_eq!(*outcome, of_second(EMPTY, p), "{case:?}");
            self.checked.joined_empty += 1;
            return;
        }
        let found = fast::search(Board::Tree, n, &sets, *budget);
        let stage = Board::Tree.bytes_of(n, m, &found.tables);
        if usize::from(*room) < stage.len() {
            assert_eq!(*outcome, of_second(SHORT_BUFFER, stage.len()), "{case:?}");
            return;
        }
        let Outcome::Found(answer) = outcome else { panic!("refused: {case:?}") };
        if n <= NARROW {
            // Beside every function: the floor of what was stopped, and the least where
            // there are too many functions.
            let known = self.parts(n, m, &sets, Some(answer)).expect("every pattern has a value");
            hold_to_parts(answer, &known, case);
            self.checked.joined_left += usize::from(!known.whole && !answer.stopped);
        }
        for sheet in sheets {
            assert_eq!(audit(Board::Tree, sheet, &stage), Audit::Judged { fits: true, cells: found.cells }, "{case:?}");
        }
        self.checked.joined += 1;
    }

    fn check_narrow(
        &mut self,
        board: Board,
        (n, m): (u32, u32),
        sets: &Sets,
        case: &Case,
        answer: Option<&Answer>,
        empty: bool,
    ) {
        match least(&self.prices[board as usize], n, m, sets.first_chunk().expect("more than sixteen sets")) {
            Ok(None) => assert!(empty, "no function, yet not refused: {case:?}"),
            Ok(Some(least)) => {
                assert!(!empty, "refused, yet there is a function: {case:?}");
                if let Some(answer) = answer {
                    hold(answer, least, case);
                    self.checked.held[board as usize] += 1;
                }
            }
            Err(_) => self.checked.left[board as usize] += 1,
        }
    }

    /// What the parts of `products` tell of the least cells. Where nothing is called
    /// best, there is less to be held to.
    fn parts(&self, n: u32, m: u32, sets: &Sets, answer: Option<&Answer>) -> Option<Known> {
        let steps = match answer {
            None => 0,
            Some(answer) if answer.stopped => 150,
            Some(_) => 20_000,
        };
        products::least(&self.cubes[n as usize - 1], n, m, sets, steps)
    }

    fn check_wide(&mut self, n: u32, m: u32, sets: &Sets, case: &Case, answer: Option<&Answer>, empty: bool) {
        const FEW: u64 = 4_096;
        let Some(known) = self.parts(n, m, sets, answer) else {
            assert!(empty, "no function, yet not refused: {case:?}");
            return;
        };
        assert!(!empty, "refused, yet there is a function: {case:?}");
        let Some(answer) = answer else { return };
        hold_to_parts(answer, &known, case);
        let wide = &mut self.checked.wide;
        *(match (known.whole, answer.stopped) {
            (true, _) if known.met == known.floor => &mut wide.sums,
            (true, _) => &mut wide.parts,
            (false, true) => &mut wide.stopped_left,
            (false, false) => &mut wide.best_left,
        }) += 1;
        if functions(&sets[..1 << n]) <= FEW {
            hold(answer, plain(Board::Tree, n, m, sets).expect("there is a function"), case);
            wide.every_function += 1;
        }
    }
}

/// The copy holds what the sheet holds, its relation or refusal 10 with it, and
/// has nothing left to clean: it and the sheet come out alike. Gives its length.
fn hold_copy(sheet: &[u8], unit: &Unit) -> usize {
    let copy = copy(unit);
    assert_eq!(copy, arrange(sheet), "not the commands in order: {sheet:?}");
    let again = sheet::read(&copy).expect("a copy is read");
    assert_eq!(again, *unit, "read otherwise: {sheet:?}");
    assert_eq!(relation::of_unit(&again), relation::of_unit(unit), "another relation: {sheet:?}");
    for cleaned in [sheet, &copy] {
        let mut exact = vec![0; copy.len()];
        assert_eq!(clean(cleaned, &mut exact), Ok(copy.len()), "cleaned to another length: {cleaned:?}");
        assert_eq!(exact, copy, "cleaned to other bytes: {cleaned:?}");
    }
    copy.len()
}

/// What a joined quote refuses before it looks at any set: a sheet that is not
/// read, the first before the second, or other sizes.
fn refused_before_joining([first, second]: [&[u8]; 2]) -> Option<Outcome> {
    match (sheet::read(first), sheet::read(second)) {
        (Err(r), _) => Some(Outcome::RefusedOf(Which::First, r)),
        (_, Err(r)) => Some(Outcome::RefusedOf(Which::Second, r)),
        _ if first[1..3] == second[1..3] => None,
        _ => Some(Outcome::RefusedOf(Which::Second, Refusal { number: SIZES_DIFFER, place: 0 })),
    }
}

/// Whether a value keeps to what a sheet says of a pattern: it is permitted, and
/// the unit answers as before where the pattern is possible.
fn keeps(unit: &Unit, p: usize, v: usize) -> bool {
    let as_before = match unit.rows[p] {
        Row::Drives(u) => answer(unit, v) == answer(unit, u.into()),
        _ => true,
    };
    as_before && unit.permitted[p] >> v & 1 == 1
}

/// The values that keep to both sheets, one after another.
fn values_of_both(units: &[Unit; 2]) -> Sets {
    let Unit { n, m, .. } = units[0];
    let mut sets = [0; MOST_PATTERNS];
    for (p, set) in sets.iter_mut().enumerate().take(1 << n) {
        let kept = (0..1 << m).filter(|&v| units.iter().all(|unit| keeps(unit, p, v)));
        *set = kept.fold(0, |set, v| set | 1 << v);
    }
    sets
}

fn hold(answer: &Answer, least: u32, case: &Case) {
    assert!(answer.floor <= least && least <= answer.cells, "floor {} least {least}: {case:?}", answer.floor);
    if !answer.stopped {
        assert_eq!(answer.cells, least, "called best: {case:?}");
    }
}

/// The floor is the sum over the wires, or the cells that are called best. Where
/// parts are left out, what was met is no less than the least.
fn hold_to_parts(answer: &Answer, known: &Known, case: &Case) {
    let Known { floor, met, whole } = *known;
    assert_eq!(answer.floor, if answer.stopped { floor } else { answer.cells }, "another floor: {case:?}");
    if whole {
        hold(answer, met, case);
    } else {
        assert!(floor <= answer.cells && (answer.stopped || answer.cells <= met), "called best: {case:?}");
    }
}

fn same_as_fast(answer: &Answer, fast: &fast::Answer) {
    let fast::Answer { tables, cells, floor, visits, stopped } = *fast;
    assert_eq!(*answer, Answer { tables, cells, floor, visits, stopped });
}

/// The sets a quote or a search works on, empty ones among them; `None` where
/// the input is refused before there are any. Those of a joined quote are told
/// without joining.
fn sets_of_case(case: &Case) -> Option<(u32, u32, Sets)> {
    match case {
        Case::Quote { sheet, .. } => {
            let unit = sheet::read(sheet).ok()?;
            Some((unit.n, unit.m, sets_of(&unit)))
        }
        Case::Joined { first, second, .. } => {
            let units = [sheet::read(first).ok()?, sheet::read(second).ok()?];
            let sizes = units.each_ref().map(|unit| (unit.n, unit.m));
            (sizes[0] == sizes[1]).then(|| (units[0].n, units[0].m, values_of_both(&units)))
        }
        Case::Search { board, n, m, sets, .. } => match relation::handed(*board, *n, *m, sets) {
            Err(r) if r.number != EMPTY => None,
            _ => {
                let mut read = *sets;
                read[1 << n..].fill(0);
                debug_assert!(read.iter().all(|s| s & !all_values((*m).into()) == 0));
                Some(((*n).into(), (*m).into(), read))
            }
        },
        _ => None,
    }
}
