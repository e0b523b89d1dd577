//! The library through the C boundary against the independent solver: the same replies, and the same bytes in what was
//! lent.

use bench::{
    Told, BEST, DIFFERS, FIRST_REFUSED, FITS, LENT_TABLE, REFUSED, SECOND_REFUSED, STAGE_REFUSED, STOPPED, WRITTEN,
};
use trials::audit::Audit;
use trials::board::{Board, BOARDS};
use trials::case::Case;
use trials::cells::Tables;
use trials::clean::LONGEST_COPY;
use trials::diagram::LONGEST_LISTS;
use trials::draw::diagrams::largest_stage;
use trials::draw::relations::{half_dense, junk_past_the_last, malformed, sets, spoilt};
use trials::draw::two_units;
use trials::draw::{six, straight};
use trials::fast;
use trials::joined::{Refused, Which};
use trials::pick::Picker;
use trials::plan::cases;
use trials::random::Random;
use trials::refusal::{
    Refusal, CUT_SHORT, EMPTY, MISSING_ROW, OUT_OF_RANGE, OUT_OF_TURN, SHORT_BUFFER, SIZES_DIFFER, TOO_WIDE,
};
use trials::relation::{handed, Sets};
use trials::rows::A;
use trials::sheet::MOST_INPUTS;
use trials::stage::LONGEST_STAGE;

/// What lent buffers are filled with at the start.
const FILL: u8 = 0xEE;

fn refused(outcome: u64, r: &Refusal) -> Told {
    let (refusal, place) = (r.number.into(), r.place as u64);
    Told { refusal, outcome, cells: 0, floor: 0, visits: 0, length: 0, place }
}

fn found(cells: u32, floor: u32, visits: u32, stopped: bool, length: usize) -> Told {
    Told {
        refusal: 0,
        outcome: if stopped { STOPPED } else { BEST },
        cells: cells.into(),
        floor: floor.into(),
        visits: visits.into(),
        length: length as u64,
        place: 0,
    }
}

fn written(length: usize) -> Told {
    Told { refusal: 0, outcome: WRITTEN, cells: 0, floor: 0, visits: 0, length: length as u64, place: 0 }
}

/// The reply and the tables that the tuned search gives, or the refusal, which leaves the tables as they were lent.
fn searched(board: Board, n: u8, m: u8, sets: &Sets, budget: u32) -> (Told, Tables) {
    match handed(board, n, m, sets) {
        Ok(r) => {
            let a = fast::search(board, r.n, &r.sets, budget);
            (found(a.cells, a.floor, a.visits, a.stopped, 0), a.tables)
        }
        Err(r) => (refused(REFUSED, &r), [LENT_TABLE; 4]),
    }
}

/// What a call tells, and what it leaves in a buffer of that length.
fn lent(room: usize, call: impl FnOnce(&mut [u8]) -> Told) -> (Told, Vec<u8>) {
    let mut buffer = vec![FILL; room];
    let told = call(&mut buffer);
    (told, buffer)
}

/// The reply and the buffer that the independent quote gives.
fn quoted(board: Board, sheet: &[u8], budget: u32, room: usize, picker: &mut Picker) -> (Told, Vec<u8>) {
    lent(room, |buffer| match trials::quote::quote(board, sheet, budget, buffer, picker) {
        Ok(q) => found(q.answer.cells, q.answer.floor, q.answer.visits, q.answer.stopped, q.length),
        Err(r) => refused(REFUSED, &r),
    })
}

/// The reply and the buffer that the independent joined quote gives.
fn joined(first: &[u8], second: &[u8], budget: u32, room: usize, picker: &mut Picker) -> (Told, Vec<u8>) {
    lent(room, |buffer| match trials::joined::quote_joined(first, second, budget, buffer, picker) {
        Ok(q) => found(q.answer.cells, q.answer.floor, q.answer.visits, q.answer.stopped, q.length),
        Err(Refused { which: Which::First, refusal }) => refused(FIRST_REFUSED, &refusal),
        Err(Refused { which: Which::Second, refusal }) => refused(SECOND_REFUSED, &refusal),
    })
}

/// The reply and the buffer that the independent clean copy gives.
fn cleaned(sheet: &[u8], room: usize) -> (Told, Vec<u8>) {
    lent(room, |buffer| match trials::clean::clean(sheet, buffer) {
        Ok(length) => written(length),
        Err(r) => refused(REFUSED, &r),
    })
}

fn audited(board: Board, sheet: &[u8], stage: &[u8]) -> Told {
    match trials::audit::audit(board, sheet, stage) {
        Audit::Judged { fits, cells } => {
            let outcome = if fits { FITS } else { DIFFERS };
            Told { outcome, ..found(cells, 0, 0, false, 0) }
        }
        Audit::SheetRefused(r) => refused(REFUSED, &r),
        Audit::StageRefused(r) => refused(STAGE_REFUSED, &r),
    }
}

fn library_quote(board: Board, sheet: &[u8], budget: u32, room: usize) -> (Told, Vec<u8>) {
    lent(room, |buffer| bench::quote(board, sheet, budget, buffer))
}

fn library_joined(first: &[u8], second: &[u8], budget: u32, room: usize) -> (Told, Vec<u8>) {
    lent(room, |buffer| bench::quote_joined(first, second, budget, buffer))
}

fn library_clean(sheet: &[u8], room: usize) -> (Told, Vec<u8>) {
    lent(room, |buffer| bench::clean(sheet, buffer))
}

/// A relation handed in on both boards: the same replies and tables.
fn hold_searches(n: u8, m: u8, given: &Sets, budget: u32) {
    for board in BOARDS {
        assert_eq!(
            bench::search(board, n, m, given, budget),
            searched(board, n, m, given, budget),
            "{board:?} {n} {m} {given:?} {budget}"
        );
    }
}

/// Up to four inputs, all sizes: well-defined and malformed relations and such that inputs soldered through fit, with
/// anything past the last pattern.
#[test]
fn searches_agree() {
    let mut rng = Random::new(31);
    for (n, m) in (1..=4).flat_map(|n| (1..=4).map(move |m| (n, m))) {
        for i in 0..800 {
            let (n, m, mut given) = match i % 4 {
                0 => malformed(&mut rng, n, m),
                1 => (n, m, half_dense(&mut rng, n.into(), m.into()).sets),
                2 => (n, m, straight::sets(&mut rng, n, m)),
                _ => (n, m, sets(&mut rng, n, m)),
            };
            if (1..=4).contains(&n) {
                junk_past_the_last(&mut rng, n, &mut given);
            }
            hold_searches(n, m, &given, rng.of(&[0, 1, 2, 5, 20, 100, 600, 10_000]));
        }
    }
}

/// Five and six inputs, all numbers of wires, likewise. The board that shares selectors refuses each.
#[test]
fn wide_searches_agree() {
    let mut rng = Random::new(33);
    for (n, m) in (5..=6).flat_map(|n| (1..=4).map(move |m| (n, m))) {
        for i in 0..400 {
            let drawn = match i % 4 {
                0 => half_dense(&mut rng, n.into(), m.into()).sets,
                _ => six::sets(&mut rng, n, m),
            };
            let (n, m, mut given) =
                if i % 4 == 1 { spoilt(&mut rng, (n, m), drawn, MOST_INPUTS) } else { (n, m, drawn) };
            if (1..=MOST_INPUTS).contains(&n) {
                junk_past_the_last(&mut rng, n, &mut given);
            }
            hold_searches(n, m, &given, rng.of(&[0, 1, 2, 5, 20, 100, 600, 3_000]));
        }
    }
}

/// A refused search: the number, the place, and tables as they were lent.
fn refused_search(number: u8, place: usize) -> (Told, Tables) {
    (refused(REFUSED, &Refusal { number, place }), [LENT_TABLE; 4])
}

/// Sizes on both sides of the most that a board takes, by hand: seven inputs are too many for either, five for the one
/// that shares selectors, whatever the sets are.
#[test]
fn sizes_of_relations() {
    let free = [0b11; 64];
    for (board, most) in [(Board::Tree, 6), (Board::Shared, 4)] {
        for n in [0, most + 1, most + 2, 7, 255] {
            for sets in [free, [0; 64], [u16::MAX; 64]] {
                assert_eq!(bench::search(board, n, 1, &sets, 9), refused_search(OUT_OF_RANGE, 0), "{board:?} {n}");
            }
        }
        assert_eq!(bench::search(board, most, 0, &free, 9), refused_search(OUT_OF_RANGE, 0));
        assert_eq!(bench::search(board, most, 5, &free, 9), refused_search(OUT_OF_RANGE, 0));
        assert_eq!(bench::search(board, most, 1, &free, 9), (found(0, 0, 0, false, 0), [0; 4]));
        // The last pattern: a bit too high, then no value at all.
        let last = (1 << most) - 1;
        let with_last = |set: u16| {
            let mut sets = free;
            sets[last] = set;
            sets
        };
        assert_eq!(bench::search(board, most, 1, &with_last(0b100), 9), refused_search(OUT_OF_RANGE, last));
        assert_eq!(bench::search(board, most, 1, &with_last(0), 9), refused_search(EMPTY, last));
    }
    // One pattern alone of six inputs, the highest: a table that fills its 64 bits, and its inverse.
    let mut sets = [0b0110; 64];
    sets[63] = 0b1001 << 4;
    let only = |n| bench::search(Board::Tree, n, 3, &sets, 10_000);
    assert_eq!(only(6), searched(Board::Tree, 6, 3, &sets, 10_000));
    assert_eq!(only(6).1[2], 1 << 63);
    assert_eq!(only(5).1[2], 0);
}

/// A sheet of impossible patterns, which has no limits unless it is given some.
fn free_sheet(n: u8, m: u8, limits: &[[u8; 4]]) -> Vec<u8> {
    let rows = (0..1 << n).flat_map(|p| [0x03, p]);
    [0x01, n, m].into_iter().chain(rows).chain(limits.concat()).chain([0x00]).collect()
}

/// A sharing quote of a sheet with five or six inputs is 15 at 0: after 10, and before 12. The tree quote is made.
#[test]
fn sheets_too_wide_to_share() {
    let quote = |board, sheet: &[u8], room| library_quote(board, sheet, 10_000, room);
    let refusal = |number, place, room| (refused(REFUSED, &Refusal { number, place }), vec![FILL; room]);
    for n in [5, 6] {
        let (free, empty) = (free_sheet(n, 1, &[]), free_sheet(n, 1, &[[0x06, 17, 0x00, 0x00]]));
        for room in [0, 6, 7, LONGEST_STAGE] {
            assert_eq!(quote(Board::Shared, &free, room), refusal(TOO_WIDE, 0, room));
            assert_eq!(quote(Board::Shared, &empty, room), refusal(EMPTY, 17, room));
            assert_eq!(quote(Board::Tree, &empty, room), refusal(EMPTY, 17, room));
        }
        assert_eq!(quote(Board::Tree, &free, 6), refusal(SHORT_BUFFER, 7, 6));
        assert_eq!(quote(Board::Tree, &free, 7).0, found(0, 0, 0, false, 7));
    }
    let seven = [0x01, 0x07, 0x01];
    for board in BOARDS {
        assert_eq!(quote(board, &seven, 9), refusal(OUT_OF_RANGE, 0, 9));
    }
    assert_eq!(quote(Board::Shared, &free_sheet(4, 1, &[]), 8).0, found(0, 0, 0, false, 8));
}

/// Sheet A, its own clean copy, at buffers of every length about it.
#[test]
fn sheet_a_is_its_own_copy() {
    for room in [0, 1, 27, 28, 29, LONGEST_COPY, 5_000] {
        assert_eq!(library_clean(&A, room), cleaned(&A, room));
    }
    assert_eq!(library_clean(&A, 28), (written(28), A.to_vec()));
}

/// Sheet A at buffers of every length about its stages', and an audit of the stage written.
#[test]
fn sheet_a_agrees() {
    let mut picker = Picker::new();
    for (board, length) in [(Board::Tree, 16), (Board::Shared, 18)] {
        for room in [0, 1, length - 1, length, length + 1, board.longest(), 5_000] {
            assert_eq!(library_quote(board, &A, 10_000, room), quoted(board, &A, 10_000, room, &mut picker));
        }
        let (told, buffer) = library_quote(board, &A, 10_000, board.longest());
        assert_eq!(told, found(1, 1, 0, false, length));
        assert_eq!(bench::audit(board, &A, &buffer[..length]), found(1, 0, 0, false, 0));
    }
}

/// The longest stages that are read, cut short at places all over them, and with bytes behind them; then zeros of any
/// length.
#[test]
fn long_stages_agree() {
    let parity = six::parity(6);
    let trees = Board::Tree.bytes_of(6, 4, &[parity, !parity, parity, !parity]);
    let lists = largest_stage(&mut Random::new(32), 4, 4);
    assert_eq!((trees.len(), lists.len()), (LONGEST_STAGE, LONGEST_LISTS));
    for (board, n, mut stage) in [(Board::Tree, 6, trees), (Board::Shared, 4, lists)] {
        let (sheet, longest) = (free_sheet(n, 4, &[]), stage.len());
        stage.resize(70_000, 0);
        for length in (0..longest + 2).step_by(7).chain([longest - 1, longest, longest + 1, 4_096, 70_000]) {
            let stage = &stage[..length];
            assert_eq!(bench::audit(board, &sheet, stage), audited(board, &sheet, stage), "{board:?} {length}");
        }
    }
}

/// The longest stage written: six inputs, parities on all wires and nothing else alike, at buffers about its length.
#[test]
fn the_longest_quote_agrees() {
    let mut picker = Picker::new();
    let mut rng = Random::new(34);
    let sheet = six::draft_of_tables(6, 4, &six::longest_tables(&mut rng, 6, 4)).sheet(&mut rng);
    for room in [0, 196, LONGEST_STAGE - 1, LONGEST_STAGE, LONGEST_STAGE + 1, 5_000] {
        assert_eq!(
            library_quote(Board::Tree, &sheet, 10_000, room),
            quoted(Board::Tree, &sheet, 10_000, room, &mut picker)
        );
    }
    assert_eq!(library_quote(Board::Tree, &sheet, 10_000, LONGEST_STAGE).0.length, 772);
}

/// Pairs of sheets of all sizes, as they were drawn, with one of them cut short, and with one of another pair.
#[test]
fn joined_quotes_agree() {
    let mut picker = Picker::new();
    let mut rng = Random::new(35);
    let mut before = [A.to_vec(), A.to_vec()];
    for (n, m) in (1..=6).flat_map(|n| (1..=4).map(move |m| (n, m))) {
        for i in 0..if n > 4 { 60 } else { 150 } {
            let drawn = two_units::pair(&mut rng, n, m).map(|it| it.sheet(&mut rng));
            let mut sheets = drawn.clone();
            match i % 8 {
                0 => sheets[0].truncate(rng.below(drawn[0].len())),
                1 => sheets[1].truncate(rng.below(drawn[1].len())),
                2 => sheets[0].clone_from(&before[0]),
                3 => sheets[1].clone_from(&before[1]),
                _ => {}
            }
            let budget = rng.of(&[0, 1, 2, 5, 20, 100, 600]);
            let room = rng.of(&[0, 4 + 3 * usize::from(m), 16, 40, LONGEST_STAGE, LONGEST_STAGE, 5_000]);
            let [first, second] = &sheets;
            assert_eq!(
                library_joined(first, second, budget, room),
                joined(first, second, budget, room, &mut picker),
                "{sheets:?} {budget} {room}"
            );
            before = drawn;
        }
    }
}

/// By hand: the sheet that a refusal names, in the order of the refusals, and a buffer that stays as it was lent.
#[test]
fn refusals_of_two_sheets() {
    let missing = [0x01, 0x02, 0x02, 0x00];
    let (free, empty) = (free_sheet(2, 2, &[]), free_sheet(2, 2, &[[0x06, 3, 0x00, 0x00], [0x06, 1, 0x00, 0x00]]));
    let wider = free_sheet(3, 2, &[[0x06, 0, 0x00, 0x00]]);
    for room in [0, 1, 15, LONGEST_STAGE] {
        let refusal = |outcome, number, place| (refused(outcome, &Refusal { number, place }), vec![FILL; room]);
        let quote = |first: &[u8], second: &[u8]| library_joined(first, second, 10_000, room);
        assert_eq!(quote(&[], &[0x00]), refusal(FIRST_REFUSED, CUT_SHORT, 0));
        assert_eq!(quote(&missing, &[]), refusal(FIRST_REFUSED, MISSING_ROW, 0));
        assert_eq!(quote(&A, &[0x00]), refusal(SECOND_REFUSED, OUT_OF_TURN, 0));
        assert_eq!(quote(&empty, &missing), refusal(SECOND_REFUSED, MISSING_ROW, 0));
        assert_eq!(quote(&wider, &missing), refusal(SECOND_REFUSED, MISSING_ROW, 0));
        assert_eq!(quote(&empty, &wider), refusal(SECOND_REFUSED, SIZES_DIFFER, 0));
        assert_eq!(quote(&wider, &A), refusal(SECOND_REFUSED, SIZES_DIFFER, 0));
        assert_eq!(quote(&A, &free_sheet(2, 3, &[])), refusal(SECOND_REFUSED, SIZES_DIFFER, 0));
        assert_eq!(quote(&empty, &A), refusal(SECOND_REFUSED, EMPTY, 1));
        assert_eq!(quote(&A, &empty), refusal(SECOND_REFUSED, EMPTY, 1));
    }
    for second in [&A[..], &free] {
        let short = refused(SECOND_REFUSED, &Refusal { number: SHORT_BUFFER, place: 16 });
        assert_eq!(library_joined(&A, second, 10_000, 15), (short, vec![FILL; 15]));
        let (told, buffer) = library_joined(&A, second, 10_000, 20);
        assert_eq!((told, &buffer[16..]), (found(1, 1, 0, false, 16), &[FILL; 4][..]));
        assert_eq!(bench::audit(Board::Tree, &A, &buffer[..16]), found(1, 0, 0, false, 0));
    }
    // What is left of A's {0,3} is {0}: its present stage, of three cells.
    let zeros = free_sheet(2, 2, &[[0x06, 1, 0b0011, 0x00], [0x06, 2, 0b0101, 0x00]]);
    assert_eq!(library_joined(&A, &zeros, 10_000, 22).0, found(3, 3, 0, false, 22));
    assert_eq!(library_joined(&zeros, &A, 10_000, 22), library_joined(&A, &zeros, 10_000, 22));
}

/// Every quote, audit, search and clean copy among the cases drawn for the program.
#[test]
fn drawn_cases_agree() {
    let mut picker = Picker::new();
    let mut held = 0;
    for case in cases() {
        match &case {
            Case::Quote { board, budget, room, sheet } => {
                let room = usize::from(*room);
                let expected = quoted(*board, sheet, *budget, room, &mut picker);
                assert_eq!(library_quote(*board, sheet, *budget, room), expected, "{case:?}");
            }
            Case::Audit { board, sheet, stage } => {
                assert_eq!(bench::audit(*board, sheet, stage), audited(*board, sheet, stage), "{case:?}");
            }
            Case::Search { board, n, m, budget, sets } => {
                let expected = searched(*board, *n, *m, sets, *budget);
                assert_eq!(bench::search(*board, *n, *m, sets, *budget), expected, "{case:?}");
            }
            Case::Clean { room, sheet } => {
                let room = usize::from(*room);
                assert_eq!(library_clean(sheet, room), cleaned(sheet, room), "{case:?}");
            }
            Case::Write { .. } | Case::Read { .. } | Case::Joined { .. } => continue,
        }
        held += 1;
    }
    assert!(held > 34_000, "only {held} cases");
}

/// Every joined quote among them.
#[test]
fn drawn_joined_cases_agree() {
    let mut picker = Picker::new();
    let mut held = 0;
    for case in cases() {
        let Case::Joined { budget, room, first, second } = &case else { continue };
        let room = usize::from(*room);
        let expected = joined(first, second, *budget, room, &mut picker);
        assert_eq!(library_joined(first, second, *budget, room), expected, "{case:?}");
        held += 1;
    }
    assert!(held > 4_500, "only {held} cases");
}
