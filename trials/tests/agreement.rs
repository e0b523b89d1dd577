//! The two searches and the second solver agree on relations drawn by chance, on
//! both boards and, on the tree board, of five and six inputs; and the two ways to
//! form a relation agree on drawn sheets.

use trials::board::{Board, BOARDS};
use trials::case::{Case, Outcome};
use trials::check::{Checker, Wide};
use trials::draw::relations::{half_dense, junk_past_the_last, sets};
use trials::draw::sheets::{draft, hard_draft, longest_draft, longest_draft_of};
use trials::draw::{six, straight};
use trials::fast;
use trials::pick::Picker;
use trials::random::Random;
use trials::relation::{handed, sets_of, Relation};
use trials::search::search;
use trials::sheet::read;

fn sizes() -> impl Iterator<Item = (u8, u8)> {
    (1..=4).flat_map(|n| (1..=4).map(move |m| (n, m)))
}

/// best => the least cells; floor <= least always; and the fast search gives
/// the same reply (the checker looks at both).
#[test]
fn the_search_finds_the_least() {
    let mut rng = Random::new(2024);
    let mut picker = Picker::new();
    let mut checker = Checker::default();
    for board in BOARDS {
        for (n, m) in sizes() {
            for i in 0..300 {
                let sets = if i % 6 == 0 { straight::sets(&mut rng, n, m) } else { sets(&mut rng, n, m) };
                let budget = rng.of(&[0, 1, 3, 30, 2_000, 2_000]);
                let r = handed(board, n, m, &sets).expect("drawn to be well defined");
                let answer = search(board, &r, budget, &mut picker);
                checker.check(&Case::Search { board, n, m, budget, sets }, &Outcome::Found(answer));
            }
        }
        let (held, left) = (checker.checked.held[board as usize], checker.checked.left[board as usize]);
        assert!(held > 3_500, "{board:?}: {held} held, {left} left");
    }
}

/// The same of five and six inputs, on the tree board, where few are too long.
#[test]
fn the_search_of_six_inputs_finds_the_least() {
    let mut rng = Random::new(2025);
    let mut picker = Picker::new();
    let mut checker = Checker::default();
    for (n, m) in (5..=6).flat_map(|n| (1..=4).map(move |m| (n, m))) {
        for _ in 0..150 {
            let sets = six::sets(&mut rng, n, m);
            let budget = rng.of(&[0, 1, 3, 30, 500, 2_000]);
            let r = handed(Board::Tree, n, m, &sets).expect("drawn to be well defined");
            let answer = search(Board::Tree, &r, budget, &mut picker);
            checker.check(&Case::Search { board: Board::Tree, n, m, budget, sets }, &Outcome::Found(answer));
        }
    }
    let Wide { sums, parts, stopped_left, best_left, every_function } = checker.checked.wide;
    assert_eq!(sums + parts + stopped_left + best_left, 1_200);
    assert!(sums > 400 && parts > 200 && every_function > 250, "{sums} {parts} {stopped_left} {every_function}");
    assert!(best_left < 10, "{best_left}");
}

/// Tables, cells, floor, visits and mark are the same, at all sizes of both boards.
#[test]
fn the_fast_search_is_the_search() {
    let mut rng = Random::new(7);
    let mut picker = Picker::new();
    let of_board = |board: Board| (1..=board.most_inputs()).flat_map(move |n| (1..=4).map(move |m| (board, n, m)));
    for (board, n, m) in BOARDS.into_iter().flat_map(of_board) {
        for i in 0..500 {
            let sets = match i % 5 {
                0 => half_dense(&mut rng, n.into(), m.into()).sets,
                _ if n > 4 => six::sets(&mut rng, n, m),
                1 => straight::sets(&mut rng, n, m),
                _ => sets(&mut rng, n, m),
            };
            let budget = rng.of(&[0, 1, 2, 5, 20, 100, 600]);
            let r = handed(board, n, m, &sets).expect("drawn to be well defined");
            let slow = search(board, &r, budget, &mut picker);
            let fast = fast::search(board, r.n, &r.sets, budget);
            assert_eq!(
                (fast.tables, fast.cells, fast.floor, fast.visits, fast.stopped),
                (slow.tables, slow.cells, slow.floor, slow.visits, slow.stopped)
            );
        }
    }
}

/// What is past the last pattern is not read.
#[test]
fn the_fast_search_reads_no_further() {
    let mut rng = Random::new(8);
    for (n, m) in (1..=6).flat_map(|n| (1..=4).map(move |m| (n, m))) {
        let clear = half_dense(&mut rng, n, m).sets;
        let mut given = clear;
        junk_past_the_last(&mut rng, n as u8, &mut given);
        for board in BOARDS.into_iter().filter(|board| n <= board.most_inputs().into()) {
            assert_eq!(fast::search(board, n, &given, 200), fast::search(board, n, &clear, 200));
        }
    }
}

/// The same sets of sheets of all sizes, with few gates and with as many as there
/// may be, some of which leave a pattern no value.
#[test]
fn the_fast_forming_is_the_forming() {
    let mut rng = Random::new(19);
    for i in 0..9_000 {
        let (n, m) = six::sizes(&mut rng);
        let draft = match i % 5 {
            0 => draft(&mut rng),
            1 => hard_draft(&mut rng),
            2 => six::draft(&mut rng, n, m),
            3 => longest_draft_of(&mut rng, n),
            _ => longest_draft(&mut rng),
        };
        let unit = read(&draft.sheet(&mut rng)).expect("drawn to be read");
        assert_eq!(fast::sets_of(&unit), sets_of(&unit), "{draft:?}");
    }
}

/// This thread's time on a processor, in ns (Linux); else the time of day.
fn clock(start: std::time::Instant) -> f64 {
    let spent = std::fs::read_to_string("/proc/thread-self/schedstat").ok();
    let first = spent.and_then(|text| text.split(' ').next().and_then(|field| field.parse().ok()));
    first.unwrap_or(start.elapsed().as_nanos() as f64)
}

/// Not a test: prints the time per visit. Run it with
/// `cargo test --release --offline -- --ignored --nocapture time_per_visit`.
#[test]
#[ignore]
fn time_per_visit() {
    let start = std::time::Instant::now();
    let mut rng = Random::new(11);
    let sizes = [(Board::Tree, 4), (Board::Tree, 5), (Board::Tree, 6), (Board::Shared, 4)];
    let drawn = sizes.map(|(_, n)| (0..100).map(|_| half_dense(&mut rng, n, 4)).collect::<Vec<_>>());
    let mut least = [f64::MAX; 4];
    for _ in 0..8 {
        for (i, (board, _)) in sizes.into_iter().enumerate() {
            let before = clock(start);
            let search = |r: &Relation| u64::from(fast::search(board, r.n, &r.sets, 10_000).visits);
            let visits: u64 = drawn[i].iter().map(search).sum();
            least[i] = least[i].min((clock(start) - before) / visits as f64);
        }
    }
    for ((board, n), least) in sizes.into_iter().zip(least) {
        println!("{board:?} ({n},4): {least:.1} ns per visit, the least of 8 rounds");
    }
}
