//! Document 02, E6, on pairs of sheets drawn by chance, apart from the stored cases:
//! what must hold of each joined quote, and what must not matter.

use trials::board::Board;
use trials::case::{Case, Outcome, Reply};
use trials::check::Checker;
use trials::draw::two_units::{self, sets_of_both};
use trials::draw::{sheets::Draft, six};
use trials::pick::Picker;
use trials::random::Random;
use trials::relation::handed;
use trials::search::search;
use trials::stage::LONGEST_STAGE;

fn joined(budget: u32, first: &[u8], second: &[u8]) -> Case {
    Case::Joined { budget, room: LONGEST_STAGE as u16, first: first.to_vec(), second: second.to_vec() }
}

/// All sizes; the larger ones with less to search for.
fn sizes() -> impl Iterator<Item = (u8, u8)> {
    (1..=6).flat_map(|n| (1..=4).map(move |m| (n, m)))
}

fn budget(rng: &mut Random, n: u8, m: u8) -> u32 {
    let many = if n < 4 || m < 3 { 2_000 } else { 60 };
    rng.of(&[0, 1, 3, many, many, many])
}

fn draw(rng: &mut Random, n: u8, m: u8) -> ([Draft; 2], [Vec<u8>; 2]) {
    let pair = two_units::pair(rng, n, m);
    let sheets = pair.each_ref().map(|it| it.sheet(rng));
    (pair, sheets)
}

/// Found just where the drafts have a value in common on every pattern, and then by
/// the search of that relation. The checker holds what is best to the second
/// solver, and what is found to each sheet.
#[test]
fn joined_quotes_are_searches_of_what_both_leave() {
    let mut rng = Random::new(161);
    let mut picker = Picker::new();
    let mut checker = Checker::default();
    let mut met = [0; 3];
    for (n, m) in sizes() {
        for _ in 0..if n > 4 { 25 } else { 120 } {
            let (pair, [first, second]) = draw(&mut rng, n, m);
            let case = joined(budget(&mut rng, n, m), &first, &second);
            let Case::Joined { budget, .. } = case else { unreachable!() };
            let Reply { outcome, .. } = case.reply(&mut picker);
            checker.check(&case, &outcome);
            match (handed(Board::Tree, n, m, &sets_of_both(&pair)), outcome) {
                (Ok(r), Outcome::Found(answer)) => {
                    assert_eq!(answer, search(Board::Tree, &r, budget, &mut picker));
                    met[usize::from(answer.stopped)] += 1;
                }
                (Err(expected), Outcome::RefusedOf(_, told)) => {
                    assert_eq!(told, expected);
                    met[2] += 1;
                }
                (_, outcome) => panic!("{outcome:?} of {case:?}"),
            }
        }
    }
    assert!(met[0] > 1_200 && met[1] > 200 && met[2] > 150, "{met:?}");
    assert_eq!(checker.checked.joined, met[0] + met[1]);
    assert_eq!(checker.checked.joined_empty, met[2]);
}

/// Which sheet comes first makes no difference to what is found, nor to 13, 10 and
/// 12, which count as the second's either way.
#[test]
fn the_other_way_round() {
    let mut rng = Random::new(162);
    let mut picker = Picker::new();
    let mut found = 0;
    for _ in 0..900 {
        let (n, m) = if rng.once_in(12) { six::sizes(&mut rng) } else { two_units::sizes(&mut rng) };
        let (_, [first, second]) = draw(&mut rng, n, m);
        let budget = budget(&mut rng, n, m);
        let replies =
            [joined(budget, &first, &second), joined(budget, &second, &first)].map(|case| case.reply(&mut picker));
        assert_eq!(replies[0].text, replies[1].text);
        found += usize::from(matches!(replies[0].outcome, Outcome::Found(_)));
    }
    assert!(found > 500, "{found}");
}

/// With a sheet that asks nothing a sheet is quoted as it is alone.
#[test]
fn beside_nothing() {
    let mut rng = Random::new(163);
    let mut picker = Picker::new();
    for _ in 0..600 {
        let (n, m) = two_units::sizes(&mut rng);
        let (_, [sheet, _]) = draw(&mut rng, n, m);
        let rows = (0..1u8 << n).flat_map(|p| [0x03, p]);
        let nothing: Vec<u8> = [0x01, n, m].into_iter().chain(rows).chain([0x00]).collect();
        let budget = budget(&mut rng, n, m);
        let room = LONGEST_STAGE as u16;
        let alone = Case::Quote { board: Board::Tree, budget, room, sheet: sheet.clone() }.reply(&mut picker).text;
        let expected = if alone.starts_with("refused") { format!("second {alone}") } else { alone };
        assert_eq!(joined(budget, &sheet, &nothing).reply(&mut picker).text, expected);
        assert_eq!(joined(budget, &nothing, &sheet).reply(&mut picker).text, expected);
    }
}
