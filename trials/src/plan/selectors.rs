//! Searches for the fewest selectors, the straight ones counted with the rest.
//! No reply comes from here. The cases of document 01, E1 and E2 are drawn
//! around such searches: their budgets, their buffers, and which relations count
//! as long. Those cases stay as they are, and so does what they are drawn by.

use crate::board::Board;
use crate::fast::{search_by, Answer, Count, Pick, CELL, NONE};
use crate::relation::Sets;

/// What such a search finds; its cells are selectors.
pub fn search(board: Board, n: u32, sets: &Sets, budget: u32) -> Answer {
    match board {
        Board::Tree => search_by::<Trees>(n, sets, budget),
        Board::Shared => search_by::<Lists>(n, sets, budget),
    }
}

/// The least keys of two-input blocks by their masks, zeros * 16 + ones.
type Blocks = [u32; 256];

const fn blocks(selectors: [u32; 16]) -> Blocks {
    let mut all = [NONE; 256];
    let mut at = 0;
    while at < 256 {
        let (zeros, ones) = (at >> 4, at & 15);
        let mut table = 0;
        while table < 16 {
            let fits = table & !ones == 0 && !table & 15 & !zeros == 0;
            let key = selectors[table] * CELL + table as u32;
            if fits && key < all[at] {
                all[at] = key;
            }
            table += 1;
        }
        at += 1;
    }
    all
}

/// The selectors of a block's tree.
const IN_TREES: [u32; 16] = [0, 2, 2, 1, 2, 1, 3, 2, 2, 3, 1, 2, 1, 2, 2, 0];
static TREES: Blocks = blocks(IN_TREES);

/// For lists: the selector that a block itself needs. A one-input node below it
/// is counted apart; a block is left out unless its nodes are among those that
/// may be there (1: the inverted input, 2: the input itself).
static LISTS: [Blocks; 4] = [blocks(in_lists(0)), blocks(in_lists(1)), blocks(in_lists(2)), blocks(in_lists(3))];

const fn in_lists(nodes: usize) -> [u32; 16] {
    let mut all = [0; 16];
    let mut table = 0;
    while table < 16 {
        let (zero, one) = (table & 3, table >> 2);
        let (inverted, straight) = (zero == 1 || one == 1, zero == 2 || one == 2);
        let left_out = inverted && nodes & 1 == 0 || straight && nodes & 2 == 0;
        all[table] = if left_out { NONE / CELL } else { (zero != one) as u32 };
        table += 1;
    }
    all
}

/// The masks of the four quarters, of those that there are.
fn quarters(block: impl Fn(usize) -> u32) -> [usize; 4] {
    [block(0) & 255, block(0) >> 8, block(1) & 255, block(1) >> 8].map(|masks| masks as usize)
}

/// Equal halves, or two halves and a selector more.
fn join(equal: u32, zero: u32, one: u32, width: u32) -> u32 {
    let table = |key: u32| (key & 0xFFFF) << width;
    (equal + table(equal)).min(CELL + zero + (one & !0xFFFF) + table(one))
}

fn three(blocks: &Blocks, [a, b]: [usize; 2]) -> u32 {
    join(blocks[a & b], blocks[a], blocks[b], 4)
}

fn four(blocks: &Blocks, [a, b, c, d]: [usize; 4]) -> u32 {
    join(three(blocks, [a & c, b & d]), three(blocks, [a, b]), three(blocks, [c, d]), 8)
}

/// The ways in which quarters coincide across halves that are not equal.
fn across(blocks: &Blocks, [a, b, c, d]: [usize; 4]) -> u32 {
    let at = |masks: usize, places: u32| {
        let key = blocks[masks];
        (key & !15) + (key & 15) * places
    };
    let (qa, qb, qc, qd) = (at(a, 1), at(b, 0x10), at(c, 0x100), at(d, 0x1000));
    let (ad, bc) = (at(a & d, 0x1001), at(b & c, 0x110));
    let two = (at(a & c, 0x101) + qb + qd).min(at(b & d, 0x1010) + qa + qc);
    let two = two.min(ad + qb + qc).min(bc + qa + qd).min(ad + bc);
    let three = (at(a & b & c, 0x111) + qd).min(at(a & b & d, 0x1011) + qc);
    let three = three.min(at(a & c & d, 0x1101) + qb).min(at(b & c & d, 0x1110) + qa);
    (2 * CELL + three).min(3 * CELL + two)
}

struct Trees;

impl Count for Trees {
    fn pick<const N: usize>(block: impl Fn(usize) -> u32) -> Pick {
        let [a, b, c, d] = quarters(&block);
        Pick::of(match N {
            // One input is the lower of a block's two, twice over.
            1 => TREES[a * 5] & !12,
            2 => TREES[a],
            3 => three(&TREES, [a, b]),
            _ => four(&TREES, [a, b, c, d]),
        })
    }
}

struct Lists;

impl Count for Lists {
    fn pick<const N: usize>(block: impl Fn(usize) -> u32) -> Pick {
        let all = quarters(&block);
        let with = |nodes: usize| {
            let blocks = &LISTS[nodes];
            let least = match N {
                3 => three(blocks, [all[0], all[1]]),
                _ => four(blocks, all).min(across(blocks, all)),
            };
            least + CELL * nodes.count_ones()
        };
        match N {
            // Up to two inputs nothing can be shared.
            1 | 2 => Trees::pick::<N>(block),
            _ => Pick::of(with(0).min(with(1)).min(with(2)).min(with(3))),
        }
    }
}

#[cfg(test)]
mod tests {
    use super::*;
    use crate::board::BOARDS;
    use crate::cells::full;
    use crate::fast::tests::pick_by;
    use crate::pick::{fits, Projection};
    use crate::random::Random;

    /// The fewest selectors, then the smallest number, among all tables.
    #[test]
    fn picks_have_the_fewest_selectors() {
        let mut rng = Random::new(17);
        for (board, n) in BOARDS.into_iter().flat_map(|board| (1..=4).map(move |n| (board, n))) {
            let all = full(n);
            let mut tables: Vec<u32> = (0..=all).map(|table| board.selectors(n, table) * CELL + table as u32).collect();
            tables.sort_unstable();
            for _ in 0..5_000 {
                let (table, free) = (u64::from(rng.word()), u64::from(rng.word()));
                let it = Projection { n, zeros: (!table | free) & all, ones: (table | free) & all };
                let least = *tables.iter().find(|&&key| fits(&it, (key % CELL).into())).expect("some table fits");
                let found = match board {
                    Board::Tree => pick_by::<Trees>(&it),
                    Board::Shared => pick_by::<Lists>(&it),
                };
                assert_eq!(found, Pick::of(least), "{board:?} {it:?}");
            }
        }
    }
}
