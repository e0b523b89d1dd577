//! Document 01, "Cells": the cells of a table, by halving; with document 02,
//! E4, an input that is soldered through has none. A written stage still has a
//! selector for it, so those are counted beside the cells.

/// One table for each wire: bit p is the wire on pattern p; 0 past wire m-1.
/// Document 02, E5: six inputs have tables of 64 bits.
pub type Tables = [u64; 4];

/// The table of n inputs that is 1 everywhere.
pub fn full(n: u32) -> u64 {
    u64::MAX >> (64 - (1u32 << n))
}

/// The two halves by the first input: where it is 0 (low bits), where it is 1.
pub fn halves(n: u32, table: u64) -> (u64, u64) {
    let width = 1u32 << (n - 1);
    (table & full(n - 1), table >> width)
}

/// Whether a table is the first of its n inputs itself: 0 where that input is
/// 0, and 1 where it is 1.
pub fn is_straight(n: u32, table: u64) -> bool {
    halves(n, table) == (0, full(n - 1))
}

/// The cells of a table of n inputs.
pub fn cells(n: u32, table: u64) -> u32 {
    if table == 0 || table == full(n) || is_straight(n, table) {
        return 0;
    }
    let (zero, one) = halves(n, table);
    if zero == one {
        cells(n - 1, zero)
    } else {
        1 + cells(n - 1, zero) + cells(n - 1, one)
    }
}

/// The selectors of its reduced tree, the straight ones among them.
pub fn selectors(n: u32, table: u64) -> u32 {
    if table == 0 || table == full(n) {
        return 0;
    }
    let (zero, one) = halves(n, table);
    if zero == one {
        selectors(n - 1, zero)
    } else {
        1 + selectors(n - 1, zero) + selectors(n - 1, one)
    }
}

#[cfg(test)]
mod tests {
    use super::*;

    /// Table, cells, selectors.
    #[test]
    fn counted_by_hand() {
        for (n, table, expected) in [
            (1, 0b10, (0, 1)),
            (1, 0b01, (1, 1)),
            // An input itself, tested first or last; then inverted.
            (2, 0b1100, (0, 1)),
            (2, 0b1010, (0, 1)),
            (4, 0xFF00, (0, 1)),
            (4, 0xF0F0, (0, 1)),
            (4, 0xCCCC, (0, 1)),
            (4, 0xAAAA, (0, 1)),
            (4, 0x00FF, (1, 1)),
            (4, 0x5555, (1, 1)),
            // AND and OR have an input below, XOR has it on one side only.
            (2, 0b1000, (1, 2)),
            (2, 0b1110, (1, 2)),
            (2, 0b0110, (2, 3)),
            // An input chosen by input 1, from two of the others.
            (3, 0xCA, (1, 3)),
            // Input 2 where input 1 is 0, else 1: the 1 branch alone is constant.
            (3, 0xFC, (1, 2)),
            (4, 0x6996, (11, 15)),
            // Six inputs: the first and the last, inverted; the parity.
            (6, 0xFFFF_FFFF_0000_0000, (0, 1)),
            (6, 0xAAAA_AAAA_AAAA_AAAA, (0, 1)),
            (6, 0x0000_0000_FFFF_FFFF, (1, 1)),
            (6, 0x5555_5555_5555_5555, (1, 1)),
            (5, 0x9669_6996, (23, 31)),
            (6, 0x6996_9669_9669_6996, (47, 63)),
            // One pattern alone: all six inputs, the last of them straight.
            (6, 1 << 63, (5, 6)),
            (6, 1, (6, 6)),
        ] {
            assert_eq!((cells(n, table), selectors(n, table)), expected, "{table:x}");
        }
    }

    /// Soldering takes nothing away but straight selectors: nothing costs more
    /// for it, and what costs nothing is a constant or an input.
    #[test]
    fn no_more_cells_than_selectors() {
        for n in 1..=4 {
            let free = (0..=full(n)).filter(|&table| {
                assert!(cells(n, table) <= selectors(n, table), "{table:x}");
                cells(n, table) == 0
            });
            assert_eq!(free.count() as u32, 2 + n);
        }
        assert_eq!((0..=full(4)).map(|table| cells(4, table)).max(), Some(11));
        assert_eq!((0..=full(4)).map(|table| selectors(4, table)).max(), Some(15));
    }
}
