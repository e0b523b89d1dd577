//! The cases of document 02, E1, behind those of document 01.

use super::{Planner, LONGEST};
use crate::case::Case;
use crate::clean::copy;
use crate::draw::damage::damage;
use crate::draw::limits::{limits_leaving, permitted};
use crate::draw::sheets::{draft, longest_draft, Draft};
use crate::rows::clean_rows;
use crate::sheet;

/// How many of each are drawn.
const GOOD: usize = 1_000;
const TWINS: usize = 200;
const CLEAN_ALREADY: usize = 120;
const LONG: usize = 16;
const FAULTY: usize = 1_700;
const DAMAGED: usize = 400;

/// The longest copy of up to four inputs; no buffer of these cases is longer than
/// the other.
const LONGEST_NARROW: usize = 260;
const MOST_ROOM: usize = 320;

pub fn cases(planner: &mut Planner) -> Vec<Case> {
    let mut cases: Vec<Case> = clean_rows().into_iter().map(|(_, case)| case).collect();
    cases.extend((0..GOOD).map(|_| planner.good_clean()));
    cases.extend((0..TWINS).flat_map(|_| planner.clean_twins()));
    cases.extend((0..CLEAN_ALREADY).map(|_| planner.clean_already()));
    cases.extend((0..LONG).map(|_| planner.long_clean()));
    cases.extend((0..FAULTY).map(|_| planner.faulty_clean()));
    cases.extend((0..DAMAGED).map(|_| planner.damaged_clean()));
    cases
}

impl Planner {
    fn good_clean(&mut self) -> Case {
        let sheet = self.good_sheet();
        self.clean_of(sheet)
    }

    /// Two sheets that say the same, with equal buffers: one reply for both.
    fn clean_twins(&mut self) -> [Case; 2] {
        let sheets = self.sheets_alike();
        let room = self.copy_room(&sheets[0]);
        sheets.map(|sheet| Case::Clean { room, sheet })
    }

    fn clean_already(&mut self) -> Case {
        let sheet = self.clean_sheet();
        self.clean_of(sheet)
    }

    fn long_clean(&mut self) -> Case {
        let sheet = longest_draft(&mut self.rng).sheet(&mut self.rng);
        self.clean_of(sheet)
    }

    /// Sheets that only the quote refuses, with 10, are among them.
    fn faulty_clean(&mut self) -> Case {
        let sheet = self.any_faulty_sheet();
        self.clean_of(sheet)
    }

    fn damaged_clean(&mut self) -> Case {
        let sheet = if self.rng.once_in(4) { self.clean_sheet() } else { self.good_sheet() };
        let hurt = damage(&mut self.rng, &sheet);
        self.clean_of(hurt)
    }

    fn clean_of(&mut self, sheet: Vec<u8>) -> Case {
        assert!(sheet.len() <= LONGEST);
        Case::Clean { room: self.copy_room(&sheet), sheet }
    }

    /// A buffer length around the copy's; any where there is no copy.
    fn copy_room(&mut self, sheet: &[u8]) -> u16 {
        let room = match sheet::read(sheet) {
            Ok(unit) => self.room_around(copy(&unit).len(), LONGEST_NARROW, MOST_ROOM),
            Err(_) => self.rng.of(&[0, 1, 28, LONGEST_NARROW, MOST_ROOM]),
        };
        room as u16
    }

    /// A sheet that is its own copy.
    fn clean_sheet(&mut self) -> Vec<u8> {
        let unit = sheet::read(&self.good_sheet()).expect("drawn to be read");
        copy(&unit)
    }

    fn good_sheet(&mut self) -> Vec<u8> {
        let [sheet, _] = self.sheets_alike();
        sheet
    }

    /// Two orders of one content, with other limits that leave the same sets.
    fn sheets_alike(&mut self) -> [Vec<u8>; 2] {
        loop {
            let mut content =
                if self.rng.once_in(8) { draft(&mut self.rng) } else { self.short_draft(&[1, 2, 3, 3, 4]) };
            let permitted = permitted(&mut self.rng, content.n, content.m);
            let sheets = [0; 2].map(|_| self.sheet_leaving(&mut content, &permitted));
            assert_eq!(sheet::read(&sheets[0]), sheet::read(&sheets[1]), "drawn to say the same");
            if sheets.iter().all(|sheet| sheet.len() <= LONGEST) {
                return sheets;
            }
        }
    }

    fn sheet_leaving(&mut self, content: &mut Draft, permitted: &[u16]) -> Vec<u8> {
        content.limits = limits_leaving(&mut self.rng, content.m, permitted);
        content.sheet(&mut self.rng)
    }
}

#[cfg(test)]
mod tests {
    use super::*;
    use crate::board::Board;
    use crate::pick::Picker;
    use crate::random::Random;

    /// Sheets that say the same give the same line, and are seldom the same.
    #[test]
    fn twins_give_the_same_line() {
        let mut planner = Planner { board: Board::Tree, rng: Random::new(103) };
        let mut picker = Picker::new();
        let mut other = 0;
        for _ in 0..500 {
            let twins = planner.clean_twins();
            let [first, second] = twins.clone().map(|case| case.reply(&mut picker).text);
            assert_eq!(first, second, "{twins:?}");
            other += usize::from(twins[0] != twins[1]);
        }
        assert!(other > 400, "only {other} of 500 differ");
    }

    #[test]
    fn no_buffer_is_too_long() {
        let cases = cases(&mut Planner { board: Board::Tree, rng: Random::new(104) });
        let room = |case: &Case| matches!(case, Case::Clean { room, .. } if usize::from(*room) <= MOST_ROOM);
        assert!(cases.iter().all(room));
    }
}
