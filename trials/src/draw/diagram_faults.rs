//! Faults planted in stages of lists: every refusal of their reader, at every
//! place where it can come.

use super::diagrams::lists;
use super::{bad_size, too_large};
use crate::diagram::{Diagram, FIRST, MOST_ENTRIES};
use crate::random::Random;

/// What stands at a place of the sheet.
#[derive(Clone, Copy, PartialEq, Eq, Hash, Debug)]
pub enum Part {
    Head,
    Wire,
    Entry,
    Top,
    End,
}

/// The refusals, and the parts where each can come.
const FAULTS: [(u8, &[Part]); 7] = [
    (1, &[Part::Head, Part::Wire, Part::Entry, Part::Top, Part::End]),
    (2, &[Part::Head, Part::Wire, Part::End]),
    (3, &[Part::Head, Part::Wire, Part::Entry]),
    (4, &[Part::End]),
    (5, &[Part::Head, Part::Wire, Part::End]),
    (6, &[Part::Entry, Part::Top]),
    (11, &[Part::Entry]),
];

/// All refusals alike, and all parts of each.
fn any_fault(rng: &mut Random) -> (Part, u8) {
    let (number, parts) = rng.of(&FAULTS);
    (rng.of(parts), number)
}

/// A sheet in pieces, each with the part that it is.
#[derive(Clone, Debug)]
pub struct Pieces {
    n: u8,
    m: u8,
    pieces: Vec<(Part, Vec<u8>)>,
}

impl Pieces {
    pub fn of(n: u8, lists: &[Diagram]) -> Pieces {
        let m = lists.len() as u8;
        let mut pieces = vec![(Part::Head, vec![0x20, n, m])];
        for (j, list) in lists.iter().enumerate() {
            pieces.push((Part::Wire, vec![0x26, j as u8, list.entries.len() as u8]));
            pieces.extend(list.entries.iter().map(|it| (Part::Entry, vec![it.input, it.zero, it.one])));
            pieces.push((Part::Top, vec![list.top]));
        }
        pieces.push((Part::End, vec![0x2F]));
        Pieces { n, m, pieces }
    }

    pub fn bytes(&self) -> Vec<u8> {
        self.pieces.iter().flat_map(|(_, bytes)| bytes).copied().collect()
    }

    fn places(&self, part: Part) -> Vec<usize> {
        (0..self.pieces.len()).filter(|&at| self.pieces[at].0 == part).collect()
    }

    /// The name of the entry at a place; at the top, the first that is none.
    fn name(&self, at: usize) -> u8 {
        let entries = self.pieces[..at].iter().rev().take_while(|(part, _)| *part == Part::Entry);
        FIRST + entries.count() as u8
    }

    /// Sets a byte of a piece, where an earlier fault has left it there.
    fn set(&mut self, at: usize, byte: usize, value: u8) {
        if let Some(it) = self.pieces[at].1.get_mut(byte) {
            *it = value;
        }
    }

    /// Plants a fault of that part and number; gives the piece where it is met,
    /// or `None` where the sheet has no place for it.
    pub fn plant(&mut self, rng: &mut Random, part: Part, number: u8) -> Option<usize> {
        let mut places = self.places(part);
        if number == 11 {
            // It takes an entry before it.
            places.retain(|&at| self.name(at) > FIRST);
        }
        if places.is_empty() {
            return None;
        }
        let at = rng.of(&places);
        match (part, number) {
            (_, 1) => self.cut(rng, at),
            (_, 2) => self.unknown(rng, at),
            (Part::Head, 3) => self.sizes(rng, at),
            (Part::Wire, 3) => self.wire_range(rng, at),
            (Part::Wire, 5) if self.m > 1 && rng.once_in(2) => self.other_wire(rng, at),
            (_, 5) => self.turn(rng, part, at),
            (Part::Entry, 3) => self.input_range(rng, at),
            (Part::Entry, 6) => self.name_too_high(rng, at),
            (Part::Top, 6) => self.set(at, 0, too_large(rng, self.name(at))),
            (Part::Entry, 11) => self.not_above(rng, at),
            (Part::End, 4) => return Some(self.trailing(rng)),
            _ => unreachable!("{part:?} has no refusal {number}"),
        }
        Some(at)
    }

    /// 1: the bytes end before a piece or inside it.
    fn cut(&mut self, rng: &mut Random, at: usize) {
        self.pieces.truncate(at + 1);
        let piece = &mut self.pieces[at].1;
        piece.truncate(rng.below(piece.len().max(1)));
    }

    /// 2: a first byte that is no command here, a tree's or a unit's among them.
    fn unknown(&mut self, rng: &mut Random, at: usize) {
        let (low, high) = rng.of(&[(0x00, 0x1F), (0x27, 0x2E), (0x30, 0xFF)]);
        let any = rng.within(low, high) as u8;
        let first = rng.of(&[0x21, 0x21, 0x22, 0x23, 0x24, 0x25, 0x27, 0x01, any, any]);
        if rng.once_in(2) {
            self.set(at, 0, first);
        } else {
            let part = self.pieces[at].0;
            self.pieces.insert(at, (part, vec![first]));
        }
    }

    /// 5: another command, whole or cut short, where one is due.
    fn turn(&mut self, rng: &mut Random, due: Part, at: usize) {
        let mut others: Vec<Vec<u8>> = Vec::new();
        if due != Part::Head {
            others.push(vec![0x20, self.n, self.m]);
        }
        if due != Part::Wire {
            others.push(vec![0x26, rng.below(self.m as usize + 1) as u8, rng.of(&[0, 1, MOST_ENTRIES + 1])]);
        }
        if due != Part::End {
            others.push(vec![0x2F]);
        }
        let mut command = others.swap_remove(rng.below(others.len()));
        match rng.below(4) {
            0 => self.pieces[at].1 = command,
            1 => {
                command.truncate(rng.within(1, command.len()));
                self.pieces.truncate(at);
                self.pieces.push((due, command));
            }
            _ => self.pieces.insert(at, (due, command)),
        }
    }

    fn sizes(&mut self, rng: &mut Random, at: usize) {
        let which = rng.within(1, 3);
        for (bit, byte) in [(1, 1), (2, 2)] {
            if which & bit != 0 {
                self.set(at, byte, bad_size(rng));
            }
        }
    }

    /// 3: a wire from m up, too many entries, or both; also too many entries
    /// for a wire that is not the next, which would be 5.
    fn wire_range(&mut self, rng: &mut Random, at: usize) {
        let (wire, count) = (too_large(rng, self.m), too_large(rng, MOST_ENTRIES + 1));
        let any = rng.below(self.m.into()) as u8;
        let (wire, count) = match rng.below(6) {
            0 | 1 => (Some(wire), None),
            2 => (None, Some(count)),
            3 => (Some(wire), Some(count)),
            _ => (Some(any), Some(count)),
        };
        for (byte, value) in [(1, wire), (2, count)] {
            if let Some(value) = value {
                self.set(at, byte, value);
            }
        }
    }

    /// 5: a wire below m that is not the next.
    fn other_wire(&mut self, rng: &mut Random, at: usize) {
        let next = self.pieces[..at].iter().filter(|(part, _)| *part == Part::Wire).count();
        self.set(at, 1, ((next + rng.within(1, self.m as usize - 1)) % self.m as usize) as u8);
    }

    /// 3: an input outside 1 to n; its names may be too high at once.
    fn input_range(&mut self, rng: &mut Random, at: usize) {
        let input = if rng.once_in(3) { 0 } else { too_large(rng, self.n + 1) };
        if rng.once_in(3) {
            self.name_too_high(rng, at);
        }
        self.set(at, 0, input);
    }

    /// 6: the entry names itself or a later one, on either branch or on both.
    /// The other branch may name one whose input is not above.
    fn name_too_high(&mut self, rng: &mut Random, at: usize) {
        let own = self.name(at);
        let names = [too_large(rng, own), too_large(rng, own)];
        let which = rng.within(1, 3);
        for branch in 0..2 {
            if which >> branch & 1 == 1 {
                self.set(at, 1 + branch, names[branch]);
            } else if rng.once_in(2) {
                self.set(at, 1 + branch, rng.below(own.into()) as u8);
            }
        }
    }

    /// 11: the entry names one with the same input, or with a lower one.
    fn not_above(&mut self, rng: &mut Random, at: usize) {
        let back = rng.within(1, (self.name(at) - FIRST).into());
        let named = self.pieces[at - back].1[0];
        let name = self.name(at) - back as u8;
        // An earlier fault may have left an input out of range.
        let least = named.clamp(1, self.n);
        let input = if rng.once_in(2) { least } else { rng.within(least.into(), self.n.into()) as u8 };
        let branches: &[usize] = rng.of(&[&[1][..], &[2], &[1, 2]]);
        self.set(at, 0, input);
        for &branch in branches {
            self.set(at, branch, name);
        }
    }

    /// 4: bytes after the end.
    fn trailing(&mut self, rng: &mut Random) -> usize {
        let more = (0..rng.within(1, 4)).map(|_| rng.of(&[0x00, 0x20, 0x21, 0x26, 0x2F, 0xEE])).collect();
        self.pieces.push((Part::End, more));
        self.pieces.len() - 1
    }
}

/// A stage of those sizes with one fault or several.
pub fn faulty(rng: &mut Random, n: u8, m: u8) -> Vec<u8> {
    loop {
        let mut faults = vec![any_fault(rng)];
        while rng.once_in(5) {
            faults.push(any_fault(rng));
        }
        // What is cut off takes no other fault, and what comes after the end
        // is put there last but one.
        faults.sort_by_key(|&(_, number)| match number {
            1 => 2,
            4 => 1,
            _ => 0,
        });
        let mut pieces = Pieces::of(n, &lists(rng, n, m));
        if faults.into_iter().all(|(part, number)| pieces.plant(rng, part, number).is_some()) {
            return pieces.bytes();
        }
    }
}

#[cfg(test)]
mod tests {
    use super::*;
    use crate::diagram::read;
    use crate::draw::sizes;

    /// Each fault by itself gives its number, at the piece it was planted in.
    #[test]
    fn faults_are_met() {
        let mut rng = Random::new(32);
        let faults = FAULTS.into_iter().flat_map(|(number, parts)| parts.iter().map(move |&part| (part, number)));
        for (part, number) in faults {
            let mut met = 0;
            while met < 400 {
                let (n, m) = sizes(&mut rng);
                let mut pieces = Pieces::of(n, &lists(&mut rng, n, m));
                let Some(at) = pieces.plant(&mut rng, part, number) else { continue };
                let place = pieces.pieces[..at].iter().map(|(_, bytes)| bytes.len()).sum();
                let r = read(&pieces.bytes()).expect_err("to be refused");
                assert_eq!((r.number, r.place), (number, place), "{part:?} {pieces:?}");
                met += 1;
            }
        }
    }

    /// With several faults one may undo another, but seldom does.
    #[test]
    fn several_faults_are_refused() {
        let mut rng = Random::new(33);
        let refused = (0..5_000).filter(|_| {
            let (n, m) = sizes(&mut rng);
            read(&faulty(&mut rng, n, m)).is_err()
        });
        assert!(refused.count() > 4_950);
    }
}
