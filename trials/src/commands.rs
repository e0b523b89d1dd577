//! What the two kinds of stage sheet have in common: how a command is taken
//! where one is due, the sizes and the end.

use crate::refusal::*;
use crate::sheet::MOST_WIRES;

/// What may come at a place of a stage sheet.
#[derive(Clone, Copy, PartialEq, Eq, Debug)]
pub enum Due {
    Sizes,
    Wire,
    Tree,
    End,
}

/// Which kind of command a first byte is, and how many operands it has; `None`
/// where this kind of sheet does not know it.
pub type Known = fn(u8) -> Option<(Due, usize)>;

pub struct Reader<'a> {
    bytes: &'a [u8],
    at: usize,
    known: Known,
}

/// A command: its place, first byte and operands.
pub struct Command<'a> {
    pub place: usize,
    pub first: u8,
    pub operands: &'a [u8],
}

impl<'a> Reader<'a> {
    pub fn new(bytes: &'a [u8], known: Known) -> Reader<'a> {
        Reader { bytes, at: 0, known }
    }

    /// Where the next byte stands.
    pub fn place(&self) -> usize {
        self.at
    }

    /// So many bytes; 1 at the first of them where fewer are left.
    pub fn take(&mut self, count: usize) -> Result<&'a [u8], Refusal> {
        let Some(taken) = self.bytes.get(self.at..self.at + count) else {
            return refuse(CUT_SHORT, self.at);
        };
        self.at += count;
        Ok(taken)
    }

    /// The next command: 1 where none is left, then 2, 5, 1.
    pub fn next(&mut self, due: Due) -> Result<Command<'a>, Refusal> {
        let place = self.at;
        let Some(&first) = self.bytes.get(place) else {
            return refuse(CUT_SHORT, place);
        };
        let Some((kind, count)) = (self.known)(first) else {
            return refuse(UNKNOWN, place);
        };
        if kind != due {
            return refuse(OUT_OF_TURN, place);
        }
        let command = self.take(1 + count)?;
        Ok(Command { place, first, operands: &command[1..] })
    }

    /// 20 n m, on a board of so many lines.
    pub fn sizes(&mut self, most_inputs: u8) -> Result<(u32, u32), Refusal> {
        let command = self.next(Due::Sizes)?;
        let (n, m) = (command.operands[0], command.operands[1]);
        if !(1..=most_inputs).contains(&n) || !(1..=MOST_WIRES).contains(&m) {
            return refuse(OUT_OF_RANGE, command.place);
        }
        Ok((n.into(), m.into()))
    }

    pub fn end(&mut self) -> Result<(), Refusal> {
        self.next(Due::End)?;
        if self.at < self.bytes.len() {
            return refuse(TRAILING, self.at);
        }
        Ok(())
    }
}
