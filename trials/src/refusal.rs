//! Document 01, "Refusals", and those that document 02 adds: a number and a
//! place.

#[derive(Clone, Copy, PartialEq, Eq, Debug)]
pub struct Refusal {
    pub number: u8,
    pub place: usize,
}

pub const CUT_SHORT: u8 = 1;
pub const UNKNOWN: u8 = 2;
pub const OUT_OF_RANGE: u8 = 3;
pub const TRAILING: u8 = 4;
pub const OUT_OF_TURN: u8 = 5;
pub const NO_SIGNAL: u8 = 6;
pub const REPEATED: u8 = 7;
pub const TOO_MANY: u8 = 8;
pub const MISSING_ROW: u8 = 9;
pub const EMPTY: u8 = 10;
pub const NOT_ASCENDING: u8 = 11;
pub const SHORT_BUFFER: u8 = 12;
pub const SIZES_DIFFER: u8 = 13;
pub const TOO_LONG: u8 = 14;
/// Document 02, E5.
pub const TOO_WIDE: u8 = 15;

/// Ends a reading with a refusal.
pub fn refuse<T>(number: u8, place: usize) -> Result<T, Refusal> {
    Err(Refusal { number, place })
}
