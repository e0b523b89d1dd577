//! The library's calls through the C boundary, as `include/dagmetzi.h` declares them.

use trials::board::Board;
use trials::cells::Tables;
use trials::relation::Sets;

/// The calls as C sees them: a slice is a pointer and a length.
mod c {
    /// A sheet and its length, the budget, a buffer and its length, the reply.
    pub type Quote = unsafe extern "C" fn(*const u8, usize, u32, *mut u8, usize, *mut u64) -> u32;
    /// A sheet and its length, a stage and its length, the reply.
    pub type Audit = unsafe extern "C" fn(*const u8, usize, *const u8, usize, *mut u64) -> u32;
    /// n, m, the 64 sets, the budget, the four tables, the reply.
    pub type Search = unsafe extern "C" fn(u8, u8, *const u16, u32, *mut u64, *mut u64) -> u32;

    extern "C" {
        pub fn dagmetzi_quote(
            sheet: *const u8,
            sheet_length: usize,
            budget: u32,
            buffer: *mut u8,
            buffer_length: usize,
            reply: *mut u64,
        ) -> u32;

        pub fn dagmetzi_audit(
            sheet: *const u8,
            sheet_length: usize,
            stage: *const u8,
            stage_length: usize,
            reply: *mut u64,
        ) -> u32;

        pub fn dagmetzi_clean(
            sheet: *const u8,
            sheet_length: usize,
            buffer: *mut u8,
            buffer_length: usize,
            reply: *mut u64,
        ) -> u32;

        pub fn dagmetzi_search(n: u8, m: u8, sets: *const u16, budget: u32, tables: *mut u64, reply: *mut u64) -> u32;

        pub fn dagmetzi_quote_shared(
            sheet: *const u8,
            sheet_length: usize,
            budget: u32,
            buffer: *mut u8,
            buffer_length: usize,
            reply: *mut u64,
        ) -> u32;

        pub fn dagmetzi_audit_shared(
            sheet: *const u8,
            sheet_length: usize,
            stage: *const u8,
            stage_length: usize,
            reply: *mut u64,
        ) -> u32;

        pub fn dagmetzi_search_shared(
            n: u8,
            m: u8,
            sets: *const u16,
            budget: u32,
            tables: *mut u64,
            reply: *mut u64,
        ) -> u32;

        pub fn dagmetzi_quote_joined(
            first: *const u8,
            first_length: usize,
            second: *const u8,
            second_length: usize,
            budget: u32,
            buffer: *mut u8,
            buffer_length: usize,
            reply: *mut u64,
        ) -> u32;
    }
}

/// Outcomes of a search and of a quote, of an audit, of a clean copy, of a refusal, and of a refusal that names one of two
/// sheets.
pub const BEST: u64 = 0;
pub const STOPPED: u64 = 1;
pub const FITS: u64 = 0;
pub const DIFFERS: u64 = 1;
pub const WRITTEN: u64 = 0;
pub const REFUSED: u64 = 2;
pub const STAGE_REFUSED: u64 = 3;
pub const FIRST_REFUSED: u64 = 2;
pub const SECOND_REFUSED: u64 = 3;

/// What replies are filled with before a call, so that a number left unwritten is seen.
const FILL: u64 = 0xEEEE_EEEE_EEEE_EEEE;

/// What tables are filled with before a search, so that a refusal that writes is seen.
pub const LENT_TABLE: u64 = 0xEEEE_EEEE_EEEE_EEEE;

/// What a call returns, and the six numbers of its reply.
#[derive(Clone, Copy, PartialEq, Eq, Debug)]
pub struct Told {
    pub refusal: u32,
    pub outcome: u64,
    pub cells: u64,
    pub floor: u64,
    pub visits: u64,
    pub length: u64,
    pub place: u64,
}

fn told(refusal: u32, reply: [u64; 6]) -> Told {
    let [outcome, cells, floor, visits, length, place] = reply;
    Told { refusal, outcome, cells, floor, visits, length, place }
}

/// On either board, as in the calls below.
pub fn quote(board: Board, sheet: &[u8], budget: u32, buffer: &mut [u8]) -> Told {
    let call: c::Quote = match board {
        Board::Tree => c::dagmetzi_quote,
        Board::Shared => c::dagmetzi_quote_shared,
    };
    let mut reply = [FILL; 6];
    // SAFETY: a slice is never null, what is written is borrowed apart from the rest, and a reply has six numbers.
    let refusal =
        unsafe { call(sheet.as_ptr(), sheet.len(), budget, buffer.as_mut_ptr(), buffer.len(), reply.as_mut_ptr()) };
    told(refusal, reply)
}

/// The tree board alone has it.
pub fn quote_joined(first: &[u8], second: &[u8], budget: u32, buffer: &mut [u8]) -> Told {
    let mut reply = [FILL; 6];
    // SAFETY: as above; the two sheets are only read, and may be one.
    let refusal = unsafe {
        c::dagmetzi_quote_joined(
            first.as_ptr(),
            first.len(),
            second.as_ptr(),
            second.len(),
            budget,
            buffer.as_mut_ptr(),
            buffer.len(),
            reply.as_mut_ptr(),
        )
    };
    told(refusal, reply)
}

pub fn audit(board: Board, sheet: &[u8], stage: &[u8]) -> Told {
    let call: c::Audit = match board {
        Board::Tree => c::dagmetzi_audit,
        Board::Shared => c::dagmetzi_audit_shared,
    };
    let mut reply = [FILL; 6];
    // SAFETY: as above.
    let refusal = unsafe { call(sheet.as_ptr(), sheet.len(), stage.as_ptr(), stage.len(), reply.as_mut_ptr()) };
    told(refusal, reply)
}

pub fn clean(sheet: &[u8], buffer: &mut [u8]) -> Told {
    let mut reply = [FILL; 6];
    // SAFETY: as above.
    let refusal = unsafe {
        c::dagmetzi_clean(sheet.as_ptr(), sheet.len(), buffer.as_mut_ptr(), buffer.len(), reply.as_mut_ptr())
    };
    told(refusal, reply)
}

pub fn search(board: Board, n: u8, m: u8, sets: &Sets, budget: u32) -> (Told, Tables) {
    let call: c::Search = match board {
        Board::Tree => c::dagmetzi_search,
        Board::Shared => c::dagmetzi_search_shared,
    };
    let mut reply = [FILL; 6];
    let mut tables = [LENT_TABLE; 4];
    // SAFETY: as above; there are 64 sets and 4 tables.
    let refusal = unsafe { call(n, m, sets.as_ptr(), budget, tables.as_mut_ptr(), reply.as_mut_ptr()) };
    (told(refusal, reply), tables)
}
