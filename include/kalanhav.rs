//! Kalanhav for Rust, edition 2021: the functions of target/staticlib/libforeign.a, which `examples/library` writes, declared
//! and wrapped. What each does and refuses stands in include/kalanhav.h. tests/declarations.py holds both to crates/foreign/src. A
//! slice passes as a pointer and a length.
#![allow(dead_code)]

/// Cells of a state, of cents, of a row and of an event.
pub const STATE_CELLS: usize = 7;
pub const CENTS_CELLS: usize = 2;
pub const ROW_CELLS: usize = 9;
pub const EVENT_CELLS: usize = 9;
/// The most rows, and the lengths of the other tables.
pub const MANDATE_ROWS: usize = 4_096;
pub const COLLECTION_ROWS: usize = 16_384;
pub const CREDITORS: usize = 256;
pub const DEBTORS: usize = 4_096;
pub const BANKS: usize = 64;

/// Places in `state`.
pub const LATEST: usize = 0;
pub const MANDATES_USED: usize = 1;
pub const COLLECTIONS_USED: usize = 2;
pub const LINES: usize = 3;
pub const FILLED: usize = 4;
pub const WRITTEN: usize = 5;
pub const PAST: usize = 6;
/// Places in `cents`.
pub const COMPENSATION: usize = 0;
pub const FIGURE: usize = 1;

/// The most lines that are answered; the bytes of an event's line, the most of a partial one, and the least text that always has room
/// for a further byte; the bytes of an answer, of which a text needs one for each byte, and of a position; room for a listing.
pub const LAST_LINE: u64 = 999_999;
pub const LINE_BYTES: usize = 75;
pub const PARTIAL_BYTES: usize = LINE_BYTES + 1;
pub const TEXT_LEAST: usize = PARTIAL_BYTES + 1;
pub const ANSWER_BYTES: usize = 10;
pub const POSITION_BYTES: usize = 27;
pub const LISTING_ROOM: usize = (CREDITORS + DEBTORS + BANKS + 1) * POSITION_BYTES;

/// All that is lent to a call.
#[derive(Clone, PartialEq)]
pub struct Book {
    pub state: Vec<u64>,
    pub cents: Vec<i64>,
    pub mandates: Vec<u64>,
    pub collections: Vec<u64>,
    pub creditors: Vec<u64>,
    pub creditor_positions: Vec<i64>,
    pub debtor_positions: Vec<i64>,
    pub bank_positions: Vec<i64>,
}

extern "C" {
    fn kalanhav_open(
        state: *mut u64,
        state_length: usize,
        cents: *mut i64,
        cents_length: usize,
        mandates: *const u64,
        mandates_length: usize,
        collections: *const u64,
        collections_length: usize,
        creditors: *mut u64,
        creditors_length: usize,
        creditor_positions: *mut i64,
        creditor_positions_length: usize,
        debtor_positions: *mut i64,
        debtor_positions_length: usize,
        bank_positions: *mut i64,
        bank_positions_length: usize,
    ) -> u64;

    fn kalanhav_take_event(
        state: *mut u64,
        state_length: usize,
        cents: *mut i64,
        cents_length: usize,
        event: *const u64,
        event_length: usize,
        mandates: *mut u64,
        mandates_length: usize,
        collections: *mut u64,
        collections_length: usize,
        creditors: *mut u64,
        creditors_length: usize,
        creditor_positions: *mut i64,
        creditor_positions_length: usize,
        debtor_positions: *mut i64,
        debtor_positions_length: usize,
        bank_positions: *mut i64,
        bank_positions_length: usize,
    ) -> u64;

    fn kalanhav_position(
        state: *const u64,
        state_length: usize,
        cents: *mut i64,
        cents_length: usize,
        kind: u64,
        number: u64,
        mandates: *const u64,
        mandates_length: usize,
        collections: *const u64,
        collections_length: usize,
        creditors: *const u64,
        creditors_length: usize,
        creditor_positions: *const i64,
        creditor_positions_length: usize,
        debtor_positions: *const i64,
        debtor_positions_length: usize,
        bank_positions: *const i64,
        bank_positions_length: usize,
    ) -> u64;

    fn kalanhav_take_text(
        state: *mut u64,
        state_length: usize,
        cents: *mut i64,
        cents_length: usize,
        text: *mut u8,
        text_length: usize,
        out: *mut u8,
        out_length: usize,
        mandates: *mut u64,
        mandates_length: usize,
        collections: *mut u64,
        collections_length: usize,
        creditors: *mut u64,
        creditors_length: usize,
        creditor_positions: *mut i64,
        creditor_positions_length: usize,
        debtor_positions: *mut i64,
        debtor_positions_length: usize,
        bank_positions: *mut i64,
        bank_positions_length: usize,
    ) -> u64;

    fn kalanhav_end_text(
        state: *mut u64,
        state_length: usize,
        out: *mut u8,
        out_length: usize,
    ) -> u64;

    fn kalanhav_list_positions(
        state: *mut u64,
        state_length: usize,
        cents: *const i64,
        cents_length: usize,
        mandates: *const u64,
        mandates_length: usize,
        collections: *const u64,
        collections_length: usize,
        creditors: *const u64,
        creditors_length: usize,
        creditor_positions: *const i64,
        creditor_positions_length: usize,
        debtor_positions: *const i64,
        debtor_positions_length: usize,
        bank_positions: *const i64,
        bank_positions_length: usize,
        out: *mut u8,
        out_length: usize,
    ) -> u64;

    fn kalanhav_replay(
        state: *mut u64,
        state_length: usize,
        cents: *mut i64,
        cents_length: usize,
        events: *const u64,
        events_length: usize,
        mandates: *mut u64,
        mandates_length: usize,
        collections: *mut u64,
        collections_length: usize,
        creditors: *mut u64,
        creditors_length: usize,
        creditor_positions: *mut i64,
        creditor_positions_length: usize,
        debtor_positions: *mut i64,
        debtor_positions_length: usize,
        bank_positions: *mut i64,
        bank_positions_length: usize,
    ) -> u64;

    fn kalanhav_is_fit(
        state: *const u64,
        state_length: usize,
        cents: *const i64,
        cents_length: usize,
        mandates: *const u64,
        mandates_length: usize,
        collections: *const u64,
        collections_length: usize,
        creditors: *const u64,
        creditors_length: usize,
        creditor_positions: *const i64,
        creditor_positions_length: usize,
        debtor_positions: *const i64,
        debtor_positions_length: usize,
        bank_positions: *const i64,
        bank_positions_length: usize,
    ) -> bool;

    fn kalanhav_is_safe(
        state: *const u64,
        state_length: usize,
        cents: *const i64,
        cents_length: usize,
        mandates: *const u64,
        mandates_length: usize,
        collections: *const u64,
        collections_length: usize,
        creditors: *const u64,
        creditors_length: usize,
        creditor_positions: *const i64,
        creditor_positions_length: usize,
        debtor_positions: *const i64,
        debtor_positions_length: usize,
        bank_positions: *const i64,
        bank_positions_length: usize,
    ) -> bool;
}

/// Calls a function with the cells of a book, what is given for it, the tables, and what is given behind them. No function asks
/// anything of its arguments; each length is that of its slice, and no two overlap.
macro_rules! call {
    ($function:ident, $book:expr, $pointer:ident, [$($before:expr),*], [$($behind:expr),*]) => {{
        let book = $book;
        unsafe {
            $function(
                book.state.$pointer(),
                book.state.len(),
                book.cents.$pointer(),
                book.cents.len(),
                $($before,)*
                book.mandates.$pointer(),
                book.mandates.len(),
                book.collections.$pointer(),
                book.collections.len(),
                book.creditors.$pointer(),
                book.creditors.len(),
                book.creditor_positions.$pointer(),
                book.creditor_positions.len(),
                book.debtor_positions.$pointer(),
                book.debtor_positions.len(),
                book.bank_positions.$pointer(),
                book.bank_positions.len(),
                $($behind,)*
            )
        }
    }};
}

/// A number that a function gives is 0, or that of a refusal, which changes nothing.
impl Book {
    /// Memory with so many rows, opened; 2 for rows outside their limits.
    pub fn new(mandate_rows: usize, collection_rows: usize) -> Result<Book, u64> {
        if mandate_rows > MANDATE_ROWS || collection_rows > COLLECTION_ROWS {
            return Err(2);
        }
        let mut book = Book {
            state: vec![0; STATE_CELLS],
            cents: vec![0; CENTS_CELLS],
            mandates: vec![0; mandate_rows * ROW_CELLS],
            collections: vec![0; collection_rows * ROW_CELLS],
            creditors: vec![0; CREDITORS],
            creditor_positions: vec![0; CREDITORS],
            debtor_positions: vec![0; DEBTORS],
            bank_positions: vec![0; BANKS],
        };
        match book.open() {
            0 => Ok(book),
            refusal => Err(refusal),
        }
    }

    pub fn open(&mut self) -> u64 {
        call!(kalanhav_open, self, as_mut_ptr, [], [])
    }

    pub fn take_event(&mut self, event: &[u64]) -> u64 {
        let (cells, length) = (event.as_ptr(), event.len());
        call!(kalanhav_take_event, self, as_mut_ptr, [cells, length], [])
    }

    /// The figure, or the number of a refusal.
    pub fn position(&mut self, kind: u64, number: u64) -> Result<i64, u64> {
        match call!(
            kalanhav_position,
            &mut *self,
            as_mut_ptr,
            [kind, number],
            []
        ) {
            0 => Ok(self.cents[FIGURE]),
            refusal => Err(refusal),
        }
    }

    /// Takes `added` bytes that stand behind the partial line in the text: from `state[FILLED]` on.
    pub fn take_text(&mut self, text: &mut [u8], added: usize, out: &mut [u8]) -> u64 {
        let Some(filled) = self.state.get_mut(FILLED) else {
            return 2;
        };
        if *filled > text.len() as u64 || added as u64 > text.len() as u64 - *filled {
            return 2;
        }
        *filled += added as u64;
        let (bytes, length) = (text.as_mut_ptr(), text.len());
        let (room, size) = (out.as_mut_ptr(), out.len());
        let given = call!(
            kalanhav_take_text,
            &mut *self,
            as_mut_ptr,
            [bytes, length, room, size],
            []
        );
        if given != 0 {
            self.state[FILLED] -= added as u64;
        }
        given
    }

    pub fn end_text(&mut self, out: &mut [u8]) -> u64 {
        let (state, cells) = (self.state.as_mut_ptr(), self.state.len());
        unsafe { kalanhav_end_text(state, cells, out.as_mut_ptr(), out.len()) }
    }

    pub fn list_positions(&mut self, out: &mut [u8]) -> u64 {
        let (room, size) = (out.as_mut_ptr(), out.len());
        call!(kalanhav_list_positions, self, as_mut_ptr, [], [room, size])
    }

    /// Events of nine cells each, one after the other.
    pub fn replay(&mut self, events: &[u64]) -> u64 {
        let (cells, length) = (events.as_ptr(), events.len());
        call!(kalanhav_replay, self, as_mut_ptr, [cells, length], [])
    }

    pub fn is_fit(&self) -> bool {
        call!(kalanhav_is_fit, self, as_ptr, [], [])
    }

    pub fn is_safe(&self) -> bool {
        call!(kalanhav_is_safe, self, as_ptr, [], [])
    }
}
