//! The proved tables, in a state of lent bytes. docs/STATE.md has its blocks and cells.

use crate::table::{LevelTable, Live, OrderTable, Side};

/// A code, and a number.
#[repr(C)]
struct Answer {
    code: u64,
    number: u64,
}

unsafe extern "C" {
    fn tables_clear(state: *mut u8, len: usize) -> u64;
    fn tables_orders_find(state: *const u8, len: usize, number: u64) -> Answer;
    fn tables_orders_add(
        state: *mut u8,
        len: usize,
        number: u64,
        account: u64,
        client_ref: u64,
        side: u64,
        price: u64,
        leaves: u64,
        hold: u64,
    ) -> u64;
    fn tables_orders_change(
        state: *mut u8,
        len: usize,
        number: u64,
        leaves: u64,
        hold: u64,
    ) -> Answer;
    fn tables_orders_remove(state: *mut u8, len: usize, number: u64) -> Answer;
    fn tables_levels_find(state: *const u8, len: usize, side: u64, key: u64) -> Answer;
    fn tables_levels_add(state: *mut u8, len: usize, side: u64, key: u64, visible: u64) -> u64;
    fn tables_levels_show(
        state: *mut u8,
        len: usize,
        side: u64,
        key: u64,
        before: u64,
        after: u64,
    ) -> u64;
    fn tables_levels_remove(state: *mut u8, len: usize, side: u64, key: u64, visible: u64) -> u64;
}

/// The bytes of a state.
const SIZE: usize = 467_592;

/// Of each block: its rows, and the cells of a row.
pub const ROWS: [usize; 16] = [
    1, 256, 64, 256, 256, 2048, 512, 512, 256, 2049, 1024, 4096, 2048, 8, 8, 32,
];
pub const WIDTHS: [usize; 16] = [32, 16, 8, 4, 12, 16, 4, 4, 6, 1, 3, 1, 1, 1, 1, 1];

/// A price as a key: raised by 2^63.
pub fn key(price: i64) -> u64 {
    price as u64 ^ 1 << 63
}

/// Of a step that the tables have to take.
fn taken(code: u64) {
    assert_eq!(code, 0, "the step is refused");
}

impl Answer {
    fn number(self) -> u64 {
        taken(self.code);
        self.number
    }
}

/// Only entry points write the bytes.
#[derive(Clone, PartialEq, Eq)]
pub struct State(Vec<u8>);

// SAFETY, of each call below: the address and the length are those of one live slice. The one
// premise of the calls, that the bytes are what the last call left, holds from `tables_clear` on.
impl State {
    pub fn new() -> State {
        let mut state = State(vec![0xA5; SIZE]);
        taken(unsafe { tables_clear(state.0.as_mut_ptr(), state.0.len()) });
        state
    }

    /// The block, the row and the cell are of the layout.
    pub fn cell(&self, block: usize, row: usize, cell: usize) -> u64 {
        let start: usize = (0..block).map(|b| ROWS[b] * WIDTHS[b]).sum();
        let at = start + WIDTHS[block] * row + cell;
        u64::from_le_bytes(self.0.as_chunks().0[at])
    }

    /// The code of an order that comes.
    pub fn add_code(&mut self, number: u64, live: Live) -> u64 {
        unsafe {
            tables_orders_add(
                self.0.as_mut_ptr(),
                self.0.len(),
                number,
                u64::from(live.account),
                live.client_ref,
                live.side as u64,
                live.price as u64,
                live.leaves,
                live.held as u64,
            )
        }
    }

    pub fn join_code(&mut self, side: u64, price: i64, visible: u64) -> u64 {
        let (state, len) = (self.0.as_mut_ptr(), self.0.len());
        unsafe { tables_levels_add(state, len, side, key(price), visible) }
    }

    pub fn show_code(&mut self, side: u64, price: i64, before: u64, after: u64) -> u64 {
        let (state, len) = (self.0.as_mut_ptr(), self.0.len());
        unsafe { tables_levels_show(state, len, side, key(price), before, after) }
    }

    pub fn leave_code(&mut self, side: u64, price: i64, visible: u64) -> u64 {
        let (state, len) = (self.0.as_mut_ptr(), self.0.len());
        unsafe { tables_levels_remove(state, len, side, key(price), visible) }
    }

    /// The codes of all calls where the last `short` bytes are not lent.
    pub fn codes_of_short(&mut self, short: usize) -> [u64; 9] {
        let (state, len) = (self.0.as_mut_ptr(), self.0.len() - short);
        unsafe {
            [
                tables_clear(state, len),
                tables_orders_find(state, len, 1).code,
                tables_orders_add(state, len, u64::MAX, 0, 0, 0, 0, 0, 0),
                tables_orders_change(state, len, 1, 0, 0).code,
                tables_orders_remove(state, len, 1).code,
                tables_levels_find(state, len, 0, 0).code,
                tables_levels_add(state, len, 0, 0, 0),
                tables_levels_show(state, len, 0, 0, 0, 0),
                tables_levels_remove(state, len, 0, 0, 0),
            ]
        }
    }
}

impl OrderTable for State {
    fn find(&self, number: u64) -> u64 {
        unsafe { tables_orders_find(self.0.as_ptr(), self.0.len(), number) }.number()
    }

    fn add(&mut self, number: u64, live: Live) {
        taken(self.add_code(number, live))
    }

    fn change(&mut self, number: u64, leaves: u64, held: i64) -> bool {
        let (state, len) = (self.0.as_mut_ptr(), self.0.len());
        unsafe { tables_orders_change(state, len, number, leaves, held as u64) }.number() != 0
    }

    fn remove(&mut self, number: u64) -> bool {
        unsafe { tables_orders_remove(self.0.as_mut_ptr(), self.0.len(), number) }.number() != 0
    }
}

impl LevelTable for State {
    fn level(&self, side: Side, price: i64) -> u64 {
        unsafe { tables_levels_find(self.0.as_ptr(), self.0.len(), side as u64, key(price)) }
            .number()
    }

    fn join(&mut self, side: Side, price: i64, visible: u64) {
        taken(self.join_code(side as u64, price, visible))
    }

    fn show(&mut self, side: Side, price: i64, before: u64, after: u64) {
        taken(self.show_code(side as u64, price, before, after))
    }

    fn leave(&mut self, side: Side, price: i64, visible: u64) {
        taken(self.leave_code(side as u64, price, visible))
    }
}
