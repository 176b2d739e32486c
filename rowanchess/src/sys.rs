//! The library's entry points (crates/edge), over slices. This is the only module with unsafe code.
//!
//! Each entry point is proved for every call that keeps its one premise, `Lent` (crates/edge/specs/Entering.antt): bytes of a state's length are
//! the state that the last call left. [`State`] keeps it: its bytes are private, only set-up and restore make one, and only entry points write
//! it. Of each slice the contract takes the address and the length as what the compiler's own `&[u8]` and `&mut [u8]` give: real bytes that
//! live through the call, and for `&mut` nobody else's.
#![allow(unsafe_code)]

/// Bytes of a state (docs/STATE.md).
pub const STATE: usize = 467_592;

/// A code, and how many rows (of a checkpoint: bytes) were written.
#[repr(C)]
pub struct Reply {
    pub code: u64,
    pub count: usize,
}

#[repr(C)]
struct Number {
    code: u64,
    number: u64,
}

#[repr(C)]
struct Account {
    code: u64,
    there: u64,
    account: u64,
}

#[repr(C)]
struct Wallet {
    code: u64,
    there: u64,
    cash: i64,
    position: i64,
    cash_held: i64,
    position_held: i64,
}

// A slice arrives as its address and its length in bytes.
unsafe extern "C" {
    fn rowanchess_set_up(
        m: *mut u8,
        len: usize,
        fee: u64,
        limit: u64,
        last: u64,
        heartbeat: u64,
        idle_timeout: u64,
        accounts: *const u8,
        accounts_len: usize,
        list: *const u8,
        list_len: usize,
    ) -> u64;
    fn rowanchess_restore(
        m: *mut u8,
        len: usize,
        fee: u64,
        limit: u64,
        heartbeat: u64,
        idle_timeout: u64,
        accounts: *const u8,
        accounts_len: usize,
        bytes: *const u8,
        bytes_len: usize,
    ) -> u64;
    fn rowanchess_last_seq(m: *const u8, len: usize) -> Number;
    fn rowanchess_wallet(m: *const u8, len: usize, account: u32) -> Wallet;
    fn rowanchess_levels(m: *const u8, len: usize, side: u64, out: *mut u8, out_len: usize) -> Reply;
    fn rowanchess_set_paper_collar(m: *mut u8, len: usize, there: u64, percent: u32) -> u64;
    fn rowanchess_connect(m: *mut u8, len: usize, session: usize, time: u64) -> u64;
    fn rowanchess_receive(
        m: *mut u8,
        len: usize,
        session: usize,
        row: *const u8,
        row_len: usize,
        time: u64,
        out: *mut u8,
        out_len: usize,
    ) -> Reply;
    fn rowanchess_tick(m: *mut u8, len: usize, time: u64, out: *mut u8, out_len: usize) -> Reply;
    fn rowanchess_publish(m: *mut u8, len: usize, out: *mut u8, out_len: usize) -> Reply;
    fn rowanchess_end(m: *mut u8, len: usize, session: usize, why: u8, out: *mut u8, out_len: usize) -> Reply;
    fn rowanchess_shut_down(m: *mut u8, len: usize, out: *mut u8, out_len: usize) -> Reply;
    fn rowanchess_disconnect(m: *mut u8, len: usize, session: usize) -> u64;
    fn rowanchess_detach(m: *mut u8, len: usize, session: usize) -> Account;
    fn rowanchess_take_batch(m: *mut u8, len: usize, out: *mut u8, out_len: usize) -> Reply;
    fn rowanchess_deliver(
        m: *mut u8,
        len: usize,
        n: u64,
        row: *const u8,
        row_len: usize,
        out: *mut u8,
        out_len: usize,
    ) -> Reply;
    fn rowanchess_add_account(m: *mut u8, len: usize, row: *const u8, row_len: usize) -> u64;
    fn rowanchess_replay_command(m: *mut u8, len: usize, n: u64, row: *const u8, row_len: usize) -> u64;
    fn rowanchess_replay_event(m: *mut u8, len: usize, n: u64, row: *const u8, row_len: usize) -> u64;
    fn rowanchess_finish(m: *mut u8, len: usize, list: *const u8, list_len: usize) -> u64;
    fn rowanchess_checkpoint(m: *const u8, len: usize, out: *mut u8, out_len: usize) -> Reply;
    fn rowanchess_order_section(bytes: *const u8, len: usize) -> usize;
}

/// Where the order section of a checkpoint's bytes starts.
pub fn order_section(bytes: &[u8]) -> usize {
    // SAFETY: there is no premise. Slices: `bytes` is read.
    unsafe { rowanchess_order_section(bytes.as_ptr(), bytes.len()) }
}

/// A state begins at a multiple of this: the row of an order is then two lines of the processor's cache.
const ALIGNED: usize = 128;

/// The bytes of a gateway, as the last entry point left them: those from `at` on.
pub struct State {
    bytes: Box<[u8]>,
    at: usize,
}

impl State {
    /// Starts at the address and the length of new bytes: any will do. A refused start leaves them as they were, so they are no state and go.
    fn begin(start: impl FnOnce(*mut u8, usize) -> u64) -> Result<State, u64> {
        let bytes = vec![0; STATE + ALIGNED].into_boxed_slice();
        let at = bytes.as_ptr().align_offset(ALIGNED).min(ALIGNED);
        let mut state = State { bytes, at };
        match start(state.as_mut_ptr(), STATE) {
            0 => Ok(state),
            code => Err(code),
        }
    }

    fn as_ptr(&self) -> *const u8 {
        // SAFETY: `at` is at most ALIGNED, and STATE bytes are behind it.
        unsafe { self.bytes.as_ptr().add(self.at) }
    }

    fn as_mut_ptr(&mut self) -> *mut u8 {
        // SAFETY: as above.
        unsafe { self.bytes.as_mut_ptr().add(self.at) }
    }

    /// `accounts` and `list` are rows.
    pub fn set_up(
        fee: i64,
        limit: u64,
        last: u64,
        timing: [u64; 2],
        accounts: &[u8],
        list: &[u8],
    ) -> Result<State, u64> {
        let fee = fee as u64;
        let [heartbeat, idle_timeout] = timing;
        let (accounts, accounts_len) = (accounts.as_ptr(), accounts.len());
        let (list, list_len) = (list.as_ptr(), list.len());
        // SAFETY: set-up has no premise about the bytes of `m`. Slices: `m` is written, `accounts` and `list` are read.
        State::begin(|m, len| unsafe {
            rowanchess_set_up(m, len, fee, limit, last, heartbeat, idle_timeout, accounts, accounts_len, list, list_len)
        })
    }

    /// `accounts` are rows, `bytes` a checkpoint's.
    pub fn restore(fee: i64, limit: u64, timing: [u64; 2], accounts: &[u8], bytes: &[u8]) -> Result<State, u64> {
        let fee = fee as u64;
        let [heartbeat, idle_timeout] = timing;
        let (accounts, accounts_len) = (accounts.as_ptr(), accounts.len());
        let (bytes, bytes_len) = (bytes.as_ptr(), bytes.len());
        // SAFETY: restore has no premise about the bytes of `m`. Slices: `m` is written, `accounts` and `bytes` are read.
        State::begin(|m, len| unsafe {
            rowanchess_restore(m, len, fee, limit, heartbeat, idle_timeout, accounts, accounts_len, bytes, bytes_len)
        })
    }

    pub fn last_seq(&self) -> u64 {
        // SAFETY: `self` is lent and read.
        let answer = unsafe { rowanchess_last_seq(self.as_ptr(), STATE) };
        debug_assert_eq!(answer.code, 0, "it refuses no state");
        answer.number
    }

    /// Cash, position, and both held.
    pub fn wallet(&self, account: u32) -> Option<[i64; 4]> {
        // SAFETY: `self` is lent and read.
        let w = unsafe { rowanchess_wallet(self.as_ptr(), STATE, account) };
        debug_assert_eq!(w.code, 0, "it refuses no state");
        (w.there != 0).then_some([w.cash, w.position, w.cash_held, w.position_held])
    }

    pub fn levels(&self, side: u64, out: &mut [u8]) -> Reply {
        // SAFETY: `self` is lent and read. Slices: `out` is written.
        unsafe { rowanchess_levels(self.as_ptr(), STATE, side, out.as_mut_ptr(), out.len()) }
    }

    pub fn set_paper_collar(&mut self, percent: Option<u32>) {
        let (there, percent) = percent.map_or((0, 0), |percent| (1, percent));
        // SAFETY: `self` is lent and written.
        let code = unsafe { rowanchess_set_paper_collar(self.as_mut_ptr(), STATE, there, percent) };
        debug_assert_eq!(code, 0, "it refuses no state");
    }

    pub fn connect(&mut self, session: usize, now: u64) -> u64 {
        // SAFETY: `self` is lent and written.
        unsafe { rowanchess_connect(self.as_mut_ptr(), STATE, session, now) }
    }

    #[inline]
    pub fn receive(&mut self, session: usize, row: &[u8], now: u64, out: &mut [u8]) -> Reply {
        // SAFETY: `self` is lent and written. Slices: `row` is read, `out` is written.
        unsafe {
            rowanchess_receive(
                self.as_mut_ptr(),
                STATE,
                session,
                row.as_ptr(),
                row.len(),
                now,
                out.as_mut_ptr(),
                out.len(),
            )
        }
    }

    pub fn tick(&mut self, now: u64, out: &mut [u8]) -> Reply {
        // SAFETY: `self` is lent and written. Slices: `out` is written.
        unsafe { rowanchess_tick(self.as_mut_ptr(), STATE, now, out.as_mut_ptr(), out.len()) }
    }

    #[inline]
    pub fn publish(&mut self, out: &mut [u8]) -> Reply {
        // SAFETY: `self` is lent and written. Slices: `out` is written.
        unsafe { rowanchess_publish(self.as_mut_ptr(), STATE, out.as_mut_ptr(), out.len()) }
    }

    /// `why` is the code of a reason to log out.
    pub fn end(&mut self, session: usize, why: u8, out: &mut [u8]) -> Reply {
        // SAFETY: `self` is lent and written. Slices: `out` is written.
        unsafe { rowanchess_end(self.as_mut_ptr(), STATE, session, why, out.as_mut_ptr(), out.len()) }
    }

    pub fn shut_down(&mut self, out: &mut [u8]) -> Reply {
        // SAFETY: `self` is lent and written. Slices: `out` is written.
        unsafe { rowanchess_shut_down(self.as_mut_ptr(), STATE, out.as_mut_ptr(), out.len()) }
    }

    pub fn disconnect(&mut self, session: usize) -> u64 {
        // SAFETY: `self` is lent and written.
        unsafe { rowanchess_disconnect(self.as_mut_ptr(), STATE, session) }
    }

    pub fn detach(&mut self, session: usize) -> Option<u32> {
        // SAFETY: `self` is lent and written.
        let answer = unsafe { rowanchess_detach(self.as_mut_ptr(), STATE, session) };
        debug_assert_eq!(answer.code, 0, "it refuses no state");
        (answer.there != 0).then_some(answer.account as u32)
    }

    pub fn take_batch(&mut self, out: &mut [u8]) -> Reply {
        // SAFETY: `self` is lent and written. Slices: `out` is written.
        unsafe { rowanchess_take_batch(self.as_mut_ptr(), STATE, out.as_mut_ptr(), out.len()) }
    }

    #[inline]
    pub fn deliver(&mut self, n: u64, row: &[u8], out: &mut [u8]) -> Reply {
        // SAFETY: `self` is lent and written. Slices: `row` is read, `out` is written.
        unsafe {
            rowanchess_deliver(
                self.as_mut_ptr(),
                STATE,
                n,
                row.as_ptr(),
                row.len(),
                out.as_mut_ptr(),
                out.len(),
            )
        }
    }

    pub fn add_account(&mut self, row: &[u8]) -> u64 {
        // SAFETY: `self` is lent and written. Slices: `row` is read.
        unsafe { rowanchess_add_account(self.as_mut_ptr(), STATE, row.as_ptr(), row.len()) }
    }

    pub fn replay_command(&mut self, n: u64, row: &[u8]) -> u64 {
        // SAFETY: `self` is lent and written. Slices: `row` is read.
        unsafe { rowanchess_replay_command(self.as_mut_ptr(), STATE, n, row.as_ptr(), row.len()) }
    }

    pub fn replay_event(&mut self, n: u64, row: &[u8]) -> u64 {
        // SAFETY: `self` is lent and written. Slices: `row` is read.
        unsafe { rowanchess_replay_event(self.as_mut_ptr(), STATE, n, row.as_ptr(), row.len()) }
    }

    pub fn finish(&mut self, list: &[u8]) -> u64 {
        // SAFETY: `self` is lent and written. Slices: `list` is read.
        unsafe { rowanchess_finish(self.as_mut_ptr(), STATE, list.as_ptr(), list.len()) }
    }

    pub fn checkpoint(&self, out: &mut [u8]) -> Reply {
        // SAFETY: `self` is lent and read. Slices: `out` is written.
        unsafe { rowanchess_checkpoint(self.as_ptr(), STATE, out.as_mut_ptr(), out.len()) }
    }
}
