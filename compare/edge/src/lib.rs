//! The library's entry points (crates/edge) on slices of any length. Bytes of a state's length have to be the state that the last call left;
//! the contracts ask for nothing else.

pub mod entered;

// It links the library.
use rowanchess as _;

/// Bytes of a state.
pub const STATE: usize = 467_592;
/// Bytes of a message or an event; of a command or a piece of mail; of a level.
pub const MESSAGE: usize = 128;
pub const MAIL: usize = 96;
pub const LEVEL: usize = 24;

/// A code, and how many rows (of a checkpoint: bytes) were written.
#[repr(C)]
#[derive(Clone, Copy, Debug, PartialEq, Eq)]
pub struct Reply {
    pub code: u64,
    pub count: usize,
}

#[repr(C)]
#[derive(Clone, Copy, Debug, PartialEq, Eq)]
pub struct Number {
    pub code: u64,
    pub number: u64,
}

#[repr(C)]
#[derive(Clone, Copy, Debug, PartialEq, Eq)]
pub struct Account {
    pub code: u64,
    pub there: u64,
    pub account: u64,
}

#[repr(C)]
#[derive(Clone, Copy, Debug, PartialEq, Eq)]
pub struct Wallet {
    pub code: u64,
    pub there: u64,
    pub cash: i64,
    pub position: i64,
    pub cash_held: i64,
    pub position_held: i64,
}

// The entry points as they are, and each as a function on slices. A `&[u8]` arrives as its address and its length.
macro_rules! entry_points {
    ($($(#[$doc:meta])* fn $name:ident as $short:ident($($arg:ident: $type:tt),*) -> $out:ty;)*) => {
        $(
            $(#[$doc])*
            #[inline]
            pub fn $short($($arg: kind!($type)),*) -> $out {
                entry_points!(@call $name $out; []; []; $($arg: $type,)*)
            }
        )*
    };
    (@call $name:ident $out:ty; [$($param:ty,)*]; [$($value:expr,)*];) => {{
        unsafe extern "C" {
            fn $name($(_: $param),*) -> $out;
        }
        // SAFETY: each address comes with the length of a slice that lives through the call, and a written one is nobody else's.
        unsafe { $name($($value),*) }
    }};
    (@call $name:ident $out:ty; [$($param:ty,)*]; [$($value:expr,)*]; $arg:ident: read, $($rest:tt)*) => {
        entry_points!(@call $name $out; [$($param,)* *const u8, usize,]; [$($value,)* $arg.as_ptr(), $arg.len(),]; $($rest)*)
    };
    (@call $name:ident $out:ty; [$($param:ty,)*]; [$($value:expr,)*]; $arg:ident: write, $($rest:tt)*) => {
        entry_points!(@call $name $out; [$($param,)* *mut u8, usize,]; [$($value,)* $arg.as_mut_ptr(), $arg.len(),]; $($rest)*)
    };
    (@call $name:ident $out:ty; [$($param:ty,)*]; [$($value:expr,)*]; $arg:ident: $type:ident, $($rest:tt)*) => {
        entry_points!(@call $name $out; [$($param,)* $type,]; [$($value,)* $arg,]; $($rest)*)
    };
}

macro_rules! kind {
    (read) => {
        &[u8]
    };
    (write) => {
        &mut [u8]
    };
    ($type:ident) => {
        $type
    };
}

entry_points! {
    fn rowanchess_set_up as set_up(m: write, fee: i64, limit: u64, last: u64, heartbeat: u64, idle_timeout: u64, accounts: read, list: read) -> u64;
    fn rowanchess_restore as restore(m: write, fee: i64, limit: u64, heartbeat: u64, idle_timeout: u64, accounts: read, bytes: read) -> u64;
    fn rowanchess_last_seq as last_seq(m: read) -> Number;
    fn rowanchess_wallet as wallet(m: read, account: u32) -> Wallet;
    fn rowanchess_levels as levels(m: read, side: u64, out: write) -> Reply;
    fn rowanchess_set_paper_collar as set_paper_collar(m: write, there: u64, percent: u32) -> u64;
    fn rowanchess_connect as connect(m: write, session: usize, time: u64) -> u64;
    fn rowanchess_receive as receive(m: write, session: usize, row: read, time: u64, out: write) -> Reply;
    fn rowanchess_tick as tick(m: write, time: u64, out: write) -> Reply;
    fn rowanchess_publish as publish(m: write, out: write) -> Reply;
    fn rowanchess_end as end(m: write, session: usize, why: u8, out: write) -> Reply;
    fn rowanchess_shut_down as shut_down(m: write, out: write) -> Reply;
    fn rowanchess_disconnect as disconnect(m: write, session: usize) -> u64;
    fn rowanchess_detach as detach(m: write, session: usize) -> Account;
    fn rowanchess_take_batch as take_batch(m: write, out: write) -> Reply;
    fn rowanchess_deliver as deliver(m: write, number: u64, row: read, out: write) -> Reply;
    fn rowanchess_add_account as add_account(m: write, row: read) -> u64;
    fn rowanchess_replay_command as replay_command(m: write, number: u64, row: read) -> u64;
    fn rowanchess_replay_event as replay_event(m: write, number: u64, row: read) -> u64;
    fn rowanchess_finish as finish(m: write, list: read) -> u64;
    fn rowanchess_checkpoint as checkpoint(m: read, out: write) -> Reply;
    fn rowanchess_order_section as order_section(bytes: read) -> usize;
}
