//! The proved library's entry points. A slice goes over as its address and its length.

unsafe extern "C" {
    fn entry_hold_of(
        fee: u64,
        side: u32,
        price: u64,
        leaves: u64,
        out: *mut u8,
        room: usize,
    ) -> u32;
    fn entry_covers(
        side: u32,
        amount: u64,
        wallet: *const u8,
        len: usize,
        out: *mut u8,
        room: usize,
    ) -> u32;
    fn entry_hold(side: u32, old: u64, new: u64, wallet: *mut u8, len: usize) -> u32;
    fn entry_settle(
        fee: u64,
        side: u32,
        price: u64,
        qty: u64,
        wallet: *mut u8,
        len: usize,
    ) -> u32;
    fn entry_near(price: u64, mark: u64, percent: u32, out: *mut u8, room: usize) -> u32;
    fn entry_take_token(
        rate: u32,
        now: u64,
        bucket: *mut u8,
        len: usize,
        out: *mut u8,
        room: usize,
    ) -> u32;
    fn entry_load(
        width: u32,
        at: u64,
        bytes: *const u8,
        len: usize,
        out: *mut u8,
        room: usize,
    ) -> u32;
    fn entry_store(width: u32, at: u64, value: u64, bytes: *mut u8, len: usize) -> u32;
}

// SAFETY, of each call below: every address and length are those of one live slice, and no two
// of a call overlap.

pub fn hold_of(fee: u64, side: u32, price: u64, leaves: u64, out: &mut [u8]) -> u32 {
    unsafe { entry_hold_of(fee, side, price, leaves, out.as_mut_ptr(), out.len()) }
}

pub fn covers(side: u32, amount: u64, wallet: &[u8], out: &mut [u8]) -> u32 {
    let (lent, len) = (wallet.as_ptr(), wallet.len());
    unsafe { entry_covers(side, amount, lent, len, out.as_mut_ptr(), out.len()) }
}

pub fn hold(side: u32, old: u64, new: u64, wallet: &mut [u8]) -> u32 {
    unsafe { entry_hold(side, old, new, wallet.as_mut_ptr(), wallet.len()) }
}

pub fn settle(fee: u64, side: u32, price: u64, qty: u64, wallet: &mut [u8]) -> u32 {
    unsafe { entry_settle(fee, side, price, qty, wallet.as_mut_ptr(), wallet.len()) }
}

pub fn near(price: u64, mark: u64, percent: u32, out: &mut [u8]) -> u32 {
    unsafe { entry_near(price, mark, percent, out.as_mut_ptr(), out.len()) }
}

pub fn take_token(rate: u32, now: u64, bucket: &mut [u8], out: &mut [u8]) -> u32 {
    let (lent, len) = (bucket.as_mut_ptr(), bucket.len());
    unsafe { entry_take_token(rate, now, lent, len, out.as_mut_ptr(), out.len()) }
}

pub fn load(width: u32, at: u64, bytes: &[u8], out: &mut [u8]) -> u32 {
    let (lent, len) = (bytes.as_ptr(), bytes.len());
    unsafe { entry_load(width, at, lent, len, out.as_mut_ptr(), out.len()) }
}

pub fn store(width: u32, at: u64, value: u64, bytes: &mut [u8]) -> u32 {
    unsafe { entry_store(width, at, value, bytes.as_mut_ptr(), bytes.len()) }
}
