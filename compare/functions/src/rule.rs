//! The written rule: document 01's sentences, in numbers wide enough to be exact.

use gateway::wallet::Wallet;
use orderbook::Side;

/// Output too short.
pub const SHORT: u64 = 6;
/// Result outside its type.
pub const OUTSIDE: u64 = 7;
/// Malformed: a number that is no case's code, or a lent input of the wrong length.
pub const MALFORMED: u64 = 11;

/// One message of a bucket.
pub const TOKEN: u64 = 1_000_000_000;

#[derive(Clone, Copy)]
pub struct Bucket {
    pub tokens: u64,
    pub refilled: u64,
}

impl Bucket {
    pub fn full(rate: u32) -> Bucket {
        Bucket {
            tokens: u64::from(rate) * TOKEN,
            refilled: 0,
        }
    }
}

fn saturate(exact: i128) -> i64 {
    exact.clamp(i64::MIN.into(), i64::MAX.into()) as i64
}

/// What leaves 128 bits leaves 64.
pub fn cost(price: i64, fee: i64, qty: u64) -> Option<i64> {
    let exact = (i128::from(price) + i128::from(fee)).checked_mul(qty.into())?;
    exact.try_into().ok()
}

pub fn hold_of(fee: i64, side: Side, price: i64, leaves: u64) -> Option<i64> {
    match side {
        Side::Buy => cost(price, fee, leaves),
        Side::Sell => leaves.try_into().ok(),
    }
}

pub fn covers(side: Side, amount: i64, wallet: Wallet) -> bool {
    let (owned, held) = match side {
        Side::Buy => (wallet.cash, wallet.cash_held),
        Side::Sell => (wallet.position, wallet.position_held),
    };
    i128::from(owned) - i128::from(held) >= amount.into()
}

pub fn hold(side: Side, old: i64, new: i64, mut wallet: Wallet) -> Option<Wallet> {
    let total = match side {
        Side::Buy => &mut wallet.cash_held,
        Side::Sell => &mut wallet.position_held,
    };
    let exact = i128::from(*total) - i128::from(old) + i128::from(new);
    *total = exact.try_into().ok()?;
    Some(wallet)
}

pub fn settle(fee: i64, side: Side, price: i64, qty: u64, wallet: Wallet) -> Wallet {
    let (sign, fee) = match side {
        Side::Buy => (1, fee),
        Side::Sell => (-1, 0),
    };
    let amount = cost(price, fee, qty).unwrap_or(i64::MAX);
    let lots = i64::try_from(qty).unwrap_or(i64::MAX);
    Wallet {
        cash: saturate(i128::from(wallet.cash) - sign * i128::from(amount)),
        position: saturate(i128::from(wallet.position) + sign * i128::from(lots)),
        ..wallet
    }
}

pub fn near(price: i64, mark: i64, percent: u32) -> bool {
    let (price, mark) = (i128::from(price), i128::from(mark));
    (price - mark).abs() * 100 <= mark * i128::from(percent)
}

/// Whether a message passes at `now`, and the bucket after it.
pub fn take_token(rate: u32, now: u64, bucket: Bucket) -> (bool, Bucket) {
    let elapsed = now.saturating_sub(bucket.refilled);
    let grown = u128::from(bucket.tokens) + u128::from(elapsed) * u128::from(rate);
    let tokens = grown.min(Bucket::full(rate).tokens.into()) as u64;
    let passes = tokens >= TOKEN;
    let after = Bucket {
        tokens: if passes { tokens - TOKEN } else { tokens },
        refilled: bucket.refilled.max(now),
    };
    (passes, after)
}
