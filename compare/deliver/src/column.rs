//! What the gateways under test have alike.

use orderbook::Event;

use crate::draw::Message;

pub const TOKEN: u64 = 7;

/// What a buyer pays the house for a seat; the published `Exchange` knows no fee.
pub const FEE: i64 = 25;

/// Every other account has a wallet: cash and seats.
pub fn funds(account: usize) -> Option<(i64, i64)> {
    (account % 2 == 0).then_some((1 << 60, 1 << 60))
}

/// A gateway under test.
pub trait Column {
    /// An event as the gateway's own type has it; made before the clock starts.
    type Event: From<Event>;
    fn receive(&mut self, session: usize, message: Message, now: u64);
    fn take_batch(&mut self) -> usize;
    fn deliver(&mut self, n: u64, event: &Self::Event);
    /// How many messages were sent since the last publishing.
    fn publish(&mut self) -> usize;
    fn wallets(&self) -> Vec<[i64; 4]>;
}
