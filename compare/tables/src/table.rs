//! What the proved tables and the maps have alike.

#[derive(Clone, Copy, Debug, PartialEq, Eq)]
pub enum Side {
    Buy,
    Sell,
}

#[derive(Clone, Copy, Debug, PartialEq, Eq)]
pub struct Live {
    pub account: u32,
    pub client_ref: u64,
    pub side: Side,
    pub price: i64,
    pub leaves: u64,
    pub held: i64,
}

/// The live orders.
pub trait OrderTable {
    /// The leaves of a live order, or 0.
    fn find(&self, number: u64) -> u64;

    /// The number is above all before it, and fewer than 2,048 orders are live.
    fn add(&mut self, number: u64, live: Live);

    /// Whether the order is live.
    fn change(&mut self, number: u64, leaves: u64, held: i64) -> bool;

    /// Whether the order was live.
    fn remove(&mut self, number: u64) -> bool;
}

/// The levels of both sides.
pub trait LevelTable {
    /// What a level shows, or 0.
    fn level(&self, side: Side, price: i64) -> u64;

    /// The sum fits, and there are fewer than 512 levels or this is one of them.
    fn join(&mut self, side: Side, price: i64, visible: u64);

    /// An order there shows `before`.
    fn show(&mut self, side: Side, price: i64, before: u64, after: u64);

    /// An order there shows `visible`.
    fn leave(&mut self, side: Side, price: i64, visible: u64);
}
