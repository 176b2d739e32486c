//! Stands in for the order book: its types as published, and a book that only lists orders and stops.

use std::collections::BTreeSet;

#[path = "../../../source/crates/orderbook/src/types.rs"]
mod types;
pub use types::*;

#[derive(Clone, Copy)]
pub struct BookConfig {
    pub max_owners: u32,
}

/// A resting order.
#[derive(Clone, Copy, Debug)]
pub struct Order {
    pub id: OrderId,
    pub owner: OwnerId,
    pub side: Side,
    pub price: Price,
    pub visible: Qty,
    pub leaves: Qty,
}

/// A pending stop.
#[derive(Clone, Copy, Debug)]
pub struct Stop {
    pub id: OrderId,
    pub owner: OwnerId,
    pub side: Side,
    pub limit: Option<Price>,
    pub qty: Qty,
}

pub struct Level {
    pub price: Price,
}

pub struct OrderBook {
    pub config: BookConfig,
    pub orders: Vec<Order>,
    pub stops: Vec<Stop>,
}

impl OrderBook {
    pub fn config(&self) -> &BookConfig {
        &self.config
    }

    /// The prices of `side`, each once. Nobody here relies on their order.
    pub fn depth(&self, side: Side) -> impl Iterator<Item = Level> {
        let orders = self.orders.iter().filter(|order| order.side == side);
        let prices: BTreeSet<Price> = orders.map(|order| order.price).collect();
        prices.into_iter().map(|price| Level { price })
    }

    pub fn queue(&self, side: Side, price: Price) -> impl Iterator<Item = &Order> {
        self.orders
            .iter()
            .filter(move |o| (o.side, o.price) == (side, price))
    }

    pub fn stops(&self, side: Side) -> impl Iterator<Item = &Stop> {
        self.stops.iter().filter(move |stop| stop.side == side)
    }
}
