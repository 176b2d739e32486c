//! The depth by document 01: the orders that rest, their levels in exact numbers, and the levels changed since the last publishing.

use std::borrow::Cow;
use std::collections::{BTreeMap, BTreeSet};

use marketdata::Level;
use orderbook::{Event, Order, OrderId, Side};

use crate::call::Listed;

pub const ORDERS: usize = 1024;
pub const LEVELS: usize = 512;
pub const CHANGED: usize = 1024;

/// Who knows the resting orders.
pub trait Resting {
    fn resting(&self) -> Cow<'_, BTreeMap<OrderId, Order>>;
}

/// What an order becomes in the depth; none where it does not rest any more.
pub type Change = (OrderId, Option<Order>);

/// What the levels' orders show, and how many there are.
type Half = BTreeMap<i64, (i128, u32)>;

#[derive(Clone, Default)]
pub struct Depth {
    pub orders: BTreeMap<OrderId, Order>,
    halves: [Half; 2],
    pub changed: Vec<(bool, i64)>,
    known: BTreeSet<(bool, i64)>,
}

fn key(order: &Order) -> (bool, i64) {
    (order.side == Side::Buy, order.price)
}

impl Depth {
    pub fn of(listing: &[Listed]) -> Depth {
        let mut depth = Depth::default();
        for entry in listing {
            if let Listed::Order(order) = entry {
                depth.put((order.id, Some(*order)));
            }
        }
        depth.publish();
        depth
    }

    pub fn half(&self, side: Side) -> &Half {
        &self.halves[usize::from(side == Side::Buy)]
    }

    /// Best price first; the quantities fit.
    pub fn levels(&self, side: Side) -> Vec<(i64, Level)> {
        let level = |(&price, &(qty, orders)): (&i64, &(i128, u32))| (price, Level { qty: qty as u64, orders });
        match side {
            Side::Buy => self.half(side).iter().rev().map(level).collect(),
            Side::Sell => self.half(side).iter().map(level).collect(),
        }
    }

    /// The level; an empty one where no order rests.
    pub fn level(&self, (buy, price): (bool, i64)) -> Level {
        let (qty, orders) = self.halves[usize::from(buy)].get(&price).copied().unwrap_or_default();
        Level { qty: qty as u64, orders }
    }

    /// Whether every level's quantity is in its type.
    pub fn fits(&self) -> bool {
        self.halves.iter().flat_map(|half| half.values()).all(|level| u64::try_from(level.0).is_ok())
    }

    pub fn has_many_levels(&self) -> bool {
        self.halves.iter().any(|half| half.len() > LEVELS)
    }

    pub fn publish(&mut self) {
        self.changed.clear();
        self.known.clear();
    }

    /// An event rests an order that rests, or fills more than an order shows.
    pub fn contradicts(&self, event: &Event) -> bool {
        let shows_less = |id: OrderId, qty: u64| self.orders.get(&id).is_some_and(|order| order.visible < qty);
        match *event {
            Event::Rested { id, .. } => self.orders.contains_key(&id),
            Event::Trade { taker, maker, qty, .. } => shows_less(taker, qty) || shows_less(maker, qty),
            _ => false,
        }
    }

    /// What an event does to the orders that rest, in order. It does not contradict the depth.
    pub fn changes(&self, event: &Event) -> Vec<Change> {
        let fill = |id: OrderId, qty: u64, leaves: u64| {
            let order = self.orders.get(&id)?;
            let left = Order { visible: order.visible - qty, leaves, ..*order };
            Some((id, (leaves > 0).then_some(left)))
        };
        match *event {
            Event::Rested { id, side, price, qty, visible } => vec![(id, Some(Order { id, owner: 0, side, price, visible, leaves: qty }))],
            Event::Trade { taker, maker, qty, taker_leaves, maker_leaves, .. } => {
                [fill(maker, qty, maker_leaves), fill(taker, qty, taker_leaves)].into_iter().flatten().collect()
            }
            Event::Replenished { id, visible, .. } => {
                self.orders.get(&id).map(|order| (id, Some(Order { visible, ..*order }))).into_iter().collect()
            }
            Event::Cancelled { id, .. } => self.orders.get(&id).map(|_| (id, None)).into_iter().collect(),
            Event::Modified { id, price, leaves, .. } => {
                let shrinks = |order: &&Order| leaves > 0 && price == order.price && leaves <= order.leaves;
                let shrunk = |order: &Order| Order { visible: order.visible.min(leaves), leaves, ..*order };
                let change = |order: &Order| (id, Some(order).filter(shrinks).map(shrunk));
                self.orders.get(&id).map(change).into_iter().collect()
            }
            _ => Vec::new(),
        }
    }

    /// Whether the levels that the changes touch are in their type once all are made.
    pub fn fits_after(&self, changes: &[Change]) -> bool {
        let mut levels: BTreeMap<(bool, i64), i128> = BTreeMap::new();
        let start = |key: (bool, i64)| self.halves[usize::from(key.0)].get(&key.1).map_or(0, |level| level.0);
        for (id, after) in changes {
            if let Some(order) = self.orders.get(id) {
                *levels.entry(key(order)).or_insert_with(|| start(key(order))) -= i128::from(order.visible);
            }
            if let Some(order) = after {
                *levels.entry(key(order)).or_insert_with(|| start(key(order))) += i128::from(order.visible);
            }
        }
        levels.values().all(|&qty| u64::try_from(qty).is_ok())
    }

    /// The table that has no room for the changes.
    pub fn overfull_after(&self, changes: &[Change]) -> Option<&'static str> {
        let new = changes.iter().filter_map(|(id, after)| after.as_ref().filter(|_| !self.orders.contains_key(id)));
        let (mut orders, mut levels) = (self.orders.len(), false);
        for order in new {
            let half = self.half(order.side);
            orders += 1;
            levels |= half.len() == LEVELS && !half.contains_key(&order.price);
        }
        let mut touched: BTreeSet<(bool, i64)> = BTreeSet::new();
        for (id, after) in changes {
            touched.extend(self.orders.get(id).or(after.as_ref()).map(key));
        }
        let changed = self.changed.len() + touched.difference(&self.known).count();
        let sizes = [("orders", orders > ORDERS), ("levels", levels), ("changed levels", changed > CHANGED)];
        sizes.iter().find(|size| size.1).map(|size| size.0)
    }

    /// Makes a change.
    pub fn put(&mut self, (id, after): Change) {
        if let Some(order) = self.orders.remove(&id) {
            self.add(&order, -1);
        }
        if let Some(order) = after {
            self.add(&order, 1);
            self.orders.insert(id, order);
        }
    }

    fn add(&mut self, order: &Order, sign: i32) {
        let half = &mut self.halves[usize::from(order.side == Side::Buy)];
        let level = half.entry(order.price).or_default();
        level.0 += i128::from(sign) * i128::from(order.visible);
        level.1 = level.1.wrapping_add_signed(sign);
        if level.1 == 0 {
            half.remove(&order.price);
        }
        if self.known.insert(key(order)) {
            self.changed.push(key(order));
        }
    }
}
