//! The same tables as maps of the standard library, with the published Rust's values and its way
//! to use them. Each is a call of its own, as those of the proved library are.

use std::collections::{BTreeMap, HashMap};

use crate::table::{LevelTable, Live, OrderTable, Side};

#[derive(Clone, Copy, Debug, Default, PartialEq, Eq)]
pub struct Level {
    pub qty: u64,
    pub orders: u32,
}

#[derive(Default)]
pub struct Orders(pub HashMap<u64, Live>);

impl OrderTable for Orders {
    #[inline(never)]
    fn find(&self, number: u64) -> u64 {
        self.0.get(&number).map_or(0, |live| live.leaves)
    }

    #[inline(never)]
    fn add(&mut self, number: u64, live: Live) {
        self.0.insert(number, live);
    }

    #[inline(never)]
    fn change(&mut self, number: u64, leaves: u64, held: i64) -> bool {
        let Some(live) = self.0.get_mut(&number) else {
            return false;
        };
        live.leaves = leaves;
        live.held = held;
        true
    }

    #[inline(never)]
    fn remove(&mut self, number: u64) -> bool {
        self.0.remove(&number).is_some()
    }
}

#[derive(Default)]
pub struct Levels {
    pub bids: BTreeMap<i64, Level>,
    pub asks: BTreeMap<i64, Level>,
}

impl Levels {
    pub fn half(&self, side: Side) -> &BTreeMap<i64, Level> {
        match side {
            Side::Buy => &self.bids,
            Side::Sell => &self.asks,
        }
    }

    fn half_mut(&mut self, side: Side) -> &mut BTreeMap<i64, Level> {
        match side {
            Side::Buy => &mut self.bids,
            Side::Sell => &mut self.asks,
        }
    }
}

impl LevelTable for Levels {
    #[inline(never)]
    fn level(&self, side: Side, price: i64) -> u64 {
        self.half(side).get(&price).map_or(0, |level| level.qty)
    }

    #[inline(never)]
    fn join(&mut self, side: Side, price: i64, visible: u64) {
        let level = self.half_mut(side).entry(price).or_default();
        level.qty += visible;
        level.orders += 1;
    }

    #[inline(never)]
    fn show(&mut self, side: Side, price: i64, before: u64, after: u64) {
        let level = self.half_mut(side).get_mut(&price).expect("a level");
        level.qty = level.qty - before + after;
    }

    #[inline(never)]
    fn leave(&mut self, side: Side, price: i64, visible: u64) {
        let half = self.half_mut(side);
        let level = half.get_mut(&price).expect("a level");
        level.qty -= visible;
        level.orders -= 1;
        if level.orders == 0 {
            half.remove(&price);
        }
    }
}
