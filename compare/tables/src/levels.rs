//! The levels of a side: about 120 of them, at prices drawn from a range of 2,000.

use std::time::Duration;

use crate::proved::State;
use crate::random::Random;
use crate::standard::Levels;
use crate::table::{LevelTable, Side};
use crate::timing::{self, Table, time_each, time_parts};

pub const LEVELS: usize = 120;

/// Calls of a kind in a round, and in a timed batch.
const CALLS: usize = 2_010;
const BATCH: usize = 30;

const LEAST: i64 = 9_000;
const PRICES: u64 = 2_000;

/// What each order shows.
const SHOWN: u64 = 10;

const SIDE: Side = Side::Buy;

/// One of each kind of call.
struct Turn {
    open: i64,
    hit: i64,
    miss: i64,
    join: i64,
    show: i64,
    close: i64,
}

/// Orders come, and as many go.
type Batch = timing::Batch<i64, i64>;

fn time_finds(levels: &impl LevelTable, prices: &[i64]) -> [Duration; 1] {
    time_each(prices, |&price| levels.level(SIDE, price))
}

fn time_shows(levels: &mut impl LevelTable, prices: &[i64]) -> [Duration; 1] {
    time_each(prices, |&price| {
        levels.show(SIDE, price, SHOWN, SHOWN);
        0
    })
}

fn time_batches(levels: &mut impl LevelTable, batches: &[Batch]) -> [Duration; 2] {
    time_parts(
        levels,
        batches,
        |levels, &price| levels.join(SIDE, price, SHOWN),
        |levels, &price| levels.leave(SIDE, price, SHOWN),
    )
}

fn time_turns(levels: &mut impl LevelTable, turns: &[Turn]) -> [Duration; 1] {
    time_each(turns, |turn| {
        levels.join(SIDE, turn.open, SHOWN);
        let found = levels.level(SIDE, turn.hit) + levels.level(SIDE, turn.miss);
        levels.join(SIDE, turn.join, SHOWN);
        levels.show(SIDE, turn.show, SHOWN, SHOWN);
        levels.leave(SIDE, turn.join, SHOWN);
        levels.leave(SIDE, turn.close, SHOWN);
        found
    })
}

pub struct Bench {
    random: Random,
    state: State,
    levels: Levels,
    /// The levels: each has one order between the calls.
    prices: Vec<i64>,
}

impl Bench {
    pub fn new() -> Bench {
        let (state, levels) = (State::new(), Levels::default());
        let mut bench = Bench {
            random: Random::new(),
            state,
            levels,
            prices: Vec::new(),
        };
        (0..LEVELS).for_each(|_| bench.open());
        bench
    }

    /// A price that is no level.
    fn draw_absent(&mut self) -> i64 {
        loop {
            let price = LEAST + self.random.below(PRICES) as i64;
            if !self.prices.contains(&price) {
                return price;
            }
        }
    }

    fn draw_open(&mut self) -> i64 {
        let price = self.draw_absent();
        self.prices.push(price);
        price
    }

    fn draw_close(&mut self) -> i64 {
        let at = self.random.place(self.prices.len());
        self.prices.swap_remove(at)
    }

    fn draw_present(&mut self) -> i64 {
        self.random.pick(&self.prices)
    }

    /// Levels that open, and as many that close.
    fn draw_batch(&mut self) -> Batch {
        Batch {
            firsts: (0..BATCH).map(|_| self.draw_open()).collect(),
            seconds: (0..BATCH).map(|_| self.draw_close()).collect(),
        }
    }

    fn open(&mut self) {
        let price = self.draw_open();
        self.state.join(SIDE, price, SHOWN);
        self.levels.join(SIDE, price, SHOWN);
    }

    fn close(&mut self) {
        let price = self.draw_close();
        self.state.leave(SIDE, price, SHOWN);
        self.levels.leave(SIDE, price, SHOWN);
    }

    fn finds(&mut self, name: &'static str, table: &mut Table, prices: &[i64]) {
        let proved = || time_finds(&self.state, prices);
        let standard = || time_finds(&self.levels, prices);
        table.time([name], prices.len(), proved, standard);
    }

    fn shows(&mut self, table: &mut Table) {
        let prices: Vec<i64> = (0..CALLS).map(|_| self.draw_present()).collect();
        let proved = || time_shows(&mut self.state, &prices);
        let standard = || time_shows(&mut self.levels, &prices);
        table.time(["show"], prices.len(), proved, standard);
    }

    fn batches(&mut self, names: [&'static str; 2], table: &mut Table, batches: &[Batch]) {
        let proved = || time_batches(&mut self.state, batches);
        let standard = || time_batches(&mut self.levels, batches);
        table.time(names, batches.len() * BATCH, proved, standard);
    }

    /// The same levels get an order and lose one.
    fn joins(&mut self, table: &mut Table) {
        let batch = |_| {
            let firsts: Vec<i64> = (0..BATCH).map(|_| self.draw_present()).collect();
            Batch {
                seconds: firsts.clone(),
                firsts,
            }
        };
        let batches: Vec<Batch> = (0..CALLS / BATCH).map(batch).collect();
        self.batches(
            ["add, at a level", "remove, not the last order"],
            table,
            &batches,
        );
    }

    /// Batches with half a batch fewer levels before it and half a batch more behind it.
    fn opens(&mut self, table: &mut Table) {
        (0..BATCH / 2).for_each(|_| self.close());
        let batches: Vec<Batch> = (0..CALLS / BATCH).map(|_| self.draw_batch()).collect();
        self.batches(
            ["add, a new level", "remove, a level's last order"],
            table,
            &batches,
        );
        (0..BATCH / 2).for_each(|_| self.open());
    }

    fn draw_turn(&mut self) -> Turn {
        let open = self.draw_open();
        let (hit, miss) = (self.draw_present(), self.draw_absent());
        let (join, show) = (self.draw_present(), self.draw_present());
        Turn {
            open,
            hit,
            miss,
            join,
            show,
            close: self.draw_close(),
        }
    }

    fn mix(&mut self, table: &mut Table) {
        let turns: Vec<Turn> = (0..CALLS).map(|_| self.draw_turn()).collect();
        let proved = || time_turns(&mut self.state, &turns);
        let standard = || time_turns(&mut self.levels, &turns);
        table.time(["the mix: one of each"], 7 * CALLS, proved, standard);
    }

    pub fn round(&mut self, table: &mut Table) {
        let hits: Vec<i64> = (0..CALLS).map(|_| self.draw_present()).collect();
        self.finds("find, a level", table, &hits);
        let misses: Vec<i64> = (0..CALLS).map(|_| self.draw_absent()).collect();
        self.finds("find, no level", table, &misses);
        self.joins(table);
        self.opens(table);
        self.shows(table);
        self.mix(table);
    }
}
