//! The live orders: in use, the next number comes and a live order ends, so that rows of ended
//! orders gather and are squeezed out.

use std::collections::HashSet;
use std::time::Duration;

use crate::proved::State;
use crate::random::{Draw, Random};
use crate::standard::Orders;
use crate::table::{Live, OrderTable};
use crate::timing::{self, Table, time_each, time_parts};

pub const LIVE: usize = 950;

/// Calls of a kind in a round, with some four squeezes, and in a timed batch of adds or removals.
const CALLS: usize = 4_400;
const BATCH: usize = 50;

/// How far back a number is that was not squeezed out long ago.
const LATELY: u64 = 4_096;

/// One of each kind of call.
struct Turn {
    number: u64,
    live: Live,
    hit: u64,
    miss: u64,
    change: u64,
    remove: u64,
}

/// Orders are added, and as many removed.
type Batch = timing::Batch<(u64, Live), u64>;

fn time_finds(orders: &impl OrderTable, numbers: &[u64]) -> [Duration; 1] {
    time_each(numbers, |&number| orders.find(number))
}

fn time_changes(orders: &mut impl OrderTable, numbers: &[u64]) -> [Duration; 1] {
    time_each(numbers, |&number| orders.change(number, number, 7).into())
}

fn time_batches(orders: &mut impl OrderTable, batches: &[Batch]) -> [Duration; 2] {
    time_parts(
        orders,
        batches,
        |orders, &(number, live)| orders.add(number, live),
        |orders, &number| _ = orders.remove(number),
    )
}

fn time_turns(orders: &mut impl OrderTable, turns: &[Turn]) -> [Duration; 1] {
    time_each(turns, |turn| {
        orders.add(turn.number, turn.live);
        let found = orders.find(turn.hit).wrapping_add(orders.find(turn.miss));
        let changed = orders.change(turn.change, turn.number, 7);
        found
            .wrapping_add(changed.into())
            .wrapping_add(orders.remove(turn.remove).into())
    })
}

pub struct Bench {
    random: Random,
    state: State,
    map: Orders,
    live: Vec<u64>,
    next: u64,
}

impl Bench {
    pub fn new() -> Bench {
        let mut bench = Bench {
            random: Random::new(),
            state: State::new(),
            map: Orders::default(),
            live: Vec::new(),
            next: 1,
        };
        (0..LIVE).for_each(|_| bench.add());
        bench.churn(20_000);
        bench
    }

    fn draw_add(&mut self) -> (u64, Live) {
        let number = self.next;
        self.next += 1;
        self.live.push(number);
        (number, self.random.live())
    }

    fn draw_remove(&mut self) -> u64 {
        let at = self.random.place(self.live.len());
        self.live.swap_remove(at)
    }

    fn draw_batch(&mut self) -> Batch {
        Batch {
            firsts: (0..BATCH).map(|_| self.draw_add()).collect(),
            seconds: (0..BATCH).map(|_| self.draw_remove()).collect(),
        }
    }

    fn add(&mut self) {
        let (number, live) = self.draw_add();
        self.state.add(number, live);
        self.map.add(number, live);
    }

    fn remove(&mut self) {
        let number = self.draw_remove();
        self.state.remove(number);
        self.map.remove(number);
    }

    fn churn(&mut self, turns: usize) {
        for _ in 0..turns {
            self.add();
            self.remove();
        }
    }

    fn draw(&mut self, from: &[u64]) -> Vec<u64> {
        (0..CALLS).map(|_| self.random.pick(from)).collect()
    }

    fn finds(&mut self, name: &'static str, table: &mut Table, numbers: &[u64]) {
        let proved = || time_finds(&self.state, numbers);
        let standard = || time_finds(&self.map, numbers);
        table.time([name], numbers.len(), proved, standard);
    }

    fn all_finds(&mut self, table: &mut Table) {
        let live = self.live.clone();
        let hits = self.draw(&live);
        self.finds("find, live", table, &hits);
        let rows = 0..self.state.cell(0, 0, 12) as usize;
        let rows: HashSet<u64> = rows.map(|row| self.state.cell(5, row, 0)).collect();
        let live: HashSet<u64> = live.into_iter().collect();
        let lately = self.next - LATELY..self.next;
        let (there, gone): (Vec<u64>, Vec<u64>) = lately
            .filter(|number| !live.contains(number))
            .partition(|number| rows.contains(number));
        let there = self.draw(&there);
        self.finds("find, ended, its row still there", table, &there);
        let gone = self.draw(&gone);
        self.finds("find, ended, its row squeezed out", table, &gone);
        let above: Vec<u64> = (self.next..self.next + LATELY).collect();
        let above = self.draw(&above);
        self.finds("find, a number not given yet", table, &above);
    }

    fn changes(&mut self, table: &mut Table) {
        let numbers = self.draw(&self.live.clone());
        let proved = || time_changes(&mut self.state, &numbers);
        let standard = || time_changes(&mut self.map, &numbers);
        table.time(["change, live"], numbers.len(), proved, standard);
    }

    /// Batches with half a batch fewer live orders before it and half a batch more behind it.
    fn adds_and_removes(&mut self, table: &mut Table) {
        (0..BATCH / 2).for_each(|_| self.remove());
        let batches: Vec<Batch> = (0..CALLS / BATCH).map(|_| self.draw_batch()).collect();
        let proved = || time_batches(&mut self.state, &batches);
        let standard = || time_batches(&mut self.map, &batches);
        table.time(["add", "remove"], CALLS, proved, standard);
        (0..BATCH / 2).for_each(|_| self.add());
    }

    /// A number that is not live: one of the last few thousand, or one not given yet.
    fn draw_miss(&mut self, live: &HashSet<u64>) -> u64 {
        loop {
            let number = self.next - LATELY + self.random.below(2 * LATELY);
            if !live.contains(&number) {
                return number;
            }
        }
    }

    fn draw_turn(&mut self, live: &mut HashSet<u64>) -> Turn {
        let (number, order) = self.draw_add();
        live.insert(number);
        let (hit, miss) = (self.random.pick(&self.live), self.draw_miss(live));
        let change = self.random.pick(&self.live);
        let remove = self.draw_remove();
        live.remove(&remove);
        Turn {
            number,
            live: order,
            hit,
            miss,
            change,
            remove,
        }
    }

    fn mix(&mut self, table: &mut Table) {
        let mut live: HashSet<u64> = self.live.iter().copied().collect();
        let turns: Vec<Turn> = (0..CALLS).map(|_| self.draw_turn(&mut live)).collect();
        let proved = || time_turns(&mut self.state, &turns);
        let standard = || time_turns(&mut self.map, &turns);
        table.time(
            ["the mix: add, find, find none, change, remove"],
            5 * CALLS,
            proved,
            standard,
        );
    }

    pub fn round(&mut self, table: &mut Table) {
        // The table has been squeezed at another time in each round.
        let turns = 2_000 + self.random.place(2_000);
        self.churn(turns);
        self.all_finds(table);
        self.adds_and_removes(table);
        self.changes(table);
        self.mix(table);
    }
}
