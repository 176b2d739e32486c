//! The same random steps on both: every answer is compared, and at the end every row.

use crate::proved::{ROWS, State, WIDTHS, key};
use crate::random::{Draw, Random};
use crate::standard::{Levels, Orders};
use crate::table::{LevelTable, Live, OrderTable, Side};

const STEPS: usize = 100_000;

/// Blocks and cells (docs/STATE.md).
const HEADER: usize = 0;
const ORDERS: usize = 5;
/// Of each side: its block, its map, and the cells with how many rows are in use and how many levels there are.
const LEVELS: [(Side, usize, usize, usize, usize); 2] =
    [(Side::Buy, 6, 13, 15, 20), (Side::Sell, 7, 14, 16, 21)];
const ORDER_MAP: usize = 15;
const ORDER_ROWS: usize = 12;
const LIVE_ORDERS: usize = 13;
const HINTS: usize = 11;

/// Most live orders, and most levels of a side.
const MOST_LIVE: usize = 2_048;
const MOST_LEVELS: usize = 512;

/// Codes of refusals.
const SEQUENCE: u64 = 4;
const FULL: u64 = 5;
const OUTSIDE: u64 = 7;
const INCONSISTENT: u64 = 8;
const MALFORMED: u64 = 11;

fn equal<T: PartialEq + std::fmt::Debug>(what: &str, proved: T, standard: T) -> Result<(), String> {
    match proved == standard {
        true => Ok(()),
        false => Err(format!("{what}: proved {proved:?}, standard {standard:?}")),
    }
}

struct Both {
    random: Random,
    state: State,
    orders: Orders,
    levels: Levels,
    /// Every number given so far, ascending, and those that are live.
    given: Vec<u64>,
    live: Vec<u64>,
    /// The orders in the levels: what each shows.
    shown: Vec<(Side, i64, u64)>,
    squeezes: usize,
    most_levels: usize,
    /// How often each code was the reason of a refusal.
    refused: [usize; 12],
}

impl Both {
    fn new() -> Both {
        Both {
            random: Random::new(),
            state: State::new(),
            orders: Orders::default(),
            levels: Levels::default(),
            given: vec![0],
            live: Vec::new(),
            shown: Vec::new(),
            squeezes: 0,
            most_levels: 0,
            refused: [0; 12],
        }
    }

    /// A number that was given, or one beside it, or an end of the range.
    fn number(&mut self) -> u64 {
        match self.random.below(8) {
            0 => self.random.pick(&[0, 1, u64::MAX - 1, u64::MAX]),
            1 => self.random.pick(&self.given).wrapping_add(1),
            2 | 3 => self.random.pick(&self.given),
            _ if self.live.is_empty() => 7,
            _ => self.random.pick(&self.live),
        }
    }

    fn add(&mut self, gap: u64) {
        let last = self.given[self.given.len() - 1];
        let Some(number) = last.checked_add(1 + self.random.below(gap)) else {
            return;
        };
        let live = self.random.live();
        let rows = self.state.cell(HEADER, 0, ORDER_ROWS);
        self.state.add(number, live);
        self.squeezes += usize::from(self.state.cell(HEADER, 0, ORDER_ROWS) <= rows);
        self.orders.add(number, live);
        self.given.push(number);
        self.live.push(number);
    }

    fn remove(&mut self) -> Result<(), String> {
        let number = self.number();
        equal(
            "remove",
            self.state.remove(number),
            self.orders.remove(number),
        )?;
        self.live.retain(|&live| live != number);
        Ok(())
    }

    /// A call that has to be refused with this code, and to change nothing.
    fn refuse(&mut self, wanted: u64, call: impl Fn(&mut State) -> u64) -> Result<(), String> {
        let before = self.state.clone();
        equal("a refusal", call(&mut self.state), wanted)?;
        equal("a refused state is as before", self.state == before, true)?;
        self.refused[wanted as usize] += 1;
        Ok(())
    }

    /// Any number, where it has to be refused.
    fn refuse_order(&mut self) -> Result<(), String> {
        let (number, live) = (self.number(), self.random.live());
        let rows = self.state.cell(HEADER, 0, ORDER_ROWS) as usize;
        let last = rows
            .checked_sub(1)
            .map(|row| self.state.cell(ORDERS, row, 0));
        if last.is_some_and(|last| number <= last) {
            return self.refuse(SEQUENCE, |state| state.add_code(number, live));
        }
        if self.live.len() == MOST_LIVE {
            return self.refuse(FULL, |state| state.add_code(number, live));
        }
        Ok(())
    }

    /// Any side, price and quantities, where they have to be refused.
    fn refuse_level(&mut self, prices: u64) -> Result<(), String> {
        let price = self.price(prices);
        let (v, w) = (
            self.random.bits() >> self.random.below(64),
            self.random.bits(),
        );
        if self.random.chance(10) {
            let side = 2 + self.random.bits() % (u64::MAX - 1);
            self.refuse(MALFORMED, |state| state.join_code(side, price, v))?;
            self.refuse(MALFORMED, |state| state.show_code(side, price, v, w))?;
            return self.refuse(MALFORMED, |state| state.leave_code(side, price, v));
        }
        let side = self.random.side();
        let half = self.levels.half(side);
        let (found, many) = (half.get(&price).copied(), half.len() == MOST_LEVELS);
        let side = side as u64;
        let Some(level) = found else {
            if many {
                self.refuse(FULL, |state| state.join_code(side, price, v))?;
            }
            self.refuse(INCONSISTENT, |state| state.show_code(side, price, v, w))?;
            return self.refuse(INCONSISTENT, |state| state.leave_code(side, price, v));
        };
        if level.qty.checked_add(w).is_none() {
            self.refuse(OUTSIDE, |state| state.join_code(side, price, w))?;
        }
        if level.qty < v {
            self.refuse(INCONSISTENT, |state| state.show_code(side, price, v, w))?;
            self.refuse(INCONSISTENT, |state| state.leave_code(side, price, v))?;
        } else if (level.qty - v).checked_add(w).is_none() {
            self.refuse(OUTSIDE, |state| state.show_code(side, price, v, w))?;
        }
        Ok(())
    }

    /// Bytes of another length.
    fn refuse_short(&mut self) -> Result<(), String> {
        let before = self.state.clone();
        for short in [1, 8, 467_592] {
            equal("short", self.state.codes_of_short(short), [MALFORMED; 9])?;
        }
        equal("a refused state is as before", self.state == before, true)
    }

    /// One step with about `many` live orders, whose numbers are up to `gap` apart.
    fn order_step(&mut self, many: usize, gap: u64) -> Result<(), String> {
        let below = self.live.len() < many;
        match self.random.below(8) {
            0 | 1 if below => self.add(gap),
            2 | 3 if !below => self.remove()?,
            0..4 if self.random.chance(50) && self.live.len() < MOST_LIVE => self.add(gap),
            0..4 => self.remove()?,
            4 | 5 => {
                let number = self.number();
                let (leaves, held) = (self.random.bits(), self.random.bits() as i64);
                equal(
                    "change",
                    self.state.change(number, leaves, held),
                    self.orders.change(number, leaves, held),
                )?;
            }
            _ => {
                let number = self.number();
                equal("find", self.state.find(number), self.orders.find(number))?;
            }
        }
        Ok(())
    }

    /// A price among `prices`, or near an end of the range.
    fn price(&mut self, prices: u64) -> i64 {
        match self.random.below(50) {
            0 => self
                .random
                .pick(&[i64::MIN, i64::MIN + 1, -1, 0, 1, i64::MAX - 1, i64::MAX]),
            _ => self.random.below(prices) as i64 - prices as i64 / 2,
        }
    }

    /// What an order may show at a level that shows `qty`: now and then all that fits.
    fn visible(&mut self, qty: u64) -> u64 {
        match self.random.below(200) {
            0 => u64::MAX - qty,
            _ => (self.random.bits() >> self.random.below(60)).min(u64::MAX - qty),
        }
    }

    fn join(&mut self, side: Side, prices: u64) {
        let price = self.price(prices);
        let half = self.levels.half(side);
        let there = half.get(&price).copied();
        if there.is_none() && half.len() == MOST_LEVELS {
            return;
        }
        let visible = self.visible(there.map_or(0, |level| level.qty));
        self.state.join(side, price, visible);
        self.levels.join(side, price, visible);
        self.shown.push((side, price, visible));
    }

    fn leave(&mut self) {
        if self.shown.is_empty() {
            return;
        }
        let at = self.random.place(self.shown.len());
        let (side, price, visible) = self.shown.swap_remove(at);
        self.state.leave(side, price, visible);
        self.levels.leave(side, price, visible);
    }

    fn show(&mut self) {
        if self.shown.is_empty() {
            return;
        }
        let at = self.random.place(self.shown.len());
        let (side, price, before) = self.shown[at];
        let after = self.visible(self.levels.level(side, price) - before);
        self.state.show(side, price, before, after);
        self.levels.show(side, price, before, after);
        self.shown[at].2 = after;
    }

    /// One step with about `many` orders in the levels, at that many prices.
    fn level_step(&mut self, many: usize, prices: u64) -> Result<(), String> {
        let side = self.random.side();
        match self.random.below(4) {
            0 if self.shown.len() < many || self.random.chance(50) => self.join(side, prices),
            0 | 1 if self.shown.len() > many || self.random.chance(50) => self.leave(),
            0 | 1 => self.join(side, prices),
            2 => self.show(),
            _ => {
                let price = match self.shown.is_empty() || self.random.chance(50) {
                    true => self.price(prices),
                    false => self.random.pick(&self.shown).1,
                };
                equal(
                    "level",
                    self.state.level(side, price),
                    self.levels.level(side, price),
                )?;
            }
        }
        for (side, _, _, _, count) in LEVELS {
            let size = self.state.cell(HEADER, 0, count);
            equal("size", size as usize, self.levels.half(side).len())?;
            self.most_levels = self.most_levels.max(size as usize);
        }
        Ok(())
    }

    /// A map has a bit for each row: 1 where it is taken.
    fn map(&self, map: usize, rows: usize, taken: impl Fn(usize) -> bool) -> Result<(), String> {
        (0..rows).try_for_each(|row| {
            let bit = self.state.cell(map, row / 64, 0) >> (row % 64) & 1;
            equal("a bit of a map", bit == 1, taken(row))
        })
    }

    fn order_rows(&self) -> Result<(), String> {
        let rows = self.state.cell(HEADER, 0, ORDER_ROWS) as usize;
        let cells = |row: usize| {
            [0, 1, 2, 3, 4, 5, 6, 7, 8, 9, 10].map(|k| self.state.cell(ORDERS, row, k))
        };
        let live_rows = (0..rows).map(cells).filter(|row| row[1] == 1);
        let rows_of = |(number, live): (u64, Live)| {
            let (account, side) = (u64::from(live.account), live.side as u64);
            let (price, held) = (live.price as u64, live.held as u64);
            [
                number,
                1,
                0,
                1,
                account,
                live.client_ref,
                side,
                1,
                price,
                live.leaves,
                held,
            ]
        };
        let mut live: Vec<(u64, Live)> = self.orders.0.iter().map(|(&n, &o)| (n, o)).collect();
        live.sort_by_key(|&(number, _)| number);
        equal(
            "live rows",
            live_rows.collect(),
            live.into_iter().map(rows_of).collect::<Vec<_>>(),
        )?;
        let numbers: Vec<u64> = (0..rows)
            .map(|row| self.state.cell(ORDERS, row, 0))
            .collect();
        equal("ascending rows", numbers.is_sorted_by(|a, b| a < b), true)?;
        let kept = |row: usize| row < rows && self.state.cell(ORDERS, row, 3) == 1;
        self.map(ORDER_MAP, ROWS[ORDERS], kept)?;
        let count = self.state.cell(HEADER, 0, LIVE_ORDERS) as usize;
        equal("live orders", count, self.orders.0.len())
    }

    fn level_rows(&self) -> Result<(), String> {
        for (side, block, map, used, _) in LEVELS {
            let used = self.state.cell(HEADER, 0, used) as usize;
            let row = |row| [0, 1, 2].map(|k| self.state.cell(block, row, k));
            let rows: Vec<_> = (0..used).map(row).collect();
            equal("rising", rows.is_sorted_by(|a, b| a[0] < b[0]), true)?;
            self.map(map, ROWS[block], |row| row < used && rows[row][2] != 0)?;
            // a level without orders is gone
            let rows = rows.into_iter().filter(|row| row[2] != 0);
            let levels = self.levels.half(side).iter();
            let levels =
                levels.map(|(&price, level)| [key(price), level.qty, u64::from(level.orders)]);
            equal("levels", rows.collect::<Vec<_>>(), levels.collect())?;
        }
        Ok(())
    }

    /// Every other cell is 0.
    fn other_cells(&self) -> Result<(), String> {
        let [bids, asks] = LEVELS;
        let counts = [ORDER_ROWS, LIVE_ORDERS, bids.3, bids.4, asks.3, asks.4];
        let tables = [ORDERS, ORDER_MAP, bids.1, bids.2, asks.1, asks.2, HINTS];
        for block in (0..ROWS.len()).filter(|block| !tables.contains(block)) {
            for (row, cell) in
                (0..ROWS[block]).flat_map(|row| (0..WIDTHS[block]).map(move |cell| (row, cell)))
            {
                if block != HEADER || !counts.contains(&cell) {
                    equal("another cell", self.state.cell(block, row, cell), 0)?;
                }
            }
        }
        Ok(())
    }

    fn rows(&self) -> Result<(), String> {
        self.order_rows()?;
        self.level_rows()?;
        self.other_cells()
    }
}

pub fn check() -> Result<(), String> {
    let mut both = Both::new();
    // (live orders, gap of their numbers, orders in the levels, prices)
    let parts = [
        (950, 2, 400, 120),
        (2_048, 2, 3_000, 2_000),
        (3, 1, 20, 8),
        (950, 9_000, 1_000, 500),
        (2_048, u64::MAX / STEPS as u64 / 2, 6_000, 9_000),
    ];
    for (live, gap, shown, prices) in parts {
        for step in 0..STEPS / parts.len() {
            both.order_step(live, gap)?;
            both.level_step(shown, prices)?;
            if step % 16 == 0 {
                both.refuse_order()?;
                both.refuse_level(prices)?;
            }
        }
        both.rows()?;
        both.refuse_short()?;
    }
    let codes = [SEQUENCE, FULL, OUTSIDE, INCONSISTENT, MALFORMED];
    equal(
        "every code is met",
        codes.iter().all(|&code| both.refused[code as usize] > 0),
        true,
    )?;
    println!(
        "tables: {STEPS} steps on the orders, with {} squeezes, and as many on up to {} levels are equal; {} calls refused",
        both.squeezes,
        both.most_levels,
        both.refused.iter().sum::<usize>()
    );
    Ok(())
}
