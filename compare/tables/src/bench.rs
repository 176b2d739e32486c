//! Times both sides in one run, in turns, and prints a table. Nothing is asserted.

use crate::timing::Table;
use crate::{levels, orders};

/// Many short rounds: the other work of the machine then spoils few of them.
const ROUNDS: usize = 301;

pub fn bench() {
    let mut table = Table::default();
    let mut bench = orders::Bench::new();
    (0..ROUNDS).for_each(|_| bench.round(&mut table));
    println!("Live orders, {} of them:\n", orders::LIVE);
    table.print("HashMap");
    let mut table = Table::default();
    let mut bench = levels::Bench::new();
    (0..ROUNDS).for_each(|_| bench.round(&mut table));
    println!("\nLevels of a side, {} of them:\n", levels::LEVELS);
    table.print("BTreeMap");
}
