//! Times delivering on the proved library, on the published `Exchange`, on a plain Rust program over the standard library's maps, and on the
//! proved library behind the crate `rowanchess`, in one run, and prints a table. Nothing is asserted.

mod column;
mod draw;
mod plain;
mod proved;
mod published;
mod wrapped;

use std::hint::black_box;
use std::time::{Duration, Instant};

use column::{Column, funds};
use draw::{Book, EVENTS, Turn};
use plain::Plain;
use proved::Proved;
use published::Published;
use wrapped::Wrapped;

/// Timed rounds of one million events in all. Many short ones: the other work of the machine then spoils few of them. Before each a gateway is
/// given as many events that are not timed: the rounds of the others have taken its memory out of the caches, where one alone keeps it.
const ROUNDS: usize = 625;
const TURNS: usize = 1_000_000 / EVENTS / ROUNDS;

/// What was spent in `deliver`, what in the whole loop, and how many messages were sent.
#[derive(Default)]
struct Spent {
    deliver: Duration,
    whole: Duration,
    sent: usize,
}

/// The events of a turn, for a column.
fn events<C: Column>(turn: &Turn) -> Vec<(u64, C::Event)> {
    turn.events.iter().map(|&(n, event)| (n, event.into())).collect()
}

/// As a host does: a batch of messages, their commands taken, their events delivered, then a publishing.
fn run<C: Column>(column: &mut C, turns: &[Turn], now: &mut u64) -> Spent {
    let mut spent = Spent::default();
    let all: Vec<_> = turns.iter().map(events::<C>).collect();
    let start = Instant::now();
    for (turn, events) in turns.iter().zip(&all) {
        *now += 1_000_000;
        for &(session, message) in &turn.messages {
            column.receive(session, message, *now);
        }
        black_box(column.take_batch());
        let from = Instant::now();
        for (n, event) in events {
            column.deliver(*n, event);
        }
        spent.deliver += from.elapsed();
        spent.sent += column.publish();
    }
    spent.whole = start.elapsed();
    spent
}

fn median(mut numbers: Vec<f64>) -> f64 {
    numbers.sort_by(f64::total_cmp);
    numbers[numbers.len() / 2]
}

/// Medians over the rounds, nanoseconds an event: of the proved library, the published `Exchange`, the plain program and the crate.
struct Line {
    deliver: [f64; 4],
    whole: [f64; 4],
}

fn measure(live: usize, prices: u64) -> Line {
    let mut book = Book::new(prices);
    let (mut a, mut b, mut c, mut d) = (Proved::new(), Published::new(), Plain::new(), Wrapped::new());
    let mut clocks = [0u64; 4];
    let mut sent = [0; 4];
    let mut fills = Vec::new();
    while book.orders.len() < live {
        fills.push(book.fill((live - book.orders.len()).min(32)));
    }
    let mut round = |at: usize, turns: &[Turn]| {
        let now = &mut clocks[at];
        let spent = match at {
            0 => run(&mut a, turns, now),
            1 => run(&mut b, turns, now),
            2 => run(&mut c, turns, now),
            _ => run(&mut d, turns, now),
        };
        sent[at] += spent.sent;
        spent
    };
    for at in 0..4 {
        round(at, &fills);
    }
    let mut deliver: [Vec<f64>; 4] = Default::default();
    let mut whole: [Vec<f64>; 4] = Default::default();
    for first in 0..ROUNDS {
        let untimed: Vec<Turn> = (0..TURNS).map(|_| book.turn()).collect();
        let timed: Vec<Turn> = (0..TURNS).map(|_| book.turn()).collect();
        for k in 0..4 {
            let at = (first + k) % 4;
            round(at, &untimed);
            let spent = round(at, &timed);
            let events = (TURNS * EVENTS) as f64;
            deliver[at].push(spent.deliver.as_nanos() as f64 / events);
            whole[at].push(spent.whole.as_nanos() as f64 / events);
        }
    }
    // The published wallets pay no fee: their seats are compared.
    let seats = |wallets: Vec<[i64; 4]>| wallets.into_iter().map(|[_, seats, _, held]| [seats, held]).collect::<Vec<_>>();
    let same = a.wallets() == c.wallets() && a.wallets() == d.wallets() && seats(a.wallets()) == seats(b.wallets());
    let refused = a.refused + d.refused;
    if refused != 0 || sent.windows(2).any(|pair| pair[0] != pair[1]) || !same {
        println!("the columns differ: {refused} refused, messages {sent:?}, wallets alike: {same}");
    }
    Line { deliver: deliver.map(median), whole: whole.map(median) }
}

const KINDS: [&str; 4] = ["accepted", "trade", "rested", "cancelled"];

/// Nanoseconds of each event, by its place among the four of an order. A clock is read around each, and what that takes alone is taken off.
fn by_kind<C: Column>(column: &mut C, turns: &[Turn]) -> [f64; 4] {
    let mut times: [Vec<f64>; 4] = Default::default();
    let (mut now, mut alone) = (1 << 40, Vec::new());
    for turn in turns {
        now += 1_000_000;
        for &(session, message) in &turn.messages {
            column.receive(session, message, now);
        }
        black_box(column.take_batch());
        for (place, (n, event)) in events::<C>(turn).iter().enumerate() {
            let from = Instant::now();
            column.deliver(*n, event);
            times[place % 4].push(from.elapsed().as_nanos() as f64);
            let from = Instant::now();
            alone.push(from.elapsed().as_nanos() as f64);
        }
        black_box(column.publish());
    }
    let alone = median(alone);
    times.map(|times| median(times) - alone)
}

fn kinds(live: usize, prices: u64) {
    let mut book = Book::new(prices);
    let mut turns = Vec::new();
    while book.orders.len() < live {
        turns.push(book.fill((live - book.orders.len()).min(32)));
    }
    let (mut a, mut b, mut c, mut d) = (Proved::new(), Published::new(), Plain::new(), Wrapped::new());
    run(&mut a, &turns, &mut 0);
    run(&mut b, &turns, &mut 0);
    run(&mut c, &turns, &mut 0);
    run(&mut d, &turns, &mut 0);
    let turns: Vec<Turn> = (0..4_000).map(|_| book.turn()).collect();
    let (a, b) = (by_kind(&mut a, &turns), by_kind(&mut b, &turns));
    let (c, d) = (by_kind(&mut c, &turns), by_kind(&mut d, &turns));
    println!("Each kind alone, {live} live orders, {prices} prices a side:\n");
    println!("| event | proved, ns | published, ns | plain, ns | crate, ns |");
    println!("|---|---|---|---|---|");
    for (k, name) in KINDS.iter().enumerate() {
        println!("| {name} | {:.0} | {:.0} | {:.0} | {:.0} |", a[k], b[k], c[k], d[k]);
    }
}

/// The median of some calls, in microseconds.
fn each(mut call: impl FnMut()) -> f64 {
    let times = (0..101).map(|_| {
        let start = Instant::now();
        call();
        start.elapsed().as_nanos() as f64 / 1_000.0
    });
    median(times.collect())
}

/// The calls of a restart at 1,024 live orders.
fn restarting() {
    let mut book = Book::new(2_000);
    let mut a = Proved::new();
    while book.orders.len() < 1_024 {
        let turn = book.fill(32);
        run(&mut a, &[turn], &mut 0);
    }
    let list = proved::listing(&book.orders);
    let bytes = a.checkpoint().len();
    let checkpoint = each(|| {
        black_box(a.checkpoint());
    });
    let finish = each(|| a.finish(&list));
    println!("\nAt 1,024 live orders: checkpoint {checkpoint:.1} µs ({bytes} bytes), finish {finish:.1} µs; {} refused.", a.refused);
    // every table of a start full
    let accounts = proved::accounts(256, |_| funds(0));
    let list = proved::listing(&draw::full());
    let set_up = each(|| a.set_up(1_024, &accounts, &list));
    let bytes = a.checkpoint().to_vec();
    let restore = each(|| a.restore(&accounts, &bytes));
    let same = a.checkpoint() == bytes;
    let len = bytes.len();
    println!(
        "On 512 levels a side, with 256 wallets: set-up {set_up:.1} µs, restore {restore:.1} µs ({len} bytes, alike after it: {same}); {} refused.\n",
        a.refused
    );
}

fn main() {
    println!(
        "| live orders | prices a side | part | proved, ns | published, ns | plain, ns | crate, ns | of the published | of the plain | crate / proved |"
    );
    println!("|---|---|---|---|---|---|---|---|---|---|");
    let (mut asked, mut plot) = (None, String::new());
    for (live, prices) in [(100, 120), (300, 120), (1_000, 120), (1_000, 2_000)] {
        let live = live - live / 20;
        let line = measure(live, prices);
        for (part, [a, b, c, d]) in [("deliver", line.deliver), ("whole loop", line.whole)] {
            let times = format!("{a:.1} | {b:.1} | {c:.1} | {d:.1}");
            println!("| {live} | {prices} | {part} | {times} | {:.2} | {:.2} | {:.2} |", a / b, a / c, d / a);
        }
        let ratio = line.deliver[0] / line.deliver[2];
        let bar = "#".repeat((40.0 * ratio) as usize);
        plot += &format!("{live:>5} live, {prices:>5} prices  {bar} {ratio:.2}\n");
        if (live, prices) == (950, 120) {
            asked = Some(line.deliver);
        }
    }
    println!("\nDelivering, proved / plain:\n\n{plot}");
    kinds(950, 120);
    restarting();
    let [a, b, c, d] = asked.expect("it was measured");
    println!("The crate over the entry points, delivering: {:.2}\n", d / a);
    println!("deliver: {:.2} of the standard maps, {:.2} of the published Exchange", a / c, a / b);
}
