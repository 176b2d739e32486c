//! The proved library's entry points (crates/edge).

use edge::{MAIL, Reply, STATE};
use orderbook::{Event, Side};

use crate::column::{Column, FEE, TOKEN, funds};
use crate::draw::{Message, Resting, SESSIONS};

const LIMIT: u64 = 256;

/// No heartbeat is due, and no session idle.
const NEVER: u64 = u64::MAX;

/// A state as a careful host has it: the row of an order is then two lines of the processor's cache.
#[repr(align(128))]
struct State([u8; STATE]);

pub struct Proved {
    state: Box<State>,
    out: Vec<u8>,
    row: [u8; 128],
    sent: usize,
    pub refused: usize,
}

fn side_code(side: Side) -> u64 {
    match side {
        Side::Buy => 0,
        Side::Sell => 1,
    }
}

/// A row of 16 words.
fn row(words: &[u64]) -> [u8; 128] {
    let mut row = [0; 128];
    write(&mut row, words);
    row
}

/// The first words of a row.
fn write(row: &mut [u8; 128], words: &[u64]) {
    for (at, word) in row.chunks_exact_mut(8).zip(words) {
        at.copy_from_slice(&word.to_le_bytes());
    }
}

/// What an event's row has: its kind, then its fields. The words behind them may be anything.
fn write_event(row: &mut [u8; 128], event: &Event) {
    match *event {
        Event::Accepted { id } => write(row, &[0, id]),
        Event::Trade { trade_id, taker, maker, taker_side, price, qty, taker_leaves, maker_leaves } => {
            write(row, &[2, trade_id, taker, maker, side_code(taker_side), price as u64, qty, taker_leaves, maker_leaves])
        }
        Event::Rested { id, side, price, qty, visible } => write(row, &[3, id, side_code(side), price as u64, qty, visible]),
        Event::Cancelled { id, qty, reason: _ } => write(row, &[5, id, qty, 1]),
        _ => unreachable!("not drawn"),
    }
}

/// The rows of the accounts from 0 on: 7 words each.
pub fn accounts(count: usize, funds: impl Fn(usize) -> Option<(i64, i64)>) -> Vec<u8> {
    let words = |account: usize| {
        let (there, (cash, position)) = match funds(account) {
            Some(funds) => (1, funds),
            None => (0, (0, 0)),
        };
        let rate = u64::from(u32::MAX);
        [account as u64, TOKEN, 1_024, rate, there, cash as u64, position as u64]
    };
    (0..count).flat_map(words).flat_map(u64::to_le_bytes).collect()
}

impl Proved {
    pub fn new() -> Proved {
        let mut column = Proved { state: Box::new(State([0; STATE])), out: vec![0; 4_096 * MAIL], row: [0; 128], sent: 0, refused: 0 };
        column.set_up(0, &accounts(SESSIONS, funds), &[]);
        for session in 0..SESSIONS {
            edge::connect(&mut column.state.0, session, 0);
            column.receive_row(session, &row(&[0, 1, session as u64, TOKEN]), 0);
            column.receive_row(session, &row(&[7]), 0);
        }
        column.sent = 0;
        column
    }

    pub fn set_up(&mut self, last: u64, accounts: &[u8], list: &[u8]) {
        let code = edge::set_up(&mut self.state.0, FEE, LIMIT, last, NEVER, NEVER, accounts, list);
        self.refused += usize::from(code != 0);
    }

    pub fn restore(&mut self, accounts: &[u8], bytes: &[u8]) {
        let code = edge::restore(&mut self.state.0, FEE, LIMIT, NEVER, NEVER, accounts, bytes);
        self.refused += usize::from(code != 0);
    }

    fn note(&mut self, reply: Reply) -> usize {
        self.refused += usize::from(reply.code != 0);
        self.sent += reply.count;
        reply.count
    }

    fn receive_row(&mut self, session: usize, row: &[u8; 128], now: u64) {
        let reply = edge::receive(&mut self.state.0, session, row, now, &mut self.out);
        self.note(reply);
    }

    /// The bytes of a checkpoint.
    pub fn checkpoint(&mut self) -> &[u8] {
        let reply = edge::checkpoint(&self.state.0, &mut self.out);
        self.refused += usize::from(reply.code != 0);
        &self.out[..reply.count]
    }

    pub fn finish(&mut self, list: &[u8]) {
        let code = edge::finish(&mut self.state.0, list);
        self.refused += usize::from(code != 0);
    }
}

/// A book listing: rows of 8 words.
pub fn listing(orders: &[Resting]) -> Vec<u8> {
    let words = |o: &Resting| {
        let owner = o.account as u64;
        [0, o.id, owner, side_code(o.side), 1, o.price as u64, o.leaves, o.leaves]
    };
    let words = orders.iter().flat_map(words);
    words.flat_map(u64::to_le_bytes).collect()
}

impl Column for Proved {
    type Event = Event;

    fn receive(&mut self, session: usize, message: Message, now: u64) {
        let row = match message {
            Message::New { side, price, qty } => row(&[3, now, side_code(side), qty, 0, price as u64]),
            Message::Cancel { id } => row(&[4, id]),
        };
        self.receive_row(session, &row, now);
    }

    fn take_batch(&mut self) -> usize {
        edge::take_batch(&mut self.state.0, &mut self.out).count
    }

    fn deliver(&mut self, n: u64, event: &Event) {
        write_event(&mut self.row, event);
        let reply = edge::deliver(&mut self.state.0, n, &self.row, &mut self.out[..4 * MAIL]);
        self.note(reply);
    }

    fn publish(&mut self) -> usize {
        let reply = edge::publish(&mut self.state.0, &mut self.out);
        self.note(reply);
        std::mem::take(&mut self.sent)
    }

    fn wallets(&self) -> Vec<[i64; 4]> {
        let wallet = |a| edge::wallet(&self.state.0, a);
        let wallets = (0..SESSIONS as u32).map(wallet).filter(|w| w.there == 1);
        wallets.map(|w| [w.cash, w.position, w.cash_held, w.position_held]).collect()
    }
}
