//! Rows of words read back: which bytes are a row, and of what. A word that its kind does not read may be anything.

use gateway::accounts::{Account, Funds};
use orderbook::{Command, Event, Order, Stop};
use protocol::{Inbound, NewOrder, OrderKind};

use crate::call::Listed;
use crate::words::Coded;

/// The words of a row that has so many.
struct Row([u64; 16]);

impl Row {
    fn of(bytes: &[u8], words: usize) -> Option<Row> {
        let mut row = [0; 16];
        let (chunks, rest) = bytes.as_chunks();
        if chunks.len() != words || !rest.is_empty() {
            return None;
        }
        row.iter_mut().zip(chunks).for_each(|(word, chunk)| *word = u64::from_le_bytes(*chunk));
        Some(Row(row))
    }

    fn word(&self, at: usize) -> u64 {
        self.0[at]
    }

    fn signed(&self, at: usize) -> i64 {
        self.0[at] as i64
    }

    fn short(&self, at: usize) -> Option<u32> {
        u32::try_from(self.0[at]).ok()
    }

    fn case<T: Coded>(&self, at: usize) -> Option<T> {
        T::coded(self.0[at])
    }

    /// A flag, and a value behind it.
    fn maybe(&self, at: usize) -> Option<Option<u64>> {
        match self.0[at] {
            0 => Some(None),
            1 => Some(Some(self.0[at + 1])),
            _ => None,
        }
    }

    fn maybe_signed(&self, at: usize) -> Option<Option<i64>> {
        Some(self.maybe(at)?.map(|word| word as i64))
    }
}

fn order_kind(row: &Row) -> Option<OrderKind> {
    Some(match row.word(4) {
        0 => OrderKind::Limit { price: row.signed(5), tif: row.case(6)?, display: row.maybe(7)? },
        1 => OrderKind::Market,
        2 => OrderKind::Stop { trigger: row.signed(5), limit: row.maybe_signed(6)? },
        _ => return None,
    })
}

pub fn message(bytes: &[u8]) -> Option<Inbound> {
    let row = Row::of(bytes, 16)?;
    Some(match row.word(0) {
        0 => Inbound::Login { version: u16::try_from(row.word(1)).ok()?, account: row.short(2)?, token: row.word(3) },
        1 => Inbound::Logout,
        2 => Inbound::Heartbeat,
        3 => {
            let kind = order_kind(&row)?;
            Inbound::NewOrder(NewOrder { client_ref: row.word(1), side: row.case(2)?, qty: row.word(3), kind })
        }
        4 => Inbound::Cancel { order_id: row.word(1) },
        5 => Inbound::Modify { order_id: row.word(1), price: row.signed(2), qty: row.word(3) },
        6 => Inbound::MassCancel,
        7 => Inbound::Subscribe,
        _ => return None,
    })
}

pub fn event(bytes: &[u8]) -> Option<Event> {
    let row = Row::of(bytes, 16)?;
    let id = row.word(1);
    Some(match row.word(0) {
        0 => Event::Accepted { id },
        1 => Event::Rejected { id, reason: row.case(2)? },
        2 => Event::Trade {
            trade_id: row.word(1),
            taker: row.word(2),
            maker: row.word(3),
            taker_side: row.case(4)?,
            price: row.signed(5),
            qty: row.word(6),
            taker_leaves: row.word(7),
            maker_leaves: row.word(8),
        },
        3 => Event::Rested { id, side: row.case(2)?, price: row.signed(3), qty: row.word(4), visible: row.word(5) },
        4 => Event::Replenished { id, side: row.case(2)?, price: row.signed(3), visible: row.word(4) },
        5 => Event::Cancelled { id, qty: row.word(2), reason: row.case(3)? },
        6 => Event::Modified { id, price: row.signed(2), qty: row.word(3), leaves: row.word(4) },
        7 => {
            let limit = row.maybe_signed(4)?;
            Event::StopPlaced { id, side: row.case(2)?, trigger: row.signed(3), limit, qty: row.word(6) }
        }
        8 => Event::Triggered { id },
        9 => Event::MassCancelled { owner: row.short(1)?, count: row.short(2)? },
        10 => Event::PhaseChanged { phase: row.case(1)? },
        _ => return None,
    })
}

/// The owner is of 32 bits in every kind's row, also in a phase change's, which has none.
pub fn command(bytes: &[u8]) -> Option<Command> {
    let row = Row::of(bytes, 12)?;
    let (id, owner, price, qty) = (row.word(1), row.short(2)?, row.signed(4), row.word(5));
    Some(match row.word(0) {
        0 => Command::Limit { id, owner, side: row.case(3)?, price, qty, tif: row.case(6)?, display: row.maybe(7)? },
        1 => Command::Market { id, owner, side: row.case(3)?, qty },
        2 => Command::Cancel { id, owner },
        3 => Command::Modify { id, owner, price, qty },
        4 => Command::Stop { id, owner, side: row.case(3)?, trigger: row.signed(9), limit: row.maybe_signed(10)?, qty },
        5 => Command::CancelAll { owner },
        6 => Command::SetPhase { phase: row.case(3)? },
        _ => return None,
    })
}

pub fn account(bytes: &[u8]) -> Option<Account> {
    let row = Row::of(bytes, 7)?;
    let funds = row.maybe_signed(4)?.map(|cash| Funds { cash, position: row.signed(6) });
    let (id, max_open_orders, messages_per_second) = (row.short(0)?, row.short(2)?, row.short(3)?);
    Some(Account { id, token: row.word(1), max_open_orders, messages_per_second, funds })
}

fn listed(bytes: &[u8]) -> Option<Listed> {
    let row = Row::of(bytes, 8)?;
    let (id, owner, side, limit) = (row.word(1), row.short(2)?, row.case(3)?, row.maybe_signed(4)?);
    let leaves = row.word(6);
    Some(match row.word(0) {
        0 => Listed::Order(Order { id, owner, side, price: row.signed(5), visible: row.word(7), leaves }),
        1 => Listed::Stop(Stop { id, owner, side, limit, qty: leaves }),
        _ => return None,
    })
}

fn each<T>(bytes: &[u8], size: usize, of: impl Fn(&[u8]) -> Option<T>) -> Option<Vec<T>> {
    bytes.chunks(size).map(of).collect()
}

pub fn accounts(bytes: &[u8]) -> Option<Vec<Account>> {
    each(bytes, 56, account)
}

pub fn listing(bytes: &[u8]) -> Option<Vec<Listed>> {
    each(bytes, 64, listed)
}
