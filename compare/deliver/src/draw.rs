//! A busy evening: what members send, and what the engine answers. All is drawn before the clock starts.

use orderbook::{CancelReason, Event, Side};
use xorshift::Random;

pub const SESSIONS: usize = 8;

/// Events between two publishings.
pub const EVENTS: usize = 64;

const MIDDLE: i64 = 10_000;
const QTY: u64 = 1_000_000;

#[derive(Clone, Copy)]
pub enum Message {
    New { side: Side, price: i64, qty: u64 },
    Cancel { id: u64 },
}

/// What one publishing covers: messages of sessions, and the events of their commands by number.
pub struct Turn {
    pub messages: Vec<(usize, Message)>,
    pub events: Vec<(u64, Event)>,
}

#[derive(Clone, Copy)]
pub struct Resting {
    pub id: u64,
    pub account: usize,
    pub side: Side,
    pub price: i64,
    pub leaves: u64,
}

/// 1,024 orders of 256 accounts, each on a level of its own.
pub fn full() -> Vec<Resting> {
    let order = |n: u64| Resting {
        id: n,
        account: n as usize % 256,
        side: if n % 2 == 0 { Side::Buy } else { Side::Sell },
        price: if n % 2 == 0 { MIDDLE - n as i64 } else { MIDDLE + n as i64 },
        leaves: QTY,
    };
    (1..=1_024).map(order).collect()
}

/// The engine's book, as far as the events want it.
pub struct Book {
    random: Random,
    prices: u64,
    last: u64,
    trades: u64,
    pub orders: Vec<Resting>,
}

impl Book {
    pub fn new(prices: u64) -> Book {
        Book { random: Random::new(), prices, last: 0, trades: 0, orders: Vec::new() }
    }

    fn order(&mut self) -> Resting {
        let side = self.random.pick(&[Side::Buy, Side::Sell]);
        let away = 1 + self.random.below(self.prices) as i64;
        self.last += 1;
        Resting {
            id: self.last,
            account: self.random.place(SESSIONS),
            side,
            price: match side {
                Side::Buy => MIDDLE - away,
                Side::Sell => MIDDLE + away,
            },
            leaves: QTY,
        }
    }

    fn sent(o: &Resting) -> (usize, Message) {
        let (side, price, qty) = (o.side, o.price, o.leaves);
        (o.account, Message::New { side, price, qty })
    }

    fn rested(o: &Resting) -> (u64, Event) {
        let event = Event::Rested { id: o.id, side: o.side, price: o.price, qty: o.leaves, visible: o.leaves };
        (o.id, event)
    }

    /// Orders that only come to rest, `count` of them.
    pub fn fill(&mut self, count: usize) -> Turn {
        let news: Vec<Resting> = (0..count).map(|_| self.order()).collect();
        let messages = news.iter().map(Self::sent).collect();
        let accepted = |o: &Resting| (o.id, Event::Accepted { id: o.id });
        let events = news.iter().flat_map(|o| [accepted(o), Self::rested(o)]);
        let events = events.collect();
        self.orders.extend(news);
        Turn { messages, events }
    }

    /// A quarter each accepted, trade, rested and cancelled: an order comes, trades a part and rests, and another is cancelled.
    pub fn turn(&mut self) -> Turn {
        let (mut messages, mut events) = (Vec::new(), Vec::new());
        for _ in 0..EVENTS / 4 {
            let mut taker = self.order();
            messages.push(Self::sent(&taker));
            events.push((taker.id, Event::Accepted { id: taker.id }));
            events.extend(self.trade(&mut taker));
            events.push(Self::rested(&taker));
            let gone = self.random.place(self.orders.len());
            let gone = self.orders.swap_remove(gone);
            self.orders.push(taker);
            self.last += 1;
            messages.push((gone.account, Message::Cancel { id: gone.id }));
            let event = Event::Cancelled { id: gone.id, qty: gone.leaves, reason: CancelReason::Requested };
            events.push((self.last, event));
        }
        Turn { messages, events }
    }

    /// With an order of the other side, drawn at random.
    fn trade(&mut self, taker: &mut Resting) -> Option<(u64, Event)> {
        let start = self.random.place(self.orders.len());
        let count = self.orders.len();
        let mut places = (0..count).map(|k| (start + k) % count);
        let maker = places.find(|&at| self.orders[at].side != taker.side)?;
        let maker = &mut self.orders[maker];
        let qty = 1 + self.random.below(5);
        self.trades += 1;
        maker.leaves -= qty;
        taker.leaves -= qty;
        let (trade_id, taker_side, price) = (self.trades, taker.side, maker.price);
        let (taker_leaves, maker_leaves) = (taker.leaves, maker.leaves);
        let (taker, maker) = (taker.id, maker.id);
        let event = Event::Trade { trade_id, taker, maker, taker_side, price, qty, taker_leaves, maker_leaves };
        Some((taker, event))
    }
}
