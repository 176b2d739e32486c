//! The published `Exchange`, where it lies.

use std::borrow::Cow;
use std::collections::BTreeMap;
use std::panic::{AssertUnwindSafe, catch_unwind};

use gateway::exchange::{Exchange, Mailbox, SessionId, SetupError};
use gateway::wallet::Wallet;
use marketdata::{Level, QueueEntry};
use orderbook::{BookConfig, Order, OrderBook, OrderId, Side};
use protocol::Outbound;

use crate::bytes::{decode, encode};
use crate::call::{Answer, Call, Gateway, Listed, Mail, Seen, Start};
use crate::depth::Resting;

pub struct Published {
    exchange: Exchange,
    limit: u32,
}

fn book(max_owners: u32, listing: &[Listed]) -> OrderBook {
    let mut book = OrderBook { config: BookConfig { max_owners }, orders: Vec::new(), stops: Vec::new() };
    for entry in listing {
        match *entry {
            Listed::Order(order) => book.orders.push(order),
            Listed::Stop(stop) => book.stops.push(stop),
        }
    }
    book
}

#[derive(Default)]
struct Mails(Vec<Mail>);

impl Mailbox for Mails {
    fn send(&mut self, session: SessionId, message: Outbound) {
        self.0.push(Mail::Send(session, message));
    }

    fn close(&mut self, session: SessionId) {
        self.0.push(Mail::Close(session));
    }
}

fn code(error: SetupError) -> u8 {
    match error {
        SetupError::AccountOutOfRange(_) => 1,
        SetupError::ForeignOrder(_) => 2,
        SetupError::AccountExists(_) => 3,
    }
}

impl Published {
    fn begin(start: &Start) -> Result<Exchange, u8> {
        match start {
            Start::SetUp(_, limit, last, accounts, listing, timing) => {
                Exchange::new(&book(*limit, listing), *last, accounts, *timing).map_err(code)
            }
            Start::Restore(_, limit, accounts, timing, bytes) => {
                let max_owners = *limit;
                let checkpoint = decode(bytes).ok_or(11)?;
                Exchange::restore(&checkpoint, &BookConfig { max_owners }, accounts, *timing).map_err(code)
            }
        }
    }

    fn run(&mut self, call: &Call) -> Seen {
        let exchange = &mut self.exchange;
        let mut mails = Mails::default();
        let mut answer = Answer::Nothing;
        match call {
            Call::AddAccount(account) => {
                if let Err(error) = exchange.add_account(*account) {
                    return Seen::Code(code(error));
                }
            }
            Call::Connect(session, now) => exchange.connect(*session, *now),
            Call::Collar(percent) => exchange.set_paper_collar(*percent),
            Call::Wallet(account) => answer = Answer::Wallet(exchange.wallet(*account)),
            Call::LastSeq => answer = Answer::Number(exchange.last_seq()),
            Call::Levels(side) => answer = Answer::Levels(exchange.depth().levels(*side).collect()),
            Call::Receive(session, message, now) => exchange.receive(*session, *message, *now, &mut mails),
            Call::Tick(now) => exchange.tick(*now, &mut mails),
            Call::Publish => exchange.publish(&mut mails),
            Call::End(session, reason) => exchange.end(*session, *reason, &mut mails),
            Call::ShutDown => exchange.shut_down(&mut mails),
            Call::Disconnect(session) => exchange.disconnect(*session),
            Call::Detach(session) => answer = Answer::Account(exchange.detach(*session)),
            Call::TakeBatch => {
                let mut commands = Vec::new();
                exchange.take_batch(&mut commands);
                answer = Answer::Commands(commands);
            }
            Call::Deliver(number, event) => exchange.deliver(*number, *event, &mut mails),
            Call::ReplayCommand(number, command) => exchange.replay_command(*number, *command),
            Call::ReplayEvent(number, event) => exchange.replay_event(*number, *event),
            Call::Finish(listing) => {
                if exchange.finish(&book(self.limit, listing)).is_err() {
                    return Seen::Code(8);
                }
            }
            Call::Checkpoint => match exchange.checkpoint() {
                Some(checkpoint) => answer = Answer::Bytes(encode(&checkpoint)),
                None => return Seen::Code(10),
            },
        }
        // The log is no part of the comparison, and its sums overflow.
        exchange.take_log(true, &mut Vec::new());
        Seen::Sees(answer, mails.0)
    }

    /// An account's open orders.
    pub fn open_orders(&self, account: u32) -> Option<u32> {
        self.exchange.open_orders(account)
    }
}

/// It has no lent lists, so it takes no notice of the room. It does not know document 01's limits, and panics where the model says so.
impl Gateway for Published {
    fn start(start: &Start) -> Result<Published, u8> {
        assert_eq!(start.fee(), 0, "the Rust knows no fee");
        let exchange = catch_unwind(|| Published::begin(start)).unwrap_or(Err(0))?;
        Ok(Published { exchange, limit: start.limit() })
    }

    fn call(&mut self, call: &Call, _: usize) -> Option<Seen> {
        catch_unwind(AssertUnwindSafe(|| self.run(call))).ok()
    }

    fn wallet(&self, account: u32) -> Option<Wallet> {
        self.exchange.wallet(account)
    }

    fn last_seq(&self) -> u64 {
        self.exchange.last_seq()
    }

    fn levels(&self, side: Side) -> Vec<(i64, Level)> {
        self.exchange.depth().levels(side).collect()
    }

    fn checkpoint(&self) -> Option<Vec<u8>> {
        self.exchange.checkpoint().map(|checkpoint| encode(&checkpoint))
    }
}

/// As they rest, but for their hidden part and their owner. None where a replay made an order rest twice and go once, which leaves it
/// in the Rust's queue.
impl Resting for Published {
    fn resting(&self) -> Cow<'_, BTreeMap<OrderId, Order>> {
        let depth = self.exchange.depth();
        let level = |side: Side, price: i64| {
            let order = move |QueueEntry { id, visible }| (id, Order { id, owner: 0, side, price, visible, leaves: visible });
            depth.queue(side, price).map(order)
        };
        let half = |side: Side| depth.levels(side).flat_map(move |(price, _)| level(side, price));
        let all = || half(Side::Buy).chain(half(Side::Sell)).collect();
        Cow::Owned(catch_unwind(AssertUnwindSafe(all)).unwrap_or_default())
    }
}
