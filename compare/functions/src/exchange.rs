//! The Rust's `Exchange`, driven to show one answer.

use gateway::accounts::{Account, Funds};
use gateway::exchange::{
    Checkpoint, Exchange, Mailbox, SavedOrder, SavedWallet, SessionId, Timing,
};
use gateway::wallet::Wallet;
use orderbook::{BookConfig, Command, Event, Side, TimeInForce};
use protocol::{Inbound, NewOrder, OrderKind, Outbound, RejectCode, VERSION};

/// The last reject sent.
#[derive(Default)]
struct Reject(Option<RejectCode>);

impl Mailbox for Reject {
    fn send(&mut self, _: SessionId, message: Outbound) {
        if let Outbound::Reject { reason, .. } = message {
            self.0 = Some(reason);
        }
    }

    fn close(&mut self, _: SessionId) {}
}

const AMPLE: Funds = Funds {
    cash: i64::MAX,
    position: i64::MAX,
};

/// An exchange of one account, after `checkpoint`.
fn restored(rate: u32, funds: Funds, checkpoint: &Checkpoint) -> Exchange {
    let account = Account {
        id: 0,
        token: 0,
        max_open_orders: u32::MAX,
        messages_per_second: rate,
        funds: Some(funds),
    };
    let book = BookConfig { max_owners: 1 };
    Exchange::restore(checkpoint, &book, &[account], Timing::default()).expect("an exchange")
}

fn empty(market_price: Option<i64>) -> Checkpoint {
    Checkpoint {
        seq: 0,
        wallets: Vec::new(),
        orders: Vec::new(),
        market_price,
    }
}

/// A member's session over an exchange.
pub struct Session(Exchange);

impl Session {
    pub fn new(rate: u32, market_price: Option<i64>) -> Session {
        let mut session = Session(restored(rate, AMPLE, &empty(market_price)));
        session.0.connect(0, 0);
        let (version, account, token) = (VERSION, 0, 0);
        let login = Inbound::Login {
            version,
            account,
            token,
        };
        assert_eq!(session.receive(login, 0), None);
        session
    }

    fn receive(&mut self, message: Inbound, now: u64) -> Option<RejectCode> {
        let mut reject = Reject::default();
        self.0.receive(0, message, now, &mut reject);
        reject.0
    }

    /// Whether a message at `now` gets a token.
    pub fn passes(&mut self, now: u64) -> bool {
        match self.receive(Inbound::MassCancel, now) {
            None => true,
            Some(RejectCode::Throttled) => false,
            other => panic!("{other:?}"),
        }
    }
}

/// Whether a limit order at `price`, of nothing, so that funds do not matter, is let through.
pub fn near(price: i64, mark: i64, percent: u32) -> bool {
    let mut session = Session::new(1, Some(mark));
    session.0.set_paper_collar(Some(percent));
    let order = NewOrder {
        client_ref: 0,
        side: Side::Sell,
        qty: 0,
        kind: OrderKind::Limit {
            price,
            tif: TimeInForce::Gtc,
            display: None,
        },
    };
    match session.receive(Inbound::NewOrder(order), 0) {
        None => true,
        Some(RejectCode::OffMarket) => false,
        other => panic!("{other:?}"),
    }
}

/// A live order that holds `amount`, if one can: a buy of one at that price, or a sell of as many.
fn holding(id: u64, buy: bool, amount: i64) -> Option<SavedOrder> {
    let (price, leaves) = if buy {
        (amount, 1)
    } else {
        (1, u64::try_from(amount).ok()?)
    };
    Some(SavedOrder {
        id,
        account: 0,
        client_ref: 0,
        buy,
        price: Some(price),
        leaves,
    })
}

/// Live orders for the arguments of `hold`: the one that changes from `old`, what it becomes, one
/// that holds the rest of its side's total, and one for the other side's total.
fn orders(args: &[u64]) -> Option<[SavedOrder; 4]> {
    let (buy, old, new) = (args[0] == 0, args[1] as i64, args[2] as i64);
    let (cash_held, position_held) = (args[5] as i64, args[6] as i64);
    let (total, other) = if buy {
        (cash_held, position_held)
    } else {
        (position_held, cash_held)
    };
    Some([
        holding(1, buy, old)?,
        holding(1, buy, new)?,
        holding(2, buy, total.checked_sub(old)?)?,
        holding(3, !buy, other)?,
    ])
}

pub fn can_hold(args: &[u64]) -> bool {
    args[0] < 2 && orders(args).is_some()
}

/// The wallet after an order's hold went from `old` to `new`, by a modify.
pub fn hold(args: &[u64]) -> Wallet {
    let [before, after, same, other] = orders(args).expect("orders");
    let wallet = SavedWallet {
        account: 0,
        cash: args[3] as i64,
        position: args[4] as i64,
    };
    let checkpoint = Checkpoint {
        seq: 3,
        wallets: vec![wallet],
        orders: vec![before, same, other],
        market_price: None,
    };
    let mut exchange = restored(0, AMPLE, &checkpoint);
    let (id, owner, qty) = (after.id, after.account, after.leaves);
    let price = after.price.expect("a price");
    exchange.replay_command(
        4,
        Command::Modify {
            id,
            owner,
            price,
            qty,
        },
    );
    exchange.replay_event(
        4,
        Event::Modified {
            id,
            price,
            qty,
            leaves: qty,
        },
    );
    exchange.wallet(0).expect("a wallet")
}
