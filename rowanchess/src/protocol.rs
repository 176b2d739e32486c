//! Message values between members and the gateway, ported from the published `protocol`, without their wire form.

use crate::orderbook::{CancelReason, Phase, RejectReason, Side, TimeInForce};

/// The protocol version, sent in `Login`.
pub const VERSION: u16 = 1;

/// A message from a client.
#[derive(Clone, Copy, Debug, PartialEq, Eq)]
pub enum Inbound {
    /// Opens the session for `account`.
    Login {
        /// The protocol version the client speaks.
        version: u16,
        /// The account to trade for.
        account: u32,
        /// The account's secret.
        token: u64,
    },
    /// Closes the session; the exchange answers with `Logout` and closes the connection.
    Logout,
    /// Keeps an idle session alive.
    Heartbeat,
    /// Places an order.
    NewOrder(NewOrder),
    /// Cancels the order with this id.
    Cancel {
        /// The exchange's id of the order.
        order_id: u64,
    },
    /// Cancel/replace: a new price and a new total quantity.
    Modify {
        /// The exchange's id of the order.
        order_id: u64,
        /// The new limit price.
        price: i64,
        /// The new total quantity, filled quantity included.
        qty: u64,
    },
    /// Cancels every order of the session's account.
    MassCancel,
    /// Asks for market data: the book now, then its changes.
    Subscribe,
}

/// An order to place.
#[derive(Clone, Copy, Debug, PartialEq, Eq)]
pub struct NewOrder {
    /// The client's own reference, echoed in every report about the order.
    pub client_ref: u64,
    /// Buy or sell.
    pub side: Side,
    /// Quantity in lots.
    pub qty: u64,
    /// What kind of order.
    pub kind: OrderKind,
}

/// The kind of a new order.
#[derive(Clone, Copy, Debug, PartialEq, Eq)]
pub enum OrderKind {
    /// A limit order.
    Limit {
        /// The limit price.
        price: i64,
        /// Time in force.
        tif: TimeInForce,
        /// Iceberg display quantity.
        display: Option<u64>,
    },
    /// A market order.
    Market,
    /// A stop or stop-limit order.
    Stop {
        /// The trigger price.
        trigger: i64,
        /// The limit of a stop-limit order.
        limit: Option<i64>,
    },
}

/// A message to a client.
#[derive(Clone, Copy, Debug, PartialEq, Eq)]
pub enum Outbound {
    /// The session is open.
    LoginAccepted {
        /// The account.
        account: u32,
        /// The sequence number of the last command the exchange has applied.
        last_seq: u64,
    },
    /// The session could not be opened; the connection is closed.
    LoginRejected {
        /// Why.
        reason: LoginError,
    },
    /// Keeps an idle session alive.
    Heartbeat,
    /// The session is closed, and so is the connection.
    Logout {
        /// Why.
        reason: LogoutReason,
    },
    /// The gateway refused a message without passing it to the book.
    Reject {
        /// Why.
        reason: RejectCode,
        /// The client ref of the refused `NewOrder`, or zero.
        client_ref: u64,
    },
    /// An event of the book about one of the client's orders, or about the market.
    Report(Report),
    /// The book as of `seq`: the `levels` `LevelUpdate`s that follow describe it.
    BookSnapshot {
        /// The sequence number of the last command the book reflects.
        seq: u64,
        /// How many levels follow.
        levels: u32,
    },
    /// A price level of the book, as it is after the command `seq`.
    LevelUpdate(LevelUpdate),
    /// A trade.
    TradeTick(TradeTick),
    /// A paper-trading account's money and position, after a change.
    Balance(Balance),
}

/// A paper-trading account's money and position.
#[derive(Clone, Copy, Debug, Default, PartialEq, Eq)]
pub struct Balance {
    /// Cash, in price ticks times lots.
    pub cash: i64,
    /// Lots held.
    pub position: i64,
    /// Cash held for open buy orders: their open quantity times their price and the booking fee.
    pub cash_held: i64,
    /// Lots held for open sell orders.
    pub position_held: i64,
}

/// A price level, in market data.
#[derive(Clone, Copy, Debug, PartialEq, Eq)]
pub struct LevelUpdate {
    /// The sequence number of the last command the level reflects.
    pub seq: u64,
    /// The side.
    pub side: Side,
    /// The price.
    pub price: i64,
    /// The quantity its orders show; zero, with zero orders, once it is gone.
    pub qty: u64,
    /// How many orders rest there.
    pub orders: u32,
}

/// A trade, in market data.
#[derive(Clone, Copy, Debug, PartialEq, Eq)]
pub struct TradeTick {
    /// The sequence number of the command that caused it.
    pub seq: u64,
    /// The trade's id.
    pub trade_id: u64,
    /// The side of the order that took liquidity; the buy side in an uncross.
    pub side: Side,
    /// The price.
    pub price: i64,
    /// The quantity.
    pub qty: u64,
}

/// Why a login failed.
#[derive(Clone, Copy, Debug, PartialEq, Eq)]
pub enum LoginError {
    /// The client speaks another protocol version.
    UnsupportedVersion,
    /// No such account, or the token does not match: the two are not told apart.
    BadCredentials,
    /// Another session of the account is open.
    AlreadyLoggedIn,
    /// The session is already logged in.
    AlreadyInSession,
}

/// Why a session ended.
#[derive(Clone, Copy, Debug, PartialEq, Eq)]
pub enum LogoutReason {
    /// The client asked.
    Requested,
    /// The client sent nothing for too long.
    Idle,
    /// The client sent a message that does not decode, or one the session's state does not
    /// allow.
    ProtocolError,
    /// The client did not read its messages fast enough.
    SlowConsumer,
    /// The exchange is shutting down, or cannot continue.
    Shutdown,
}

/// Why the gateway refused a message.
#[derive(Clone, Copy, Debug, PartialEq, Eq)]
pub enum RejectCode {
    /// The account has as many open orders as it may.
    TooManyOrders,
    /// The session sent more messages than its rate allows.
    Throttled,
    /// The exchange cannot accept commands now.
    Unavailable,
    /// The account's cash or position not already held for its orders does not cover the
    /// order.
    InsufficientFunds,
    /// The account may not send this kind of message: a paper-trading account places limit
    /// orders and cancels them, nothing else.
    NotAllowed,
    /// A paper-trading account's limit price, without the booking fee, is further from the
    /// market's price than the exchange lets paper accounts go.
    OffMarket,
}

/// An event of the book, as reported to a client.
#[derive(Clone, Copy, Debug, PartialEq, Eq)]
pub struct Report {
    /// The sequence number of the command that caused the event.
    pub seq: u64,
    /// The order the event is about, or zero for events about the market or the account.
    pub order_id: u64,
    /// The client ref the order was placed with, or zero if unknown.
    pub client_ref: u64,
    /// What happened.
    pub kind: ReportKind,
}

/// What a [`Report`] says, and which fields it uses.
#[derive(Clone, Copy, Debug, PartialEq, Eq)]
pub enum ReportKind {
    /// The order was accepted.
    Accepted,
    /// The order, cancel or modify was refused by the book.
    Rejected(RejectReason),
    /// The order traded.
    Fill {
        /// The trade's id.
        trade_id: u64,
        /// The order's side.
        side: Side,
        /// The price it traded at.
        price: i64,
        /// The quantity it traded.
        qty: u64,
        /// What remains open.
        leaves: u64,
    },
    /// The order rests on the book.
    Rested {
        /// Its side.
        side: Side,
        /// Its price.
        price: i64,
        /// Its open quantity.
        qty: u64,
        /// What it shows.
        visible: u64,
    },
    /// An iceberg showed its next tranche.
    Replenished {
        /// Its side.
        side: Side,
        /// Its price.
        price: i64,
        /// What it shows now.
        visible: u64,
    },
    /// Open quantity left the book without trading.
    Cancelled {
        /// The quantity cancelled.
        qty: u64,
        /// Why.
        reason: CancelReason,
    },
    /// The order was modified.
    Modified {
        /// Its price.
        price: i64,
        /// Its new total quantity.
        qty: u64,
        /// Its open quantity.
        leaves: u64,
    },
    /// The stop order waits for its trigger.
    StopPlaced {
        /// Its side.
        side: Side,
        /// Its trigger price.
        trigger: i64,
        /// Its limit, for a stop-limit order.
        limit: Option<i64>,
        /// Its quantity.
        qty: u64,
    },
    /// The stop order was triggered.
    Triggered,
    /// Every order of the account was cancelled.
    MassCancelled {
        /// How many.
        count: u32,
    },
    /// The market moved to another trading phase.
    PhaseChanged(Phase),
}
