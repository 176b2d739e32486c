//! Values as rows of words, as in the lent lists of the library and in the player's file.

use gateway::accounts::Account;
use gateway::wallet::Wallet;
use marketdata::Level;
use orderbook::{CancelReason, Command, Event, Phase, RejectReason, Side, TimeInForce};
use protocol::{Inbound, LoginError, LogoutReason, NewOrder, OrderKind, Outbound, RejectCode, ReportKind};

use crate::call::{Call, Listed, Mail};

/// The words of a message or a command; of a listed order; of a level.
pub const ROW: usize = 12;
pub const LISTED: usize = 8;
pub const LEVEL: usize = 3;

/// A value as words. A signed number is in two's complement; an option is 1 and the value, or 0 and 0.
pub trait Words {
    fn put(&self, into: &mut Vec<u64>);

    fn words(&self) -> Vec<u64> {
        let mut words = Vec::new();
        self.put(&mut words);
        words
    }
}

macro_rules! numbers {
    ($($number:ty)*) => {
        $(impl Words for $number {
            fn put(&self, into: &mut Vec<u64>) {
                into.push(*self as u64);
            }
        })*
    };
}

numbers!(u16 u32 u64 usize i64);

macro_rules! options {
    ($($part:ty)*) => {
        $(impl Words for Option<$part> {
            fn put(&self, into: &mut Vec<u64>) {
                into.extend(self.map_or([0, 0], |part| [1, part as u64]));
            }
        })*
    };
}

options!(i64 u64 u32);

fn joined(parts: &[&dyn Words]) -> Vec<u64> {
    let mut words = Vec::new();
    parts.iter().for_each(|part| part.put(&mut words));
    words
}

/// The row of `first` and the parts, filled up with 0.
pub fn row<const SIZE: usize>(first: &[u64], parts: &[&dyn Words]) -> [u64; SIZE] {
    let mut row = [0; SIZE];
    let mut words = Vec::with_capacity(SIZE);
    words.extend(first);
    parts.iter().for_each(|part| part.put(&mut words));
    row[..words.len()].copy_from_slice(&words);
    row
}

/// An enum without data, as a code.
pub trait Coded: Copy + 'static {
    /// The first case's code; the others' follow.
    const FIRST: u64;
    const CASES: &'static [Self];

    fn coded(code: u64) -> Option<Self> {
        Self::CASES.get(usize::try_from(code.checked_sub(Self::FIRST)?).ok()?).copied()
    }
}

macro_rules! codes {
    ($($type:ty, $first:literal: $($case:ident)*;)*) => {
        $(impl Coded for $type {
            const FIRST: u64 = $first;
            const CASES: &'static [$type] = &[$(Self::$case),*];
        }

        impl Words for $type {
            fn put(&self, into: &mut Vec<u64>) {
                let at = Self::CASES.iter().position(|case| case == self).expect("a case");
                into.push(Self::FIRST + at as u64);
            }
        })*
    };
}

codes! {
    Side, 0: Buy Sell;
    TimeInForce, 0: Gtc Ioc Fok PostOnly;
    Phase, 0: Continuous Auction Halted Closed;
    RejectReason, 1: InvalidQuantity PriceOutOfRange PriceOutsideProtection DuplicateOrderId UnknownOrder BookFull InvalidOwner
        PostOnlyWouldCross InvalidDisplay PriceOutsideBand StopWouldTrigger PendingStop AuctionCall TradingHalted MarketClosed;
    CancelReason, 1: Requested NoLiquidity PriceProtection SelfTrade MassCancel ImmediateOrCancel FillOrKill PriceBand TradingPhase;
    LoginError, 1: UnsupportedVersion BadCredentials AlreadyLoggedIn AlreadyInSession;
    LogoutReason, 1: Requested Idle ProtocolError SlowConsumer Shutdown;
    RejectCode, 1: TooManyOrders Throttled Unavailable InsufficientFunds NotAllowed OffMarket;
}

// A case is its number and its fields.
macro_rules! enums {
    ($($type:ty: $($case:ident = $number:literal $({ $($field:ident)* })? $(($inner:ident))?),*;)*) => {
        $(impl Words for $type {
            fn put(&self, into: &mut Vec<u64>) {
                match self {
                    $(Self::$case $({ $($field),* })? $(($inner))? => {
                        into.push($number);
                        $($($field.put(into);)*)?
                        $($inner.put(into);)?
                    })*
                }
            }
        })*
    };
}

enums! {
    OrderKind: Limit = 0 { price tif display }, Market = 1, Stop = 2 { trigger limit };
    Inbound: Login = 0 { version account token }, Logout = 1, Heartbeat = 2, NewOrder = 3 (order), Cancel = 4 { order_id },
        Modify = 5 { order_id price qty }, MassCancel = 6, Subscribe = 7;
    Event: Accepted = 0 { id }, Rejected = 1 { id reason },
        Trade = 2 { trade_id taker maker taker_side price qty taker_leaves maker_leaves },
        Rested = 3 { id side price qty visible }, Replenished = 4 { id side price visible }, Cancelled = 5 { id qty reason },
        Modified = 6 { id price qty leaves }, StopPlaced = 7 { id side trigger limit qty }, Triggered = 8 { id },
        MassCancelled = 9 { owner count }, PhaseChanged = 10 { phase };
    ReportKind: Accepted = 0, Rejected = 1 (reason), Fill = 2 { trade_id side price qty leaves },
        Rested = 3 { side price qty visible }, Replenished = 4 { side price visible }, Cancelled = 5 { qty reason },
        Modified = 6 { price qty leaves }, StopPlaced = 7 { side trigger limit qty }, Triggered = 8, MassCancelled = 9 { count },
        PhaseChanged = 10 (phase);
    Outbound: LoginAccepted = 1 { account last_seq }, LoginRejected = 2 { reason }, Heartbeat = 3, Logout = 4 { reason },
        Reject = 5 { reason client_ref }, Report = 6 (report), BookSnapshot = 7 { seq levels }, LevelUpdate = 8 (update),
        TradeTick = 9 (tick), Balance = 10 (balance);
}

macro_rules! structs {
    ($($type:ty: $($field:ident)*;)*) => {
        $(impl Words for $type {
            fn put(&self, into: &mut Vec<u64>) {
                $(self.$field.put(into);)*
            }
        })*
    };
}

structs! {
    NewOrder: client_ref side qty kind;
    protocol::Report: seq order_id client_ref kind;
    protocol::LevelUpdate: seq side price qty orders;
    protocol::TradeTick: seq trade_id side price qty;
    protocol::Balance: cash position cash_held position_held;
    Wallet: cash position cash_held position_held;
}

impl Words for Account {
    fn put(&self, into: &mut Vec<u64>) {
        let numbers: [&dyn Words; 4] = [&self.id, &self.token, &self.max_open_orders, &self.messages_per_second];
        numbers.iter().for_each(|number| number.put(into));
        into.extend(self.funds.map_or([0, 0, 0], |funds| [1, funds.cash as u64, funds.position as u64]));
    }
}

/// A close is of kind 0.
pub fn mail(mail: &Mail) -> [u64; ROW] {
    match mail {
        Mail::Send(session, message) => row(&[], &[session, message]),
        Mail::Close(session) => row(&[], &[session]),
    }
}

/// Kind, number, owner, side, price, quantity, time in force, option of a display, trigger, option of a limit.
pub fn command(command: &Command) -> [u64; ROW] {
    match *command {
        Command::Limit { id, owner, side, price, qty, tif, display } => row(&[0], &[&id, &owner, &side, &price, &qty, &tif, &display]),
        Command::Market { id, owner, side, qty } => row(&[1], &[&id, &owner, &side, &0u64, &qty]),
        Command::Cancel { id, owner } => row(&[2], &[&id, &owner]),
        Command::Modify { id, owner, price, qty } => row(&[3], &[&id, &owner, &0u64, &price, &qty]),
        Command::Stop { id, owner, side, trigger, limit, qty } => {
            let none = [0u64; 3];
            row(&[4], &[&id, &owner, &side, &0u64, &qty, &none[0], &none[1], &none[2], &trigger, &limit])
        }
        Command::CancelAll { owner } => row(&[5], &[&0u64, &owner]),
        Command::SetPhase { phase } => row(&[6], &[&0u64, &0u64, &phase]),
    }
}

/// 0 for an order and 1 for a stop; number, owner, side, option of a price, leaves, and what an order shows.
pub fn listed(entry: &Listed) -> [u64; LISTED] {
    match entry {
        Listed::Order(order) => row(&[0], &[&order.id, &order.owner, &order.side, &1u64, &order.price, &order.leaves, &order.visible]),
        Listed::Stop(stop) => row(&[1], &[&stop.id, &stop.owner, &stop.side, &stop.limit, &stop.qty]),
    }
}

pub fn level((price, level): &(i64, Level)) -> [u64; LEVEL] {
    row(&[], &[price, &level.qty, &level.orders])
}

/// The words of a call's arguments, but for rows.
pub fn arguments(call: &Call) -> Vec<u64> {
    let parts: &[&dyn Words] = match call {
        Call::AddAccount(account) => &[account],
        Call::Connect(session, now) => &[session, now],
        Call::Collar(percent) => &[percent],
        Call::Wallet(account) => &[account],
        Call::Levels(side) => &[side],
        Call::Receive(session, message, now) => &[session, now, message],
        Call::Tick(now) => &[now],
        Call::End(session, reason) => &[session, reason],
        Call::Disconnect(session) | Call::Detach(session) => &[session],
        Call::Deliver(number, event) | Call::ReplayEvent(number, event) => &[number, event],
        Call::ReplayCommand(number, _) => &[number],
        Call::LastSeq | Call::Publish | Call::ShutDown | Call::TakeBatch | Call::Finish(_) | Call::Checkpoint => &[],
    };
    joined(parts)
}
