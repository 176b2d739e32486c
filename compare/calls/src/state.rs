//! The gateway's state by document 01, in exact numbers and growing lists, and what becomes of an order-entry message.

use std::collections::{BTreeMap, VecDeque};

use gateway::accounts::Account;
use gateway::exchange::{SessionId, Timing};
use gateway::wallet::Wallet;
use orderbook::{Command, OrderId, Side};
use protocol::{Inbound, NewOrder, OrderKind, RejectCode, TradeTick};

use crate::call::placing;
use crate::depth::Depth;

pub const OWNERS: u32 = 256;
pub const SESSIONS: usize = 64;
pub const FLIGHTS: usize = 256;
pub const BATCH: usize = 256;
pub const LIVE: usize = 1024;
pub const LISTED: usize = 1024;
pub const TRADES: usize = 256;
pub const NOTICES: usize = 2048;
/// One message in a bucket.
pub(crate) const TOKEN: u128 = 1_000_000_000;

/// A live order.
#[derive(Clone, Copy, Debug)]
pub struct Live {
    pub account: u32,
    pub client_ref: u64,
    pub side: Side,
    pub price: Option<i64>,
    pub leaves: u64,
}

impl Live {
    /// What it holds in a wallet: a buy's cash, with the fee for each seat, or a sell's seats.
    pub fn hold(&self, fee: i64) -> i64 {
        let amount = |price: i64| match self.side {
            Side::Buy => cost(price, fee, self.leaves),
            Side::Sell => i64::try_from(self.leaves).ok(),
        };
        self.price.and_then(amount).unwrap_or(0)
    }
}

/// What so many seats cost, each at the price and the fee, where it fits. What leaves 128 bits leaves 64.
pub fn cost(price: i64, fee: i64, qty: u64) -> Option<i64> {
    let exact = (i128::from(price) + i128::from(fee)).checked_mul(i128::from(qty))?;
    i64::try_from(exact).ok()
}

#[derive(Clone, Copy)]
pub struct Session {
    pub account: Option<u32>,
    pub received: u64,
    pub sent: u64,
    pub closing: bool,
    pub subscribed: bool,
}

impl Session {
    pub fn is_open(&self) -> bool {
        self.account.is_some() && !self.closing
    }
}

#[derive(Clone, Copy)]
pub struct Member {
    pub account: Account,
    /// Cash and seats, where it has funds.
    pub money: Option<(i64, i64)>,
    pub(crate) tokens: u128,
    refilled: u64,
}

impl Member {
    pub(crate) fn new(account: Account) -> Member {
        let money = account.funds.map(|funds| (funds.cash, funds.position));
        Member { account, money, tokens: u128::from(account.messages_per_second) * TOKEN, refilled: 0 }
    }

    pub(crate) fn refill(&mut self, now: u64) {
        let rate = u128::from(self.account.messages_per_second);
        let gained = u128::from(now.saturating_sub(self.refilled)) * rate;
        self.tokens = (self.tokens + gained).min(rate * TOKEN);
        self.refilled = self.refilled.max(now);
    }
}

/// A command in flight.
#[derive(Clone, Copy)]
pub struct Flight {
    pub number: u64,
    pub session: Option<SessionId>,
    pub owner: u32,
    pub places: bool,
}

#[derive(Clone)]
pub struct Model {
    pub fee: i64,
    pub limit: u32,
    pub timing: Timing,
    pub now: u64,
    pub last: u64,
    pub delivered: u64,
    pub flights: VecDeque<Flight>,
    pub batch: Vec<Command>,
    /// What waits to be published.
    pub trades: Vec<TradeTick>,
    pub notices: Vec<u32>,
    pub members: BTreeMap<u32, Member>,
    pub live: BTreeMap<OrderId, Live>,
    pub sessions: BTreeMap<SessionId, Session>,
    pub depth: Depth,
    pub(crate) collar: Option<u32>,
    pub mark: Option<i64>,
    /// Replayed and not finished: the Rust's depth and lists are not those of document 01.
    pub replaying: bool,
}

/// The order that a command places.
pub(crate) fn placed(command: &Command) -> Option<Live> {
    let (account, side, price, leaves) = match *command {
        Command::Limit { owner, side, price, qty, .. } => (owner, side, Some(price), qty),
        Command::Market { owner, side, qty, .. } => (owner, side, None, qty),
        Command::Stop { owner, side, limit, qty, .. } => (owner, side, limit, qty),
        _ => return None,
    };
    Some(Live { account, client_ref: 0, side, price, leaves })
}

/// In a wallet's totals' type.
pub(crate) fn fits(total: &i128) -> bool {
    i64::try_from(*total).is_ok()
}

impl Model {
    // ---- what it has

    pub fn has_wallet(&self, account: u32) -> bool {
        self.members.get(&account).is_some_and(|member| member.money.is_some())
    }

    pub fn account_of(&self, session: SessionId) -> Option<u32> {
        self.sessions.get(&session)?.account
    }

    /// The session that is logged in for an account.
    pub fn session_of(&self, account: u32) -> Option<SessionId> {
        self.sessions.iter().find(|(_, session)| session.account == Some(account)).map(|(&id, _)| id)
    }

    pub fn open_orders(&self, account: u32) -> usize {
        self.live.values().filter(|live| live.account == account).count()
    }

    /// The open orders of each account that has some.
    pub fn open_counts(&self) -> BTreeMap<u32, usize> {
        let mut counts = BTreeMap::new();
        self.live.values().for_each(|live| *counts.entry(live.account).or_default() += 1);
        counts
    }

    /// What is held of each wallet that holds something: by account, and for buys or sells.
    pub fn totals(&self) -> BTreeMap<(u32, bool), i128> {
        let mut totals = BTreeMap::new();
        for live in self.live.values().filter(|live| self.has_wallet(live.account)) {
            *totals.entry((live.account, live.side == Side::Buy)).or_default() += i128::from(live.hold(self.fee));
        }
        totals
    }

    pub(crate) fn total(&self, account: u32, side: Side) -> i128 {
        let own = self.live.values().filter(|live| live.account == account && live.side == side);
        own.map(|live| i128::from(live.hold(self.fee))).sum()
    }

    pub fn wallet(&self, account: u32) -> Option<Wallet> {
        let (cash, position) = self.members.get(&account)?.money?;
        let held = |side: Side| self.total(account, side) as i64;
        Some(Wallet { cash, position, cash_held: held(Side::Buy), position_held: held(Side::Sell) })
    }

    /// Why no command can be numbered.
    pub fn full(&self) -> Option<&'static str> {
        let tables = [
            ("in flight", self.flights.len() >= FLIGHTS),
            ("batch", self.batch.len() >= BATCH),
            ("greatest number", self.last == u64::MAX),
        ];
        tables.iter().find(|table| table.1).map(|table| table.0)
    }

    // ---- entry

    /// The reject of an order-entry message at that time; none where its command is numbered.
    pub fn reject(&self, account: u32, message: &Inbound, now: u64) -> Option<RejectCode> {
        let mut member = self.members[&account];
        member.refill(now);
        if member.tokens < TOKEN {
            return Some(RejectCode::Throttled);
        }
        let refused = match message {
            Inbound::NewOrder(new) => self.order_reject(&member, new),
            Inbound::Modify { .. } => member.money.map(|_| RejectCode::NotAllowed),
            _ => None,
        };
        refused.or_else(|| self.no_room_for(account, message).map(|_| RejectCode::Unavailable))
    }

    fn order_reject(&self, member: &Member, new: &NewOrder) -> Option<RejectCode> {
        let account = member.account.id;
        if self.open_orders(account) >= member.account.max_open_orders as usize {
            return Some(RejectCode::TooManyOrders);
        }
        let (cash, seats) = member.money?;
        let OrderKind::Limit { price, .. } = new.kind else { return Some(RejectCode::NotAllowed) };
        if !self.is_near(price) {
            return Some(RejectCode::OffMarket);
        }
        let (has, needs) = match new.side {
            Side::Buy => (cash, cost(price, self.fee, new.qty)),
            Side::Sell => (seats, i64::try_from(new.qty).ok()),
        };
        let free = i128::from(has) - self.total(account, new.side);
        let covered = needs.is_some_and(|needs| needs >= 0 && free >= i128::from(needs));
        (!covered).then_some(RejectCode::InsufficientFunds)
    }

    fn is_near(&self, price: i64) -> bool {
        let (Some(percent), Some(mark)) = (self.collar, self.mark) else { return true };
        let (price, mark) = (i128::from(price), i128::from(mark));
        (price - mark).abs() * 100 <= mark * i128::from(percent)
    }

    /// The limit that makes a message that nothing else rejects `Unavailable`.
    pub fn no_room_for(&self, account: u32, message: &Inbound) -> Option<&'static str> {
        let new = match message {
            Inbound::NewOrder(new) => placed(&placing(0, account, new)),
            _ => None,
        };
        let paper = new.filter(|_| self.has_wallet(account));
        let noticed = paper.is_some_and(|order| order.hold(self.fee) != 0);
        let total = paper.map_or(0, |order| self.total(account, order.side) + i128::from(order.hold(self.fee)));
        let tables = [
            ("live orders", new.is_some() && self.live.len() >= LIVE),
            ("notices", noticed && self.notices.len() >= NOTICES),
            ("hold total", !fits(&total)),
        ];
        self.full().or_else(|| tables.iter().find(|table| table.1).map(|table| table.0))
    }
}
