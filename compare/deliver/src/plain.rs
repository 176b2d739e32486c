//! A plain Rust program that does the same deliveries over the standard library's maps: one entry for all that is known of an order, no log, no
//! candles, no queues, no refusals.

use std::collections::btree_map::Entry;
use std::collections::{BTreeMap, HashMap, HashSet, VecDeque};
use std::hint::black_box;

use orderbook::{CancelReason, Event, Side};

use crate::column::{Column, FEE, funds};
use crate::draw::{Message, SESSIONS};

#[derive(Clone, Copy)]
struct Wallet {
    cash: i64,
    position: i64,
    cash_held: i64,
    position_held: i64,
}

#[derive(Clone, Copy)]
struct Order {
    account: u32,
    side: Side,
    rests: bool,
    client_ref: u64,
    price: i64,
    leaves: u64,
    visible: u64,
    held: i64,
}

struct Account {
    session: Option<usize>,
    open: u32,
    wallet: Option<Wallet>,
}

#[derive(Clone, Copy)]
struct Level {
    qty: u64,
    orders: u32,
}

#[allow(dead_code)]
enum Kind {
    Accepted,
    Rested { side: Side, price: i64, qty: u64, visible: u64 },
    Fill { trade_id: u64, side: Side, price: i64, qty: u64, leaves: u64 },
    Cancelled { qty: u64, reason: CancelReason },
}

#[allow(dead_code)]
enum Sent {
    Report { seq: u64, order_id: u64, client_ref: u64, kind: Kind },
    Balance(Wallet),
    Trade(Tick),
    Level { seq: u64, side: Side, price: i64, qty: u64, orders: u32 },
}

#[allow(dead_code)]
#[derive(Clone, Copy)]
struct Tick {
    seq: u64,
    trade_id: u64,
    side: Side,
    price: i64,
    qty: u64,
}

struct Flight {
    seq: u64,
}

pub struct Plain {
    fee: i64,
    accounts: Vec<Account>,
    last_sent: Vec<u64>,
    orders: HashMap<u64, Order>,
    bids: BTreeMap<i64, Level>,
    asks: BTreeMap<i64, Level>,
    changed: Vec<(Side, i64)>,
    seen: HashSet<(Side, i64)>,
    trades: Vec<Tick>,
    notices: Vec<u32>,
    flights: VecDeque<Flight>,
    batch: Vec<Message>,
    last: u64,
    delivered: u64,
    now: u64,
    mark: Option<i64>,
    mail: Vec<(usize, Sent)>,
}

fn opposite(side: Side) -> Side {
    match side {
        Side::Buy => Side::Sell,
        Side::Sell => Side::Buy,
    }
}

fn cost(price: i64, qty: u64) -> Option<i64> {
    i64::try_from(i128::from(price) * i128::from(qty)).ok()
}

/// Prices and the fee are small here: their sum fits.
fn hold_of(fee: i64, side: Side, price: i64, leaves: u64) -> i64 {
    let hold = match side {
        Side::Buy => cost(price + fee, leaves),
        Side::Sell => i64::try_from(leaves).ok(),
    };
    hold.unwrap_or(0)
}

impl Wallet {
    fn hold(&mut self, side: Side, delta: i64) {
        match side {
            Side::Buy => self.cash_held += delta,
            Side::Sell => self.position_held += delta,
        }
    }

    fn settle(&mut self, fee: i64, side: Side, price: i64, qty: u64) {
        let charged = match side {
            Side::Buy => price + fee,
            Side::Sell => price,
        };
        let amount = cost(charged, qty).unwrap_or(i64::MAX);
        let lots = i64::try_from(qty).unwrap_or(i64::MAX);
        match side {
            Side::Buy => {
                self.cash = self.cash.saturating_sub(amount);
                self.position = self.position.saturating_add(lots);
            }
            Side::Sell => {
                self.cash = self.cash.saturating_add(amount);
                self.position = self.position.saturating_sub(lots);
            }
        }
    }
}

/// The order's open quantity is now `leaves`.
fn set_leaves(fee: i64, order: &mut Order, account: &mut Account, notices: &mut Vec<u32>, leaves: u64) {
    order.leaves = leaves;
    if let Some(wallet) = account.wallet.as_mut() {
        let held = hold_of(fee, order.side, order.price, leaves);
        if held != order.held {
            wallet.hold(order.side, held - order.held);
            order.held = held;
            notices.push(order.account);
        }
    }
}

impl Plain {
    pub fn new() -> Plain {
        let wallet = |(cash, position)| Wallet { cash, position, cash_held: 0, position_held: 0 };
        let account = |a| Account { session: Some(a), open: 0, wallet: funds(a).map(wallet) };
        Plain {
            fee: black_box(FEE),
            accounts: (0..SESSIONS).map(account).collect(),
            last_sent: vec![0; SESSIONS],
            orders: HashMap::new(),
            bids: BTreeMap::new(),
            asks: BTreeMap::new(),
            changed: Vec::new(),
            seen: HashSet::new(),
            trades: Vec::new(),
            notices: Vec::new(),
            flights: VecDeque::new(),
            batch: Vec::new(),
            last: 0,
            delivered: 0,
            now: 0,
            mark: None,
            mail: Vec::new(),
        }
    }

    fn half(&mut self, side: Side) -> &mut BTreeMap<i64, Level> {
        match side {
            Side::Buy => &mut self.bids,
            Side::Sell => &mut self.asks,
        }
    }

    fn report(&mut self, seq: u64, id: u64, order: &Order, kind: Kind) {
        if let Some(session) = self.accounts[order.account as usize].session {
            self.last_sent[session] = self.now;
            let (order_id, client_ref) = (id, order.client_ref);
            let report = Sent::Report { seq, order_id, client_ref, kind };
            self.mail.push((session, report));
        }
    }

    fn rested(&mut self, seq: u64, id: u64, side: Side, price: i64, qty: u64, visible: u64) {
        let level = self.half(side).entry(price).or_insert(Level { qty: 0, orders: 0 });
        level.qty += visible;
        level.orders += 1;
        self.changed.push((side, price));
        let Some(order) = self.orders.get_mut(&id) else {
            return;
        };
        order.rests = true;
        order.visible = visible;
        let account = &mut self.accounts[order.account as usize];
        set_leaves(self.fee, order, account, &mut self.notices, qty);
        let order = *order;
        self.report(seq, id, &order, Kind::Rested { side, price, qty, visible });
    }

    fn is_paper(&self, order: Option<&Order>) -> bool {
        order.is_some_and(|o| self.accounts[o.account as usize].wallet.is_some())
    }

    /// One of a trade's two orders.
    fn fill(&mut self, seq: u64, id: u64, kind: Kind, price: i64, qty: u64, leaves: u64) {
        let Some(order) = self.orders.get_mut(&id) else {
            return;
        };
        let account = &mut self.accounts[order.account as usize];
        if let Some(wallet) = account.wallet.as_mut() {
            wallet.settle(self.fee, order.side, price, qty);
            self.notices.push(order.account);
        }
        set_leaves(self.fee, order, account, &mut self.notices, leaves);
        let shown = order.rests.then_some((order.side, order.price));
        if order.rests {
            order.visible -= qty;
        }
        let copy = *order;
        if leaves == 0 {
            account.open -= 1;
            self.orders.remove(&id);
        }
        if let Some((side, at)) = shown {
            self.show(side, at, qty, leaves == 0);
        }
        self.report(seq, id, &copy, kind);
    }

    /// A level shows less, and one order less where one is gone.
    fn show(&mut self, side: Side, price: i64, less: u64, gone: bool) {
        if let Entry::Occupied(mut at) = self.half(side).entry(price) {
            let level = at.get_mut();
            level.qty -= less;
            level.orders -= u32::from(gone);
            if level.orders == 0 {
                at.remove();
            }
        }
        self.changed.push((side, price));
    }

    fn cancelled(&mut self, seq: u64, id: u64, qty: u64, reason: CancelReason) {
        let Some(mut order) = self.orders.remove(&id) else {
            return;
        };
        let account = &mut self.accounts[order.account as usize];
        account.open -= 1;
        set_leaves(self.fee, &mut order, account, &mut self.notices, 0);
        if order.rests {
            self.show(order.side, order.price, order.visible, true);
        }
        self.report(seq, id, &order, Kind::Cancelled { qty, reason });
    }
}

impl Column for Plain {
    type Event = Event;

    fn receive(&mut self, session: usize, message: Message, now: u64) {
        self.now = now;
        self.last += 1;
        if let Message::New { side, price, qty } = message {
            let account = &mut self.accounts[session];
            account.open += 1;
            let mut order = Order { account: session as u32, side, rests: false, client_ref: now, price, leaves: 0, visible: 0, held: 0 };
            set_leaves(self.fee, &mut order, account, &mut self.notices, qty);
            self.orders.insert(self.last, order);
        }
        self.batch.push(message);
        self.flights.push_back(Flight { seq: self.last });
    }

    fn take_batch(&mut self) -> usize {
        let count = self.batch.len();
        self.batch.clear();
        count
    }

    fn deliver(&mut self, n: u64, event: &Event) {
        while self.flights.front().is_some_and(|f| f.seq < n) {
            self.flights.pop_front();
        }
        self.delivered = n;
        match *event {
            Event::Accepted { id } => {
                if let Some(&order) = self.orders.get(&id) {
                    self.report(n, id, &order, Kind::Accepted);
                }
            }
            Event::Rested { id, side, price, qty, visible } => {
                self.rested(n, id, side, price, qty, visible);
            }
            Event::Trade { trade_id, taker, maker, taker_side, price, qty, taker_leaves, maker_leaves } => {
                let both = self.is_paper(self.orders.get(&taker)) && self.is_paper(self.orders.get(&maker));
                if !both {
                    self.mark = Some(price);
                }
                let tick = Tick { seq: n, trade_id, side: taker_side, price, qty };
                self.trades.push(tick);
                for (id, side, leaves) in [(taker, taker_side, taker_leaves), (maker, opposite(taker_side), maker_leaves)] {
                    let kind = Kind::Fill { trade_id, side, price, qty, leaves };
                    self.fill(n, id, kind, price, qty, leaves);
                }
            }
            Event::Cancelled { id, qty, reason } => self.cancelled(n, id, qty, reason),
            _ => unreachable!("not drawn"),
        }
    }

    fn publish(&mut self) -> usize {
        for &account in &self.notices {
            let account = &self.accounts[account as usize];
            if let (Some(session), Some(wallet)) = (account.session, account.wallet) {
                self.mail.push((session, Sent::Balance(wallet)));
            }
        }
        self.notices.clear();
        let seen = &mut self.seen;
        seen.clear();
        self.changed.retain(|&key| seen.insert(key));
        for session in 0..SESSIONS {
            self.last_sent[session] = self.now;
            let trades = self.trades.iter().map(|&t| (session, Sent::Trade(t)));
            self.mail.extend(trades);
            for &(side, price) in &self.changed {
                let half = match side {
                    Side::Buy => &self.bids,
                    Side::Sell => &self.asks,
                };
                let level = half.get(&price).copied().unwrap_or(Level { qty: 0, orders: 0 });
                let (seq, qty, orders) = (self.delivered, level.qty, level.orders);
                self.mail.push((session, Sent::Level { seq, side, price, qty, orders }));
            }
        }
        self.changed.clear();
        self.trades.clear();
        let sent = self.mail.len();
        self.mail.clear();
        sent
    }

    fn wallets(&self) -> Vec<[i64; 4]> {
        let wallets = self.accounts.iter().filter_map(|a| a.wallet);
        wallets.map(|w| [w.cash, w.position, w.cash_held, w.position_held]).collect()
    }
}
