//! Draws starts and calls: mostly sensible ones, for the state of the model.

use std::collections::{BTreeMap, VecDeque};

use gateway::accounts::{Account, Funds};
use gateway::exchange::{Checkpoint, SavedOrder, SavedWallet, Timing};
use orderbook::{CancelReason, Command, Event, Order, OrderId, Phase, RejectReason, Side, Stop, TimeInForce};
use protocol::{Inbound, LogoutReason, NewOrder, OrderKind, VERSION};

use crate::bytes::encode;
use crate::call::{Call, Listed, Start, placing};
use crate::depth::Resting;
use crate::state::{Live, Model};

/// What lists dwell on.
#[derive(Clone, Copy)]
pub enum Theme {
    Money,
    Market,
    Sessions,
    Restart,
    /// Numbers near the ends of their types.
    Ends,
    /// Document 01's limits, which the Rust does not have: commands in flight and in the batch, live orders, notices.
    Full(Limit),
}

/// A list that comes to a limit.
#[derive(Clone, Copy)]
pub enum Limit {
    Commands,
    Orders,
    Notices,
    /// What `deliver` has limits for.
    Feed,
}

impl Theme {
    /// The theme with that number; without one, the one whose turn it is.
    pub fn of(at: usize, number: Option<&u64>) -> Theme {
        let limits = [Limit::Commands, Limit::Orders, Limit::Notices, Limit::Feed].map(Theme::Full);
        let themes = [Theme::Money, Theme::Market, Theme::Sessions, Theme::Restart, Theme::Ends];
        [themes.as_slice(), &limits].concat()[number.map_or(at % 5, |&number| number as usize)]
    }

    /// How many calls a list has, planned ones aside.
    pub fn calls(self, plays: bool) -> usize {
        match self {
            Theme::Full(Limit::Commands) => 320,
            Theme::Full(Limit::Orders) => 1200,
            Theme::Full(Limit::Notices) => 2100,
            Theme::Full(Limit::Feed) => 0,
            _ if plays => 60,
            Theme::Restart => 14,
            _ => 24,
        }
    }
}

pub struct Draw {
    state: u64,
    pub theme: Theme,
    /// For the player: the calls to draw, by their names. `set_up` lists orders, `restore` begins lists and restarts gateways.
    pub only: Option<Vec<String>>,
    /// Accounts and sessions are drawn from all that document 01 has room for.
    pub wide: bool,
    /// There is room for many lists.
    pub many: bool,
    /// Between a replay and `finish` all calls are drawn.
    pub freely: bool,
    /// The fee of a list; drawn for each start where there is room for many.
    pub fee: i64,
    clock: u64,
    /// The last call was an event.
    delivers: bool,
    /// Calls that come next.
    pub planned: VecDeque<Call>,
    /// How often bytes were damaged in each way.
    damaged: BTreeMap<&'static str, usize>,
}

impl Draw {
    pub fn new(seed: u64) -> Draw {
        Draw {
            state: seed,
            theme: Theme::Money,
            only: None,
            wide: false,
            many: false,
            freely: false,
            fee: 0,
            clock: 0,
            delivers: false,
            planned: VecDeque::new(),
            damaged: BTreeMap::new(),
        }
    }

    /// SplitMix64.
    fn word(&mut self) -> u64 {
        self.state = self.state.wrapping_add(0x9E37_79B9_7F4A_7C15);
        let mut word = self.state;
        word = (word ^ (word >> 30)).wrapping_mul(0xBF58_476D_1CE4_E5B9);
        word = (word ^ (word >> 27)).wrapping_mul(0x94D0_49BB_1331_11EB);
        word ^ (word >> 31)
    }

    pub fn bits(&mut self) -> u64 {
        self.word()
    }

    pub fn below(&mut self, bound: u64) -> u64 {
        self.word() % bound.max(1)
    }

    /// An account's number, mostly below `usual`.
    fn mostly(&mut self, usual: u64, seldom: u64) -> u32 {
        let (usual, seldom) = if self.wide { (256, 258) } else { (usual, seldom) };
        let bound = if self.chance(8) { seldom } else { usual };
        self.below(bound) as u32
    }

    pub fn chance(&mut self, percent: u64) -> bool {
        self.below(100) < percent
    }

    pub fn pick<T: Clone>(&mut self, from: &[T]) -> T {
        from[self.below(from.len() as u64) as usize].clone()
    }

    /// An index, by weight.
    fn weigh(&mut self, weights: &[u64]) -> usize {
        let mut left = self.below(weights.iter().sum());
        let fits = |weight: &u64| {
            let found = left < *weight;
            left = left.saturating_sub(*weight);
            found
        };
        weights.iter().position(fits).expect("a weight")
    }

    pub fn shuffle<T>(&mut self, items: &mut [T]) {
        for at in 1..items.len() {
            items.swap(at, self.below(at as u64 + 1) as usize);
        }
    }

    pub fn side(&mut self) -> Side {
        self.pick(&[Side::Buy, Side::Sell])
    }

    /// 0 and 1 stand for odd numbers.
    fn seldom(&mut self) -> u64 {
        self.below(if matches!(self.theme, Theme::Ends) { 4 } else { 60 })
    }

    /// A fee: mostly none, as the Rust has none.
    pub fn any_fee(&mut self) -> i64 {
        match self.below(32) {
            0..18 => 0,
            18..24 => self.small_fee(),
            24..27 => self.pick(&[1 << 62, i64::MAX]),
            27..31 => (self.bits() >> (1 + self.below(63))) as i64,
            _ => self.pick(&[-1, i64::MIN]),
        }
    }

    pub fn small_fee(&mut self) -> i64 {
        self.pick(&[1, 10, 250])
    }

    /// A price whose sum with the fee is about 0, about the most that 64 bits have, or past it.
    fn price_by_fee(&mut self) -> i64 {
        let most = i64::MAX - self.fee;
        self.pick(&[-self.fee, -self.fee, 1 - self.fee, -1 - self.fee, most / 2 + 1, most - 1, most, most + 1])
    }

    fn price(&mut self) -> i64 {
        if self.fee > 0 && self.seldom() == 0 {
            return self.price_by_fee();
        }
        match self.seldom() {
            0 => self.pick(&[0, -1, -60, -(1 << 62), i64::MIN]),
            1 => self.pick(&[1, 1 << 61, 1 << 62, 1 << 62, i64::MAX]),
            _ => 97 + self.below(6) as i64,
        }
    }

    fn qty(&mut self) -> u64 {
        match self.seldom() {
            0..2 => self.pick(&[0, 1 << 62, i64::MAX as u64, i64::MAX as u64, 1 << 63, u64::MAX]),
            _ => 1 + self.below(6),
        }
    }

    fn limit(&mut self) -> Option<i64> {
        self.chance(60).then(|| self.price())
    }

    /// Times mostly rise a little, or by about the silence that timing allows.
    pub fn time(&mut self) -> u64 {
        if self.many && self.below(2000) == 0 {
            return self.pick(&[0, 1 << 32, 1 << 63, u64::MAX]);
        }
        let slow = !matches!(self.theme, Theme::Sessions);
        self.clock = match self.below(20) {
            0 if slow => self.clock.saturating_sub(self.below(2_000_000_000)),
            1..4 if slow => self.clock + self.below(1_500_000_000),
            4 => self.clock + 5_000_000_000,
            5 => self.clock.saturating_sub(self.below(4)),
            _ => self.clock + self.below(4),
        };
        self.clock
    }

    pub fn account(&mut self, id: u32) -> Account {
        let paper = self.chance(if matches!(self.theme, Theme::Money | Theme::Ends) { 75 } else { 45 });
        let mut amount = |usual: u64| match self.seldom() {
            0..2 => self.pick(&[0, -5, i64::MAX, i64::MIN, 1 << 62]),
            _ => self.below(usual) as i64,
        };
        let funds = Funds { cash: amount(2000), position: amount(20) };
        Account {
            id,
            token: u64::from(id) + 7,
            max_open_orders: self.pick(&[1, 2, 3, 9, 9, 9, 9]),
            messages_per_second: self.pick(&[0, 1, 2, 5, 9, 9, 9, 9, 9, 9, 9, 9]),
            funds: paper.then_some(funds),
        }
    }

    /// Two accounts that nothing but document 01's limits refuses, the second with a wallet.
    fn free_accounts(&mut self) -> Vec<Account> {
        let account = |id: u32| {
            let funds = (id == 1).then_some(Funds { cash: 1 << 50, position: 1 << 50 });
            let (max_open_orders, messages_per_second) = (u32::MAX, u32::MAX);
            Account { id, token: u64::from(id) + 7, max_open_orders, messages_per_second, funds }
        };
        vec![account(0), account(1)]
    }

    fn accounts(&mut self) -> Vec<Account> {
        if matches!(self.theme, Theme::Full(_)) {
            return self.free_accounts();
        }
        let mut accounts: Vec<Account> = (0..3).map(|id| self.account(id)).collect();
        if self.chance(8) {
            let id = self.below(5) as u32;
            accounts.push(self.account(id));
        }
        accounts
    }

    pub fn timing(&mut self) -> Timing {
        let silence = [(1_000_000_000, 5_000_000_000), (4, 12), (3, 40), (0, 9), (5, 0)];
        let at = if matches!(self.theme, Theme::Sessions) { self.below(5) } else { 0 };
        let (heartbeat, idle_timeout) = silence[at as usize];
        Timing { heartbeat, idle_timeout }
    }

    fn entry(&mut self, id: OrderId, live: Live) -> Listed {
        let Live { account: owner, side, price, leaves, .. } = live;
        match price {
            Some(price) if self.chance(80) => {
                let visible = if self.chance(30) { leaves.min(1 + self.below(3)) } else { leaves };
                Listed::Order(Order { id, owner, side, price, visible, leaves })
            }
            limit => Listed::Stop(Stop { id, owner, side, limit, qty: leaves }),
        }
    }

    fn live(&mut self) -> Live {
        let account = if matches!(self.theme, Theme::Ends) { self.mostly(2, 4) } else { self.mostly(4, 5) };
        let price = self.chance(85).then(|| self.price());
        Live { account, client_ref: 0, side: self.side(), price, leaves: self.qty() }
    }

    /// A start; a restore goes on from what is `saved`.
    pub fn start(&mut self, saved: &mut Option<(Vec<Account>, Checkpoint)>) -> Start {
        self.clock = 0;
        if self.many {
            self.fee = self.any_fee();
        }
        self.plan_opening();
        let restores = match self.theme {
            _ if !self.draws("restore") => false,
            Theme::Restart => true,
            Theme::Ends => self.chance(25),
            _ => false,
        };
        let full = matches!(self.theme, Theme::Full(_));
        // The checker's file has room for few starts that are refused.
        let odd = if self.only.is_some() || self.many { 4 } else { 1 };
        let limit = if !full && self.chance(2 * odd) { self.pick(&[0, 1, 257]) } else { 4 };
        let (accounts, timing) = (self.accounts(), self.timing());
        let last = if !full && self.chance(3) { u64::MAX } else { self.below(8) };
        let feed = matches!(self.theme, Theme::Full(Limit::Feed));
        let last = if feed { last + 2000 } else { last };
        if feed {
            self.plan_feed(last);
        }
        let ids: Vec<OrderId> = (1..=last.min(6)).filter(|_| self.chance(70)).collect();
        if !restores {
            let mut listing: Vec<Listed> = Vec::new();
            let listed = if matches!(self.theme, Theme::Market | Theme::Ends) { 85 } else { 45 };
            if self.draws("set_up") && !full && self.chance(listed) {
                for id in ids {
                    let id = if self.chance(3 * odd) { id + 1 } else { id };
                    let live = self.live();
                    listing.push(self.entry(id, live));
                }
                self.shuffle(&mut listing);
            }
            return Start::SetUp(self.fee, limit, last, accounts, listing, timing);
        }
        let (accounts, saved) = saved.take().unwrap_or_else(|| {
            let has = |id: u32| accounts.iter().any(|account| account.id == id && account.funds.is_some());
            let wallets = (0..5).filter(|&id| self.chance(if has(id) { 90 } else { 4 * odd }));
            let wallet = |account: u32| SavedWallet { account, cash: 700, position: -3 };
            let wallets = wallets.map(wallet).collect();
            let order = |id: OrderId| {
                let Live { account, side, price, leaves, .. } = self.live();
                let id = if last < 7 && id == last && self.chance(5 * odd) { id + 1 } else { id };
                SavedOrder { id, account, client_ref: 70 + id, buy: side == Side::Buy, price, leaves }
            };
            let orders = ids.into_iter().map(order).collect();
            (accounts, Checkpoint { seq: last, wallets, orders, market_price: self.limit() })
        });
        if self.only.is_none() && self.chance(8) {
            let mut bytes = encode(&saved);
            match self.below(4) {
                0 => drop(bytes.pop()),
                1 => bytes.push(0),
                2 => bytes[8] |= 2,
                _ if saved.market_price.is_none() => bytes[9] = 1,
                _ => bytes.truncate(self.below(24) as usize),
            }
            return Start::Restore(self.fee, limit, accounts, timing, bytes);
        }
        Start::Restore(self.fee, limit, accounts, timing, encode(&saved))
    }

    fn new_order(&mut self, wallet: bool) -> NewOrder {
        let (side, qty) = (self.side(), self.qty());
        let kind = match self.weigh(if wallet { &[40, 1, 2] } else { &[6, 1, 3] }) {
            0 => OrderKind::Limit {
                price: self.price(),
                tif: self.pick(&[TimeInForce::Gtc, TimeInForce::Ioc, TimeInForce::Fok, TimeInForce::PostOnly]),
                display: self.chance(20).then(|| self.qty()),
            },
            1 => OrderKind::Market,
            _ => OrderKind::Stop { trigger: self.price(), limit: self.limit() },
        };
        NewOrder { client_ref: 10 + self.below(90), side, qty, kind }
    }

    /// An order's number: mostly a live one's.
    fn order(&mut self, model: &Model) -> OrderId {
        let live: Vec<OrderId> = model.live.keys().copied().collect();
        if live.is_empty() || self.chance(6) {
            return self.below(model.last.saturating_add(2));
        }
        self.pick(&live)
    }

    fn message(&mut self, model: &Model, account: u32) -> Inbound {
        let order_id = self.order(model);
        match self.weigh(&[50, 10, 8, 6, 10, 3, 3, 3]) {
            0 => Inbound::NewOrder(self.new_order(model.has_wallet(account))),
            1 => Inbound::Cancel { order_id },
            2 => Inbound::Modify { order_id, price: self.price(), qty: self.qty() },
            3 => Inbound::MassCancel,
            4 => Inbound::Subscribe,
            5 => Inbound::Heartbeat,
            6 => Inbound::Logout,
            _ => self.login(model),
        }
    }

    fn login(&mut self, model: &Model) -> Inbound {
        let account = self.mostly(4, 6);
        let taken = |account: u32| model.session_of(account).is_some();
        let odd = if matches!(self.theme, Theme::Sessions) { 15 } else { 4 };
        let account = if taken(account) && !self.chance(2 * odd) { (account + 1) % 3 } else { account };
        let token = model.members.get(&account).map_or(0, |member| member.account.token).wrapping_add(u64::from(self.chance(odd)));
        Inbound::Login { version: if self.chance(odd) { 2 } else { VERSION }, account, token }
    }

    /// A session: mostly one that is logged in.
    fn session(&mut self, model: &Model) -> usize {
        let sessions: Vec<usize> = model.sessions.keys().copied().collect();
        let logged_in: Vec<usize> = sessions.iter().copied().filter(|&session| model.account_of(session).is_some()).collect();
        match self.below(100) {
            0..85 if !logged_in.is_empty() => self.pick(&logged_in),
            0..96 if !sessions.is_empty() => self.pick(&sessions),
            _ => self.pick(&[0, 1, 2, 3, 4, 63, 64, 1000]),
        }
    }

    fn receive(&mut self, model: &Model) -> Call {
        let session = self.session(model);
        let message = match model.account_of(session) {
            None if self.chance(94) => self.login(model),
            account => self.message(model, account.unwrap_or(0)),
        };
        Call::Receive(session, message, self.time())
    }

    /// An event, mostly of a number in flight and about its order.
    fn event(&mut self, model: &Model, depth: &dyn Resting) -> (u64, Event) {
        let resting = depth.resting();
        let at = self.below(2).min(model.flights.len().saturating_sub(1) as u64) as usize;
        let flight = model.flights.get(at).map(|flight| (flight.number, flight.places));
        let (number, places) = match flight {
            Some(flight) if !self.chance(3) => flight,
            _ => (self.below(model.last.saturating_add(3)), false),
        };
        let own = places && model.live.contains_key(&number);
        let id = match self.below(100) {
            0..3 => number.saturating_add(1),
            3..70 if own => number,
            _ => self.order(model),
        };
        let live = model.live.get(&id).copied().unwrap_or_else(|| self.live());
        let side = if self.chance(4) { live.side.opposite() } else { live.side };
        let price = live.price.filter(|_| !self.chance(10)).unwrap_or_else(|| self.price());
        let leaves = if self.chance(8) { self.qty() } else { live.leaves };
        let rests = resting.contains_key(&id);
        let visible = if self.chance(30) { leaves.min(1 + self.below(3)) } else { leaves };
        let refused = if matches!(self.theme, Theme::Sessions) { 60 } else { 8 };
        let weights = if own && !rests {
            [10, refused, 30, 40, 0, 8, 4, 4, 3, 1, 1]
        } else {
            [2, refused, 30, if rests { 1 } else { 12 }, 14, 20, 26, 1, 2, 8, 5]
        };
        let event = match self.weigh(&weights) {
            0 => Event::Accepted { id },
            1 => {
                Event::Rejected { id, reason: self.pick(&[RejectReason::UnknownOrder, RejectReason::BookFull, RejectReason::MarketClosed]) }
            }
            2 => self.trade(model, &resting, id, Live { side, price: Some(price), leaves, ..live }),
            3 => Event::Rested { id, side, price, qty: leaves, visible },
            4 => Event::Replenished { id, side, price, visible: self.qty() },
            5 => Event::Cancelled {
                id,
                qty: leaves,
                reason: self.pick(&[CancelReason::Requested, CancelReason::MassCancel, CancelReason::PriceBand]),
            },
            6 => {
                let qty = self.qty();
                let leaves = self.pick(&[0, leaves, leaves.saturating_sub(1), leaves.saturating_sub(1), qty]);
                Event::Modified { id, price: if self.chance(60) { price } else { self.price() }, qty, leaves }
            }
            7 => Event::StopPlaced { id, side, trigger: self.price(), limit: live.price, qty: leaves },
            8 => Event::Triggered { id },
            9 => Event::MassCancelled { owner: self.mostly(4, 6), count: self.below(3) as u32 },
            _ => Event::PhaseChanged { phase: self.pick(&[Phase::Continuous, Phase::Auction, Phase::Halted, Phase::Closed]) },
        };
        (number, event)
    }

    /// A trade of `taker` with another order, mostly one that rests on the other side.
    fn trade(&mut self, model: &Model, resting: &BTreeMap<OrderId, Order>, taker: OrderId, live: Live) -> Event {
        let (taker_side, leaves) = (live.side, live.leaves);
        let makers = resting.values().filter(|order| order.id != taker && order.side != taker_side);
        let makers: Vec<OrderId> = makers.map(|order| order.id).collect();
        let others: Vec<OrderId> = model.live.keys().copied().filter(|&id| id != taker).collect();
        let maker = match self.below(100) {
            0..80 if !makers.is_empty() => self.pick(&makers),
            0..96 if !others.is_empty() => self.pick(&others),
            _ => self.order(model),
        };
        let left = model.live.get(&maker).map_or(3, |live| live.leaves);
        let shown = |id: OrderId| resting.get(&id).map_or(u64::MAX, |order| order.visible);
        let most = leaves.min(left).min(shown(maker)).min(shown(taker));
        let qty = if self.chance(60) || most == 0 { most } else { 1 + self.below(most) };
        let qty = if self.chance(10) { self.qty() } else { qty };
        Event::Trade {
            trade_id: 1 + self.below(99),
            taker,
            maker,
            taker_side,
            price: resting.get(&maker).map(|order| order.price).or(live.price).unwrap_or(100),
            qty,
            taker_leaves: leaves.saturating_sub(qty),
            maker_leaves: left.saturating_sub(qty),
        }
    }

    fn replay_command(&mut self, model: &Model) -> Call {
        let number = model.last.wrapping_add(if self.chance(3) { 2 } else { 1 });
        let owner = self.mostly(4, 6);
        let id = self.order(model);
        let command = match self.weigh(&[70, 8, 8, 6, 5]) {
            0 => {
                let id = if self.chance(3) { id } else { number };
                placing(id, owner, &self.new_order(model.has_wallet(owner)))
            }
            1 => Command::Cancel { id, owner },
            2 => Command::Modify { id, owner, price: self.price(), qty: self.qty() },
            3 => Command::CancelAll { owner },
            _ => Command::SetPhase { phase: Phase::Auction },
        };
        Call::ReplayCommand(number, command)
    }

    pub fn finish(&mut self, model: &Model) -> Call {
        let mut listing: Vec<Listed> = model.live.iter().map(|(&id, &live)| self.entry(id, live)).collect();
        if self.chance(20) {
            let live = self.live();
            let id = self.below(9);
            listing.push(self.entry(id, live));
        }
        if self.chance(10) {
            listing.pop();
        }
        self.shuffle(&mut listing);
        Call::Finish(listing)
    }

    pub fn plan_login(&mut self, session: usize, login: Inbound) {
        let calls = [Call::Connect(session, self.time()), Call::Receive(session, login, self.time())];
        self.planned.extend(calls);
    }

    fn plan_member(&mut self, account: u32) {
        self.plan_login(account as usize + 1, Inbound::Login { version: VERSION, account, token: u64::from(account) + 7 });
    }

    /// Members log in, some subscribe.
    fn plan_logins(&mut self) {
        for account in 0..=self.below(3) as u32 {
            let (session, token) = (account as usize + 1, u64::from(account) + 7);
            self.plan_login(session, Inbound::Login { version: VERSION, account, token });
            if self.chance(if matches!(self.theme, Theme::Market) { 60 } else { 15 }) {
                let subscribe = Call::Receive(session, Inbound::Subscribe, self.time());
                self.planned.push_back(subscribe);
            }
        }
    }

    /// What opens a list.
    fn plan_opening(&mut self) {
        self.planned.clear();
        if matches!(self.theme, Theme::Full(_)) {
            return (0..2).for_each(|account| self.plan_member(account));
        }
        if self.chance(60) {
            let percent = self.pick(&[0, 1, 2]);
            self.planned.push_back(Call::Collar(Some(percent)));
        }
        let alone = match self.theme {
            Theme::Restart => 60,
            Theme::Sessions | Theme::Ends => 40,
            _ => 5,
        };
        if !self.chance(alone) {
            self.plan_logins();
        }
    }

    /// Deliveries past each limit of the depth, of what waits to be published, of a level's quantity and of a hold total. Most come when no
    /// session is there, so that like calls follow one another.
    fn plan_feed(&mut self, last: u64) {
        let number = last + 4;
        let [buy, other_buy, sell, foreign] = [1, 2, 3, 4].map(|at| last + at);
        let (price, qty) = (5 + self.below(5) as i64, 9 + self.below(5));
        let mut enter = |session: usize, side: Side| {
            let kind = OrderKind::Limit { price, tif: TimeInForce::Gtc, display: None };
            Call::Receive(session, Inbound::NewOrder(NewOrder { client_ref: self.below(90), side, qty, kind }), self.clock)
        };
        let orders = [enter(2, Side::Buy), enter(2, Side::Buy), enter(2, Side::Sell), enter(1, Side::Sell)];
        let mut calls: Vec<Call> = orders.into_iter().chain([Call::TakeBatch]).collect();
        let event = |event: Event| Call::Deliver(number, event);
        let trade = |trade_id: u64, taker: OrderId, maker: OrderId| {
            let (taker_leaves, maker_leaves) = (qty, qty);
            event(Event::Trade { trade_id, taker, maker, taker_side: Side::Buy, price, qty: 1, taker_leaves, maker_leaves })
        };
        let modified = |id: OrderId, price: i64, leaves: u64| event(Event::Modified { id, price, qty: leaves, leaves });
        let rested = |id: OrderId, side: Side, price: i64, visible: u64| event(Event::Rested { id, side, price, qty: visible, visible });
        let replenished = |id: OrderId, visible: u64| event(Event::Replenished { id, side: Side::Buy, price, visible });
        let cancelled = |id: OrderId| event(Event::Cancelled { id, qty: 1, reason: CancelReason::Requested });
        calls.extend([trade(1, buy, foreign), trade(2, buy, sell), trade(3, 7, buy), Call::Detach(1), Call::Detach(2)]);
        calls.extend([modified(buy, 1 << 62, 1), modified(other_buy, 1 << 62, 1), modified(buy, price, qty)]);
        calls.extend([rested(1500, Side::Buy, price, u64::MAX), rested(1501, Side::Buy, price, 1), replenished(1500, 3)]);
        calls.extend([rested(1501, Side::Buy, price, 1), replenished(1501, u64::MAX), cancelled(1500), cancelled(1501), Call::Publish]);
        // A trade has two notices here, of both its wallet's orders; a modified price has one.
        calls.extend((1..=258).map(|at| trade(at, buy, sell)));
        calls.extend([event(Event::Accepted { id: buy }), Call::Publish, trade(1, buy, sell)]);
        calls.extend((1..=2048).map(|at| modified(buy, price + at, qty)));
        calls.extend([trade(2, buy, sell), trade(3, 7, 8), Call::Publish, trade(4, buy, sell), Call::Publish]);
        // 512 levels a side, then one order, one changed level and one level too many.
        calls.extend((1..=512).map(|at| rested(at as u64, Side::Buy, price + at, 1)));
        calls.extend((513..=1024).map(|at| rested(at as u64, Side::Sell, price + at, 1)));
        calls.extend([rested(1025, Side::Buy, price + 1, 1), cancelled(1024), rested(1024, Side::Sell, price + 2000, 1), Call::Publish]);
        calls.extend([rested(1024, Side::Sell, price + 2000, 1), cancelled(1), rested(1, Side::Sell, price + 2001, 1)]);
        calls.extend([rested(1, Side::Buy, price + 2, 1), Call::Publish]);
        self.planned.extend(calls);
    }

    /// What may follow an accepted call.
    pub fn plan_after(&mut self, call: &Call, model: &Model) {
        self.delivers = matches!(call, Call::Deliver(..));
        match call {
            Call::Finish(_) if self.chance(70) => {
                self.plan_logins();
                self.planned.push_back(Call::Publish);
            }
            Call::Disconnect(session) if matches!(self.theme, Theme::Full(_)) => self.plan_member(*session as u32 - 1),
            Call::Detach(session) | Call::Disconnect(session) if *session < 9 && self.chance(40) => {
                let login = self.login(model);
                self.plan_login(*session, login);
            }
            _ => {}
        }
    }

    /// The end of some lists: all is delivered and a checkpoint taken.
    pub fn plan_checkpoint(&mut self, model: &Model) {
        let event = Event::PhaseChanged { phase: Phase::Closed };
        let last = if model.replaying { Call::ReplayEvent(model.last, event) } else { Call::Deliver(model.last, event) };
        self.planned.extend([Call::TakeBatch, last, Call::Checkpoint]);
    }

    /// An order or another command of an account, which a limit alone refuses.
    pub fn entry_of(&mut self, model: &Model, account: u32, others: bool) -> Call {
        let kind = match self.weigh(if account == 0 && others { &[40, 5, 5] } else { &[1, 0, 0] }) {
            0 => OrderKind::Limit { price: 1 + self.below(9) as i64, tif: TimeInForce::Gtc, display: None },
            1 => OrderKind::Market,
            _ => OrderKind::Stop { trigger: self.price(), limit: self.limit() },
        };
        let new = Inbound::NewOrder(NewOrder { client_ref: self.below(90), side: self.side(), qty: 1 + self.below(6), kind });
        let order_id = self.order(model);
        let message = match self.weigh(if others { &[80, 8, 8, 4] } else { &[1, 0, 0, 0] }) {
            1 => Inbound::Cancel { order_id },
            2 if account == 0 => Inbound::Modify { order_id, price: self.price(), qty: self.qty() },
            3 => Inbound::MassCancel,
            _ => new,
        };
        Call::Receive(account as usize + 1, message, self.time())
    }

    /// A call on the way to a limit, or at it.
    fn full_call(&mut self, limit: Limit, model: &Model) -> Call {
        let (first, last) = (model.flights.front().map_or(0, |flight| flight.number), model.last);
        let account = self.below(2) as u32;
        let accepted = |number: u64| Call::Deliver(number, Event::Accepted { id: number });
        let oldest = model.live.range(first..).next().map(|(&id, _)| id);
        match limit {
            Limit::Commands if model.full().is_some() || self.chance(2) => match self.below(9) {
                0 => Call::TakeBatch,
                1 if first > 0 => accepted(first + self.below(last - first + 1)),
                2 => Call::Disconnect(account as usize + 1),
                _ => self.entry_of(model, account, true),
            },
            Limit::Commands => self.entry_of(model, account, true),
            _ if model.batch.len() > 200 => Call::TakeBatch,
            Limit::Orders if model.flights.len() > 200 => accepted(last),
            Limit::Orders => self.entry_of(model, 0, false),
            Limit::Notices | Limit::Feed => match oldest {
                Some(id) if model.flights.len() > 200 || self.delivers && model.flights.len() > 1 => {
                    Call::Deliver(id, Event::Cancelled { id, qty: 1, reason: CancelReason::Requested })
                }
                _ => self.entry_of(model, 1, false),
            },
        }
    }

    /// The next call, of those that are drawn.
    pub fn call(&mut self, model: &Model, depth: &dyn Resting) -> Call {
        loop {
            let call = self.any_call(model, depth);
            if self.draws(call.name()) {
                return call;
            }
        }
    }

    fn draws(&self, name: &str) -> bool {
        self.only.as_ref().is_none_or(|only| only.iter().any(|drawn| drawn == name))
    }

    /// For the player: whether a checkpoint is restored in a second gateway.
    pub fn restarts(&mut self) -> bool {
        self.only.is_some() && self.draws("restore") && self.chance(60)
    }

    /// Bytes of a checkpoint that no longer are one, and what is wrong with them: of the ways that it has, the one least used.
    pub fn damage(&mut self, saved: &Checkpoint) -> (&'static str, Vec<u8>) {
        let whole = encode(saved);
        let (wallets, orders) = (saved.wallets.len(), saved.orders.len());
        let (wallet, order) = (|at: usize| 21 + 20 * at, |at: usize| 25 + 20 * wallets + 37 * at);
        let put = |from: usize, new: &[u8]| {
            let mut bytes = whole.clone();
            bytes[from..from + new.len()].copy_from_slice(new);
            bytes
        };
        let mut ways = vec![
            ("by a byte too few", whole[..whole.len() - 1].to_vec()),
            ("by a byte too many", [whole.as_slice(), &[0]].concat()),
            ("by an end in the middle", whole[..self.below(whole.len() as u64) as usize].to_vec()),
            ("flag of the reference price", put(8, &[whole[8] | 2 << self.below(7)])),
            ("number of wallets", put(17, &(wallets as u32 + 1).to_le_bytes())),
            ("number of wallets beyond 256", put(17, &257u32.to_le_bytes())),
            ("number of orders", put(order(0) - 4, &(orders as u32 + 1).to_le_bytes())),
            ("number of orders beyond 1,024", put(order(0) - 4, &1025u32.to_le_bytes())),
        ];
        if saved.market_price.is_none() {
            ways.push(("absent reference price", put(9, &[1])));
        }
        if wallets > 1 {
            ways.push(("wallets' keys", put(wallet(1), &whole[wallet(0)..wallet(0) + 4])));
        }
        if orders > 1 {
            ways.push(("orders' keys", put(order(1), &whole[order(0)..order(0) + 8])));
        }
        if orders > 0 {
            let at = order(self.below(orders as u64) as usize);
            ways.push(("order's flags", put(at + 20, &[whole[at + 20] | 4 << self.below(6)])));
        }
        if let Some(at) = saved.orders.iter().position(|saved| saved.price.is_none()) {
            ways.push(("order's absent price", put(order(at) + 21, &[1])));
        }
        let way = ways.into_iter().min_by_key(|(what, _)| self.damaged.get(what).copied()).expect("a way");
        *self.damaged.entry(way.0).or_default() += 1;
        way
    }

    fn any_call(&mut self, model: &Model, depth: &dyn Resting) -> Call {
        if let Some(call) = self.planned.pop_front() {
            return call;
        }
        if let Theme::Full(limit) = self.theme {
            return self.full_call(limit, model);
        }
        let events = if model.flights.is_empty() { 2 } else { 60 };
        let (joins, replays) = if model.sessions.is_empty() { (40, 60) } else { (3, 1) };
        // connect receive deliver publish tick end shut-down disconnect detach take-batch levels wallet last-seq collar
        // add-account checkpoint finish replay-command replay-event
        let weights: [u64; 19] = match self.theme {
            // While the Rust's depth is not document 01's, nothing that shows it.
            _ if model.replaying && !self.freely => [2, 0, 0, 0, 0, 0, 0, 0, 2, 0, 0, 8, 3, 2, 2, 3, 12, 30, 50],
            Theme::Money => [joins, 50, events, 10, 1, 1, 0, 1, 1, 4, 1, 12, 1, 3, 1, 3, 0, 0, 0],
            Theme::Market => [joins, 30, 2 * events, 24, 1, 1, 0, 1, 1, 3, 8, 2, 1, 0, 0, 1, 3, 0, 0],
            Theme::Sessions => [joins + 7, 50, events / 2, 8, 26, 4, 1, 6, 6, 3, 1, 1, 1, 1, 3, 1, 0, 1, 1],
            Theme::Ends => [joins, 30, 2 * events, 8, 1, 1, 0, 1, 4, 3, 2, 6, 1, 1, 1, 1, 2, replays, 1],
            Theme::Restart | Theme::Full(_) => [joins, 40, events, 12, 1, 1, 1, 3, 6, 6, 3, 6, 1, 1, 2, 6, 3, replays, 1],
        };
        match self.weigh(&weights) {
            0 => {
                let usual = if self.wide { 66 } else { 4 };
                Call::Connect(if self.chance(3) { self.pick(&[63, 64, 1000]) } else { self.below(usual) as usize }, self.time())
            }
            1 => self.receive(model),
            2 => {
                let (number, event) = self.event(model, depth);
                Call::Deliver(number, event)
            }
            3 => Call::Publish,
            4 => Call::Tick(self.time()),
            5 => {
                let reasons = [LogoutReason::SlowConsumer, LogoutReason::ProtocolError, LogoutReason::Shutdown];
                Call::End(self.session(model), self.pick(&reasons))
            }
            6 => Call::ShutDown,
            7 => Call::Disconnect(self.session(model)),
            8 => Call::Detach(self.session(model)),
            9 => Call::TakeBatch,
            10 => Call::Levels(self.side()),
            11 => Call::Wallet(self.mostly(4, 300)),
            12 => Call::LastSeq,
            13 => Call::Collar(self.chance(85).then(|| self.pick(&[0, 1, 2, 10, 100, u32::MAX]))),
            14 => {
                let id = if self.chance(60) { 3 } else { self.below(6) as u32 };
                Call::AddAccount(self.account(id))
            }
            15 => Call::Checkpoint,
            16 => self.finish(model),
            17 => self.replay_command(model),
            _ => {
                let (number, event) = self.event(model, depth);
                Call::ReplayEvent(number, event)
            }
        }
    }
}
