//! The gateway by document 01: every code, every limit and every message. It knows no `Exchange`.

use std::borrow::Cow;
use std::collections::{BTreeMap, VecDeque};

use gateway::accounts::Account;
use gateway::exchange::{Checkpoint, SavedOrder, SavedWallet, SessionId, Timing};
use gateway::wallet::Wallet;
use marketdata::Level;
use orderbook::{Command, Event, Order, OrderId, Side};
use protocol::{Inbound, RejectCode, TradeTick};

use crate::bytes::{decode, encode};
use crate::call::{Answer, Call, Gateway, Listed, Seen, Start, placing};
use crate::codes::{Move, first};
use crate::depth::{Depth, Resting};
use crate::state::{Flight, LISTED, Live, Member, Model, OWNERS, Session, TOKEN, cost, fits, placed};

fn clamped(amount: i128) -> i64 {
    amount.clamp(i128::from(i64::MIN), i128::from(i64::MAX)) as i64
}

/// The order of a listing's entry.
fn listed(entry: &Listed) -> Live {
    let (account, side, price, leaves) = match entry {
        Listed::Order(order) => (order.owner, order.side, Some(order.price), order.leaves),
        Listed::Stop(stop) => (stop.owner, stop.side, stop.limit, stop.qty),
    };
    Live { account, client_ref: 0, side, price, leaves }
}

impl Model {
    // ---- the start

    fn empty(fee: i64, limit: u32, last: u64, accounts: &[Account], timing: Timing) -> Model {
        Model {
            fee,
            limit,
            timing,
            now: 0,
            last,
            delivered: last,
            flights: VecDeque::new(),
            batch: Vec::new(),
            trades: Vec::new(),
            notices: Vec::new(),
            members: accounts.iter().map(|account| (account.id, Member::new(*account))).collect(),
            live: BTreeMap::new(),
            sessions: BTreeMap::new(),
            depth: Depth::default(),
            collar: None,
            mark: None,
            replaying: false,
        }
    }

    fn set_up(fee: i64, limit: u32, last: u64, accounts: &[Account], listing: &[Listed], timing: Timing) -> Result<Model, u8> {
        let foreign = |account: &Account| account.id >= limit;
        first(&[(15, fee < 0), (5, limit > OWNERS || listing.len() > LISTED), (1, accounts.iter().any(foreign))])?;
        let mut entries: BTreeMap<OrderId, Vec<&Listed>> = BTreeMap::new();
        for entry in listing {
            entries.entry(entry.id()).or_default().push(entry);
        }
        for (id, same) in &entries {
            let foreign_owner = same.iter().any(|entry| entry.owner() >= limit);
            first(&[(2, *id > last), (1, foreign_owner), (8, same.len() > 1)])?;
        }
        let mut model = Model::empty(fee, limit, last, accounts, timing);
        model.live = listing.iter().map(|entry| (entry.id(), listed(entry))).collect();
        model.depth = Depth::of(listing);
        let fits = model.depth.fits() && model.totals().values().all(fits);
        first(&[(5, model.depth.has_many_levels()), (7, !fits)])?;
        Ok(model)
    }

    fn restore(fee: i64, limit: u32, accounts: &[Account], timing: Timing, bytes: &[u8]) -> Result<Model, u8> {
        first(&[(15, fee < 0)])?;
        let saved = decode(bytes).ok_or(11)?;
        let foreign = |account: &Account| account.id >= limit;
        first(&[(5, limit > OWNERS), (1, accounts.iter().any(foreign) || saved.wallets.iter().any(|wallet| wallet.account >= limit))])?;
        let mut model = Model::empty(fee, limit, saved.seq, accounts, timing);
        for SavedOrder { id, account, client_ref, buy, price, leaves } in saved.orders {
            first(&[(2, id > saved.seq), (1, account >= limit)])?;
            let side = if buy { Side::Buy } else { Side::Sell };
            model.live.insert(id, Live { account, client_ref, side, price, leaves });
        }
        first(&[(7, !model.totals().values().all(fits))])?;
        let notices = model.live.values().filter(|live| model.has_wallet(live.account) && live.hold(fee) != 0);
        model.notices = notices.map(|live| live.account).collect();
        for SavedWallet { account, cash, position } in saved.wallets {
            if let Some(money) = model.members.get_mut(&account).and_then(|member| member.money.as_mut()) {
                *money = (cash, position);
            }
        }
        model.mark = saved.market_price;
        Ok(model)
    }

    // ---- what calls do

    /// Numbers a command. A wallet's new order is noticed where it holds something.
    fn number(&mut self, command: &Command, session: Option<SessionId>, client_ref: u64, notes: bool) {
        self.last += 1;
        let order = placed(command);
        let owner = command.owner().unwrap_or(0);
        self.flights.push_back(Flight { number: self.last, session, owner, places: order.is_some() });
        if let Some(order) = order {
            if notes && self.has_wallet(owner) && order.hold(self.fee) != 0 {
                self.notices.push(owner);
            }
            self.live.insert(self.last, Live { client_ref, ..order });
        }
    }

    fn issue(&mut self, command: Command, session: Option<SessionId>, client_ref: u64) {
        self.batch.push(command);
        self.number(&command, session, client_ref, true);
    }

    /// What an event does but for the depth and what waits.
    fn account_for(&mut self, number: u64, event: &Event, moves: &[Move]) {
        self.flights.retain(|flight| flight.number >= number);
        self.delivered = number;
        if let Event::Trade { taker, maker, price, .. } = *event {
            let paper = |id: OrderId| self.live.get(&id).is_some_and(|live| self.has_wallet(live.account));
            if !(paper(taker) && paper(maker)) {
                self.mark = Some(price);
            }
        }
        for step in moves {
            if let Event::Trade { price, qty, .. } = *event {
                self.settle(&step.before, price, qty);
            }
            match step.after {
                Some(after) => drop(self.live.insert(step.id, after)),
                None => drop(self.live.remove(&step.id)),
            }
        }
    }

    fn settle(&mut self, order: &Live, price: i64, qty: u64) {
        let (sign, fee) = if order.side == Side::Buy { (1, self.fee) } else { (-1, 0) };
        let Some((cash, seats)) = self.members.get_mut(&order.account).and_then(|member| member.money.as_mut()) else { return };
        let amount = i128::from(cost(price, fee, qty).unwrap_or(i64::MAX));
        let lots = i128::from(i64::try_from(qty).unwrap_or(i64::MAX));
        *cash = clamped(i128::from(*cash) - sign * amount);
        *seats = clamped(i128::from(*seats) + sign * lots);
    }

    fn deliver(&mut self, number: u64, event: &Event) {
        let (moves, changes) = (self.moves(number, event), self.depth.changes(event));
        let notices = self.notices(&moves);
        self.notices.extend(notices);
        if let Event::Trade { trade_id, taker_side: side, price, qty, .. } = *event {
            self.trades.push(TradeTick { seq: number, trade_id, side, price, qty });
        }
        changes.into_iter().for_each(|change| self.depth.put(change));
        self.account_for(number, event, &moves);
    }

    fn published(&mut self) {
        self.trades.clear();
        self.notices.clear();
        self.depth.publish();
    }

    fn receive(&mut self, session: SessionId, message: &Inbound, now: u64) {
        let Some(state) = self.sessions.get_mut(&session).filter(|state| !state.closing) else { return };
        state.received = now;
        let Some(account) = state.account else { return };
        match message {
            Inbound::Subscribe => {
                state.subscribed = true;
                self.published();
            }
            Inbound::NewOrder(_) | Inbound::Cancel { .. } | Inbound::Modify { .. } | Inbound::MassCancel => {
                let reject = self.reject(account, message, now);
                let member = self.members.get_mut(&account).expect("an account");
                member.refill(now);
                if reject != Some(RejectCode::Throttled) {
                    member.tokens -= TOKEN;
                }
                if reject.is_none() {
                    self.enter(session, account, message);
                }
            }
            _ => {}
        }
    }

    fn enter(&mut self, session: SessionId, owner: u32, message: &Inbound) {
        let (command, client_ref) = match message {
            Inbound::NewOrder(new) => (placing(self.last + 1, owner, new), new.client_ref),
            Inbound::Cancel { order_id } => (Command::Cancel { id: *order_id, owner }, 0),
            Inbound::Modify { order_id, price, qty } => (Command::Modify { id: *order_id, owner, price: *price, qty: *qty }, 0),
            _ => (Command::CancelAll { owner }, 0),
        };
        self.issue(command, Some(session), client_ref);
    }

    /// What an accepted call does. Its messages stamp, close and log in their sessions (`sends`).
    fn apply(&mut self, call: &Call) {
        match call {
            Call::AddAccount(account) => drop(self.members.insert(account.id, Member::new(*account))),
            Call::Connect(session, now) => {
                self.now = *now;
                let state = Session { account: None, received: *now, sent: *now, closing: false, subscribed: false };
                self.sessions.insert(*session, state);
            }
            Call::Collar(percent) => self.collar = *percent,
            Call::Receive(session, message, now) => {
                self.now = *now;
                self.receive(*session, message, *now);
            }
            Call::Tick(now) => self.now = *now,
            Call::Publish => self.published(),
            Call::Disconnect(session) => {
                if let Some(owner) = self.sessions.remove(session).and_then(|state| state.account) {
                    self.issue(Command::CancelAll { owner }, None, 0);
                }
            }
            Call::Detach(session) => drop(self.sessions.remove(session)),
            Call::TakeBatch => self.batch.clear(),
            Call::Deliver(number, event) => self.deliver(*number, event),
            Call::ReplayCommand(_, command) => {
                self.number(command, None, 0, false);
                self.replaying = true;
            }
            Call::ReplayEvent(number, event) => {
                let moves = self.moves(*number, event);
                self.account_for(*number, event, &moves);
                self.replaying = true;
            }
            Call::Finish(listing) => {
                self.published();
                self.depth = Depth::of(listing);
                self.delivered = self.last;
                self.replaying = false;
            }
            Call::Wallet(_) | Call::LastSeq | Call::Levels(_) | Call::End(..) | Call::ShutDown | Call::Checkpoint => {}
        }
    }

    fn saved(&self) -> Checkpoint {
        let wallet = |(&account, member): (&u32, &Member)| member.money.map(|(cash, position)| SavedWallet { account, cash, position });
        let order = |(&id, live): (&OrderId, &Live)| {
            let Live { account, client_ref, price, leaves, side } = *live;
            SavedOrder { id, account, client_ref, buy: side == Side::Buy, price, leaves }
        };
        Checkpoint {
            seq: self.last,
            wallets: self.members.iter().filter_map(wallet).collect(),
            orders: self.live.iter().map(order).collect(),
            market_price: self.mark,
        }
    }

    /// What a caller sees of a call that no code but 6 refuses.
    pub fn sees(&self, call: &Call) -> Seen {
        let answer = match call {
            Call::Wallet(account) => Answer::Wallet(self.wallet(*account)),
            Call::LastSeq => Answer::Number(self.last),
            Call::Levels(side) => Answer::Levels(self.depth.levels(*side)),
            Call::Detach(session) => Answer::Account(self.account_of(*session)),
            Call::TakeBatch => Answer::Commands(self.batch.clone()),
            Call::Checkpoint => Answer::Bytes(encode(&self.saved())),
            _ => Answer::Nothing,
        };
        Seen::Sees(answer, self.sends(call))
    }

    /// What the record has of an accepted call, as the call that feeds it to a second gateway; `before` is the last number before it.
    pub fn item(&self, call: &Call, before: u64) -> Option<Call> {
        match call {
            Call::AddAccount(_) | Call::ReplayCommand(..) | Call::ReplayEvent(..) => Some(call.clone()),
            Call::Deliver(number, event) => Some(Call::ReplayEvent(*number, *event)),
            _ if before == self.last => None,
            _ => Some(Call::ReplayCommand(self.last, *self.batch.last().expect("a command"))),
        }
    }
}

impl Gateway for Model {
    fn start(start: &Start) -> Result<Model, u8> {
        match start {
            Start::SetUp(fee, limit, last, accounts, listing, timing) => Model::set_up(*fee, *limit, *last, accounts, listing, *timing),
            Start::Restore(fee, limit, accounts, timing, bytes) => Model::restore(*fee, *limit, accounts, *timing, bytes),
        }
    }

    fn call(&mut self, call: &Call, room: usize) -> Option<Seen> {
        if let Err(code) = self.code(call) {
            return Some(Seen::Code(code));
        }
        let seen = self.sees(call);
        if seen.places() > room {
            return Some(Seen::Code(6));
        }
        self.apply(call);
        if let Seen::Sees(_, mails) = &seen {
            self.stamp(mails);
        }
        Some(seen)
    }

    fn wallet(&self, account: u32) -> Option<Wallet> {
        Model::wallet(self, account)
    }

    fn last_seq(&self) -> u64 {
        self.last
    }

    fn levels(&self, side: Side) -> Vec<(i64, Level)> {
        self.depth.levels(side)
    }

    fn checkpoint(&self) -> Option<Vec<u8>> {
        self.code(&Call::Checkpoint).ok().map(|()| encode(&self.saved()))
    }
}

impl Resting for Model {
    fn resting(&self) -> Cow<'_, BTreeMap<OrderId, Order>> {
        Cow::Borrowed(&self.depth.orders)
    }
}
