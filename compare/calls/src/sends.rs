//! The messages of the model's calls, told by the state as it came, and what sending does to sessions.

use gateway::exchange::SessionId;
use orderbook::{Event, OrderId, Side};
use protocol::{Inbound, LevelUpdate, LoginError, LogoutReason, Outbound, RejectCode, Report, ReportKind, VERSION};

use crate::call::{Call, Mail};
use crate::state::Model;

impl Model {
    /// The messages of an accepted call.
    pub(crate) fn sends(&self, call: &Call) -> Vec<Mail> {
        match call {
            Call::Receive(session, message, now) => self.answers(*session, message, *now),
            Call::Tick(now) => self.ticks(*now),
            Call::Publish => self.publishes(),
            Call::End(session, reason) => self.ends(*session, *reason),
            Call::ShutDown => self.sessions.keys().flat_map(|&session| self.ends(session, LogoutReason::Shutdown)).collect(),
            Call::Deliver(number, event) => self.reports(*number, event),
            _ => Vec::new(),
        }
    }

    /// A session that is sent something is stamped; one that is closed takes nothing more. A login that is accepted logs in.
    pub(crate) fn stamp(&mut self, mails: &[Mail]) {
        for mail in mails {
            let (Mail::Send(session, _) | Mail::Close(session)) = mail;
            let Some(state) = self.sessions.get_mut(session) else { continue };
            match mail {
                Mail::Close(_) => state.closing = true,
                Mail::Send(_, Outbound::LoginAccepted { account, .. }) => {
                    state.account = Some(*account);
                    state.sent = self.now;
                }
                Mail::Send(..) => state.sent = self.now,
            }
        }
    }

    fn ends(&self, session: SessionId, reason: LogoutReason) -> Vec<Mail> {
        match self.sessions.get(&session) {
            Some(state) if !state.closing => vec![Mail::Send(session, Outbound::Logout { reason }), Mail::Close(session)],
            _ => Vec::new(),
        }
    }

    fn ticks(&self, now: u64) -> Vec<Mail> {
        let mut mails = Vec::new();
        for (&session, state) in self.sessions.iter().filter(|(_, state)| !state.closing) {
            if now.saturating_sub(state.received) >= self.timing.idle_timeout {
                mails.extend(self.ends(session, LogoutReason::Idle));
            } else if state.account.is_some() && now.saturating_sub(state.sent) >= self.timing.heartbeat {
                mails.push(Mail::Send(session, Outbound::Heartbeat));
            }
        }
        mails
    }

    fn publishes(&self) -> Vec<Mail> {
        let mut mails = Vec::new();
        for &account in &self.notices {
            let session = self.session_of(account).filter(|session| self.sessions[session].is_open());
            if let (Some(session), Some(wallet)) = (session, self.wallet(account)) {
                mails.push(Mail::Send(session, Outbound::Balance(wallet.balance())));
            }
        }
        let trades = self.trades.iter().map(|&trade| Outbound::TradeTick(trade));
        let levels = self.depth.changed.iter().map(|&(buy, price)| self.update(self.delivered, buy, price));
        let news: Vec<Outbound> = trades.chain(levels).collect();
        for (&session, _) in self.sessions.iter().filter(|(_, state)| state.subscribed && state.is_open()) {
            mails.extend(news.iter().map(|&message| Mail::Send(session, message)));
        }
        mails
    }

    fn update(&self, seq: u64, buy: bool, price: i64) -> Outbound {
        let level = self.depth.level((buy, price));
        let side = if buy { Side::Buy } else { Side::Sell };
        Outbound::LevelUpdate(LevelUpdate { seq, side, price, qty: level.qty, orders: level.orders })
    }

    fn snapshot(&self, session: SessionId) -> Vec<Mail> {
        let mut mails = self.publishes();
        let seq = self.delivered;
        let levels: Vec<(bool, i64)> = [Side::Buy, Side::Sell]
            .into_iter()
            .flat_map(|side| self.depth.levels(side).into_iter().map(move |(price, _)| (side == Side::Buy, price)))
            .collect();
        mails.push(Mail::Send(session, Outbound::BookSnapshot { seq, levels: levels.len() as u32 }));
        mails.extend(levels.into_iter().map(|(buy, price)| Mail::Send(session, self.update(seq, buy, price))));
        mails
    }

    fn answers(&self, session: SessionId, message: &Inbound, now: u64) -> Vec<Mail> {
        let Some(state) = self.sessions.get(&session).filter(|state| !state.closing) else { return Vec::new() };
        let Some(account) = state.account else { return self.logs_in(session, message) };
        match message {
            Inbound::Login { .. } => vec![Mail::Send(session, Outbound::LoginRejected { reason: LoginError::AlreadyInSession })],
            Inbound::Logout => self.ends(session, LogoutReason::Requested),
            Inbound::Heartbeat => Vec::new(),
            Inbound::Subscribe => self.snapshot(session),
            entry => self.reject(account, entry, now).map(|reason| rejected(session, entry, reason)).into_iter().collect(),
        }
    }

    fn login_error(&self, version: u16, account: u32, token: u64) -> Option<LoginError> {
        let member = self.members.get(&account);
        match member {
            _ if version != VERSION => Some(LoginError::UnsupportedVersion),
            Some(member) if member.account.token == token => self.session_of(account).map(|_| LoginError::AlreadyLoggedIn),
            _ => Some(LoginError::BadCredentials),
        }
    }

    fn logs_in(&self, session: SessionId, message: &Inbound) -> Vec<Mail> {
        let Inbound::Login { version, account, token } = *message else { return self.ends(session, LogoutReason::ProtocolError) };
        if let Some(reason) = self.login_error(version, account, token) {
            return vec![Mail::Send(session, Outbound::LoginRejected { reason }), Mail::Close(session)];
        }
        let mut messages = vec![Outbound::LoginAccepted { account, last_seq: self.last }];
        messages.extend(self.wallet(account).map(|wallet| Outbound::Balance(wallet.balance())));
        for (&order_id, live) in self.live.range(..=self.delivered).filter(|(_, live)| live.account == account) {
            if let Some(price) = live.price {
                let kind = ReportKind::Rested { side: live.side, price, qty: live.leaves, visible: live.leaves };
                messages.push(Outbound::Report(Report { seq: self.last, order_id, client_ref: live.client_ref, kind }));
            }
        }
        messages.into_iter().map(|message| Mail::Send(session, message)).collect()
    }

    // ---- events

    fn report(&self, session: Option<SessionId>, report: Report) -> Option<Mail> {
        let session = session.filter(|session| self.sessions.get(session).is_some_and(|state| state.is_open()))?;
        Some(Mail::Send(session, Outbound::Report(report)))
    }

    /// To the owner of a live order.
    fn told(&self, seq: u64, order_id: OrderId, kind: ReportKind) -> Option<Mail> {
        let live = self.live.get(&order_id)?;
        self.report(self.session_of(live.account), Report { seq, order_id, client_ref: live.client_ref, kind })
    }

    fn reports(&self, seq: u64, event: &Event) -> Vec<Mail> {
        let of_none = |kind: ReportKind| Report { seq, order_id: 0, client_ref: 0, kind };
        let mails = match *event {
            Event::Accepted { id } => vec![self.told(seq, id, ReportKind::Accepted)],
            Event::Rejected { id, reason } => {
                let flight = self.flights.iter().find(|flight| flight.number == seq).expect("in flight");
                let client_ref = self.live.get(&id).filter(|_| flight.places).map_or(0, |live| live.client_ref);
                let sender = flight.session.filter(|&session| self.account_of(session) == Some(flight.owner));
                vec![self.report(sender, Report { seq, order_id: id, client_ref, kind: ReportKind::Rejected(reason) })]
            }
            Event::Trade { trade_id, taker, maker, taker_side, price, qty, taker_leaves, maker_leaves } => {
                let fill = |side: Side, leaves: u64| ReportKind::Fill { trade_id, side, price, qty, leaves };
                let taken = self.told(seq, taker, fill(taker_side, taker_leaves));
                vec![taken, self.told(seq, maker, fill(taker_side.opposite(), maker_leaves))]
            }
            Event::Rested { id, side, price, qty, visible } => {
                vec![self.told(seq, id, ReportKind::Rested { side, price, qty, visible })]
            }
            Event::Replenished { id, side, price, visible } => {
                vec![self.told(seq, id, ReportKind::Replenished { side, price, visible })]
            }
            Event::Cancelled { id, qty, reason } => vec![self.told(seq, id, ReportKind::Cancelled { qty, reason })],
            Event::Modified { id, price, qty, leaves } => vec![self.told(seq, id, ReportKind::Modified { price, qty, leaves })],
            Event::StopPlaced { id, side, trigger, limit, qty } => {
                vec![self.told(seq, id, ReportKind::StopPlaced { side, trigger, limit, qty })]
            }
            Event::Triggered { id } => vec![self.told(seq, id, ReportKind::Triggered)],
            Event::MassCancelled { owner, count } => {
                vec![self.report(self.session_of(owner), of_none(ReportKind::MassCancelled { count }))]
            }
            Event::PhaseChanged { phase } => {
                let report = of_none(ReportKind::PhaseChanged(phase));
                self.sessions.keys().map(|&session| self.report(Some(session), report)).collect()
            }
        };
        mails.into_iter().flatten().collect()
    }
}

fn rejected(session: SessionId, message: &Inbound, reason: RejectCode) -> Mail {
    let client_ref = match message {
        Inbound::NewOrder(order) => order.client_ref,
        _ => 0,
    };
    Mail::Send(session, Outbound::Reject { reason, client_ref })
}
