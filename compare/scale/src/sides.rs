//! The model, the proved library and the published Rust side by side: the same calls, and everything that can be seen compared.

use calls::bytes::decode;
use calls::{Call, Gateway, Mail, Model, Published, Seen, Start};
use edge::entered::Entered;
use gateway::wallet::Wallet;
use orderbook::{Event, Phase, Side};
use protocol::{Inbound, LoginError, Outbound, RejectCode, VERSION};

use crate::library::Library;

/// Places enough for any call.
const PLENTY: usize = usize::MAX;

/// Messages a second that no list uses up.
const AMPLE: u32 = 1_000_000;

#[derive(Clone, Copy, Default)]
pub struct Counts {
    /// Calls, of these with the published Rust, and those that only the model decides: refusals, and what comes after the Rust has left.
    pub calls: u64,
    pub with_rust: u64,
    pub refused: u64,
    pub alone: u64,
    /// Lists that the Rust left: it panics, or shows what it replayed into its depth and lists.
    pub panics: u64,
    pub replays: u64,
    pub untracked: u64,
    /// Lists with a fee, which the Rust does not know.
    pub charged: u64,
    /// Checkpoints compared, and states drained for their live orders.
    pub checkpoints: u64,
    pub drained: u64,
}

impl Counts {
    pub fn add(&mut self, other: &Counts) {
        let ours = [
            &mut self.calls,
            &mut self.with_rust,
            &mut self.refused,
            &mut self.alone,
            &mut self.panics,
            &mut self.replays,
            &mut self.untracked,
            &mut self.charged,
            &mut self.checkpoints,
            &mut self.drained,
        ];
        let theirs = [
            other.calls,
            other.with_rust,
            other.refused,
            other.alone,
            other.panics,
            other.replays,
            other.untracked,
            other.charged,
            other.checkpoints,
            other.drained,
        ];
        ours.into_iter().zip(theirs).for_each(|(one, more)| *one += more);
    }
}

pub struct Sides {
    pub model: Model,
    library: Library,
    entered: Entered,
    /// None once its state is no longer document 01's.
    published: Option<Published>,
    pub counts: Counts,
}

fn differ<T: PartialEq + std::fmt::Debug>(what: &str, ours: &T, theirs: &T, whose: &str) -> Result<(), String> {
    if ours == theirs { Ok(()) } else { Err(format!("{what}: the model has {ours:?}, {whose} {theirs:?}")) }
}

/// What stands in on the Rust, which has no such limit, for a message that is `Unavailable`: one that takes a token and is rejected in a
/// wallet's session; else one that is rejected alike and takes no token, where the account has plenty.
fn stand_in(model: &Model, session: usize) -> Option<(Inbound, Mail)> {
    let account = model.account_of(session)?;
    if model.has_wallet(account) {
        let reject = Outbound::Reject { reason: RejectCode::NotAllowed, client_ref: 0 };
        return Some((Inbound::Modify { order_id: 0, price: 0, qty: 0 }, Mail::Send(session, reject)));
    }
    let reject = Outbound::LoginRejected { reason: LoginError::AlreadyInSession };
    let ample = model.members[&account].account.messages_per_second >= AMPLE;
    ample.then_some((Inbound::Login { version: VERSION, account, token: 0 }, Mail::Send(session, reject)))
}

/// Whether a call shows or uses what the Rust replays into.
fn shows_replayed(call: &Call) -> bool {
    matches!(call, Call::Publish | Call::Levels(_) | Call::Deliver(..) | Call::Receive(_, Inbound::Subscribe, _))
}

impl Sides {
    /// The sides that start so, or the code that refuses the start.
    pub fn start(start: &Start) -> Result<Result<Sides, u8>, String> {
        let model = Model::start(start);
        let library = Library::start(start);
        let entered = Entered::start(start);
        let code = model.as_ref().err().copied();
        differ("start", &code, &library.as_ref().err().copied(), "the library")?;
        differ("start", &code, &entered.as_ref().err().copied(), "the entry point")?;
        let (Ok(model), Ok(library), Ok(entered)) = (model, library, entered) else { return Ok(Err(code.expect("refused"))) };
        let mut counts = Counts::default();
        counts.charged += u64::from(start.fee() != 0);
        let published = match (start.fee() == 0).then(|| Published::start(start)).transpose() {
            Ok(published) => published,
            Err(0) => {
                counts.panics += 1;
                None
            }
            Err(code) => return Err(format!("start: the Rust refuses with {code}")),
        };
        let mut sides = Sides { model, library, entered, published, counts };
        sides.compare()?;
        Ok(Ok(sides))
    }

    /// The places that a call takes.
    pub fn places(&self, call: &Call) -> usize {
        self.model.code(call).map_or(0, |()| self.model.sees(call).places())
    }

    /// Makes a call with `room` places lent on all sides, and compares.
    pub fn step(&mut self, call: &Call, room: usize) -> Result<Seen, String> {
        self.counts.calls += 1;
        let stand_in = match call {
            Call::Receive(session, ..) => stand_in(&self.model, *session),
            _ => None,
        };
        let replaying = self.model.replaying;
        let wanted = self.model.call(call, room).expect("the model does not panic");
        self.entered.step(call, room, &wanted)?;
        self.counts.refused += u64::from(wanted.is_refusal());
        if wanted == Seen::Code(6) {
            return Ok(wanted);
        }
        let seen = self.library.call(call, room).expect("the library does not panic");
        differ("call", &wanted, &seen, "the library")?;
        self.follow(call, &wanted, stand_in, replaying)?;
        self.compare()?;
        Ok(wanted)
    }

    /// The published Rust goes along, as far as it can.
    fn follow(&mut self, call: &Call, wanted: &Seen, stand_in: Option<(Inbound, Mail)>, replaying: bool) -> Result<(), String> {
        let Some(published) = &mut self.published else {
            self.counts.alone += u64::from(!wanted.is_refusal());
            return Ok(());
        };
        if let Seen::Code(code) = wanted {
            // What the Rust refuses too, without a change.
            if matches!((call, code), (Call::AddAccount(_), 1 | 3) | (Call::Checkpoint, 10)) {
                differ("call", wanted, &published.call(call, PLENTY).unwrap_or(Seen::Code(0)), "the Rust")?;
            }
            return Ok(());
        }
        if replaying && shows_replayed(call) {
            self.counts.replays += 1;
            self.counts.alone += 1;
            self.published = None;
            return Ok(());
        }
        let (call, wanted) = match (call, stand_in) {
            (Call::Receive(session, _, now), stand_in) if wanted.rejects(RejectCode::Unavailable) => {
                let Some((message, reply)) = stand_in else {
                    self.counts.untracked += 1;
                    self.counts.alone += 1;
                    self.published = None;
                    return Ok(());
                };
                self.counts.alone += 1;
                (Call::Receive(*session, message, *now), Seen::Sees(calls::Answer::Nothing, vec![reply]))
            }
            _ => {
                self.counts.with_rust += 1;
                (call.clone(), wanted.clone())
            }
        };
        match published.call(&call, PLENTY) {
            Some(seen) => differ("call", &wanted, &seen, "the Rust"),
            None => {
                self.counts.panics += 1;
                self.published = None;
                Ok(())
            }
        }
    }

    /// All that can be read between calls.
    fn compare(&mut self) -> Result<(), String> {
        let (model, library, published) = (&self.model, &self.library, self.published.as_ref());
        differ("last number", &model.last, &library.last_seq(), "the library")?;
        let (totals, opens) = (model.totals(), model.open_counts());
        for account in 0..=model.limit {
            let held = |buys: bool| totals.get(&(account, buys)).map_or(0, |&total| total as i64);
            let member = model.members.get(&account);
            let money = member.and_then(|member| member.money);
            let wallet = money.map(|(cash, position)| Wallet { cash, position, cash_held: held(true), position_held: held(false) });
            differ("wallet", &wallet, &library.wallet(account), "the library")?;
            if let Some(published) = published {
                differ("wallet", &wallet, &published.wallet(account), "the Rust")?;
                let open = member.map(|_| opens.get(&account).map_or(0, |&open| open as u32));
                differ("open orders", &open, &published.open_orders(account), "the Rust")?;
            }
        }
        for side in [Side::Buy, Side::Sell] {
            let levels = model.levels(side);
            differ("levels", &levels, &library.levels(side), "the library")?;
            if let Some(published) = published.filter(|_| !model.replaying) {
                differ("levels", &levels, &published.levels(side), "the Rust")?;
            }
        }
        if let Some(published) = published {
            differ("last number", &model.last, &published.last_seq(), "the Rust")?;
        }
        self.checkpoints()
    }

    fn checkpoints(&mut self) -> Result<(), String> {
        let bytes = self.model.checkpoint();
        differ("checkpoint", &bytes, &self.library.checkpoint(), "the library")?;
        if let Some(published) = &self.published {
            differ("checkpoint", &bytes, &published.checkpoint(), "the Rust")?;
        }
        if let Some(bytes) = bytes {
            self.counts.checkpoints += 1;
            differ("checkpoint's value", &decode(&bytes), &self.library.saved(), "the library")?;
            let orders = 37 * self.model.live.len();
            differ("order section", &(bytes.len() - orders), &edge::order_section(&bytes), "the library")?;
        }
        Ok(())
    }

    /// A copy of the state is made quiet and its checkpoint taken, which lists the live orders, so each account's open count.
    pub fn drain(&mut self) -> Result<(), String> {
        self.counts.drained += 1;
        let (mut model, mut entered) = (self.model.clone(), self.entered.copy());
        let last = Call::Deliver(model.last, Event::PhaseChanged { phase: Phase::Closed });
        let delivers = (model.delivered != model.last).then_some(last);
        for call in [Some(Call::TakeBatch), delivers, Some(Call::Checkpoint)].into_iter().flatten() {
            let wanted = model.call(&call, PLENTY).expect("the model does not panic");
            entered.step(&call, wanted.places(), &wanted).map_err(|what| format!("drained, {}: {what}", call.name()))?;
        }
        Ok(())
    }

    /// Whether two gateways have the same ledger: last number, wallets, and live orders but for the client references of numbers above `saved`.
    pub fn same_ledger(&self, other: &Sides, saved: u64) -> Result<(), String> {
        differ("last number after a restart", &self.library.last_seq(), &other.library.last_seq(), "the restored library")?;
        for account in 0..self.model.limit {
            differ("wallet after a restart", &self.library.wallet(account), &other.library.wallet(account), "the restored library")?;
        }
        let orders = |sides: &Sides| {
            let mut saved_orders = decode(&sides.library.checkpoint()?)?;
            saved_orders.orders.iter_mut().filter(|order| order.id > saved).for_each(|order| order.client_ref = 0);
            Some(saved_orders)
        };
        if let (Some(first), Some(second)) = (orders(self), orders(other)) {
            differ("ledger after a restart", &first, &second, "the restored library")?;
        }
        Ok(())
    }
}
