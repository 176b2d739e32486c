//! A list as steps: calls, restarts from a checkpoint, and the record fed to the gateway that restarts.

use std::panic::{AssertUnwindSafe, catch_unwind};

use calls::{Call, Gateway, Listed, Seen, Start};
use gateway::accounts::Account;
use gateway::exchange::Timing;
use orderbook::{Order, Stop};
use protocol::{Inbound, VERSION};

use crate::sides::{Counts, Sides};

#[derive(Clone, Debug)]
pub enum Step {
    /// A call, with so many places lent.
    Make(Call, usize),
    /// A start beside the list: only its code, or what it shows, is compared.
    Begin(Start),
    /// A second gateway starts from the bytes of a checkpoint, where one is to be had. From then on it is fed the record.
    Restart(Timing),
    /// The restart ends with the listing of the live orders, and a member comes.
    Finish,
    /// The live orders are compared by a copy of the state that is made quiet.
    Drain,
}

/// A second gateway, and its checkpoint's last number.
struct Second {
    saved: u64,
    sides: Sides,
}

pub struct Play {
    pub sides: Sides,
    second: Option<Second>,
    /// Restarts, items of the record fed, restarts that ended at an event of a command from before the checkpoint, and those finished.
    pub restarts: u64,
    pub items: u64,
    pub cut: u64,
    pub finished: u64,
    /// What second gateways counted.
    pub fed: Counts,
}

/// The live orders, as a book lists them.
fn listing(sides: &Sides) -> Vec<Listed> {
    let entry = |(&id, live): (&u64, &calls::state::Live)| {
        let (owner, side, leaves) = (live.account, live.side, live.leaves);
        match live.price {
            Some(price) => Listed::Order(Order { id, owner, side, price, visible: leaves, leaves }),
            None => Listed::Stop(Stop { id, owner, side, limit: None, qty: leaves }),
        }
    };
    sides.model.live.iter().map(entry).collect()
}

impl Play {
    pub fn start(start: &Start) -> Result<Result<Play, u8>, String> {
        let play = |sides: Sides| Play { sides, second: None, restarts: 0, items: 0, cut: 0, finished: 0, fed: Counts::default() };
        Ok(Sides::start(start)?.map(play))
    }

    pub fn accounts(&self) -> Vec<Account> {
        self.sides.model.members.values().map(|member| member.account).collect()
    }

    /// Whether a call ends a restart: an event of a command from before the checkpoint.
    pub fn ends_restart(&self, call: &Call) -> bool {
        matches!((call, &self.second), (Call::Deliver(number, _), Some(second)) if *number <= second.saved)
    }

    /// What a call gives, or the code of a start beside the list (0 where it is accepted); none for another step.
    pub fn step(&mut self, step: &Step) -> Result<Option<Seen>, String> {
        match step {
            Step::Make(call, room) => {
                let before = self.sides.model.last;
                let seen = self.sides.step(call, *room).map_err(|what| format!("{}: {what}", call.name()))?;
                if !seen.is_refusal()
                    && let Some(item) = self.sides.model.item(call, before)
                {
                    self.feed(&item)?;
                }
                return Ok(Some(seen));
            }
            Step::Begin(start) => return Ok(Some(Seen::Code(Sides::start(start)?.err().unwrap_or(0)))),
            Step::Restart(timing) => self.restart(*timing)?,
            Step::Finish => self.finish()?,
            Step::Drain => self.sides.drain()?,
        }
        Ok(None)
    }

    fn restart(&mut self, timing: Timing) -> Result<(), String> {
        let Some(bytes) = self.sides.model.checkpoint() else { return Ok(()) };
        self.leave();
        let start = Start::Restore(self.sides.model.fee, self.sides.model.limit, self.accounts(), timing, bytes);
        let sides = Sides::start(&start)?.map_err(|code| format!("a checkpoint is refused with {code}"))?;
        let second = Second { saved: sides.model.last, sides };
        self.sides.same_ledger(&second.sides, second.saved)?;
        self.restarts += 1;
        self.second = Some(second);
        Ok(())
    }

    /// An item of the record for the second gateway.
    fn feed(&mut self, item: &Call) -> Result<(), String> {
        let Some(second) = &mut self.second else { return Ok(()) };
        let seen = second.sides.step(item, 0).map_err(|what| format!("{} in a restart: {what}", item.name()))?;
        if seen.is_refusal() {
            // Document 01 leaves out events of commands from before the checkpoint.
            if !matches!(item, Call::ReplayEvent(number, _) if *number <= second.saved) {
                return Err(format!("the record's {item:?} is refused: {seen:?}"));
            }
            self.cut += 1;
            self.leave();
            return Ok(());
        }
        self.items += 1;
        self.sides.same_ledger(&second.sides, second.saved)
    }

    fn leave(&mut self) {
        if let Some(second) = self.second.take() {
            self.fed.add(&second.sides.counts);
        }
    }

    fn finish(&mut self) -> Result<(), String> {
        let Some(second) = &mut self.second else { return Ok(()) };
        let mut calls = vec![Call::Finish(listing(&second.sides)), Call::Connect(0, 5)];
        if let Some(member) = second.sides.model.members.values().next() {
            let (account, token) = (member.account.id, member.account.token);
            calls.push(Call::Receive(0, Inbound::Login { version: VERSION, account, token }, 6));
            calls.push(Call::Receive(0, Inbound::Subscribe, 7));
        }
        calls.extend([Call::Publish, Call::Checkpoint]);
        for call in &calls {
            let room = second.sides.places(call) + 1;
            second.sides.step(call, room).map_err(|what| format!("{} after a restart: {what}", call.name()))?;
        }
        self.finished += 1;
        self.leave();
        Ok(())
    }

    /// What the sides counted, those of second gateways apart.
    pub fn counts(&mut self) -> (Counts, Counts) {
        self.leave();
        (self.sides.counts, self.fed)
    }
}

/// The list from its start: the first difference, if there is one.
pub fn replay(start: &Start, steps: &[Step]) -> Result<(), String> {
    let run = || -> Result<(), String> {
        if let Ok(mut play) = Play::start(start)? {
            for (at, step) in steps.iter().enumerate() {
                play.step(step).map_err(|what| format!("step {at}, {what}"))?;
            }
        }
        Ok(())
    };
    catch_unwind(AssertUnwindSafe(run)).unwrap_or(Err("a panic".to_owned()))
}
