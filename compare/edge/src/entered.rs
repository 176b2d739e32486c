//! A state, and calls on its entry points with a number of places lent: every byte that is lent is compared.

use calls::words::{self, Words};
use calls::{Answer, Call, Seen, Start};
use gateway::wallet::Wallet;

use crate::{LEVEL, MAIL, MESSAGE, Reply, STATE};

/// What lent places hold before a call.
pub const BLANK: u8 = 0xA5;

/// A state, a copy of it, and what is lent to a call.
pub struct Entered {
    state: Vec<u8>,
    before: Vec<u8>,
    /// The copy is of the state as it is.
    copied: bool,
    out: Vec<u8>,
}

pub fn bytes(words: impl IntoIterator<Item = u64>) -> Vec<u8> {
    words.into_iter().flat_map(u64::to_le_bytes).collect()
}

/// A message's or an event's row.
pub fn message(value: &dyn Words) -> Vec<u8> {
    let mut row = bytes(value.words());
    row.resize(MESSAGE, 0);
    row
}

/// What an entry point answers: its code, the rows that it says it wrote, and what it returns beside them.
#[derive(Debug)]
pub struct Said {
    pub code: u64,
    pub count: usize,
    pub answer: Answer,
}

impl From<u64> for Said {
    fn from(code: u64) -> Said {
        Said { code, count: 0, answer: Answer::Nothing }
    }
}

impl From<crate::Number> for Said {
    fn from(said: crate::Number) -> Said {
        Said { answer: Answer::Number(said.number), ..said.code.into() }
    }
}

impl From<crate::Account> for Said {
    fn from(said: crate::Account) -> Said {
        Said { answer: Answer::Account((said.there != 0).then_some(said.account as u32)), ..said.code.into() }
    }
}

impl From<crate::Wallet> for Said {
    fn from(said: crate::Wallet) -> Said {
        let crate::Wallet { code, there, cash, position, cash_held, position_held } = said;
        let wallet = (there != 0).then_some(Wallet { cash, position, cash_held, position_held });
        Said { answer: Answer::Wallet(wallet), ..code.into() }
    }
}

impl From<Reply> for Said {
    fn from(reply: Reply) -> Said {
        Said { code: reply.code, count: reply.count, answer: Answer::Nothing }
    }
}

impl Said {
    /// What is wanted, with `out` as it stands after the call; it was blank before.
    pub fn agrees(&self, wanted: &Seen, out: &[u8]) -> Result<(), String> {
        let (code, answer) = match wanted {
            Seen::Code(code) => (u64::from(*code), &Answer::Nothing),
            Seen::Sees(answer, _) => (0, answer),
        };
        if self.code != code || self.count != wanted.places() {
            return Err(format!("the entry point gives {} and {} rows, not {code} and {}", self.code, self.count, wanted.places()));
        }
        let returned = matches!(answer, Answer::Account(_) | Answer::Wallet(_) | Answer::Number(_));
        if returned && self.answer != *answer {
            return Err(format!("the entry point answers {:?}, not {answer:?}", self.answer));
        }
        let rows = rows(wanted);
        if !out.starts_with(&rows) || out[rows.len()..].iter().any(|&byte| byte != BLANK) {
            return Err(format!("the entry point writes other rows than {wanted:?}"));
        }
        Ok(())
    }
}

/// The bytes that a call has to write at the front of its list.
fn rows(seen: &Seen) -> Vec<u8> {
    let Seen::Sees(answer, mails) = seen else { return Vec::new() };
    match answer {
        Answer::Levels(levels) => bytes(levels.iter().flat_map(words::level)),
        Answer::Commands(commands) => bytes(commands.iter().flat_map(words::command)),
        Answer::Bytes(bytes) => bytes.clone(),
        _ => bytes(mails.iter().flat_map(words::mail)),
    }
}

impl Entered {
    pub fn start(start: &Start) -> Result<Entered, u8> {
        let mut state = vec![BLANK; STATE];
        let accounts = bytes(start.accounts().iter().flat_map(Words::words));
        let code = match start {
            Start::SetUp(fee, limit, last, _, listing, timing) => {
                let list = bytes(listing.iter().flat_map(words::listed));
                crate::set_up(&mut state, *fee, u64::from(*limit), *last, timing.heartbeat, timing.idle_timeout, &accounts, &list)
            }
            Start::Restore(fee, limit, _, timing, saved) => {
                crate::restore(&mut state, *fee, u64::from(*limit), timing.heartbeat, timing.idle_timeout, &accounts, saved)
            }
        };
        match code {
            0 => Ok(Entered { state, before: Vec::new(), copied: false, out: Vec::new() }),
            _ if state.iter().any(|&byte| byte != BLANK) => panic!("a refused start writes"),
            code => Err(code as u8),
        }
    }

    fn make(&mut self, call: &Call) -> Said {
        let (m, out) = (&mut self.state, &mut self.out);
        match call {
            Call::AddAccount(account) => crate::add_account(m, &bytes(account.words())).into(),
            Call::Connect(session, now) => crate::connect(m, *session, *now).into(),
            Call::Collar(percent) => crate::set_paper_collar(m, u64::from(percent.is_some()), percent.unwrap_or(0)).into(),
            Call::Wallet(account) => crate::wallet(m, *account).into(),
            Call::LastSeq => crate::last_seq(m).into(),
            Call::Levels(side) => crate::levels(m, side.words()[0], out).into(),
            Call::Receive(session, what, now) => crate::receive(m, *session, &message(what), *now, out).into(),
            Call::Tick(now) => crate::tick(m, *now, out).into(),
            Call::Publish => crate::publish(m, out).into(),
            Call::End(session, reason) => crate::end(m, *session, reason.words()[0] as u8, out).into(),
            Call::ShutDown => crate::shut_down(m, out).into(),
            Call::Disconnect(session) => crate::disconnect(m, *session).into(),
            Call::Detach(session) => crate::detach(m, *session).into(),
            Call::TakeBatch => crate::take_batch(m, out).into(),
            Call::Deliver(number, event) => crate::deliver(m, *number, &message(event), out).into(),
            Call::ReplayCommand(number, command) => crate::replay_command(m, *number, &bytes(words::command(command))).into(),
            Call::ReplayEvent(number, event) => crate::replay_event(m, *number, &message(event)).into(),
            Call::Finish(listing) => crate::finish(m, &bytes(listing.iter().flat_map(words::listed))).into(),
            Call::Checkpoint => crate::checkpoint(m, out).into(),
        }
    }

    /// Makes the call with `room` places lent, and a part of one. It has to give what is wanted, and where that is a refusal, change nothing.
    pub fn step(&mut self, call: &Call, room: usize, wanted: &Seen) -> Result<(), String> {
        let size = match call {
            Call::Levels(_) => LEVEL,
            Call::Checkpoint => 1,
            _ => MAIL,
        };
        self.out.clear();
        self.out.resize(room * size + room % size, BLANK);
        if wanted.is_refusal() && !self.copied {
            self.before.clone_from(&self.state);
        }
        self.copied = wanted.is_refusal();
        let said = self.make(call);
        said.agrees(wanted, &self.out)?;
        if wanted.is_refusal() && self.before != self.state {
            return Err("a refusal changes the state".to_owned());
        }
        Ok(())
    }

    /// The state's bytes in another place.
    pub fn copy(&self) -> Entered {
        Entered { state: self.state.clone(), before: Vec::new(), copied: false, out: Vec::new() }
    }
}
