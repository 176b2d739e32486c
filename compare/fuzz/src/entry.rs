//! The entry points with whatever is lent to them, and what has to come of it.

use calls::words::{self, Coded, Words};
use calls::{Call, Gateway, Model, Seen, rows};
use edge::entered::{Said, bytes, message};
use edge::{LEVEL, MAIL, STATE};

/// Every entry point that takes a state that is one; set-up, restore and the order section take none.
#[derive(Clone, Copy, Debug, PartialEq, Eq, PartialOrd, Ord)]
pub enum Entry {
    LastSeq,
    Wallet,
    Levels,
    Collar,
    Connect,
    Receive,
    Tick,
    Publish,
    End,
    ShutDown,
    Disconnect,
    Detach,
    TakeBatch,
    Deliver,
    AddAccount,
    ReplayCommand,
    ReplayEvent,
    Finish,
    Checkpoint,
}

pub const ENTRIES: [Entry; 19] = [
    Entry::LastSeq,
    Entry::Wallet,
    Entry::Levels,
    Entry::Collar,
    Entry::Connect,
    Entry::Receive,
    Entry::Tick,
    Entry::Publish,
    Entry::End,
    Entry::ShutDown,
    Entry::Disconnect,
    Entry::Detach,
    Entry::TakeBatch,
    Entry::Deliver,
    Entry::AddAccount,
    Entry::ReplayCommand,
    Entry::ReplayEvent,
    Entry::Finish,
    Entry::Checkpoint,
];

/// What is lent beside the state and the output: two numbers, and a row or rows.
#[derive(Clone, Debug)]
pub struct Given {
    pub entry: Entry,
    pub first: u64,
    pub second: u64,
    pub row: Vec<u8>,
}

/// The bytes of a place in the output.
pub fn place(entry: Entry) -> usize {
    match entry {
        Entry::Levels => LEVEL,
        Entry::Checkpoint => 1,
        _ => MAIL,
    }
}

impl Given {
    pub fn of(call: &Call) -> Given {
        let given = |entry: Entry, first: u64, second: u64, row: Vec<u8>| Given { entry, first, second, row };
        let none = Vec::new();
        match call {
            Call::LastSeq => given(Entry::LastSeq, 0, 0, none),
            Call::Wallet(account) => given(Entry::Wallet, u64::from(*account), 0, none),
            Call::Levels(side) => given(Entry::Levels, side.words()[0], 0, none),
            Call::Collar(percent) => given(Entry::Collar, u64::from(percent.is_some()), u64::from(percent.unwrap_or(0)), none),
            Call::Connect(session, now) => given(Entry::Connect, *session as u64, *now, none),
            Call::Receive(session, what, now) => given(Entry::Receive, *session as u64, *now, message(what)),
            Call::Tick(now) => given(Entry::Tick, *now, 0, none),
            Call::Publish => given(Entry::Publish, 0, 0, none),
            Call::End(session, reason) => given(Entry::End, *session as u64, reason.words()[0], none),
            Call::ShutDown => given(Entry::ShutDown, 0, 0, none),
            Call::Disconnect(session) => given(Entry::Disconnect, *session as u64, 0, none),
            Call::Detach(session) => given(Entry::Detach, *session as u64, 0, none),
            Call::TakeBatch => given(Entry::TakeBatch, 0, 0, none),
            Call::Deliver(number, event) => given(Entry::Deliver, *number, 0, message(event)),
            Call::AddAccount(account) => given(Entry::AddAccount, 0, 0, bytes(account.words())),
            Call::ReplayCommand(number, command) => given(Entry::ReplayCommand, *number, 0, bytes(words::command(command))),
            Call::ReplayEvent(number, event) => given(Entry::ReplayEvent, *number, 0, message(event)),
            Call::Finish(listing) => given(Entry::Finish, 0, 0, bytes(listing.iter().flat_map(words::listed))),
            Call::Checkpoint => given(Entry::Checkpoint, 0, 0, none),
        }
    }

    /// The call that it is; none where it is malformed. Numbers of 32 and of 8 bits have their type already.
    pub fn call(&self) -> Option<Call> {
        let (first, second, session) = (self.first, self.second, self.first as usize);
        Some(match self.entry {
            Entry::LastSeq => Call::LastSeq,
            Entry::Wallet => Call::Wallet(first as u32),
            Entry::Levels => Call::Levels(Coded::coded(first)?),
            Entry::Collar => match first {
                0 => Call::Collar(None),
                1 => Call::Collar(Some(second as u32)),
                _ => return None,
            },
            Entry::Connect => Call::Connect(session, second),
            Entry::Receive => Call::Receive(session, rows::message(&self.row)?, second),
            Entry::Tick => Call::Tick(first),
            Entry::Publish => Call::Publish,
            Entry::End => Call::End(session, Coded::coded(u64::from(second as u8))?),
            Entry::ShutDown => Call::ShutDown,
            Entry::Disconnect => Call::Disconnect(session),
            Entry::Detach => Call::Detach(session),
            Entry::TakeBatch => Call::TakeBatch,
            Entry::Deliver => Call::Deliver(first, rows::event(&self.row)?),
            Entry::AddAccount => Call::AddAccount(rows::account(&self.row)?),
            Entry::ReplayCommand => Call::ReplayCommand(first, rows::command(&self.row)?),
            Entry::ReplayEvent => Call::ReplayEvent(first, rows::event(&self.row)?),
            Entry::Finish => Call::Finish(rows::listing(&self.row)?),
            Entry::Checkpoint => Call::Checkpoint,
        })
    }

    /// What has to come of it with a state of that length and an output of that length.
    pub fn wanted(&self, model: &mut Model, state: usize, out: usize) -> Seen {
        match self.call().filter(|_| state == STATE) {
            Some(call) => model.call(&call, out / place(self.entry)).expect("the model does not panic"),
            None => Seen::Code(11),
        }
    }

    pub fn enter(&self, m: &mut [u8], out: &mut [u8]) -> Said {
        let (first, second, row, session) = (self.first, self.second, self.row.as_slice(), self.first as usize);
        match self.entry {
            Entry::LastSeq => edge::last_seq(m).into(),
            Entry::Wallet => edge::wallet(m, first as u32).into(),
            Entry::Levels => edge::levels(m, first, out).into(),
            Entry::Collar => edge::set_paper_collar(m, first, second as u32).into(),
            Entry::Connect => edge::connect(m, session, second).into(),
            Entry::Receive => edge::receive(m, session, row, second, out).into(),
            Entry::Tick => edge::tick(m, first, out).into(),
            Entry::Publish => edge::publish(m, out).into(),
            Entry::End => edge::end(m, session, second as u8, out).into(),
            Entry::ShutDown => edge::shut_down(m, out).into(),
            Entry::Disconnect => edge::disconnect(m, session).into(),
            Entry::Detach => edge::detach(m, session).into(),
            Entry::TakeBatch => edge::take_batch(m, out).into(),
            Entry::Deliver => edge::deliver(m, first, row, out).into(),
            Entry::AddAccount => edge::add_account(m, row).into(),
            Entry::ReplayCommand => edge::replay_command(m, first, row).into(),
            Entry::ReplayEvent => edge::replay_event(m, first, row).into(),
            Entry::Finish => edge::finish(m, row).into(),
            Entry::Checkpoint => edge::checkpoint(m, out).into(),
        }
    }
}
