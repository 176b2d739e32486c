//! Starts, calls, and what a caller sees of them.

use gateway::accounts::Account;
use gateway::exchange::{SessionId, Timing};
use gateway::wallet::Wallet;
use marketdata::Level;
use orderbook::{Command, Event, Order, OrderId, Side, Stop};
use protocol::{Inbound, LogoutReason, NewOrder, OrderKind, Outbound, RejectCode};

/// An entry of a book listing.
#[derive(Clone, Copy, Debug)]
pub enum Listed {
    Order(Order),
    Stop(Stop),
}

impl Listed {
    pub fn id(&self) -> OrderId {
        match self {
            Listed::Order(order) => order.id,
            Listed::Stop(stop) => stop.id,
        }
    }

    pub fn owner(&self) -> u32 {
        match self {
            Listed::Order(order) => order.owner,
            Listed::Stop(stop) => stop.owner,
        }
    }
}

#[derive(Clone, Debug)]
pub enum Start {
    /// The fee, the owner limit, the last number, the accounts, the book.
    SetUp(i64, u32, u64, Vec<Account>, Vec<Listed>, Timing),
    /// The bytes may be no checkpoint's.
    Restore(i64, u32, Vec<Account>, Timing, Vec<u8>),
}

impl Start {
    pub fn name(&self) -> &'static str {
        match self {
            Start::SetUp(..) => "set_up",
            Start::Restore(..) => "restore",
        }
    }

    pub fn fee(&self) -> i64 {
        match self {
            Start::SetUp(fee, ..) | Start::Restore(fee, ..) => *fee,
        }
    }

    pub fn limit(&self) -> u32 {
        match self {
            Start::SetUp(_, limit, ..) | Start::Restore(_, limit, ..) => *limit,
        }
    }

    pub fn accounts(&self) -> &[Account] {
        match self {
            Start::SetUp(_, _, _, accounts, ..) | Start::Restore(_, _, accounts, ..) => accounts,
        }
    }
}

#[derive(Clone, Debug)]
pub enum Call {
    AddAccount(Account),
    Connect(SessionId, u64),
    Collar(Option<u32>),
    Wallet(u32),
    LastSeq,
    Levels(Side),
    Receive(SessionId, Inbound, u64),
    Tick(u64),
    Publish,
    End(SessionId, LogoutReason),
    ShutDown,
    Disconnect(SessionId),
    Detach(SessionId),
    TakeBatch,
    Deliver(u64, Event),
    ReplayCommand(u64, Command),
    ReplayEvent(u64, Event),
    Finish(Vec<Listed>),
    Checkpoint,
}

impl Call {
    /// Its number in the player's file, and its name in the definitions.
    pub fn numbered(&self) -> (u64, &'static str) {
        match self {
            Call::AddAccount(_) => (1, "add_account"),
            Call::Connect(..) => (2, "connect"),
            Call::Collar(_) => (3, "set_paper_collar"),
            Call::Wallet(_) => (4, "wallet"),
            Call::LastSeq => (5, "last_seq"),
            Call::Levels(_) => (6, "depth_levels"),
            Call::Receive(..) => (7, "receive_from"),
            Call::Tick(_) => (8, "tick"),
            Call::Publish => (9, "publish"),
            Call::End(..) => (10, "end_session"),
            Call::ShutDown => (11, "shut_down"),
            Call::Disconnect(_) => (12, "disconnect"),
            Call::Detach(_) => (13, "detach"),
            Call::TakeBatch => (14, "take_batch"),
            Call::Deliver(..) => (15, "deliver_event"),
            Call::ReplayCommand(..) => (16, "replay_command"),
            Call::ReplayEvent(..) => (17, "replay_event"),
            Call::Finish(_) => (18, "finish"),
            Call::Checkpoint => (19, "checkpoint"),
        }
    }

    pub fn name(&self) -> &'static str {
        self.numbered().1
    }
}

#[derive(Clone, Debug, PartialEq)]
pub enum Mail {
    Send(SessionId, Outbound),
    Close(SessionId),
}

#[derive(Clone, Debug, PartialEq)]
pub enum Answer {
    Nothing,
    Account(Option<u32>),
    Wallet(Option<Wallet>),
    Number(u64),
    Levels(Vec<(i64, Level)>),
    Commands(Vec<Command>),
    Bytes(Vec<u8>),
}

/// What a caller sees of a call.
#[derive(Clone, Debug, PartialEq)]
pub enum Seen {
    Code(u8),
    Sees(Answer, Vec<Mail>),
}

impl Seen {
    pub fn quiet() -> Seen {
        Seen::Sees(Answer::Nothing, Vec::new())
    }

    pub fn is_refusal(&self) -> bool {
        matches!(self, Seen::Code(_))
    }

    /// The one message that it sends is this reject.
    pub fn rejects(&self, code: RejectCode) -> bool {
        let Seen::Sees(_, mails) = self else { return false };
        matches!(mails.as_slice(), [Mail::Send(_, Outbound::Reject { reason, .. })] if *reason == code)
    }

    /// The places of a lent list that it takes.
    pub fn places(&self) -> usize {
        match self {
            Seen::Code(_) => 0,
            Seen::Sees(Answer::Levels(levels), _) => levels.len(),
            Seen::Sees(Answer::Commands(commands), _) => commands.len(),
            Seen::Sees(Answer::Bytes(bytes), _) => bytes.len(),
            Seen::Sees(_, mail) => mail.len(),
        }
    }
}

/// The command that places a new order.
pub fn placing(id: OrderId, owner: u32, new: &NewOrder) -> Command {
    let (side, qty) = (new.side, new.qty);
    match new.kind {
        OrderKind::Limit { price, tif, display } => Command::Limit { id, owner, side, price, qty, tif, display },
        OrderKind::Market => Command::Market { id, owner, side, qty },
        OrderKind::Stop { trigger, limit } => Command::Stop { id, owner, side, trigger, limit, qty },
    }
}

/// Who can make calls: the proved library, the published Rust, the model of document 01.
pub trait Gateway: Sized {
    /// A gateway that starts so, or what refuses it: a code, or 0 where the start panics.
    fn start(start: &Start) -> Result<Self, u8>;

    /// What a call gives with `room` places lent; none where it panics.
    fn call(&mut self, call: &Call, room: usize) -> Option<Seen>;

    fn wallet(&self, account: u32) -> Option<Wallet>;

    fn last_seq(&self) -> u64;

    fn levels(&self, side: Side) -> Vec<(i64, Level)>;

    /// A checkpoint's bytes, where it is accepted.
    fn checkpoint(&self) -> Option<Vec<u8>>;
}
