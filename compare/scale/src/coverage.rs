//! What a run meets: each kind of call, message, event, report, reject and code, and each limit.

use std::collections::BTreeMap;

use calls::depth::{CHANGED, LEVELS, ORDERS};
use calls::names;
use calls::state::{BATCH, FLIGHTS, LIVE, NOTICES, OWNERS, SESSIONS, TRADES, cost};
use calls::{Answer, Call, Mail, Model, Seen, Start};
use orderbook::{Event, Side};
use protocol::{Inbound, NewOrder, OrderKind, RejectCode};

#[derive(Default)]
pub struct Coverage(BTreeMap<String, u64>);

/// Calls, and the codes that document 01 has for them; 0 is an accepted one.
const CODES: [(&str, &[u8]); 21] = [
    ("set_up", &[0, 1, 2, 5, 7, 8, 15]),
    ("restore", &[0, 1, 2, 5, 7, 11, 15]),
    ("add_account", &[0, 1, 3, 12]),
    ("connect", &[0, 9]),
    ("set_paper_collar", &[0]),
    ("wallet", &[0]),
    ("last_seq", &[0]),
    ("depth_levels", &[0, 6]),
    ("receive_from", &[0, 6]),
    ("tick", &[0, 6]),
    ("publish", &[0, 6]),
    ("end_session", &[0, 6]),
    ("shut_down", &[0, 6]),
    ("disconnect", &[0, 5]),
    ("detach", &[0]),
    ("take_batch", &[0, 6]),
    ("deliver_event", &[0, 1, 4, 5, 6, 7, 8]),
    ("replay_command", &[0, 1, 4, 5, 7, 8]),
    ("replay_event", &[0, 1, 4, 7, 8]),
    ("finish", &[0, 5, 7, 8]),
    ("checkpoint", &[0, 6, 10]),
];

const KINDS: [(&str, &[&str]); 15] = [
    (
        "receive",
        &[
            "Login",
            "Logout",
            "Heartbeat",
            "Cancel",
            "Modify",
            "MassCancel",
            "Subscribe",
            "NewOrder Limit",
            "NewOrder Market",
            "NewOrder Stop",
        ],
    ),
    ("mail", &["LoginAccepted", "Heartbeat", "BookSnapshot", "LevelUpdate", "TradeTick", "Balance", "close"]),
    ("login rejected", &["UnsupportedVersion", "BadCredentials", "AlreadyLoggedIn", "AlreadyInSession"]),
    ("logout", &["Requested", "Idle", "ProtocolError", "SlowConsumer", "Shutdown"]),
    ("reject", &["TooManyOrders", "Throttled", "Unavailable", "InsufficientFunds", "NotAllowed", "OffMarket"]),
    ("report", &REPORTS),
    ("event", &EVENTS),
    ("replayed", &EVENTS),
    ("replayed", &["Limit", "Market", "Cancel", "Modify", "Stop", "CancelAll", "SetPhase"]),
    ("command", &["Limit", "Market", "Cancel", "Modify", "Stop", "CancelAll"]),
    (
        "limit",
        &[
            "256 in flight",
            "256 in the batch",
            "1,024 live orders",
            "1,024 resting orders",
            "512 levels of bids",
            "512 levels of asks",
            "256 trades",
            "2,048 notices",
            "1,024 changed levels",
            "the greatest number",
            "256 accounts",
            "64 sessions",
        ],
    ),
    ("charged at entry", &CHARGES),
    ("charged in a trade", &CHARGES),
    ("no room", &["deliver: orders", "deliver: levels", "deliver: trades", "deliver: notices", "deliver: changed levels"]),
    (
        "no room",
        &[
            "entry: in flight",
            "entry: batch",
            "entry: greatest number",
            "entry: live orders",
            "entry: notices",
            "disconnect: in flight",
            "disconnect: batch",
            "disconnect: greatest number",
            "replay_command: in flight",
            "replay_command: live orders",
        ],
    ),
];

/// What a buyer is charged for an order or a fill where there is a fee.
const CHARGES: [&str; 6] = ["an amount", "less than nothing", "nothing", "too much in all", "too much for a seat", "too much for a seat, and for none"];

const EVENTS: [&str; 11] = [
    "Accepted",
    "Rejected",
    "Trade",
    "Rested",
    "Replenished",
    "Cancelled",
    "Modified",
    "StopPlaced",
    "Triggered",
    "MassCancelled",
    "PhaseChanged",
];

/// A trade is reported as a fill.
const REPORTS: [&str; 11] = {
    let mut kinds = EVENTS;
    kinds[2] = "Fill";
    kinds
};

impl Coverage {
    pub fn meets(&mut self, what: impl AsRef<str>) {
        match self.0.get_mut(what.as_ref()) {
            Some(times) => *times += 1,
            None => drop(self.0.insert(what.as_ref().to_owned(), 1)),
        }
    }

    pub fn add(&mut self, other: Coverage) {
        for (what, times) in other.0 {
            *self.0.entry(what).or_default() += times;
        }
    }

    pub fn start(&mut self, start: &Start, code: u8) {
        self.meets(format!("{} code {code}", start.name()));
    }

    /// A call, what came of it, and the model before it.
    pub fn call(&mut self, call: &Call, seen: &Seen, before: &Reasons) {
        let code = if let Seen::Code(code) = seen { *code } else { 0 };
        self.meets(format!("{} code {code}", call.name()));
        if let Some(given) = names::given(call) {
            self.meets(given);
        }
        if let Some(charge) = before.charge.as_ref().filter(|_| code == 0) {
            self.meets(charge);
        }
        if let Some(table) = before.table.filter(|_| code == 5 || seen.rejects(RejectCode::Unavailable)) {
            let name = match call {
                Call::Receive(..) => "entry",
                Call::Deliver(..) => "deliver",
                call => call.name(),
            };
            self.meets(format!("no room {name}: {table}"));
        }
        let Seen::Sees(answer, mails) = seen else { return };
        for mail in mails {
            self.meets(match mail {
                Mail::Close(_) => "mail close".to_owned(),
                Mail::Send(_, message) => names::sent(message),
            });
        }
        if let Answer::Commands(commands) = answer {
            commands.iter().for_each(|command| self.meets(format!("command {}", names::case(command))));
        }
    }

    /// The limits that a gateway stands at.
    pub fn state(&mut self, model: &Model) {
        let at = [
            ("256 in flight", model.flights.len() == FLIGHTS),
            ("256 in the batch", model.batch.len() == BATCH),
            ("1,024 live orders", model.live.len() == LIVE),
            ("1,024 resting orders", model.depth.orders.len() == ORDERS),
            ("512 levels of bids", model.depth.half(Side::Buy).len() == LEVELS),
            ("512 levels of asks", model.depth.half(Side::Sell).len() == LEVELS),
            ("256 trades", model.trades.len() == TRADES),
            ("2,048 notices", model.notices.len() == NOTICES),
            ("1,024 changed levels", model.depth.changed.len() == CHANGED),
            ("the greatest number", model.last == u64::MAX),
            ("256 accounts", model.members.len() == OWNERS as usize),
            ("64 sessions", model.sessions.len() == SESSIONS),
        ];
        at.iter().filter(|limit| limit.1).for_each(|limit| self.meets(format!("limit {}", limit.0)));
    }

    /// What document 01 has and the run did not meet.
    pub fn missing(&self) -> Vec<String> {
        let codes = CODES.iter().flat_map(|(name, codes)| codes.iter().map(move |code| format!("{name} code {code}")));
        let kinds = KINDS.iter().flat_map(|(what, kinds)| kinds.iter().map(move |kind| format!("{what} {kind}")));
        codes.chain(kinds).filter(|what| !self.0.contains_key(what)).collect()
    }

    pub fn text(&self) -> String {
        let met: Vec<String> = self.0.iter().map(|(what, times)| format!("{what}: {times}")).collect();
        met.join(", ")
    }
}

/// What a wallet is charged for a buy, where there is a fee.
fn charge(model: &Model, call: &Call) -> Option<String> {
    let (place, price, qty) = match *call {
        Call::Receive(session, Inbound::NewOrder(NewOrder { side: Side::Buy, qty, kind: OrderKind::Limit { price, .. }, .. }), _) => {
            model.account_of(session).filter(|&account| model.has_wallet(account))?;
            ("at entry", price, qty)
        }
        Call::Deliver(_, Event::Trade { taker, maker, price, qty, .. }) => {
            let pays = |id| model.live.get(&id).is_some_and(|live| live.side == Side::Buy && model.has_wallet(live.account));
            (pays(taker) || pays(maker)).then_some(("in a trade", price, qty))?
        }
        _ => return None,
    };
    let sum = i128::from(price) + i128::from(model.fee);
    let charge = match cost(price, model.fee, qty) {
        None if i64::try_from(sum).is_ok() => "too much in all",
        None => "too much for a seat",
        Some(_) if i64::try_from(sum).is_err() => "too much for a seat, and for none",
        Some(0) => "nothing",
        Some(..0) => "less than nothing",
        Some(_) => "an amount",
    };
    (model.fee > 0).then(|| format!("charged {place} {charge}"))
}

/// The limit that refuses a call, and what it charges, told by the state before it.
pub struct Reasons {
    table: Option<&'static str>,
    charge: Option<String>,
}

impl Reasons {
    pub fn of(model: &Model, call: &Call) -> Reasons {
        let table = match call {
            Call::Receive(session, message, _) => model.account_of(*session).and_then(|account| model.no_room_for(account, message)),
            Call::Disconnect(_) => model.full(),
            Call::Deliver(number, event) if model.code(call) == Err(5) => model.no_room(*number, event),
            Call::ReplayCommand(..) if model.flights.len() >= FLIGHTS => Some("in flight"),
            Call::ReplayCommand(..) => Some("live orders"),
            _ => None,
        };
        Reasons { table, charge: charge(model, call) }
    }
}
