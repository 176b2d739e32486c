//! Values as rows of little-endian words of 64 bits, which is how they reach the library and come from it. Each type has its one place here;
//! include/rowanchess.h has the same layouts in words. A signed number is its two's complement. An option is a flag and a value.

use crate::accounts::Account;
use crate::exchange::{Checkpoint, Mail, SavedOrder, SavedWallet, SessionId};
use crate::marketdata::Level;
use crate::orderbook::{CancelReason, Command, Event, Listed, Phase, Price, RejectReason, Side, TimeInForce};
use crate::protocol::{
    Balance, Inbound, LevelUpdate, LoginError, LogoutReason, NewOrder, OrderKind, Outbound, RejectCode, Report,
    ReportKind, TradeTick,
};

/// A message, or an event: its kind, then its fields.
pub const MESSAGE: usize = 128;
/// A piece of mail: the session, its kind, its fields; or a command.
pub const MAIL: usize = 96;
pub const ACCOUNT: usize = 56;
pub const LISTED: usize = 64;
pub const LEVEL: usize = 24;

/// A row that begins with `words` and has 0 behind them.
#[inline]
fn row<const BYTES: usize>(words: &[u64]) -> [u8; BYTES] {
    let mut row = [0; BYTES];
    for (at, word) in row.as_chunks_mut().0.iter_mut().zip(words) {
        *at = word.to_le_bytes();
    }
    row
}

#[inline]
fn word(row: &[u8], i: usize) -> u64 {
    u64::from_le_bytes(row.as_chunks().0[i])
}

#[inline]
fn signed(row: &[u8], i: usize) -> i64 {
    word(row, i) as i64
}

/// A word that the library says is of 32 bits.
#[inline]
fn small(row: &[u8], i: usize) -> u32 {
    word(row, i) as u32
}

#[inline]
fn option<T>(value: Option<T>, word: impl Fn(T) -> u64) -> [u64; 2] {
    value.map_or([0, 0], |value| [1, word(value)])
}

#[inline]
fn price_option(price: Option<Price>) -> [u64; 2] {
    option(price, |price| price as u64)
}

#[inline]
fn maybe(row: &[u8], i: usize) -> Option<u64> {
    (word(row, i) != 0).then(|| word(row, i + 1))
}

#[inline]
fn maybe_price(row: &[u8], i: usize) -> Option<Price> {
    maybe(row, i).map(|word| word as Price)
}

// ---- codes

/// An enum without data, by the numbers of its cases.
pub trait Code: Copy + 'static {
    /// Each case with its name.
    #[cfg(test)]
    const CASES: &[(&str, Self)];
    fn code(self) -> u64;
    fn of(code: u64) -> Self;
}

#[cold]
fn stray(what: &str, code: u64) -> ! {
    panic!("the library's contract has no {what} of code {code}")
}

macro_rules! codes {
    ($kind:ident, [$($case:ident = $code:literal),* $(,)?]) => {
        impl Code for $kind {
            #[cfg(test)]
            const CASES: &[(&str, $kind)] = &[$((stringify!($case), $kind::$case)),*];

            #[inline]
            fn code(self) -> u64 {
                match self {
                    $($kind::$case => $code,)*
                }
            }

            #[inline]
            fn of(code: u64) -> $kind {
                match code {
                    $($code => $kind::$case,)*
                    _ => stray(stringify!($kind), code),
                }
            }
        }
    };
}

codes!(Side, [Buy = 0, Sell = 1]);
codes!(TimeInForce, [Gtc = 0, Ioc = 1, Fok = 2, PostOnly = 3]);
codes!(Phase, [Continuous = 0, Auction = 1, Halted = 2, Closed = 3]);
codes!(LoginError, [UnsupportedVersion = 1, BadCredentials = 2, AlreadyLoggedIn = 3, AlreadyInSession = 4]);
codes!(LogoutReason, [Requested = 1, Idle = 2, ProtocolError = 3, SlowConsumer = 4, Shutdown = 5]);
codes!(
    RejectCode,
    [TooManyOrders = 1, Throttled = 2, Unavailable = 3, InsufficientFunds = 4, NotAllowed = 5, OffMarket = 6,]
);
codes!(
    RejectReason,
    [
        InvalidQuantity = 1,
        PriceOutOfRange = 2,
        PriceOutsideProtection = 3,
        DuplicateOrderId = 4,
        UnknownOrder = 5,
        BookFull = 6,
        InvalidOwner = 7,
        PostOnlyWouldCross = 8,
        InvalidDisplay = 9,
        PriceOutsideBand = 10,
        StopWouldTrigger = 11,
        PendingStop = 12,
        AuctionCall = 13,
        TradingHalted = 14,
        MarketClosed = 15,
    ]
);
codes!(
    CancelReason,
    [
        Requested = 1,
        NoLiquidity = 2,
        PriceProtection = 3,
        SelfTrade = 4,
        MassCancel = 5,
        ImmediateOrCancel = 6,
        FillOrKill = 7,
        PriceBand = 8,
        TradingPhase = 9,
    ]
);

#[inline]
fn side(row: &[u8], i: usize) -> Side {
    Side::of(word(row, i))
}

// ---- what goes in

pub fn account(account: &Account) -> [u8; ACCOUNT] {
    let (there, cash, position) = match account.funds {
        Some(funds) => (1, funds.cash, funds.position),
        None => (0, 0, 0),
    };
    row(&[
        account.id.into(),
        account.token,
        account.max_open_orders.into(),
        account.messages_per_second.into(),
        there,
        cash as u64,
        position as u64,
    ])
}

pub fn accounts(accounts: &[Account]) -> Vec<u8> {
    accounts.iter().flat_map(account).collect()
}

fn listed(entry: &Listed) -> [u8; LISTED] {
    match *entry {
        Listed::Order { id, owner, side, price, leaves, visible } => {
            row(&[0, id, owner.into(), side.code(), 1, price as u64, leaves, visible])
        }
        Listed::Stop { id, owner, side, limit, qty } => {
            let [limited, limit] = price_option(limit);
            row(&[1, id, owner.into(), side.code(), limited, limit, qty])
        }
    }
}

pub fn listing(book: &[Listed]) -> Vec<u8> {
    book.iter().flat_map(listed).collect()
}

fn new_order(order: NewOrder) -> [u8; MESSAGE] {
    let (client_ref, side, qty) = (order.client_ref, order.side.code(), order.qty);
    match order.kind {
        OrderKind::Limit { price, tif, display } => {
            let [displayed, display] = option(display, |qty| qty);
            row(&[3, client_ref, side, qty, 0, price as u64, tif.code(), displayed, display])
        }
        OrderKind::Market => row(&[3, client_ref, side, qty, 1]),
        OrderKind::Stop { trigger, limit } => {
            let [limited, limit] = price_option(limit);
            row(&[3, client_ref, side, qty, 2, trigger as u64, limited, limit])
        }
    }
}

#[inline]
pub fn message(message: Inbound) -> [u8; MESSAGE] {
    match message {
        Inbound::Login { version, account, token } => row(&[0, version.into(), account.into(), token]),
        Inbound::Logout => row(&[1]),
        Inbound::Heartbeat => row(&[2]),
        Inbound::NewOrder(order) => new_order(order),
        Inbound::Cancel { order_id } => row(&[4, order_id]),
        Inbound::Modify { order_id, price, qty } => row(&[5, order_id, price as u64, qty]),
        Inbound::MassCancel => row(&[6]),
        Inbound::Subscribe => row(&[7]),
    }
}

#[inline]
pub fn event(event: Event) -> [u8; MESSAGE] {
    match event {
        Event::Accepted { id } => row(&[0, id]),
        Event::Rejected { id, reason } => row(&[1, id, reason.code()]),
        Event::Trade { trade_id, taker, maker, taker_side, price, qty, taker_leaves, maker_leaves } => {
            row(&[2, trade_id, taker, maker, taker_side.code(), price as u64, qty, taker_leaves, maker_leaves])
        }
        Event::Rested { id, side, price, qty, visible } => row(&[3, id, side.code(), price as u64, qty, visible]),
        Event::Replenished { id, side, price, visible } => row(&[4, id, side.code(), price as u64, visible]),
        Event::Cancelled { id, qty, reason } => row(&[5, id, qty, reason.code()]),
        Event::Modified { id, price, qty, leaves } => row(&[6, id, price as u64, qty, leaves]),
        Event::StopPlaced { id, side, trigger, limit, qty } => {
            let [limited, limit] = price_option(limit);
            row(&[7, id, side.code(), trigger as u64, limited, limit, qty])
        }
        Event::Triggered { id } => row(&[8, id]),
        Event::MassCancelled { owner, count } => row(&[9, owner.into(), count.into()]),
        Event::PhaseChanged { phase } => row(&[10, phase.code()]),
    }
}

/// Kind, id, owner, side (of a phase change: its phase), price, quantity, time in force, display (2 words), trigger, limit (2 words).
pub fn command(command: Command) -> [u8; MAIL] {
    match command {
        Command::Limit { id, owner, side, price, qty, tif, display } => {
            let [displayed, display] = option(display, |qty| qty);
            row(&[0, id, owner.into(), side.code(), price as u64, qty, tif.code(), displayed, display])
        }
        Command::Market { id, owner, side, qty } => row(&[1, id, owner.into(), side.code(), 0, qty]),
        Command::Cancel { id, owner } => row(&[2, id, owner.into()]),
        Command::Modify { id, owner, price, qty } => row(&[3, id, owner.into(), 0, price as u64, qty]),
        Command::Stop { id, owner, side, trigger, limit, qty } => {
            let [limited, limit] = price_option(limit);
            row(&[4, id, owner.into(), side.code(), 0, qty, 0, 0, 0, trigger as u64, limited, limit])
        }
        Command::CancelAll { owner } => row(&[5, 0, owner.into()]),
        Command::SetPhase { phase } => row(&[6, 0, 0, phase.code()]),
    }
}

// ---- what comes out

/// A row of the batch, which has no phase changes.
pub fn command_of(row: &[u8; MAIL]) -> Command {
    let (id, owner, price, qty) = (word(row, 1), small(row, 2), signed(row, 4), word(row, 5));
    match word(row, 0) {
        0 => Command::Limit {
            id,
            owner,
            side: side(row, 3),
            price,
            qty,
            tif: TimeInForce::of(word(row, 6)),
            display: maybe(row, 7),
        },
        1 => Command::Market { id, owner, side: side(row, 3), qty },
        2 => Command::Cancel { id, owner },
        3 => Command::Modify { id, owner, price, qty },
        4 => Command::Stop { id, owner, side: side(row, 3), trigger: signed(row, 9), limit: maybe_price(row, 10), qty },
        5 => Command::CancelAll { owner },
        kind => stray("command", kind),
    }
}

#[inline]
fn report_kind(row: &[u8; MAIL]) -> ReportKind {
    match word(row, 5) {
        0 => ReportKind::Accepted,
        1 => ReportKind::Rejected(RejectReason::of(word(row, 6))),
        2 => ReportKind::Fill {
            trade_id: word(row, 6),
            side: side(row, 7),
            price: signed(row, 8),
            qty: word(row, 9),
            leaves: word(row, 10),
        },
        3 => ReportKind::Rested { side: side(row, 6), price: signed(row, 7), qty: word(row, 8), visible: word(row, 9) },
        4 => ReportKind::Replenished { side: side(row, 6), price: signed(row, 7), visible: word(row, 8) },
        5 => ReportKind::Cancelled { qty: word(row, 6), reason: CancelReason::of(word(row, 7)) },
        6 => ReportKind::Modified { price: signed(row, 6), qty: word(row, 7), leaves: word(row, 8) },
        7 => ReportKind::StopPlaced {
            side: side(row, 6),
            trigger: signed(row, 7),
            limit: maybe_price(row, 8),
            qty: word(row, 10),
        },
        8 => ReportKind::Triggered,
        9 => ReportKind::MassCancelled { count: small(row, 6) },
        10 => ReportKind::PhaseChanged(Phase::of(word(row, 6))),
        kind => stray("report", kind),
    }
}

/// Whose mail it is.
#[inline]
pub fn session_of(row: &[u8; MAIL]) -> SessionId {
    word(row, 0) as usize
}

#[inline]
pub fn is_close(row: &[u8; MAIL]) -> bool {
    word(row, 1) == 0
}

/// The message of a row that is no close.
#[inline]
pub fn message_of(row: &[u8; MAIL]) -> Outbound {
    match word(row, 1) {
        1 => Outbound::LoginAccepted { account: small(row, 2), last_seq: word(row, 3) },
        2 => Outbound::LoginRejected { reason: LoginError::of(word(row, 2)) },
        3 => Outbound::Heartbeat,
        4 => Outbound::Logout { reason: LogoutReason::of(word(row, 2)) },
        5 => Outbound::Reject { reason: RejectCode::of(word(row, 2)), client_ref: word(row, 3) },
        6 => Outbound::Report(Report {
            seq: word(row, 2),
            order_id: word(row, 3),
            client_ref: word(row, 4),
            kind: report_kind(row),
        }),
        7 => Outbound::BookSnapshot { seq: word(row, 2), levels: small(row, 3) },
        8 => Outbound::LevelUpdate(LevelUpdate {
            seq: word(row, 2),
            side: side(row, 3),
            price: signed(row, 4),
            qty: word(row, 5),
            orders: small(row, 6),
        }),
        9 => Outbound::TradeTick(TradeTick {
            seq: word(row, 2),
            trade_id: word(row, 3),
            side: side(row, 4),
            price: signed(row, 5),
            qty: word(row, 6),
        }),
        10 => Outbound::Balance(Balance {
            cash: signed(row, 2),
            position: signed(row, 3),
            cash_held: signed(row, 4),
            position_held: signed(row, 5),
        }),
        kind => stray("message", kind),
    }
}

pub fn mail_of(row: &[u8; MAIL]) -> Mail {
    if is_close(row) {
        return Mail::Close(session_of(row));
    }
    Mail::Send(session_of(row), message_of(row))
}

pub fn level_of(row: [u8; LEVEL]) -> (Price, Level) {
    (signed(&row, 0), Level { qty: word(&row, 1), orders: small(&row, 2) })
}

// ---- a checkpoint's bytes: document 01, "Checkpoint bytes"

pub fn checkpoint(saved: &Checkpoint) -> Vec<u8> {
    let [marked, mark] = price_option(saved.market_price);
    let mut bytes = Vec::with_capacity(25 + 20 * saved.wallets.len() + 37 * saved.orders.len());
    bytes.extend(saved.seq.to_le_bytes());
    bytes.push(marked as u8);
    bytes.extend(mark.to_le_bytes());
    bytes.extend((saved.wallets.len() as u32).to_le_bytes());
    for wallet in &saved.wallets {
        bytes.extend(wallet.account.to_le_bytes());
        bytes.extend(wallet.cash.to_le_bytes());
        bytes.extend(wallet.position.to_le_bytes());
    }
    bytes.extend((saved.orders.len() as u32).to_le_bytes());
    for order in &saved.orders {
        let [priced, price] = price_option(order.price);
        bytes.extend(order.id.to_le_bytes());
        bytes.extend(order.account.to_le_bytes());
        bytes.extend(order.client_ref.to_le_bytes());
        bytes.push(u8::from(order.buy) | (priced as u8) << 1);
        bytes.extend(price.to_le_bytes());
        bytes.extend(order.leaves.to_le_bytes());
    }
    bytes
}

/// What is left to read.
struct Bytes<'a>(&'a [u8]);

impl Bytes<'_> {
    fn take<const N: usize>(&mut self) -> [u8; N] {
        let (taken, rest) = self.0.split_first_chunk().expect("bytes of a checkpoint");
        self.0 = rest;
        *taken
    }

    fn long(&mut self) -> u64 {
        u64::from_le_bytes(self.take())
    }

    fn short(&mut self) -> u32 {
        u32::from_le_bytes(self.take())
    }

    fn signed(&mut self) -> i64 {
        self.long() as i64
    }

    fn price(&mut self, there: bool) -> Option<Price> {
        let price = self.signed();
        there.then_some(price)
    }
}

/// Of bytes that the library wrote.
pub fn checkpoint_of(bytes: &[u8]) -> Checkpoint {
    let mut from = Bytes(bytes);
    let seq = from.long();
    let [marked] = from.take();
    let market_price = from.price(marked == 1);
    let wallet = |from: &mut Bytes| SavedWallet { account: from.short(), cash: from.signed(), position: from.signed() };
    let wallets = (0..from.short()).map(|_| wallet(&mut from)).collect();
    let order = |from: &mut Bytes| {
        let (id, account, client_ref) = (from.long(), from.short(), from.long());
        let [flags] = from.take();
        let price = from.price(flags & 2 != 0);
        let (buy, leaves) = (flags & 1 != 0, from.long());
        SavedOrder { id, account, client_ref, buy, price, leaves }
    };
    let orders = (0..from.short()).map(|_| order(&mut from)).collect();
    Checkpoint { seq, wallets, orders, market_price }
}

#[cfg(test)]
mod tests {
    use super::*;
    use crate::refusal::Refusal;
    use crate::sys::STATE;

    /// The numbers that the C header gives its names.
    fn header(name: &str) -> u64 {
        let header = include_str!("../../include/rowanchess.h");
        let words: Vec<&str> = header.split(|c: char| !(c.is_alphanumeric() || c == '_')).collect();
        let words: Vec<&str> = words.into_iter().filter(|word| !word.is_empty()).collect();
        let defined = words.windows(2).filter(|pair| pair[0] == name);
        let numbers: Vec<u64> = defined.filter_map(|pair| pair[1].parse().ok()).collect();
        assert_eq!(numbers.len(), 1, "{name} in the header");
        numbers[0]
    }

    /// `TooManyOrders` as `TOO_MANY_ORDERS`.
    fn upper(name: &str) -> String {
        let mut upper = String::new();
        for (at, c) in name.char_indices() {
            if at > 0 && c.is_uppercase() {
                upper.push('_');
            }
            upper.push(c.to_ascii_uppercase());
        }
        upper
    }

    fn same_codes<T: Code + PartialEq + std::fmt::Debug>(prefix: &str) {
        for &(name, case) in T::CASES {
            assert_eq!(T::of(case.code()), case);
            assert_eq!(header(&format!("ROWANCHESS_{prefix}{}", upper(name))), case.code());
        }
    }

    #[test]
    fn codes_are_the_headers() {
        same_codes::<Side>("");
        same_codes::<TimeInForce>("");
        same_codes::<Phase>("");
        same_codes::<LoginError>("LOGIN_");
        same_codes::<LogoutReason>("LOGOUT_");
        same_codes::<RejectCode>("REJECT_");
        same_codes::<RejectReason>("REASON_");
        same_codes::<CancelReason>("CANCEL_");
        for code in (1..=12).chain([15]) {
            let refusal = Refusal::of(code).expect("a refusal");
            assert_eq!(u64::from(refusal.code()), code);
            assert_eq!(header(&format!("ROWANCHESS_{}", upper(&format!("{refusal:?}")))), code);
        }
        for code in [0, 13, 14, 16] {
            assert_eq!(Refusal::of(code), None);
        }
    }

    /// The header's number for the case of `value`.
    fn kind(prefix: &str, value: impl std::fmt::Debug) -> u64 {
        let text = format!("{value:?}");
        let name = text.split(|c: char| !c.is_alphanumeric()).next().expect("a name");
        header(&format!("ROWANCHESS_{prefix}_{}", upper(name)))
    }

    #[test]
    fn kinds_are_the_headers() {
        let (id, owner, side, price, qty, reason) = (5, 1, Side::Sell, 2, 3, CancelReason::Requested);
        let (leaves, visible, trigger, limit, phase) = (3, 3, 2, None, Phase::Closed);
        let (taker, maker, taker_side, taker_leaves, maker_leaves) = (id, 4, side, 0, 0);
        let order = |kind| NewOrder { client_ref: 1, side, qty, kind };
        let tif = TimeInForce::Gtc;
        let order_kinds =
            [OrderKind::Limit { price, tif, display: None }, OrderKind::Market, OrderKind::Stop { trigger, limit }];
        for known in order_kinds {
            assert_eq!(kind("ORDER", known), word(&new_order(order(known)), 4));
        }
        let messages = [
            Inbound::Login { version: 1, account: 1, token: 1 },
            Inbound::Logout,
            Inbound::Heartbeat,
            Inbound::NewOrder(order(OrderKind::Market)),
            Inbound::Cancel { order_id: id },
            Inbound::Modify { order_id: id, price, qty },
            Inbound::MassCancel,
            Inbound::Subscribe,
        ];
        for known in messages {
            assert_eq!(kind("MESSAGE", known), word(&message(known), 0));
        }
        let events = [
            Event::Accepted { id },
            Event::Rejected { id, reason: RejectReason::BookFull },
            Event::Trade { trade_id: 1, taker, maker, taker_side, price, qty, taker_leaves, maker_leaves },
            Event::Rested { id, side, price, qty, visible },
            Event::Replenished { id, side, price, visible },
            Event::Cancelled { id, qty, reason },
            Event::Modified { id, price, qty, leaves },
            Event::StopPlaced { id, side, trigger, limit, qty },
            Event::Triggered { id },
            Event::MassCancelled { owner, count: 1 },
            Event::PhaseChanged { phase },
        ];
        for known in events {
            assert_eq!(kind("EVENT", known), word(&event(known), 0));
        }
        let commands = [
            Command::Limit { id, owner, side, price, qty, tif, display: None },
            Command::Market { id, owner, side, qty },
            Command::Cancel { id, owner },
            Command::Modify { id, owner, price, qty },
            Command::Stop { id, owner, side, trigger, limit, qty },
            Command::CancelAll { owner },
            Command::SetPhase { phase },
        ];
        for known in commands {
            assert_eq!(kind("COMMAND", known), word(&command(known), 0));
        }
        for known in
            [Listed::Order { id, owner, side, price, leaves, visible }, Listed::Stop { id, owner, side, limit, qty }]
        {
            assert_eq!(kind("LISTED", known), word(&listed(&known), 0));
        }
        // 1 is a code of everything that these rows have.
        for number in 1..=10 {
            let Mail::Send(1, message) = mail_of(&row(&[1, number, 1, 1, 1, 1, 1])) else { panic!("a message") };
            assert_eq!(kind("MAIL", message), number);
        }
        assert_eq!(mail_of(&row(&[1, header("ROWANCHESS_MAIL_CLOSE")])), Mail::Close(1));
        for number in 0..=10 {
            let report = report_kind(&row(&[1, 6, 1, 1, 1, number, 1, 1, 1, 1, 1]));
            assert_eq!(kind("REPORT", report), number);
        }
    }

    #[test]
    fn sizes_are_the_headers() {
        let sizes = [
            ("STATE", STATE),
            ("MESSAGE", MESSAGE),
            ("EVENT", MESSAGE),
            ("MAIL", MAIL),
            ("COMMAND", MAIL),
            ("ACCOUNT", ACCOUNT),
            ("LISTED", LISTED),
            ("LEVEL", LEVEL),
            ("CHECKPOINT", 25 + 20 * 256 + 37 * 1_024),
        ];
        for (name, size) in sizes {
            assert_eq!(header(&format!("ROWANCHESS_{name}")), size as u64);
        }
    }

    #[test]
    fn commands_come_back() {
        let (id, owner, side, price, qty) = (5, u32::MAX, Side::Sell, i64::MIN, u64::MAX);
        let (trigger, tif) = (-1, TimeInForce::PostOnly);
        let commands = [
            Command::Limit { id, owner, side, price, qty, tif, display: Some(0) },
            Command::Limit { id, owner, side, price, qty, tif: TimeInForce::Gtc, display: None },
            Command::Market { id, owner, side, qty },
            Command::Cancel { id, owner },
            Command::Modify { id, owner, price, qty },
            Command::Stop { id, owner, side, trigger, limit: None, qty },
            Command::Stop { id, owner, side, trigger, limit: Some(-7), qty },
            Command::CancelAll { owner },
        ];
        for known in commands {
            assert_eq!(command_of(&command(known)), known);
        }
    }

    #[test]
    fn checkpoints_come_back() {
        let wallet = |account| SavedWallet { account, cash: i64::MIN, position: -1 };
        let order = |id, buy, price| SavedOrder { id, account: 3, client_ref: u64::MAX, buy, price, leaves: 9 };
        let saved = Checkpoint {
            seq: u64::MAX,
            wallets: vec![wallet(0), wallet(7)],
            orders: vec![order(1, true, Some(-4)), order(2, false, None), order(8, true, None)],
            market_price: Some(i64::MIN),
        };
        assert_eq!(checkpoint_of(&checkpoint(&saved)), saved);
        let empty = Checkpoint { seq: 0, wallets: vec![], orders: vec![], market_price: None };
        assert_eq!(checkpoint(&empty), [0; 25]);
        assert_eq!(checkpoint_of(&[0; 25]), empty);
    }
}
