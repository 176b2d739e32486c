//! Values in the words of the definitions, each in parentheses where it has parts.

use calls::{Answer, Call, Listed, Mail, Seen, Start};
use gateway::accounts::{Account, Funds};
use gateway::exchange::Timing;
use gateway::wallet::Wallet;
use marketdata::Level;
use orderbook::{CancelReason, Command, Event, Phase, RejectReason, Side, TimeInForce};
use protocol::{Inbound, LevelUpdate, LoginError, LogoutReason, NewOrder, OrderKind, Outbound, RejectCode, Report, ReportKind, TradeTick};

pub trait Antt {
    fn antt(&self) -> String;
}

fn applied(name: &str, parts: &[&dyn Antt]) -> String {
    if parts.is_empty() {
        return name.to_owned();
    }
    let parts: Vec<String> = parts.iter().map(|part| part.antt()).collect();
    format!("({name} {})", parts.join(" "))
}

/// Without the parentheses around it.
fn bare(text: &str) -> &str {
    text.strip_prefix('(').and_then(|text| text.strip_suffix(')')).unwrap_or(text)
}

fn list(items: &[impl Antt]) -> String {
    if items.is_empty() {
        return "[]".to_owned();
    }
    let items: String = items.iter().map(|item| format!("{} ∷ ", bare(&item.antt()))).collect();
    format!("({items}[])")
}

calls::printed_numbers!(Antt antt: u8 u16 u32 u64 usize);

impl Antt for i64 {
    fn antt(&self) -> String {
        match self {
            0.. => format!("(pos {self})"),
            _ => format!("(negsuc {})", !self),
        }
    }
}

macro_rules! options {
    ($($part:ty, $some:literal;)*) => {
        $(impl Antt for Option<$part> {
            fn antt(&self) -> String {
                self.as_ref().map_or("None".to_owned(), |part| applied($some, &[part]))
            }
        })*
    };
}

options! {
    i64, "Some";
    u64, "Some";
    u32, "Some";
    Funds, "funds";
    Wallet, "Some";
}

// A struct is a word of the printed file's head, applied to its fields.
macro_rules! structs {
    ($($type:ty, $name:literal: $($field:ident)*;)*) => {
        $(impl Antt for $type {
            fn antt(&self) -> String {
                applied($name, &[$(&self.$field),*])
            }
        })*
    };
}

structs! {
    Timing, "timing": heartbeat idle_timeout;
    Account, "member": id token max_open_orders messages_per_second funds;
    Wallet, "balance": cash position cash_held position_held;
    protocol::Balance, "balance": cash position cash_held position_held;
    NewOrder, "order": client_ref side qty kind;
    Report, "report": seq order_id client_ref kind;
    LevelUpdate, "level": seq side price qty orders;
    TradeTick, "trade": seq trade_id side price qty;
    orderbook::Order, "L.Order": id owner side price leaves visible;
    orderbook::Stop, "L.Stop": id owner side limit qty;
}

impl Antt for Funds {
    fn antt(&self) -> String {
        format!("{} {}", self.cash.antt(), self.position.antt())
    }
}

macro_rules! enums {
    ($($type:ty, $module:literal: $($case:ident $({ $($field:ident)* })? $(($inner:ident))?),*;)*) => {
        $(impl Antt for $type {
            fn antt(&self) -> String {
                match self {
                    $(Self::$case $({ $($field),* })? $(($inner))? => {
                        applied(concat!($module, stringify!($case)), &[$($($field),*)? $($inner)?])
                    })*
                }
            }
        })*
    };
}

enums! {
    Side, "": Buy, Sell;
    TimeInForce, "Time.": Gtc, Ioc, Fok, PostOnly;
    Phase, "Phase.": Continuous, Auction, Halted, Closed;
    RejectReason, "Why.": InvalidQuantity, PriceOutOfRange, PriceOutsideProtection, DuplicateOrderId, UnknownOrder, BookFull,
        InvalidOwner, PostOnlyWouldCross, InvalidDisplay, PriceOutsideBand, StopWouldTrigger, PendingStop, AuctionCall,
        TradingHalted, MarketClosed;
    CancelReason, "Gone.": Requested, NoLiquidity, PriceProtection, SelfTrade, MassCancel, ImmediateOrCancel, FillOrKill,
        PriceBand, TradingPhase;
    LoginError, "Login.": UnsupportedVersion, BadCredentials, AlreadyLoggedIn, AlreadyInSession;
    LogoutReason, "Logout.": Requested, Idle, ProtocolError, SlowConsumer, Shutdown;
    RejectCode, "Reject.": TooManyOrders, Throttled, Unavailable, InsufficientFunds, NotAllowed, OffMarket;
    OrderKind, "Kind.": Limit { price tif display }, Market, Stop { trigger limit };
    Inbound, "In.": Login { version account token }, Logout, Heartbeat, NewOrder(order), Cancel { order_id },
        Modify { order_id price qty }, MassCancel, Subscribe;
    Command, "Cmd.": Limit { id owner side price qty tif display }, Market { id owner side qty }, Cancel { id owner },
        Modify { id owner price qty }, Stop { id owner side trigger limit qty }, CancelAll { owner }, SetPhase { phase };
    Event, "Ev.": Accepted { id }, Rejected { id reason },
        Trade { trade_id taker maker taker_side price qty taker_leaves maker_leaves }, Rested { id side price qty visible },
        Replenished { id side price visible }, Cancelled { id qty reason }, Modified { id price qty leaves },
        StopPlaced { id side trigger limit qty }, Triggered { id }, MassCancelled { owner count }, PhaseChanged { phase };
    ReportKind, "Report.": Accepted, Rejected(reason), Fill { trade_id side price qty leaves },
        Rested { side price qty visible }, Replenished { side price visible }, Cancelled { qty reason },
        Modified { price qty leaves }, StopPlaced { side trigger limit qty }, Triggered, MassCancelled { count },
        PhaseChanged(phase);
    Outbound, "Out.": LoginAccepted { account last_seq }, LoginRejected { reason }, Heartbeat, Logout { reason },
        Reject { reason client_ref }, Report(report), BookSnapshot { seq levels }, LevelUpdate(update), TradeTick(tick),
        Balance(balance);
}

impl Antt for Listed {
    fn antt(&self) -> String {
        match self {
            Listed::Order(order) => order.antt(),
            Listed::Stop(stop) => stop.antt(),
        }
    }
}

impl Antt for Mail {
    fn antt(&self) -> String {
        match self {
            Mail::Send(to, message) => applied("send", &[to, message]),
            Mail::Close(session) => applied("close", &[session]),
        }
    }
}

impl Antt for (i64, Level) {
    fn antt(&self) -> String {
        applied("at", &[&self.0, &self.1.qty, &self.1.orders])
    }
}

impl Antt for Seen {
    fn antt(&self) -> String {
        let answer = match &self {
            Seen::Code(code) => return format!("code {code}"),
            Seen::Sees(Answer::Nothing, mail) if mail.is_empty() => return "quietly".to_owned(),
            Seen::Sees(Answer::Nothing, mail) => return format!("tells {}", list(mail)),
            Seen::Sees(answer, _) => answer,
        };
        let answer = match answer {
            Answer::Nothing => unreachable!(),
            Answer::Account(account) => applied("account_was", &[account]),
            Answer::Wallet(wallet) => applied("wallet_is", &[wallet]),
            Answer::Number(number) => applied("number_is", &[number]),
            Answer::Levels(levels) => format!("(levels_are {})", list(levels)),
            Answer::Commands(commands) => format!("(commands {})", list(commands)),
            Answer::Bytes(bytes) => format!("(bytes {})", list(bytes)),
        };
        format!("answers {answer}")
    }
}

impl Antt for Start {
    fn antt(&self) -> String {
        match self {
            Start::SetUp(fee, limit, last, accounts, listing, timing) => {
                format!("set_up {} {limit} {last} {} {} {}", fee.antt(), list(accounts), list(listing), timing.antt())
            }
            Start::Restore(fee, limit, accounts, timing, bytes) => {
                format!("restore {} {limit} {} {} {}", fee.antt(), list(accounts), timing.antt(), list(bytes))
            }
        }
    }
}

/// A call with `room` places lent, where it takes a lent list.
pub fn call(call: &Call, room: usize) -> String {
    let parts: &[&dyn Antt] = match call {
        Call::AddAccount(account) => &[account],
        Call::Connect(session, now) => &[session, now],
        Call::Collar(percent) => &[percent],
        Call::Wallet(account) => &[account],
        Call::Levels(side) => &[side, &room],
        Call::Receive(session, message, now) => &[session, message, now, &room],
        Call::Tick(now) => &[now, &room],
        Call::Publish | Call::ShutDown | Call::TakeBatch | Call::Checkpoint => &[&room],
        Call::End(session, reason) => &[session, reason, &room],
        Call::Disconnect(session) | Call::Detach(session) => &[session],
        Call::Deliver(number, event) => &[number, event, &room],
        Call::ReplayCommand(number, command) => &[number, command],
        Call::ReplayEvent(number, event) => &[number, event],
        Call::Finish(listing) => return format!("finish {}", list(listing)),
        Call::LastSeq => &[],
    };
    bare(&applied(call.name(), parts)).to_owned()
}
