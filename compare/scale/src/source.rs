//! Lists as Rust source, for a test.

use calls::{Call, Listed, Start};
use gateway::accounts::{Account, Funds};
use gateway::exchange::{Checkpoint, SavedOrder, SavedWallet, Timing};
use gateway::wallet::Wallet;
use marketdata::Level;
use orderbook::{CancelReason, Command, Event, Order, Phase, RejectReason, Side, Stop, TimeInForce};
use protocol::{
    Balance, Inbound, LevelUpdate, LoginError, LogoutReason, NewOrder, OrderKind, Outbound, RejectCode, Report, ReportKind, TradeTick,
};

use crate::play::Step;

pub trait Source {
    fn source(&self) -> String;
}

calls::printed_numbers!(Source source: bool u8 u16 u32 u64 usize i64);

impl<T: Source> Source for Option<T> {
    fn source(&self) -> String {
        self.as_ref().map_or("None".to_owned(), |part| format!("Some({})", part.source()))
    }
}

impl<T: Source> Source for Vec<T> {
    fn source(&self) -> String {
        let items: Vec<String> = self.iter().map(Source::source).collect();
        format!("vec![{}]", items.join(", "))
    }
}

/// A value by its name, and its fields or its one part.
fn named(name: &str, fields: &[(&str, String)], part: Option<String>) -> String {
    let fields: Vec<String> = fields.iter().map(|(field, value)| format!("{field}: {value}")).collect();
    match part {
        Some(part) => format!("{name}({part})"),
        None if fields.is_empty() => name.to_owned(),
        None => format!("{name} {{ {} }}", fields.join(", ")),
    }
}

macro_rules! enums {
    ($($module:ident $type:ident: $($case:ident $({ $($field:ident)* })? $(($inner:ident))?),*;)*) => {
        $(impl Source for $type {
            fn source(&self) -> String {
                match self {
                    $($type::$case $({ $($field),* })? $(($inner))? => {
                        let part: &[String] = &[$($inner.source())?];
                        let fields: &[(&str, String)] = &[$($((stringify!($field), $field.source())),*)?];
                        named(concat!(stringify!($type), "::", stringify!($case)), fields, part.first().cloned())
                    })*
                }
            }
        })*
    };
}

macro_rules! structs {
    ($($module:ident $type:ident: $($field:ident)*;)*) => {
        $(impl Source for $type {
            fn source(&self) -> String {
                named(stringify!($type), &[$((stringify!($field), self.$field.source())),*], None)
            }
        })*
    };
}

calls::published_enums!(enums);
calls::published_structs!(structs);

structs! {
    orderbook Order: id owner side price visible leaves;
    orderbook Stop: id owner side limit qty;
}

impl Source for Listed {
    fn source(&self) -> String {
        match self {
            Listed::Order(order) => format!("Listed::Order({})", order.source()),
            Listed::Stop(stop) => format!("Listed::Stop({})", stop.source()),
        }
    }
}

/// A case with unnamed parts.
fn applied(name: &str, parts: &[&dyn Source]) -> String {
    let parts: Vec<String> = parts.iter().map(|part| part.source()).collect();
    if parts.is_empty() { name.to_owned() } else { format!("{name}({})", parts.join(", ")) }
}

impl Source for Start {
    fn source(&self) -> String {
        match self {
            Start::SetUp(fee, limit, last, accounts, listing, timing) => {
                applied("Start::SetUp", &[fee, limit, last, accounts, listing, timing])
            }
            Start::Restore(fee, limit, accounts, timing, bytes) => applied("Start::Restore", &[fee, limit, accounts, timing, bytes]),
        }
    }
}

impl Source for Call {
    fn source(&self) -> String {
        let (name, parts): (&str, &[&dyn Source]) = match self {
            Call::AddAccount(account) => ("AddAccount", &[account]),
            Call::Connect(session, now) => ("Connect", &[session, now]),
            Call::Collar(percent) => ("Collar", &[percent]),
            Call::Wallet(account) => ("Wallet", &[account]),
            Call::LastSeq => ("LastSeq", &[]),
            Call::Levels(side) => ("Levels", &[side]),
            Call::Receive(session, message, now) => ("Receive", &[session, message, now]),
            Call::Tick(now) => ("Tick", &[now]),
            Call::Publish => ("Publish", &[]),
            Call::End(session, reason) => ("End", &[session, reason]),
            Call::ShutDown => ("ShutDown", &[]),
            Call::Disconnect(session) => ("Disconnect", &[session]),
            Call::Detach(session) => ("Detach", &[session]),
            Call::TakeBatch => ("TakeBatch", &[]),
            Call::Deliver(number, event) => ("Deliver", &[number, event]),
            Call::ReplayCommand(number, command) => ("ReplayCommand", &[number, command]),
            Call::ReplayEvent(number, event) => ("ReplayEvent", &[number, event]),
            Call::Finish(listing) => ("Finish", &[listing]),
            Call::Checkpoint => ("Checkpoint", &[]),
        };
        applied(&format!("Call::{name}"), parts)
    }
}

impl Source for Step {
    fn source(&self) -> String {
        match self {
            Step::Make(call, room) => applied("Step::Make", &[call, room]),
            Step::Begin(start) => applied("Step::Begin", &[start]),
            Step::Restart(timing) => applied("Step::Restart", &[timing]),
            Step::Finish => "Step::Finish".to_owned(),
            Step::Drain => "Step::Drain".to_owned(),
        }
    }
}

/// A test that the list passes once there is no difference.
pub fn test(start: &Start, steps: &[Step], what: &str) -> String {
    let steps: String = steps.iter().map(|step| format!("        {},\n", step.source())).collect();
    format!(
        "/// {what}\n#[test]\nfn no_difference() {{\n    let start = {};\n    let steps = vec![\n{steps}    ];\n    assert_eq!(scale::replay(&start, &steps), Ok(()));\n}}",
        start.source()
    )
}
