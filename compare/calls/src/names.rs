//! The names under which calls and messages are counted.

use std::fmt::Debug;

use protocol::{Inbound, Outbound};

use crate::call::Call;

/// The case of an enum's value.
pub fn case(value: &impl Debug) -> String {
    let text = format!("{value:?}");
    text.split(['(', ' ', '{']).next().unwrap_or_default().to_owned()
}

/// The message, event or command that a call gives.
pub fn given(call: &Call) -> Option<String> {
    Some(match call {
        Call::Receive(_, Inbound::NewOrder(order), _) => format!("receive NewOrder {}", case(&order.kind)),
        Call::Receive(_, message, _) => format!("receive {}", case(message)),
        Call::Deliver(_, event) => format!("event {}", case(event)),
        Call::ReplayEvent(_, event) => format!("replayed {}", case(event)),
        Call::ReplayCommand(_, command) => format!("replayed {}", case(command)),
        _ => return None,
    })
}

pub fn sent(message: &Outbound) -> String {
    match message {
        Outbound::Report(report) => format!("report {}", case(&report.kind)),
        Outbound::Reject { reason, .. } => format!("reject {reason:?}"),
        Outbound::LoginRejected { reason } => format!("login rejected {reason:?}"),
        Outbound::Logout { reason } => format!("logout {reason:?}"),
        // There are many of them.
        Outbound::LevelUpdate(_) => "mail LevelUpdate".to_owned(),
        message => format!("mail {}", case(message)),
    }
}
