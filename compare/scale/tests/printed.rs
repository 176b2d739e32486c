//! Lists that once showed a difference, as `scale` prints them. The first one was shown by a model that had `covers` wrong.

#![allow(unused_imports)]

use calls::{Call, Listed, Start};
use gateway::accounts::{Account, Funds};
use gateway::exchange::Timing;
use orderbook::{CancelReason, Command, Event, Order, Phase, RejectReason, Side, Stop, TimeInForce};
use protocol::{Inbound, LogoutReason, NewOrder, OrderKind};
use scale::Step;

#[test]
fn a_wallet_covers_all_that_it_has() {
    let start = Start::SetUp(0, 4, 6, vec![Account { id: 0, token: 7, max_open_orders: 9, messages_per_second: 9, funds: Some(Funds { cash: 1484, position: 1 }) }], vec![], Timing { heartbeat: 4, idle_timeout: 12 });
    let steps = vec![
        Step::Make(Call::Connect(1, 5000000021), 0),
        Step::Make(Call::Receive(1, Inbound::Login { version: 1, account: 0, token: 7 }, 5000000024), 4),
        Step::Make(Call::Receive(1, Inbound::NewOrder(NewOrder { client_ref: 87, side: Side::Sell, qty: 1, kind: OrderKind::Limit { price: 97, tif: TimeInForce::PostOnly, display: None } }), 5000000032), 4),
    ];
    assert_eq!(scale::replay(&start, &steps), Ok(()));
}
