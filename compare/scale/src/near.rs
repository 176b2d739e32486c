//! Lists that begin near one of document 01's limits, and dwell there.

use calls::depth::{CHANGED, LEVELS, ORDERS};
use calls::draw::Theme;
use calls::state::{BATCH, FLIGHTS, LIVE, NOTICES, OWNERS, SESSIONS, TRADES};
use calls::{Call, Draw, Listed, Model, Start, bytes};
use gateway::accounts::{Account, Funds};
use gateway::exchange::{Checkpoint, SavedOrder, SavedWallet, Timing};
use orderbook::{CancelReason, Command, Event, Order, OrderId, Phase, Side, Stop, TimeInForce};
use protocol::{Inbound, VERSION};

#[derive(Clone, Copy, Debug, PartialEq)]
pub enum Near {
    Flights,
    Batch,
    Live,
    /// Live orders and commands in flight of a gateway that replays.
    Replay,
    Orders,
    Levels,
    Changed,
    Trades,
    Notices,
    Greatest,
    Accounts,
    Sessions,
    /// Hold totals and level quantities near the ends of their types.
    Totals,
}

pub const ALL: [Near; 13] = [
    Near::Flights,
    Near::Batch,
    Near::Live,
    Near::Replay,
    Near::Orders,
    Near::Levels,
    Near::Changed,
    Near::Trades,
    Near::Notices,
    Near::Greatest,
    Near::Accounts,
    Near::Sessions,
    Near::Totals,
];

/// The last number of most of these starts: order numbers below it are free for events.
const LAST: u64 = 3000;

/// Numbers whose sums and products come to the ends of their types.
const PRICES: [i64; 12] = [1, 1, -1, 3, 100, 1 << 61, 1 << 62, 1 << 62, -(1 << 62), i64::MAX, i64::MIN, i64::MAX / 2];
const AMOUNTS: [u64; 10] = [0, 1, 1, 2, 3, 1 << 62, 1 << 62, i64::MAX as u64, 1 << 63, u64::MAX];

const SILENCE: Timing = Timing { heartbeat: 1_000_000_000, idle_timeout: 5_000_000_000 };

/// A number just below `limit`, or it.
fn nearly(draw: &mut Draw, limit: usize) -> usize {
    limit - draw.below(9) as usize
}

/// Accounts that little but a limit refuses: the odd ones have wallets.
fn accounts(draw: &mut Draw, count: u32) -> Vec<Account> {
    let account = |id: u32| {
        let paper = id % 2 == 1;
        Account {
            id,
            token: u64::from(id) + 7,
            max_open_orders: if draw.chance(90) { u32::MAX } else { 2 },
            messages_per_second: if paper && draw.chance(20) { 3 } else { u32::MAX },
            funds: paper.then_some(Funds { cash: 1 << 50, position: 1 << 50 }),
        }
    };
    (0..count).map(account).collect()
}

fn login(draw: &mut Draw, session: usize, account: u32) {
    draw.plan_login(session, Inbound::Login { version: VERSION, account, token: u64::from(account) + 7 });
}

/// Logged in, with a command in flight; some subscribe.
fn members(draw: &mut Draw) {
    for account in 0..2 {
        login(draw, account as usize + 1, account);
        if draw.chance(40) {
            let subscribe = Call::Receive(account as usize + 1, Inbound::Subscribe, draw.time());
            draw.planned.push_back(subscribe);
        }
    }
    let command = Call::Receive(1, Inbound::MassCancel, draw.time());
    draw.planned.push_back(command);
}

fn stop(draw: &mut Draw, id: OrderId, owner: u32) -> Listed {
    Listed::Stop(Stop { id, owner, side: draw.side(), limit: draw.chance(50).then_some(100), qty: 1 + draw.below(5) })
}

fn order(draw: &mut Draw, id: OrderId, side: Side, price: i64) -> Listed {
    let leaves = 1 + draw.below(5);
    Listed::Order(Order { id, owner: draw.below(4) as u32, side, price, visible: 1 + draw.below(leaves), leaves })
}

fn listing(draw: &mut Draw, near: Near) -> Vec<Listed> {
    let count = match near {
        Near::Live => nearly(draw, LIVE),
        Near::Orders | Near::Changed => nearly(draw, ORDERS),
        Near::Levels => nearly(draw, LEVELS),
        _ => draw.below(4) as usize,
    };
    // Some starts are past the limit.
    let count = if matches!(near, Near::Live | Near::Levels) && draw.chance(8) { count + 9 } else { count };
    let only = draw.side();
    let mut entry = |at: usize| {
        let (id, price) = (at as u64 + 1, at as i64 / 2 + 100);
        match near {
            Near::Live if at % 3 > 0 => {
                let owner = draw.below(4) as u32;
                stop(draw, id, owner)
            }
            Near::Live => {
                let side = draw.side();
                order(draw, id, side, 97 + at as i64 % 300)
            }
            Near::Totals => {
                let (owner, side, price, leaves) = (1 + 2 * draw.below(2) as u32, draw.side(), draw.pick(&PRICES), draw.pick(&AMOUNTS));
                let visible = draw.pick(&AMOUNTS);
                Listed::Order(Order { id, owner, side, price, visible, leaves })
            }
            Near::Levels => order(draw, id, only, at as i64),
            Near::Orders => order(draw, id, if at % 2 == 0 { Side::Buy } else { Side::Sell }, 90 + at as i64 % 40),
            _ => order(draw, id, if at % 2 == 0 { Side::Buy } else { Side::Sell }, price),
        }
    };
    let mut entries: Vec<Listed> = (0..count).map(&mut entry).collect();
    draw.shuffle(&mut entries);
    entries
}

/// Bytes with orders that hold, nearly as many as there may be.
fn saved(draw: &mut Draw, near: Near) -> Vec<u8> {
    let totals = near == Near::Totals;
    let count = if totals { draw.below(4) } else { nearly(draw, LIVE) as u64 };
    let order = |at: u64| SavedOrder {
        id: at + 1,
        account: if draw.chance(95) { 1 + 2 * draw.below(2) as u32 } else { 0 },
        client_ref: 70 + at,
        buy: draw.chance(50),
        price: Some(if totals { draw.pick(&PRICES) } else { 97 + draw.below(6) as i64 }),
        leaves: if totals { draw.pick(&AMOUNTS) } else { 1 + draw.below(5) },
    };
    let orders: Vec<SavedOrder> = (0..count).map(order).collect();
    let wallets = [1, 3].map(|account| SavedWallet { account, cash: 1 << 40, position: 1 << 40 }).to_vec();
    bytes::encode(&Checkpoint { seq: LAST, wallets, orders, market_price: draw.chance(50).then_some(100) })
}

fn accepted(number: u64) -> Call {
    Call::Deliver(number, Event::PhaseChanged { phase: Phase::Continuous })
}

/// A command from either session.
fn command(draw: &mut Draw) -> Call {
    let session = 1 + draw.below(2) as usize;
    let message = if draw.chance(50) { Inbound::MassCancel } else { Inbound::Cancel { order_id: draw.below(9) } };
    Call::Receive(session, message, draw.time())
}

pub fn start(draw: &mut Draw, near: Near) -> Start {
    draw.planned.clear();
    draw.wide = matches!(near, Near::Accounts | Near::Sessions);
    draw.theme = draw.pick(&[Theme::Money, Theme::Market]);
    draw.fee = match near {
        Near::Totals => draw.any_fee(),
        // One that lets the wallets pay for all that is planned.
        _ if draw.chance(25) => draw.small_fee(),
        _ => 0,
    };
    let count = match near {
        Near::Accounts | Near::Sessions => OWNERS - 1 - draw.below(5) as u32,
        _ => 4,
    };
    let limit = if draw.wide { draw.pick(&[OWNERS - 1, OWNERS, OWNERS, OWNERS, OWNERS + 1]) } else { 4 };
    let accounts = accounts(draw, count);
    let last = if near == Near::Greatest { u64::MAX - draw.below(6) } else { LAST };
    match near {
        Near::Notices | Near::Replay | Near::Totals if near != Near::Totals || draw.chance(50) => {
            let saved = saved(draw, near);
            if near == Near::Replay {
                plan_replay(draw);
            } else {
                plan(draw, near, last, &[]);
            }
            Start::Restore(draw.fee, limit, accounts, SILENCE, saved)
        }
        _ => {
            let listing = listing(draw, near);
            plan(draw, near, last, &listing);
            Start::SetUp(draw.fee, limit, last, accounts, listing, SILENCE)
        }
    }
}

/// Nearly as many in flight as there may be, and then orders.
fn plan_replay(draw: &mut Draw) {
    let few = draw.chance(50);
    let count = if few { 5 } else { nearly(draw, FLIGHTS) as u64 };
    for number in LAST + 1..=LAST + count {
        let owner = draw.below(4) as u32;
        draw.planned.push_back(Call::ReplayCommand(number, Command::CancelAll { owner }));
    }
}

/// What brings a gateway near the limit.
fn plan(draw: &mut Draw, near: Near, last: u64, listing: &[Listed]) {
    if near == Near::Flights && draw.chance(50) {
        for number in last + 1..=last + nearly(draw, FLIGHTS) as u64 {
            draw.planned.push_back(Call::ReplayCommand(number, Command::CancelAll { owner: 0 }));
        }
        draw.planned.push_back(Call::Finish(listing.to_vec()));
    }
    if near == Near::Totals && draw.chance(50) {
        return;
    }
    if near == Near::Sessions {
        for session in 0..SESSIONS {
            login(draw, session, session as u32);
        }
        return;
    }
    members(draw);
    let (number, planned) = (last.wrapping_add(1), nearly(draw, TRADES));
    match near {
        Near::Flights => {
            for _ in 0..nearly(draw, FLIGHTS) {
                let command = command(draw);
                draw.planned.push_back(command);
                if draw.chance(4) {
                    draw.planned.push_back(Call::TakeBatch);
                }
            }
        }
        Near::Batch => {
            for at in 0..nearly(draw, BATCH) as u64 {
                let command = command(draw);
                draw.planned.push_back(command);
                if at % 100 == 99 {
                    draw.planned.push_back(accepted(number + at));
                }
            }
        }
        Near::Trades => {
            for trade_id in 0..planned as u64 {
                let trade = trade(trade_id, 2000, 2001);
                draw.planned.push_back(Call::Deliver(number, trade));
            }
        }
        Near::Notices => {
            for id in 1..=(NOTICES - LIVE) as u64 {
                let event = match draw.below(3) {
                    0 => Event::Modified { id, price: 1000, qty: 9, leaves: 7 },
                    _ => Event::Cancelled { id, qty: 1, reason: CancelReason::Requested },
                };
                draw.planned.push_back(Call::Deliver(number, event));
            }
        }
        Near::Changed => {
            for id in 1..=nearly(draw, CHANGED) as u64 {
                let event = Event::Replenished { id, side: Side::Buy, price: 0, visible: 1 + draw.below(5) };
                draw.planned.push_back(Call::Deliver(number, event));
            }
        }
        _ => {}
    }
}

fn trade(trade_id: u64, taker: OrderId, maker: OrderId) -> Event {
    Event::Trade { trade_id, taker, maker, taker_side: Side::Buy, price: 100, qty: 1, taker_leaves: 1, maker_leaves: 1 }
}

/// Whether a call takes the gateway away from its limit.
pub fn releases(near: Near, call: &Call) -> bool {
    let publishes = matches!(call, Call::Publish | Call::Receive(_, Inbound::Subscribe, _) | Call::Finish(_));
    match near {
        Near::Batch => matches!(call, Call::TakeBatch),
        Near::Flights => matches!(call, Call::Deliver(..)),
        Near::Totals => matches!(call, Call::Connect(..)),
        Near::Trades | Near::Notices | Near::Changed => publishes,
        Near::Sessions => matches!(call, Call::Detach(_) | Call::Disconnect(_) | Call::ShutDown | Call::Tick(_)),
        _ => false,
    }
}

/// A resting order's number, or any below the last.
fn resting(draw: &mut Draw, model: &Model) -> OrderId {
    let from = draw.below(1100);
    let found = model.depth.orders.range(from..).next().map(|(&id, _)| id);
    found.unwrap_or(from)
}

/// An event with numbers near the ends of their types.
fn totals_event(draw: &mut Draw, model: &Model, number: u64) -> Event {
    let live = |draw: &mut Draw| {
        let ids: Vec<OrderId> = model.live.keys().copied().collect();
        if ids.is_empty() || draw.chance(5) { draw.below(9) } else { draw.pick(&ids) }
    };
    let id = live(draw).min(number);
    let price = draw.pick(&PRICES);
    let (leaves, visible) = (draw.pick(&AMOUNTS), draw.pick(&AMOUNTS));
    match draw.below(8) {
        0..3 => Event::Modified { id, price, qty: 9, leaves },
        3 | 4 => Event::Rested { id, side: draw.side(), price: 1 + draw.below(2) as i64, qty: leaves, visible },
        5 => Event::Replenished { id, side: Side::Buy, price: 0, visible },
        6 => {
            let (maker, qty, maker_leaves) = (live(draw), draw.pick(&AMOUNTS), draw.pick(&AMOUNTS));
            Event::Trade { trade_id: 1, taker: id, maker, taker_side: Side::Buy, price, qty, taker_leaves: leaves, maker_leaves }
        }
        _ => Event::Cancelled { id, qty: 1, reason: CancelReason::Requested },
    }
}

/// A command whose order holds much, or an event, replayed.
fn totals_replay(draw: &mut Draw, model: &Model) -> Call {
    let (number, owner) = (model.last.wrapping_add(1), 1 + 2 * draw.below(2) as u32);
    let front = model.flights.back().map(|flight| flight.number);
    if let Some(number) = front.filter(|_| draw.chance(50)) {
        return Call::ReplayEvent(number, totals_event(draw, model, number));
    }
    let (side, price, qty) = (draw.side(), draw.pick(&PRICES), draw.pick(&AMOUNTS));
    Call::ReplayCommand(number, Command::Limit { id: number, owner, side, price, qty, tif: TimeInForce::Gtc, display: None })
}

/// A call about the limit.
pub fn call(draw: &mut Draw, near: Near, model: &Model) -> Option<Call> {
    if near == Near::Totals && model.sessions.is_empty() {
        return Some(totals_replay(draw, model));
    }
    let number = if draw.chance(70) { model.flights.front() } else { model.flights.back() }.map(|flight| flight.number)?;
    let live = |draw: &mut Draw| {
        let from = draw.below(1100);
        model.live.range(from..).next().map_or(from, |(&id, _)| id)
    };
    let event = match near {
        Near::Flights | Near::Batch | Near::Greatest => {
            return Some(match draw.below(12) {
                0 => Call::Disconnect(1 + draw.below(2) as usize),
                1..6 => command(draw),
                _ => {
                    let account = draw.below(2) as u32;
                    draw.entry_of(model, account, true)
                }
            });
        }
        Near::Live => {
            let account = draw.below(2) as u32;
            match draw.below(3) {
                0 => Event::Cancelled { id: live(draw), qty: 1, reason: CancelReason::Requested },
                _ => return Some(draw.entry_of(model, account, false)),
            }
        }
        Near::Replay => {
            let owner = draw.below(4) as u32;
            let next = model.last + 1;
            let command = match draw.below(4) {
                0 => Command::CancelAll { owner },
                _ => Command::Market { id: next, owner, side: draw.side(), qty: 1 },
            };
            let id = live(draw);
            return Some(match draw.below(10) {
                0 => Call::ReplayEvent(number, Event::Cancelled { id, qty: 1, reason: CancelReason::Requested }),
                1 => finish(draw, model),
                2 => Call::ReplayEvent(number, Event::MassCancelled { owner: draw.below(6) as u32, count: 1 }),
                _ => Call::ReplayCommand(next, command),
            });
        }
        Near::Totals => totals_event(draw, model, number),
        Near::Orders | Near::Levels | Near::Changed => match draw.below(12) {
            0 => Event::Cancelled { id: resting(draw, model), qty: 1, reason: CancelReason::Requested },
            2 => Event::Modified { id: resting(draw, model), price: 1, qty: 1, leaves: 1 },
            3 => Event::Replenished { id: resting(draw, model), side: Side::Buy, price: 0, visible: 1 + draw.below(4) },
            _ => {
                let (id, price) =
                    (1 + draw.below(LAST), if draw.chance(60) { 5000 + draw.below(600) as i64 } else { 100 + draw.below(300) as i64 });
                let bids = model.depth.half(Side::Buy).len() > model.depth.half(Side::Sell).len();
                let fuller = if bids { Side::Buy } else { Side::Sell };
                let side = if near == Near::Levels && draw.chance(80) { fuller } else { draw.side() };
                Event::Rested { id, side, price, qty: 1, visible: 1 }
            }
        },
        Near::Trades => {
            let other = live(draw);
            match draw.below(3) {
                0 => trade(1, 2000, other),
                1 => trade(2, other, 2001),
                _ => trade(3, 2000, 2001),
            }
        }
        Near::Notices => {
            let id = live(draw);
            let other = live(draw);
            match draw.below(4) {
                0 => trade(1, id, other),
                1 => Event::Modified { id, price: 97 + draw.below(9) as i64, qty: 9, leaves: 1 + draw.below(5) },
                2 => Event::Cancelled { id, qty: 1, reason: CancelReason::Requested },
                _ => return Some(draw.entry_of(model, 1, false)),
            }
        }
        Near::Accounts => {
            let id = if draw.chance(50) { 250 + draw.below(9) as u32 } else { draw.below(260) as u32 };
            return Some(Call::AddAccount(draw.account(id)));
        }
        Near::Sessions => return Some(Call::Connect(draw.below(66) as usize, draw.time())),
    };
    Some(Call::Deliver(number, event))
}

/// The live orders listed, at few prices or at as many as there are orders.
fn finish(draw: &mut Draw, model: &Model) -> Call {
    let (spread, odd) = (draw.chance(50), draw.below(12));
    let entry = |(at, (&id, live)): (usize, (&OrderId, &calls::state::Live))| {
        let price = if spread { at as i64 } else { 100 };
        let visible = if odd == 0 { u64::MAX } else { live.leaves };
        Listed::Order(Order { id, owner: live.account, side: Side::Buy, price, visible, leaves: live.leaves })
    };
    let mut entries: Vec<Listed> = model.live.iter().enumerate().map(entry).collect();
    // Stops are no part of the depth.
    for entry in entries.iter_mut().skip(if odd < 8 { 500 } else { 2000 }) {
        let id = entry.id();
        *entry = Listed::Stop(Stop { id, owner: 0, side: Side::Sell, limit: None, qty: 1 });
    }
    Call::Finish(entries)
}
