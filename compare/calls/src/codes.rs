//! Document 01's refusals of calls, but for code 6.

use std::collections::BTreeSet;

use orderbook::{Command, Event, OrderId, Side};

use crate::call::{Call, Listed};
use crate::depth::{Change, Depth};
use crate::state::{FLIGHTS, LIVE, Live, Model, NOTICES, SESSIONS, TRADES, fits, placed};

pub(crate) fn first(tests: &[(u8, bool)]) -> Result<(), u8> {
    tests.iter().find(|test| test.1).map_or(Ok(()), |test| Err(test.0))
}

/// The order numbers that an event names.
fn named(event: &Event) -> Vec<OrderId> {
    match *event {
        Event::Trade { taker, maker, .. } => vec![taker, maker],
        Event::Accepted { id }
        | Event::Rejected { id, .. }
        | Event::Rested { id, .. }
        | Event::Replenished { id, .. }
        | Event::Cancelled { id, .. }
        | Event::Modified { id, .. }
        | Event::StopPlaced { id, .. }
        | Event::Triggered { id } => vec![id],
        Event::MassCancelled { .. } | Event::PhaseChanged { .. } => Vec::new(),
    }
}

/// What an event does to a live order: what it becomes, and whether it settled.
pub(crate) struct Move {
    pub id: OrderId,
    pub before: Live,
    pub after: Option<Live>,
    settles: bool,
}

impl Model {
    // ---- codes

    /// What an event does to the live orders that it names, in order.
    pub(crate) fn moves(&self, number: u64, event: &Event) -> Vec<Move> {
        let places = self.flights.iter().any(|flight| flight.number == number && flight.places);
        let one = |id: OrderId, leaves: u64, ends: bool, price: Option<i64>, settles: bool| {
            let before = *self.live.get(&id)?;
            let after = (!ends).then_some(Live { leaves, price: price.or(before.price), ..before });
            Some(Move { id, before, after, settles })
        };
        let moves = match *event {
            Event::Rejected { id, .. } if places => vec![one(id, 0, true, None, false)],
            Event::Trade { taker, maker, taker_leaves, maker_leaves, .. } => {
                vec![one(taker, taker_leaves, taker_leaves == 0, None, true), one(maker, maker_leaves, maker_leaves == 0, None, true)]
            }
            Event::Rested { id, qty, .. } => vec![one(id, qty, false, None, false)],
            Event::Cancelled { id, .. } => vec![one(id, 0, true, None, false)],
            Event::Modified { id, price, leaves, .. } => vec![one(id, leaves, leaves == 0, Some(price), false)],
            _ => Vec::new(),
        };
        moves.into_iter().flatten().collect()
    }

    /// Whether the wallets' totals are in their type once the moves are made.
    fn totals_fit(&self, moves: &[Move]) -> bool {
        let hold = |live: &Live| i128::from(live.hold(self.fee));
        let fits_for = |(account, side): (u32, Side)| {
            let own = moves.iter().filter(|step| step.before.account == account && step.before.side == side);
            let grown: i128 = own.map(|step| step.after.as_ref().map_or(0, hold) - hold(&step.before)).sum();
            fits(&(self.total(account, side) + grown))
        };
        let paper = moves.iter().filter(|step| self.has_wallet(step.before.account));
        paper.map(|step| (step.before.account, step.before.side)).all(fits_for)
    }

    /// How many notices the moves make.
    pub(crate) fn notices(&self, moves: &[Move]) -> Vec<u32> {
        let mut notices = Vec::new();
        for step in moves.iter().filter(|step| self.has_wallet(step.before.account)) {
            let changes = step.after.as_ref().map_or(0, |after| after.hold(self.fee)) != step.before.hold(self.fee);
            let count = usize::from(step.settles) + usize::from(changes);
            notices.extend(std::iter::repeat_n(step.before.account, count));
        }
        notices
    }

    /// The table that has no room for an event's effects.
    fn overfull(&self, event: &Event, changes: &[Change], moves: &[Move]) -> Option<&'static str> {
        let trades = self.trades.len() + usize::from(matches!(event, Event::Trade { .. }));
        let notices = self.notices.len() + self.notices(moves).len();
        let waiting = [("trades", trades > TRADES), ("notices", notices > NOTICES)];
        self.depth.overfull_after(changes).or_else(|| waiting.iter().find(|size| size.1).map(|size| size.0))
    }

    /// The table that has no room for an event, where that is what refuses it.
    pub fn no_room(&self, number: u64, event: &Event) -> Option<&'static str> {
        if self.event_code(number, event, false) != Err(5) {
            return None;
        }
        self.overfull(event, &self.depth.changes(event), &self.moves(number, event))
    }

    fn event_code(&self, number: u64, event: &Event, replayed: bool) -> Result<(), u8> {
        let flight = self.flights.iter().find(|flight| flight.number == number);
        let places = flight.is_some_and(|flight| flight.places);
        first(&[
            (4, flight.is_none() || replayed && !self.sessions.is_empty()),
            (1, matches!(event, Event::MassCancelled { owner, .. } if *owner >= self.limit)),
            (8, named(event).iter().any(|&id| id > number)),
            (8, matches!(event, Event::Rejected { id, .. } if places && *id != number)),
            (8, matches!(event, Event::Trade { taker, maker, .. } if taker == maker)),
            (8, !replayed && self.depth.contradicts(event)),
        ])?;
        let moves = self.moves(number, event);
        first(&[(7, !self.totals_fit(&moves))])?;
        if replayed {
            return Ok(());
        }
        let changes = self.depth.changes(event);
        first(&[(7, !self.depth.fits_after(&changes)), (5, self.overfull(event, &changes, &moves).is_some())])
    }

    fn command_code(&self, number: u64, command: &Command) -> Result<(), u8> {
        let order = placed(command);
        let total_fits =
            |order: &Live| !self.has_wallet(order.account) || fits(&(self.total(order.account, order.side) + i128::from(order.hold(self.fee))));
        first(&[
            (4, !self.sessions.is_empty() || number.checked_sub(1) != Some(self.last)),
            (8, order.is_some() && command.id() != Some(number)),
            (1, command.owner().is_some_and(|owner| owner >= self.limit)),
            (5, self.flights.len() >= FLIGHTS || order.is_some() && self.live.len() >= LIVE),
            (7, !order.as_ref().is_none_or(total_fits)),
        ])
    }

    fn finish_code(&self, listing: &[Listed]) -> Result<(), u8> {
        let ids: BTreeSet<OrderId> = listing.iter().map(Listed::id).collect();
        let agrees = |entry: &Listed| match (entry, self.live.get(&entry.id())) {
            (Listed::Order(order), Some(live)) => live.leaves == order.leaves && live.account == order.owner,
            (Listed::Stop(_), live) => live.is_some(),
            (Listed::Order(_), None) => false,
        };
        let same = ids.len() == listing.len() && listing.len() == self.live.len();
        first(&[(8, !same || !listing.iter().all(agrees))])?;
        let depth = Depth::of(listing);
        first(&[(5, depth.has_many_levels()), (7, !depth.fits())])
    }

    /// The code that refuses the call, other than 6.
    pub fn code(&self, call: &Call) -> Result<(), u8> {
        match call {
            Call::AddAccount(account) => first(&[
                (1, account.id >= self.limit),
                (3, self.members.contains_key(&account.id)),
                (12, self.live.values().any(|live| live.account == account.id)),
            ]),
            Call::Connect(session, _) => first(&[(9, *session >= SESSIONS || self.sessions.contains_key(session))]),
            Call::Disconnect(session) => first(&[(5, self.account_of(*session).is_some() && self.full().is_some())]),
            Call::Deliver(number, event) => self.event_code(*number, event, false),
            Call::ReplayEvent(number, event) => self.event_code(*number, event, true),
            Call::ReplayCommand(number, command) => self.command_code(*number, command),
            Call::Finish(listing) => self.finish_code(listing),
            Call::Checkpoint => first(&[(10, !self.batch.is_empty() || self.delivered != self.last)]),
            _ => Ok(()),
        }
    }
}
