//! The values that the gateway and the matching engine exchange, ported from the published `orderbook`.
//!
//! [`BookConfig`] and [`Listed`] stand for its `OrderBook`, which belongs to matching.

/// Exchange-assigned order identifier, unique among resting orders.
pub type OrderId = u64;

/// The participant (account) an order belongs to. Used for self-trade prevention and to
/// make sure only the owner can cancel or modify an order.
pub type OwnerId = u32;

/// Identifier of one execution, assigned by the book from a counter: 1, 2, 3, ...
pub type TradeId = u64;

/// Price as an integer number of ticks. Floating point never touches the book.
pub type Price = i64;

/// Quantity in lots.
pub type Qty = u64;

/// Side of an order.
#[derive(Clone, Copy, Debug, PartialEq, Eq, Hash)]
pub enum Side {
    /// Bid: buys at the limit price or lower.
    Buy,
    /// Ask: sells at the limit price or higher.
    Sell,
}

impl Side {
    /// The side this side trades against.
    ///
    /// ```
    /// use rowanchess::orderbook::Side;
    ///
    /// assert_eq!(Side::Buy.opposite(), Side::Sell);
    /// ```
    #[inline]
    pub const fn opposite(self) -> Side {
        match self {
            Side::Buy => Side::Sell,
            Side::Sell => Side::Buy,
        }
    }
}

/// An instruction to the matching engine.
///
/// Commands are processed strictly one at a time, in arrival order, and the resulting
/// [`Event`] stream is a pure function of the command stream. That determinism is what makes
/// event sourcing and replay possible.
#[derive(Clone, Copy, Debug, PartialEq, Eq, Hash)]
pub enum Command {
    /// Limit order. Trades against the opposite side at `price` or better; what happens to
    /// the remainder depends on `tif`.
    Limit {
        /// New order's id; must not belong to a resting order.
        id: OrderId,
        /// Participant placing the order.
        owner: OwnerId,
        /// Buy or sell.
        side: Side,
        /// Limit price in ticks.
        price: Price,
        /// Order quantity, `1..=max_order_qty`.
        qty: Qty,
        /// Time in force.
        tif: TimeInForce,
        /// Iceberg display quantity: while resting, show at most this many lots and keep the
        /// rest hidden. `None` shows everything. Must be below `qty` and at least
        /// `qty / max_iceberg_tranches`, and only GTC and post-only orders, which can rest,
        /// may have one.
        display: Option<Qty>,
    },
    /// Trades against the opposite side at any price within the book's price protection.
    /// Whatever cannot be filled is cancelled; market orders never rest.
    Market {
        /// New order's id; must not belong to a resting order.
        id: OrderId,
        /// Participant placing the order.
        owner: OwnerId,
        /// Buy or sell.
        side: Side,
        /// Order quantity, `1..=max_order_qty`.
        qty: Qty,
    },
    /// Removes a resting order. Only its owner may cancel it.
    Cancel {
        /// Order to cancel.
        id: OrderId,
        /// Must match the order's owner.
        owner: OwnerId,
    },
    /// Cancel/replace with FIX semantics: `qty` is the new *total* order quantity, including
    /// what has already been filled, so a modify that races a fill can never over-fill.
    ///
    /// - `qty <= filled`: nothing is left to work and the order is removed.
    /// - Same price and `qty` not above the current total: the open quantity shrinks in place
    ///   and the order keeps its queue priority.
    /// - Anything else: the order re-enters at the back of the queue at the new price and
    ///   trades if that price crosses.
    Modify {
        /// Order to modify.
        id: OrderId,
        /// Must match the order's owner.
        owner: OwnerId,
        /// New limit price in ticks.
        price: Price,
        /// New total quantity (filled + open), `1..=max_order_qty`.
        qty: Qty,
    },
    /// A stop order. It waits, invisible to the market, until a trade happens at `trigger`
    /// or beyond: at or above it for a buy stop, at or below it for a sell stop. Then it
    /// works as a market order, or as a GTC limit order at `limit` if one is given.
    Stop {
        /// New order's id; must not belong to a resting order or a pending stop.
        id: OrderId,
        /// Participant placing the order.
        owner: OwnerId,
        /// Buy or sell.
        side: Side,
        /// Trigger price in ticks. It must not already be reached: a buy stop's trigger must
        /// lie above the last trade price, a sell stop's below it.
        trigger: Price,
        /// Limit price of a stop-limit order; `None` for a stop-market order.
        limit: Option<Price>,
        /// Order quantity, `1..=max_order_qty`.
        qty: Qty,
    },
    /// Cancels every resting order and pending stop of `owner`, for example when its session
    /// disconnects. Costs O(k log k) in the owner's k orders, independent of the rest of the
    /// book.
    CancelAll {
        /// Participant whose orders to cancel.
        owner: OwnerId,
    },
    /// Moves the book to another trading phase. It comes from the exchange's own schedule
    /// (the sequencer decides when), never from a participant, and it is never rejected.
    ///
    /// Leaving [`Phase::Auction`] uncrosses the book first: everything that can execute
    /// does, at a single price. Setting the phase the book is already in changes nothing,
    /// but is still reported.
    SetPhase {
        /// The phase to move to.
        phase: Phase,
    },
}

impl Command {
    /// The order this command creates or refers to; `None` for a mass cancel or a phase
    /// change.
    ///
    /// ```
    /// use rowanchess::orderbook::Command;
    ///
    /// assert_eq!(Command::Cancel { id: 3, owner: 1 }.id(), Some(3));
    /// assert_eq!(Command::CancelAll { owner: 1 }.id(), None);
    /// ```
    #[inline]
    pub const fn id(&self) -> Option<OrderId> {
        self.names().0
    }

    /// The participant who sent the command; `None` for a phase change, which comes from
    /// the exchange itself.
    ///
    /// ```
    /// use rowanchess::orderbook::{Command, Phase};
    ///
    /// assert_eq!(Command::CancelAll { owner: 1 }.owner(), Some(1));
    /// assert_eq!(Command::SetPhase { phase: Phase::Halted }.owner(), None);
    /// ```
    #[inline]
    pub const fn owner(&self) -> Option<OwnerId> {
        self.names().1
    }

    /// The order and the participant.
    #[inline]
    const fn names(&self) -> (Option<OrderId>, Option<OwnerId>) {
        match *self {
            Command::Limit { id, owner, .. }
            | Command::Market { id, owner, .. }
            | Command::Stop { id, owner, .. }
            | Command::Cancel { id, owner }
            | Command::Modify { id, owner, .. } => (Some(id), Some(owner)),
            Command::CancelAll { owner } => (None, Some(owner)),
            Command::SetPhase { .. } => (None, None),
        }
    }
}

/// How long a limit order works, and whether it may take liquidity.
#[derive(Clone, Copy, Debug, Default, PartialEq, Eq, Hash)]
pub enum TimeInForce {
    /// Good till cancelled: trades what it can, and the remainder rests.
    #[default]
    Gtc,
    /// Immediate or cancel: trades what it can, and the remainder is cancelled. Never rests.
    Ioc,
    /// Fill or kill: trades its whole quantity at once, or nothing at all. Never rests.
    Fok,
    /// Post only: only ever adds liquidity. Refused if it would trade on arrival; once
    /// resting, a modify that would make it trade is refused too.
    PostOnly,
}

/// The book's trading phase: what it accepts, and whether orders trade on arrival.
///
/// The phase changes only by [`Command::SetPhase`], or, with `auction_on_band` configured,
/// when the price band stops a market order: a volatility interruption.
#[derive(Clone, Copy, Debug, Default, PartialEq, Eq, Hash)]
pub enum Phase {
    /// Continuous trading: orders trade on arrival as far as they can, and the remainder
    /// rests or is cancelled as its time in force says.
    #[default]
    Continuous,
    /// The call phase of an auction: an opening or closing call, or a reopening after a
    /// halt. Limit orders, stops, modifies and cancels are accepted, but nothing trades, so
    /// the book may be crossed. Market, immediate-or-cancel and fill-or-kill orders, which
    /// exist to trade at once, are refused. Leaving the phase uncrosses the book at a
    /// single price.
    Auction,
    /// Trading halted: the book keeps its orders and pending stops, but accepts only cancels
    /// and mass cancels.
    Halted,
    /// The market is closed: as in a halt, only cancels and mass cancels are accepted.
    Closed,
}

/// Output of the matching engine.
///
/// Per command the engine emits:
/// - `Limit` / `Market`: either a single `Rejected`, or `Accepted` followed by any number
///   of `Trade`s (and `Cancelled { reason: SelfTrade }` for resting orders removed by
///   self-trade prevention), then at most one of `Rested` (a GTC or post-only remainder) or
///   `Cancelled` (a remainder that may not rest). A fill-or-kill order that cannot fill
///   emits `Accepted` and `Cancelled { reason: FillOrKill }` and nothing else.
/// - `Cancel`: `Cancelled { reason: Requested }` or `Rejected`.
/// - `Modify`: `Rejected`, or `Modified`. If the order lost priority, `Modified` is followed
///   by the same events a new limit order would produce after `Accepted`.
/// - `Stop`: `Rejected`, or `Accepted` and `StopPlaced`.
/// - `CancelAll`: `Cancelled { reason: MassCancel }` for each of the owner's orders in book
///   order (bids best price first, then asks best price first, each level in time
///   priority), then for each of its pending stops (buy stops lowest trigger first, then
///   sell stops highest trigger first), then `MassCancelled`. It is never rejected.
///
/// - `SetPhase`: when it leaves [`Phase::Auction`], first the `Trade`s of the uncross,
///   each followed by a `Replenished` for every iceberg whose tranche it used up (the buy
///   order's first); then `PhaseChanged`. It is never rejected.
///
/// A market order that the price band stops, in a book configured with `auction_on_band`,
/// is followed by `PhaseChanged { phase: Auction }`.
///
/// After any command whose trades reached a pending stop's trigger, the stop is released:
/// `Triggered`, then the events of the market or limit order it becomes, after `Accepted`.
/// A released stop's trades can trigger more stops in turn. Outside continuous trading a
/// released stop cannot trade: a stop-limit rests if the book is in a call phase, and
/// anything else is cancelled (`TradingPhase`).
///
/// "Leaves" quantity is the open quantity still working on the book; zero means the order
/// is done.
#[derive(Clone, Copy, Debug, PartialEq, Eq, Hash)]
pub enum Event {
    /// A new order passed validation.
    Accepted {
        /// The new order.
        id: OrderId,
    },
    /// A command was refused; the book is unchanged.
    Rejected {
        /// Order the command created or referred to.
        id: OrderId,
        /// Why.
        reason: RejectReason,
    },
    /// The incoming order (`taker`) traded with a resting order (`maker`) at the maker's
    /// price. In an uncross both orders were resting and the price is the auction price;
    /// the buy order is reported as the taker.
    Trade {
        /// Unique, gap-free execution id.
        trade_id: TradeId,
        /// Incoming order.
        taker: OrderId,
        /// Resting order.
        maker: OrderId,
        /// Side of the incoming order; the maker is on the opposite side.
        taker_side: Side,
        /// Execution price: the maker's price.
        price: Price,
        /// Executed quantity.
        qty: Qty,
        /// Taker's open quantity after this execution.
        taker_leaves: Qty,
        /// Maker's open quantity after this execution; zero means the maker is filled.
        maker_leaves: Qty,
    },
    /// The order, or what was left of it after trading, now rests on the book.
    Rested {
        /// The resting order.
        id: OrderId,
        /// Its side.
        side: Side,
        /// Its price.
        price: Price,
        /// Its open quantity, hidden part included.
        qty: Qty,
        /// The part it shows on the book; less than `qty` only for an iceberg.
        visible: Qty,
    },
    /// An iceberg's visible tranche was used up: its next tranche now shows at the back of
    /// its price level's queue. It follows the `Trade` that used up the previous one.
    Replenished {
        /// The iceberg order.
        id: OrderId,
        /// Its side.
        side: Side,
        /// Its price.
        price: Price,
        /// The quantity it now shows.
        visible: Qty,
    },
    /// Open quantity left the book without trading. The order is done.
    Cancelled {
        /// The order.
        id: OrderId,
        /// Open quantity removed.
        qty: Qty,
        /// Why.
        reason: CancelReason,
    },
    /// A modify was applied.
    Modified {
        /// The order.
        id: OrderId,
        /// New price.
        price: Price,
        /// New total quantity.
        qty: Qty,
        /// Open quantity after the modify (before any trading it causes). Zero means the
        /// new total did not exceed what was already filled, and the order is done.
        leaves: Qty,
    },
    /// A stop order was accepted and waits for its trigger.
    StopPlaced {
        /// The stop order.
        id: OrderId,
        /// Its side.
        side: Side,
        /// Its trigger price.
        trigger: Price,
        /// Its limit price, if it is a stop-limit order.
        limit: Option<Price>,
        /// Its quantity.
        qty: Qty,
    },
    /// A pending stop's trigger was reached; the events of the order it becomes follow.
    Triggered {
        /// The stop order.
        id: OrderId,
    },
    /// A mass cancel finished; it follows the `Cancelled` events of the orders it removed.
    MassCancelled {
        /// The owner whose orders were cancelled.
        owner: OwnerId,
        /// How many orders were cancelled; zero if the owner had none.
        count: u32,
    },
    /// The book is now in `phase`. When the book left a call phase, this follows the
    /// trades of the uncross.
    PhaseChanged {
        /// The phase now in force.
        phase: Phase,
    },
}

/// Why a command was refused.
#[derive(Clone, Copy, Debug, PartialEq, Eq, Hash)]
pub enum RejectReason {
    /// Quantity was zero or above the book's `max_order_qty`.
    InvalidQuantity,
    /// Price is outside the book's static price band.
    PriceOutOfRange,
    /// A limit price lies further through the opposite best price than the book's price
    /// protection allows (a likely fat-finger order).
    PriceOutsideProtection,
    /// A resting order already uses this id.
    DuplicateOrderId,
    /// No resting order with this id belongs to the sender. Orders of other participants
    /// are reported the same way, so their existence does not leak.
    UnknownOrder,
    /// The book holds its maximum number of resting orders and this order could only rest.
    BookFull,
    /// The owner id is not below the book's `max_owners`.
    InvalidOwner,
    /// A post-only order, or a modify of one, would have traded with the opposite side.
    PostOnlyWouldCross,
    /// An iceberg display quantity that is zero, not below the order quantity, too small
    /// for the book's `max_iceberg_tranches` to cover the quantity, or given to an IOC or
    /// fill-or-kill order.
    InvalidDisplay,
    /// A limit price lies further through the reference price than the book's price band
    /// allows.
    PriceOutsideBand,
    /// A stop's trigger is already reached: a buy stop at or below the last trade price, a
    /// sell stop at or above it.
    StopWouldTrigger,
    /// A modify of a stop that has not triggered yet; cancel it and send a new one instead.
    PendingStop,
    /// A market, immediate-or-cancel or fill-or-kill order during an auction's call phase.
    /// Such orders exist to trade at once, and nothing trades until the uncross.
    AuctionCall,
    /// Trading is halted: only cancels and mass cancels are accepted.
    TradingHalted,
    /// The market is closed: only cancels and mass cancels are accepted.
    MarketClosed,
}

/// Why open quantity left the book without trading.
#[derive(Clone, Copy, Debug, PartialEq, Eq, Hash)]
pub enum CancelReason {
    /// A `Cancel` command.
    Requested,
    /// A market order ran out of opposite-side liquidity.
    NoLiquidity,
    /// A market order reached the edge of the book's price protection.
    PriceProtection,
    /// Self-trade prevention: the order would have traded with an order of the same owner.
    SelfTrade,
    /// A `CancelAll` of the order's owner.
    MassCancel,
    /// The unfilled remainder of an immediate-or-cancel order.
    ImmediateOrCancel,
    /// A fill-or-kill order that could not fill completely; it did not trade at all.
    FillOrKill,
    /// A market order reached the edge of the price band around the reference price.
    PriceBand,
    /// A stop triggered outside continuous trading, where the order it becomes cannot work:
    /// a stop-market in any other phase, or a stop-limit while trading is halted or closed.
    TradingPhase,
}

/// What the gateway wants of the book's configuration, and the house's booking fee.
#[derive(Clone, Copy, Debug, PartialEq, Eq)]
pub struct BookConfig {
    /// The owner limit: accounts and owners are below it. At most 256.
    pub max_owners: u32,
    /// The booking fee: pence that a buyer with a wallet pays the house for each seat, beside its price. Not below 0. A checkpoint does not have
    /// it: hand the same one to [`restore`](crate::Exchange::restore).
    pub fee: Price,
}

/// An entry of a book listing: what stands on the book, in any order.
#[derive(Clone, Copy, Debug, PartialEq, Eq, Hash)]
pub enum Listed {
    /// A resting order.
    Order {
        /// The order.
        id: OrderId,
        /// Its owner.
        owner: OwnerId,
        /// Its side.
        side: Side,
        /// Its limit price.
        price: Price,
        /// Its open quantity, hidden part included.
        leaves: Qty,
        /// The part it shows.
        visible: Qty,
    },
    /// A pending stop.
    Stop {
        /// The stop order.
        id: OrderId,
        /// Its owner.
        owner: OwnerId,
        /// Its side.
        side: Side,
        /// Its limit price, if it is a stop-limit order.
        limit: Option<Price>,
        /// Its quantity.
        qty: Qty,
    },
}
