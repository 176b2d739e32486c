//! The published types and their parts, for code that is the same for each: a macro is given the module's name in the library, the type, and
//! its cases or fields.

#[macro_export]
macro_rules! published_enums {
    ($given:ident) => {
        $given! {
            orderbook Side: Buy, Sell;
            orderbook TimeInForce: Gtc, Ioc, Fok, PostOnly;
            orderbook Phase: Continuous, Auction, Halted, Closed;
            orderbook RejectReason: InvalidQuantity, PriceOutOfRange, PriceOutsideProtection, DuplicateOrderId, UnknownOrder, BookFull,
                InvalidOwner, PostOnlyWouldCross, InvalidDisplay, PriceOutsideBand, StopWouldTrigger, PendingStop, AuctionCall,
                TradingHalted, MarketClosed;
            orderbook CancelReason: Requested, NoLiquidity, PriceProtection, SelfTrade, MassCancel, ImmediateOrCancel, FillOrKill,
                PriceBand, TradingPhase;
            orderbook Command: Limit { id owner side price qty tif display }, Market { id owner side qty }, Cancel { id owner },
                Modify { id owner price qty }, Stop { id owner side trigger limit qty }, CancelAll { owner }, SetPhase { phase };
            orderbook Event: Accepted { id }, Rejected { id reason },
                Trade { trade_id taker maker taker_side price qty taker_leaves maker_leaves }, Rested { id side price qty visible },
                Replenished { id side price visible }, Cancelled { id qty reason }, Modified { id price qty leaves },
                StopPlaced { id side trigger limit qty }, Triggered { id }, MassCancelled { owner count }, PhaseChanged { phase };
            protocol LoginError: UnsupportedVersion, BadCredentials, AlreadyLoggedIn, AlreadyInSession;
            protocol LogoutReason: Requested, Idle, ProtocolError, SlowConsumer, Shutdown;
            protocol RejectCode: TooManyOrders, Throttled, Unavailable, InsufficientFunds, NotAllowed, OffMarket;
            protocol OrderKind: Limit { price tif display }, Market, Stop { trigger limit };
            protocol Inbound: Login { version account token }, Logout, Heartbeat, NewOrder(order), Cancel { order_id },
                Modify { order_id price qty }, MassCancel, Subscribe;
            protocol ReportKind: Accepted, Rejected(reason), Fill { trade_id side price qty leaves },
                Rested { side price qty visible }, Replenished { side price visible }, Cancelled { qty reason },
                Modified { price qty leaves }, StopPlaced { side trigger limit qty }, Triggered, MassCancelled { count },
                PhaseChanged(phase);
            protocol Outbound: LoginAccepted { account last_seq }, LoginRejected { reason }, Heartbeat, Logout { reason },
                Reject { reason client_ref }, Report(report), BookSnapshot { seq levels }, LevelUpdate(update), TradeTick(tick),
                Balance(balance);
        }
    };
}

#[macro_export]
macro_rules! published_structs {
    ($given:ident) => {
        $given! {
            accounts Funds: cash position;
            accounts Account: id token max_open_orders messages_per_second funds;
            exchange Timing: heartbeat idle_timeout;
            exchange SavedWallet: account cash position;
            exchange SavedOrder: id account client_ref buy price leaves;
            exchange Checkpoint: seq wallets orders market_price;
            marketdata Level: qty orders;
            protocol NewOrder: client_ref side qty kind;
            protocol Report: seq order_id client_ref kind;
            protocol LevelUpdate: seq side price qty orders;
            protocol TradeTick: seq trade_id side price qty;
            protocol Balance: cash position cash_held position_held;
            wallet Wallet: cash position cash_held position_held;
        }
    };
}

/// Numbers that a notation has as Rust prints them.
#[macro_export]
macro_rules! printed_numbers {
    ($notation:ident $method:ident: $($number:ty)*) => {
        $(impl $notation for $number {
            fn $method(&self) -> String {
                self.to_string()
            }
        })*
    };
}
