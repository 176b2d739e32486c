//! The gateway of a seat exchange: the published `Exchange`, with a proved library behind it.
//!
//! ```
//! use rowanchess::accounts::{Account, Funds};
//! use rowanchess::exchange::{Exchange, Mail, Timing};
//! use rowanchess::orderbook::BookConfig;
//! use rowanchess::protocol::{Inbound, Outbound, VERSION};
//!
//! let agent = Account {
//!     id: 1,
//!     token: 7,
//!     max_open_orders: 10,
//!     messages_per_second: 100,
//!     funds: Some(Funds { cash: 1_000, position: 20 }),
//! };
//! let book = BookConfig { max_owners: 16, fee: 0 };
//! let mut exchange = Exchange::new(&book, &[], 0, &[agent], Timing::default())?;
//!
//! let mut mail = Vec::new();
//! exchange.connect(0, 0)?;
//! exchange.receive(0, Inbound::Login { version: VERSION, account: 1, token: 7 }, 0, &mut mail)?;
//! let accepted = Outbound::LoginAccepted { account: 1, last_seq: 0 };
//! assert_eq!(mail[0], Mail::Send(0, accepted));
//! # Ok::<(), rowanchess::Refusal>(())
//! ```
//!
//! `examples/evening.rs` has a whole evening with a matching engine, a power cut and the restart.
//!
//! # What a host of the published crates changes
//!
//! - Its `use` lines: `orderbook`, `protocol` and `marketdata` are modules here, and so are `accounts`, `wallet` and `exchange` of `gateway`.
//!   Names, cases and fields are the published ones.
//! - A method returns `Result<_, `[`Refusal`]`>` where document 01 or 02 names a refusal for its call. The published one panics there, wraps, grows,
//!   or has an error of its own: `SetupError` is [`Refusal`] under that name, without its numbers. A refused call has changed nothing.
//!   `wallet`, `last_seq`, `set_paper_collar` and `detach` refuse nothing and return what they did.
//! - The book is listed: `Exchange::new(&book, ..)` becomes `Exchange::new(&config, &listing, ..)`, and `finish(&book)` becomes
//!   `finish(&listing)`, where the listing is a slice of [`Listed`](orderbook::Listed), in any order.
//! - The house's booking fee is `fee` of [`BookConfig`](orderbook::BookConfig), 0 for none: `new` and `restore` read it there.
//! - `checkpoint()` is `Err(NotQuiet)` where it was `None`. [`checkpoint_bytes`](Exchange::checkpoint_bytes) and
//!   [`restore_bytes`](Exchange::restore_bytes) have the same as bytes.
//! - `take_batch` appends to the list that it swapped, and `depth()` is a view of the exchange by value.
//!
//! Mail goes to the published [`Mailbox`](exchange::Mailbox), as it did; [`Exchange::mail`] gives it once more as an iterator, for a host that
//! hands [`Nobody`](exchange::Nobody) over and reads it there.
//!
//! Left out, as document 01 does not name them: `flush`, `candles` and `set_epoch`, `take_log`, `standings`, `account_of`, `is_subscribed`,
//! `has_account`, `open_orders`, `has_batch`; of the depth, everything but `levels`; of a wallet, its arithmetic; the accounts file and the wire
//! form.
//!
//! # Limits
//!
//! 256 accounts, 64 sessions, 1,024 live orders, 512 price levels a side, 256 commands in flight. What waits for `publish`: 256 trades, 2,048
//! notices, 1,024 changed levels. An exchange has 467,592 bytes of state and a list of mail that grows to what one call has sent: at first 256
//! rows of 96 bytes. No call can send more than 84,993 (a subscription that first publishes 2,048 balances, and 256 trades and 1,024 levels to
//! each of 64 sessions, and then sends a snapshot of 1,024 levels).
#![deny(unsafe_code)]
#![warn(missing_docs)]

pub mod accounts;
pub mod exchange;
pub mod marketdata;
pub mod orderbook;
pub mod protocol;
mod refusal;
mod rows;
mod sys;
pub mod wallet;

pub use exchange::Exchange;
pub use refusal::Refusal;
