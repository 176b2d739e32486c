//! The gateway's files as published.

#[path = "../../../source/crates/gateway/src/accounts.rs"]
pub mod accounts;
#[path = "../../../source/crates/gateway/src/candles.rs"]
pub mod candles;
#[path = "../../../source/crates/gateway/src/exchange.rs"]
pub mod exchange;
#[path = "../../../source/crates/gateway/src/wallet.rs"]
pub mod wallet;
