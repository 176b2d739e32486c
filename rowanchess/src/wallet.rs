//! What a prepaid account owns and what its open orders hold of it: ported from the published `gateway::wallet`. Holding and settling are the
//! library's.

use crate::protocol::Balance;

/// What a paper-trading account owns and holds.
#[derive(Clone, Copy, Debug, Default, PartialEq, Eq)]
pub struct Wallet {
    /// Cash, in price ticks times lots.
    pub cash: i64,
    /// Lots.
    pub position: i64,
    /// Cash held for open buy orders, the booking fee included.
    pub cash_held: i64,
    /// Lots held for open sell orders.
    pub position_held: i64,
}

impl Wallet {
    /// The wallet, as a client is told it.
    ///
    /// ```
    /// use rowanchess::wallet::Wallet;
    ///
    /// let wallet = Wallet { cash: 1_000, cash_held: 500, ..Wallet::default() };
    /// assert_eq!(wallet.balance().cash_held, 500);
    /// ```
    pub fn balance(&self) -> Balance {
        Balance {
            cash: self.cash,
            position: self.position,
            cash_held: self.cash_held,
            position_held: self.position_held,
        }
    }
}
