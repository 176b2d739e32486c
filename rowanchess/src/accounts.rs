//! Who may trade, and how much: ported from the published `gateway::accounts`, without the parsing.

/// An account: its id, which is also its owner id in the book, its secret, and its limits.
#[derive(Clone, Copy, Debug, PartialEq, Eq)]
pub struct Account {
    /// The account's id, and the book's owner id for its orders.
    pub id: u32,
    /// The secret a client logs in with.
    pub token: u64,
    /// Orders and stops the account may have open at once.
    pub max_open_orders: u32,
    /// Order-entry messages (new orders, cancels, modifies, mass cancels) the account may
    /// send per second, whatever its sessions, with bursts of up to the same number.
    pub messages_per_second: u32,
    /// What a paper-trading account starts with; `None` for an account whose orders are
    /// not checked against money or position, such as a market maker's.
    pub funds: Option<Funds>,
}

/// What a paper-trading account starts with.
#[derive(Clone, Copy, Debug, PartialEq, Eq)]
pub struct Funds {
    /// Cash, in price ticks times lots.
    pub cash: i64,
    /// Lots.
    pub position: i64,
}
