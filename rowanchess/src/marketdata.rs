//! The book's depth by price level, under the names of the published `marketdata`.

use crate::exchange::Exchange;
use crate::orderbook::{Price, Qty, Side};
use crate::refusal::Refusal;

/// One price level: what its orders show, and how many there are.
#[derive(Clone, Copy, Debug, Default, PartialEq, Eq)]
pub struct Level {
    /// The quantity the level's orders show; hidden iceberg quantity is not included.
    pub qty: Qty,
    /// The number of orders at the level.
    pub orders: u32,
}

/// The depth of an exchange's book ([`Exchange::depth`]).
#[derive(Clone, Copy)]
pub struct Depth<'a> {
    pub(crate) exchange: &'a Exchange,
}

impl Depth<'_> {
    /// The levels of `side`, best price first.
    ///
    /// ```
    #[doc = include_str!("doc/opening.txt")]
    /// for (n, price) in [(1, 250), (2, 240), (3, 250)] {
    ///     exchange.receive(1, order(Side::Buy, 4, price), 0, &mut Nobody)?;
    ///     exchange.deliver(n, Event::Rested { id: n, side: Side::Buy, price, qty: 4, visible: 4 }, &mut Nobody)?;
    /// }
    /// let bids: Vec<_> = exchange.depth().levels(Side::Buy)?.collect();
    /// assert_eq!(bids, [(250, Level { qty: 8, orders: 2 }), (240, Level { qty: 4, orders: 1 })]);
    /// # Ok::<(), Refusal>(())
    /// ```
    pub fn levels(&self, side: Side) -> Result<impl Iterator<Item = (Price, Level)> + use<>, Refusal> {
        self.exchange.levels(side)
    }
}
