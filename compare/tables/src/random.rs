//! What the random numbers make here.

pub use xorshift::Random;

use crate::table::{Live, Side};

pub trait Draw {
    fn side(&mut self) -> Side;

    /// An order with leaves.
    fn live(&mut self) -> Live;
}

impl Draw for Random {
    fn side(&mut self) -> Side {
        self.pick(&[Side::Buy, Side::Sell])
    }

    fn live(&mut self) -> Live {
        Live {
            account: self.below(256) as u32,
            client_ref: self.bits(),
            side: self.side(),
            price: self.bits() as i64,
            leaves: self.bits() | 1,
            held: self.bits() as i64,
        }
    }
}
