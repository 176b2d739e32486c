//! Inputs: limits in all combinations, then random words, the same in each run.

pub use xorshift::Random;

use crate::function::{Inputs, Words};

const fn word(number: i64) -> u64 {
    number as u64
}

/// Limits of prices, quantities and times. Read unsigned, the last ones are the greatest.
pub const LIMITS: [u64; 23] = [
    0,
    1,
    2,
    3,
    100,
    1_000_000_000,
    (1 << 31) - 1,
    1 << 31,
    1 << 32,
    3_037_000_500,
    (1 << 62) - 1,
    1 << 62,
    (1 << 63) - 2,
    word(i64::MAX),
    word(i64::MIN),
    word(i64::MIN + 1),
    word(i64::MIN / 2 - 1),
    word(i64::MIN / 2),
    word(-(1 << 32)),
    word(-(1 << 31)),
    word(-3),
    word(-2),
    word(-1),
];

pub const SIDES: [u64; 2] = [0, 1];

/// No side's code.
pub const NO_SIDES: [u64; 3] = [2, 3, 0xFFFF_FFFF];

/// Every choice of one word from each list.
pub fn all<const N: usize>(lists: [&'static [u64]; N]) -> impl Iterator<Item = Words> {
    let count = lists.iter().map(|list| list.len()).product();
    (0..count).map(move |mut n: usize| {
        let pick = |list: &&[u64]| {
            let at = n % list.len();
            n /= list.len();
            list[at]
        };
        lists.iter().map(pick).collect()
    })
}

/// `count` inputs that `make` draws.
pub fn random(count: usize, make: impl Fn(&mut Random) -> Words) -> impl Iterator<Item = Words> {
    let mut random = Random::new();
    (0..count).map(move |_| make(&mut random))
}

pub fn listed<const N: usize, const M: usize>(
    inputs: [[u64; M]; N],
) -> impl Iterator<Item = Words> {
    inputs.into_iter().map(|input| input.to_vec())
}

pub fn boxed(inputs: impl Iterator<Item = Words> + 'static) -> Inputs {
    Box::new(inputs)
}

/// What the random numbers make here.
pub trait Draw {
    /// `word`, or one to three beside it.
    fn beside(&mut self, word: u64) -> u64;

    /// A word of any size and sign, often a limit or beside one.
    fn word(&mut self) -> u64;

    fn words(&mut self, count: usize) -> Words;
}

impl Draw for Random {
    fn beside(&mut self, word: u64) -> u64 {
        word.wrapping_add(self.below(7)).wrapping_sub(3)
    }

    fn word(&mut self) -> u64 {
        match self.below(6) {
            0 => self.bits(),
            1 => self.bits() >> self.below(64),
            2 => (self.bits() >> self.below(64)).wrapping_neg(),
            3 => self.below(1000),
            4 => self.pick(&LIMITS),
            _ => {
                let limit = self.pick(&LIMITS);
                self.beside(limit)
            }
        }
    }

    fn words(&mut self, count: usize) -> Words {
        (0..count).map(|_| self.word()).collect()
    }
}
