//! Amounts and wallets: `hold_of`, `covers`, `hold` and `settle`, with the Rust's `Wallet`.

use gateway::wallet::Wallet;

use crate::exchange;
use crate::function::{FILL, Function, Inputs, Rust, Words, call, side, to_bytes, unless_overflow};
use crate::inputs::{Draw, LIMITS, NO_SIDES, Random, SIDES, all, boxed, listed, random};
use crate::rattle;
use crate::rule::{self, MALFORMED, OUTSIDE};

fn wallet(words: &[u64]) -> Wallet {
    Wallet {
        cash: words[0] as i64,
        position: words[1] as i64,
        cash_held: words[2] as i64,
        position_held: words[3] as i64,
    }
}

/// The answer of a call that leaves `wallet`.
fn leaves(code: u64, wallet: Wallet) -> Words {
    let numbers = [
        wallet.cash,
        wallet.position,
        wallet.cash_held,
        wallet.position_held,
    ];
    let words = numbers.into_iter().map(|number| number as u64);
    std::iter::once(code).chain(words).collect()
}

fn fits(amount: Option<i64>) -> Words {
    vec![0, amount.is_some().into(), amount.unwrap_or(0) as u64]
}

/// `args` and a wallet whose side owns and holds these; the rest is random.
fn with_wallet(mut args: Words, owned: u64, held: u64, random: &mut Random) -> Words {
    let (a, b) = (random.word(), random.word());
    if args[0] == 0 {
        args.extend([owned, a, held, b]);
    } else {
        args.extend([a, owned, b, held]);
    }
    args
}

/// A side and three limits: all of them, and some with no side's code.
fn limits() -> impl Iterator<Item = Words> {
    all([&SIDES, &LIMITS, &LIMITS, &LIMITS]).chain(all([
        &NO_SIDES,
        &LIMITS,
        &LIMITS[..3],
        &LIMITS[..3],
    ]))
}

/// Fees that the order names.
const FEES: [u64; 5] = [0, 1, 250, 1 << 62, i64::MAX as u64];

/// Quantities for which a sum past 64 bits, or at their end, costs nothing, itself, or too much.
const FEW: [u64; 4] = [0, 1, 2, 3];

/// A fee, and a price whose sum with it is near 0 or near a limit.
fn with_fee(random: &mut Random) -> (u64, u64) {
    let (named, any) = (random.pick(&FEES), random.bits() >> (1 + random.below(63)));
    let fee = random.pick(&[named, any]);
    let sum = random.pick(&[0, 1 << 62, 1 << 63]);
    (fee, random.beside(sum).wrapping_sub(fee))
}

/// A price and a quantity whose product is near a limit.
fn near_limit(random: &mut Random) -> (u64, u64) {
    let qty = random.bits() >> random.below(64);
    let most = (1 << 63) / qty.max(1);
    let price = random.beside(most);
    if random.below(2) == 0 {
        (price, qty)
    } else {
        (price.wrapping_neg(), qty)
    }
}

pub struct HoldOf;

impl Function for HoldOf {
    const NAME: &'static str = "hold_of";
    const ARGS: &'static str = "side, price, leaves, fee";

    fn inputs() -> Inputs {
        boxed(
            listed([
                [0, 250, 4, 0],
                [1, 250, 4, 0],
                [0, i64::MAX as u64, 2, 0],
                [0, 250, 4, 10],
            ])
            .chain(all([&SIDES, &LIMITS, &LIMITS, &FEES]))
            .chain(all([&NO_SIDES, &LIMITS, &LIMITS, &FEES[..2]]))
            .chain(random(200_000, |r| vec![r.below(2), r.word(), r.word(), 0]))
            .chain(random(200_000, |r| {
                let (price, qty) = near_limit(r);
                vec![r.below(2), price, qty, 0]
            }))
            .chain(random(100_000, |r| [vec![r.below(2)], r.words(3)].concat()))
            .chain(random(100_000, |r| {
                let (fee, price) = with_fee(r);
                vec![r.below(2), price, r.pick(&FEW), fee]
            })),
        )
    }

    fn rust(args: &[u64]) -> Rust {
        match side(args[0]).filter(|_| args[3] == 0) {
            Some(side) => Rust::Answer(fits(Wallet::hold_of(side, args[1] as i64, args[2]))),
            None => Rust::Lacks,
        }
    }

    fn rule(args: &[u64]) -> Words {
        match side(args[0]) {
            Some(side) => fits(rule::hold_of(
                args[3] as i64,
                side,
                args[1] as i64,
                args[2],
            )),
            None => vec![MALFORMED, FILL, FILL],
        }
    }

    fn rattle(args: &[u64]) -> Words {
        call(&[FILL; 2], |out| {
            rattle::hold_of(args[3], args[0] as u32, args[1], args[2], out)
        })
    }
}

pub struct Covers;

impl Function for Covers {
    const NAME: &'static str = "covers";
    const ARGS: &'static str = "side, amount, cash, position, cash_held, position_held";
    const KIND: usize = 2;

    fn inputs() -> Inputs {
        let mut r = Random::new();
        let limits = limits().map(move |a| with_wallet(a[..2].to_vec(), a[2], a[3], &mut r));
        let border = |r: &mut Random| {
            let (side, owned, held) = (r.below(2), r.word(), r.word());
            let amount = r.beside(owned.wrapping_sub(held));
            with_wallet(vec![side, amount], owned, held, r)
        };
        boxed(
            listed([[0, 999, 1000, 0, 1, 0], [0, 1000, 1000, 0, 1, 0]])
                .chain(limits)
                .chain(random(200_000, |r| [vec![r.below(2)], r.words(5)].concat()))
                .chain(random(200_000, border)),
        )
    }

    fn rust(args: &[u64]) -> Rust {
        match side(args[0]) {
            Some(side) => {
                unless_overflow(|| vec![0, wallet(&args[2..]).covers(side, args[1] as i64).into()])
            }
            None => Rust::Lacks,
        }
    }

    fn rule(args: &[u64]) -> Words {
        match side(args[0]) {
            Some(side) => {
                let yes = rule::covers(side, args[1] as i64, wallet(&args[2..]));
                vec![0, yes.into()]
            }
            None => vec![MALFORMED, FILL],
        }
    }

    fn rattle(args: &[u64]) -> Words {
        let wallet = to_bytes(&args[2..]);
        call(&[FILL], |out| {
            rattle::covers(args[0] as u32, args[1], &wallet, out)
        })
    }
}

pub struct Hold;

const HOLD: &str = "side, old, new, cash, position, cash_held, position_held";

impl Function for Hold {
    const NAME: &'static str = "hold";
    const ARGS: &'static str = HOLD;

    fn inputs() -> Inputs {
        let mut r = Random::new();
        let limits = limits().map(move |a| {
            let owned = r.word();
            with_wallet(a[..3].to_vec(), owned, a[3], &mut r)
        });
        let border = |r: &mut Random| {
            let (side, old, total, owned) = (r.below(2), r.word(), r.word(), r.word());
            let limit = r.beside(1 << 63);
            let new = limit.wrapping_sub(total).wrapping_add(old);
            with_wallet(vec![side, old, new], owned, total, r)
        };
        boxed(
            listed([[0, 1000, 500, 520, 2, 1000, 0]])
                .chain(limits)
                .chain(random(200_000, |r| [vec![r.below(2)], r.words(6)].concat()))
                .chain(random(200_000, border)),
        )
    }

    /// The difference is the one that `set_leaves` holds.
    fn rust(args: &[u64]) -> Rust {
        match side(args[0]) {
            Some(side) => unless_overflow(|| {
                let mut wallet = wallet(&args[3..]);
                wallet.hold(side, args[2] as i64 - args[1] as i64);
                leaves(0, wallet)
            }),
            None => Rust::Lacks,
        }
    }

    fn rule(args: &[u64]) -> Words {
        let before = wallet(&args[3..]);
        match side(args[0]) {
            None => leaves(MALFORMED, before),
            Some(side) => match rule::hold(side, args[1] as i64, args[2] as i64, before) {
                None => leaves(OUTSIDE, before),
                Some(after) => leaves(0, after),
            },
        }
    }

    fn rattle(args: &[u64]) -> Words {
        call(&args[3..], |wallet| {
            rattle::hold(args[0] as u32, args[1], args[2], wallet)
        })
    }
}

/// `hold` again, where the Rust is a whole `Exchange` with orders that hold the totals.
pub struct HoldInExchange;

impl Function for HoldInExchange {
    const NAME: &'static str = "hold, by Exchange";
    const ARGS: &'static str = HOLD;

    fn inputs() -> Inputs {
        let limits = all([&SIDES, &LIMITS, &LIMITS, &LIMITS, &LIMITS[..2]])
            .map(|a| vec![a[0], a[1], a[2], 5, 7, a[3], a[4]]);
        boxed(
            limits
                .chain(random(100_000, |r| [vec![r.below(2)], r.words(6)].concat()))
                .filter(|args| exchange::can_hold(args)),
        )
    }

    fn rust(args: &[u64]) -> Rust {
        if !exchange::can_hold(args) {
            return Rust::Lacks;
        }
        unless_overflow(|| leaves(0, exchange::hold(args)))
    }

    fn rule(args: &[u64]) -> Words {
        Hold::rule(args)
    }

    fn rattle(args: &[u64]) -> Words {
        Hold::rattle(args)
    }
}

pub struct Settle;

impl Function for Settle {
    const NAME: &'static str = "settle";
    const ARGS: &'static str = "side, price, qty, cash, position, cash_held, position_held, fee";

    fn inputs() -> Inputs {
        let mut r = Random::new();
        let held = move |mut args: Words| {
            args.extend(r.words(2));
            args.push(0);
            args
        };
        let limits = all([&SIDES, &LIMITS, &LIMITS, &LIMITS, &LIMITS])
            .chain(all([
                &NO_SIDES,
                &LIMITS,
                &LIMITS,
                &LIMITS[..2],
                &LIMITS[..2],
            ]))
            .map(held);
        boxed(
            listed([
                [0, 240, 2, 1000, 0, 1000, 0, 0],
                [0, (i64::MIN / 2) as u64, 4, 0, 0, 0, 0, 0],
                [0, 240, 2, 1040, 0, 1040, 0, 10],
            ])
            .chain(limits)
            .chain(random(200_000, |r| {
                [vec![r.below(2)], r.words(6), vec![0]].concat()
            }))
            .chain(random(100_000, |r| {
                let (price, qty) = near_limit(r);
                [vec![r.below(2), price, qty], r.words(4), vec![0]].concat()
            }))
            .chain(random(100_000, |r| [vec![r.below(2)], r.words(7)].concat()))
            .chain(random(100_000, |r| {
                let (fee, price) = with_fee(r);
                let args = vec![r.below(2), price, r.pick(&FEW)];
                [args, r.words(4), vec![fee]].concat()
            })),
        )
    }

    fn rust(args: &[u64]) -> Rust {
        let Some(side) = side(args[0]).filter(|_| args[7] == 0) else {
            return Rust::Lacks;
        };
        let mut wallet = wallet(&args[3..]);
        wallet.settle(side, args[1] as i64, args[2]);
        Rust::Answer(leaves(0, wallet))
    }

    fn rule(args: &[u64]) -> Words {
        let before = wallet(&args[3..]);
        match side(args[0]) {
            Some(side) => {
                let (fee, price) = (args[7] as i64, args[1] as i64);
                leaves(0, rule::settle(fee, side, price, args[2], before))
            }
            None => leaves(MALFORMED, before),
        }
    }

    fn rattle(args: &[u64]) -> Words {
        call(&args[3..7], |wallet| {
            rattle::settle(args[7], args[0] as u32, args[1], args[2], wallet)
        })
    }
}
