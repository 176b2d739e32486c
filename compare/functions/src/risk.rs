//! The collar and the throttle, with the Rust's `Exchange`.

use crate::exchange::{self, Session};
use crate::function::{FILL, Function, Inputs, Rust, Words, call, to_bytes, to_words};
use crate::inputs::{Draw, LIMITS, Random, all, boxed, listed, random};
use crate::rattle;
use crate::rule::{self, Bucket, TOKEN};

pub struct Near;

const PERCENTS: [u64; 13] = [
    0,
    1,
    2,
    10,
    50,
    99,
    100,
    101,
    200,
    1000,
    1 << 31,
    0xFFFF_FFFE,
    0xFFFF_FFFF,
];

impl Function for Near {
    const NAME: &'static str = "near";
    const ARGS: &'static str = "price, mark, percent";

    fn inputs() -> Inputs {
        let percent = |r: &mut Random| match r.below(3) {
            0 => r.pick(&PERCENTS),
            1 => r.below(200),
            _ => r.bits() >> 32,
        };
        // Each side of the mark, the distance that the collar allows.
        let border = move |r: &mut Random| {
            let (mark, percent) = (r.word() as i64, percent(r));
            let distance = i128::from(mark) * i128::from(percent) / 100;
            let distance = if r.below(2) == 0 { distance } else { -distance };
            let price = (i128::from(mark) + distance) as u64;
            vec![r.beside(price), mark as u64, percent]
        };
        boxed(
            listed([
                [1100, 1000, 10],
                [1101, 1000, 10],
                [-1000i64 as u64, -1000i64 as u64, 10],
            ])
            .chain(all([&LIMITS, &LIMITS, &PERCENTS]))
            .chain(random(100_000, move |r| {
                vec![r.word(), r.word(), percent(r)]
            }))
            .chain(random(200_000, border)),
        )
    }

    fn rust(args: &[u64]) -> Rust {
        let near = exchange::near(args[0] as i64, args[1] as i64, args[2] as u32);
        Rust::Answer(vec![0, near.into()])
    }

    fn rule(args: &[u64]) -> Words {
        let near = rule::near(args[0] as i64, args[1] as i64, args[2] as u32);
        vec![0, near.into()]
    }

    fn rattle(args: &[u64]) -> Words {
        call(&[FILL], |out| {
            rattle::near(args[0], args[1], args[2] as u32, out)
        })
    }
}

/// A history: an account of this rate, and its messages' times. The Rust shows whether each
/// message passes; the bucket's two numbers after it are the rule's.
pub struct TakeToken;

const RATES: [u64; 12] = [
    0,
    1,
    2,
    3,
    5,
    7,
    10,
    1000,
    999_999_999,
    1_000_000_001,
    0xFFFF_FFFE,
    0xFFFF_FFFF,
];

/// Times that mostly go on by about a message's worth, and sometimes far, back or not at all.
pub fn history(r: &mut Random) -> Words {
    let rate = match r.below(4) {
        0 => r.pick(&RATES),
        1 => r.bits() >> 32,
        _ => r.below(12),
    };
    let pace = TOKEN / rate.max(1);
    let mut now = if r.below(4) == 0 {
        r.word()
    } else {
        r.below(TOKEN)
    };
    let mut args = vec![rate];
    for _ in 0..=r.below(40) {
        args.push(now);
        now = match r.below(12) {
            0 => r.word(),
            1 => now.saturating_sub(r.below(2 * TOKEN)),
            2..5 => now,
            5..8 => r.beside(now.saturating_add(pace)),
            _ => now.saturating_add(r.below(2 * pace + 1)),
        };
    }
    args
}

/// A full bucket emptied at one time, then a few more messages.
pub fn burst(rate: u64) -> Words {
    let pace = TOKEN / rate;
    let mut args = vec![rate];
    args.extend(vec![0; rate as usize + 1]);
    args.extend([pace - 1, pace, pace + 1, 2 * pace, TOKEN, u64::MAX]);
    args.extend(vec![u64::MAX; rate as usize + 1]);
    args
}

fn steps(args: &[u64], mut passes: impl FnMut(u64, bool) -> bool) -> Words {
    let rate = args[0] as u32;
    let mut bucket = Bucket::full(rate);
    let mut answer = Vec::new();
    for &now in &args[1..] {
        let (passed, after) = rule::take_token(rate, now, bucket);
        bucket = after;
        answer.extend([0, passes(now, passed).into(), after.tokens, after.refilled]);
    }
    answer
}

impl Function for TakeToken {
    const NAME: &'static str = "take_token";
    const ARGS: &'static str = "rate, time...";

    fn inputs() -> Inputs {
        boxed(
            listed([
                [2, 0, 0, 499_999_999],
                [2, 0, 0, 500_000_000],
                [2, 0, 0, 5_000_000_000],
                [0, 0, TOKEN, u64::MAX],
            ])
            .chain(all([&RATES, &LIMITS, &LIMITS, &LIMITS]))
            .chain([1, 2, 3, 7, 1000, 4321].map(burst))
            .chain(random(20_000, history)),
        )
    }

    fn rust(args: &[u64]) -> Rust {
        let mut session = Session::new(args[0] as u32, None);
        Rust::Answer(steps(args, |now, _| session.passes(now)))
    }

    fn rule(args: &[u64]) -> Words {
        steps(args, |_, passed| passed)
    }

    fn rattle(args: &[u64]) -> Words {
        let rate = args[0] as u32;
        let mut bucket = to_bytes(&[Bucket::full(rate).tokens, 0]);
        let mut answer = Vec::new();
        for &now in &args[1..] {
            answer.extend(call(&[FILL], |out| {
                rattle::take_token(rate, now, &mut bucket, out)
            }));
            answer.extend(to_words(&bucket));
        }
        answer
    }

    fn calls(args: &[u64]) -> u64 {
        args.len() as u64 - 1
    }
}

/// One message at a bucket of any contents up to the cap, which no history need reach.
pub struct TakeTokenOf;

impl Function for TakeTokenOf {
    const NAME: &'static str = "take_token, any bucket";
    const ARGS: &'static str = "rate, time, tokens, refilled";

    fn inputs() -> Inputs {
        boxed(random(100_000, |r| {
            let rate = if r.below(2) == 0 {
                r.pick(&RATES)
            } else {
                r.bits() >> 32
            };
            let cap = rate * TOKEN;
            let tokens = match r.below(4) {
                0 => cap - cap.min(r.below(3)),
                1 => cap.min(r.beside(TOKEN)),
                _ => r.bits() % (cap + 1),
            };
            vec![rate, r.word(), tokens, r.word()]
        }))
    }

    fn rust(_: &[u64]) -> Rust {
        Rust::Lacks
    }

    fn rule(args: &[u64]) -> Words {
        let (tokens, refilled) = (args[2], args[3]);
        let (passed, after) =
            rule::take_token(args[0] as u32, args[1], Bucket { tokens, refilled });
        vec![0, passed.into(), after.tokens, after.refilled]
    }

    fn rattle(args: &[u64]) -> Words {
        let mut bucket = to_bytes(&args[2..]);
        let mut answer = call(&[FILL], |out| {
            rattle::take_token(args[0] as u32, args[1], &mut bucket, out)
        });
        answer.extend(to_words(&bucket));
        answer
    }
}
