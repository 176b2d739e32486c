//! Lent slices of every length, right and wrong, which the Rust's types do not have.

use crate::function::{Function, Inputs, Rust, Words};
use crate::inputs::boxed;
use crate::rattle;
use crate::rule::{MALFORMED, SHORT};

/// A call on an input of zeros and an output: its code.
type Call = fn(&mut [u8], &mut [u8]) -> u32;

/// Each call, the length of its input, and the least length of its output; 0 for none.
const CALLS: [(Call, u64, u64); 7] = [
    (|_, out| rattle::hold_of(0, 0, 0, 0, out), 0, 16),
    (|wallet, out| rattle::covers(0, 0, wallet, out), 32, 8),
    (|wallet, _| rattle::hold(0, 0, 1, wallet), 32, 0),
    (|wallet, _| rattle::settle(0, 0, 1, 1, wallet), 32, 0),
    (|_, out| rattle::near(0, 0, 0, out), 0, 8),
    (|bucket, out| rattle::take_token(1, 9, bucket, out), 16, 8),
    (|_, out| rattle::load(1, 0, &[7], out), 0, 8),
];

/// Lengths up to this are lent.
const LONGEST: u64 = 50;

pub struct Lengths;

impl Function for Lengths {
    const NAME: &'static str = "lent lengths";
    const ARGS: &'static str = "call, input, output";

    fn inputs() -> Inputs {
        let lengths = |most: u64| 0..if most > 0 { LONGEST } else { 1 };
        boxed(
            (0..)
                .zip(CALLS)
                .flat_map(move |(call, (_, input, output))| {
                    let pair = move |len| lengths(output).map(move |room| vec![call, len, room]);
                    lengths(input).flat_map(pair)
                }),
        )
    }

    fn rust(_: &[u64]) -> Rust {
        Rust::Lacks
    }

    /// The code; whether the output's bytes that the answer does not take were kept; and, after a
    /// refusal, whether the input's were.
    fn rule(args: &[u64]) -> Words {
        let (_, input, output) = CALLS[args[0] as usize];
        let code = if args[1] != input {
            MALFORMED
        } else if args[2] < output {
            SHORT
        } else {
            0
        };
        vec![code, 1, 1]
    }

    fn rattle(args: &[u64]) -> Words {
        let (call, _, output) = CALLS[args[0] as usize];
        let mut lent = vec![0; args[1] as usize];
        let mut out = vec![0xA5; args[2] as usize];
        let code = call(&mut lent, &mut out);
        let written = if code == 0 { output as usize } else { 0 };
        let kept = out[written..].iter().all(|&byte| byte == 0xA5);
        let same = code == 0 || lent.iter().all(|&byte| byte == 0);
        vec![code.into(), kept.into(), same.into()]
    }
}
