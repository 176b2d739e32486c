//! A sample of the Rust's own answers, for a program that has no Rust at hand.
//!
//! Rows of 15 little-endian numbers of 8 bytes: the function, eight arguments, six results. What a
//! function does not use is 0; a negative number stands as its two's complement. The first result
//! is the code.
//!
//! | | function | arguments | results |
//! |---|---|---|---|
//! | 1 | `hold_of` | side, price, leaves, fee | 0, fits, amount |
//! | 2 | `covers` | side, amount, cash, position, cash held, position held | 0, covers |
//! | 3 | `hold` | side, old, new, cash, position, cash held, position held | 0, the four after it |
//! | 4 | `settle` | side, price, quantity, cash, position, cash held, position held, fee | 0, the four after it |
//! | 5 | `near` | price, mark, percent | 0, near |
//! | 6 | `take_token` | fresh, rate, time | 0, passes |
//! | 7 | `load` | width, place, 16 bytes | code, value |
//! | 8 | `store` | width, place, value, 16 bytes | code, the 16 bytes after it |
//!
//! A `take_token` that is not fresh goes on with the bucket of the row before; a fresh one starts
//! with a full bucket at time 0. A `load` that is refused leaves its output, 0xA5 in each byte.

use crate::bytes::{Load, Store};
use crate::function::{Function, Rust, Words, to_bytes, to_words};
use crate::inputs::Random;
use crate::money::{Covers, Hold, HoldOf, Settle};
use crate::risk::{self, Near, TakeToken};

type Row = [u64; 15];

fn row(function: u64, args: &[u64], results: &[u64]) -> Row {
    let mut row = [0; 15];
    row[0] = function;
    row[1..9][..args.len()].copy_from_slice(args);
    row[9..][..results.len()].copy_from_slice(results);
    row
}

fn answer<F: Function>(args: &[u64]) -> Option<Words> {
    match F::rust(args) {
        Rust::Answer(answer) => Some(answer),
        Rust::Overflow(_) | Rust::Lacks => None,
    }
}

/// Rows of `F`: its first inputs, which are document 01's examples, and about `count` others.
fn rows<F: Function>(function: u64, examples: usize, count: u64) -> Vec<Row> {
    let all = F::inputs().count() as u64;
    let mut random = Random::new();
    F::inputs()
        .enumerate()
        .filter(|&(at, _)| random.below(all) < count || at < examples)
        .filter_map(|(_, args)| Some(row(function, &args, &answer::<F>(&args)?)))
        .collect()
}

/// A history's messages, a row each.
fn history(args: &[u64]) -> Vec<Row> {
    let (rate, times) = (args[0], &args[1..]);
    let answer = answer::<TakeToken>(args).expect("the Rust's answer");
    let message = |(at, (&time, step)): (usize, (&u64, &[u64]))| {
        row(6, &[(at == 0).into(), rate, time], &step[..2])
    };
    times
        .iter()
        .zip(answer.chunks(4))
        .enumerate()
        .map(message)
        .collect()
}

/// Words of one byte each after the first `fixed`, packed.
fn pack(fixed: usize, words: &[u64]) -> Words {
    let bytes: Vec<u8> = words[fixed..].iter().map(|&word| word as u8).collect();
    [words[..fixed].to_vec(), to_words(&bytes).collect()].concat()
}

/// Rows of `F`, whose answer has `results` numbers before any bytes.
fn byte_rows<F: Function>(function: u64, results: usize, count: usize) -> Vec<Row> {
    let fixed = F::fixed().expect("any number of bytes");
    F::inputs()
        .filter(|args| args.len() == fixed + 16)
        .filter_map(|args| {
            let answer = pack(results, &answer::<F>(&args)?);
            Some(row(function, &pack(fixed, &args), &answer))
        })
        .take(count)
        .collect()
}

fn histories() -> Vec<Row> {
    let mut random = Random::new();
    let examples = TakeToken::inputs().take(4);
    let bursts = [1, 2, 3].map(risk::burst);
    let others = (0..4).map(|_| risk::history(&mut random));
    let all = examples.chain(bursts).chain(others);
    all.flat_map(|args| history(&args)).collect()
}

pub fn write(file: &str) -> Result<(), String> {
    let rows = [
        rows::<HoldOf>(1, 3, 90),
        rows::<Covers>(2, 2, 60),
        rows::<Hold>(3, 1, 90),
        rows::<Settle>(4, 2, 90),
        rows::<Near>(5, 3, 70),
        histories(),
        byte_rows::<Load>(7, 2, 40),
        byte_rows::<Store>(8, 1, 40),
    ]
    .concat();
    println!("{:22} {:8} rows", "sample", rows.len());
    std::fs::write(file, to_bytes(rows.as_flattened())).map_err(|error| format!("{file}: {error}"))
}
