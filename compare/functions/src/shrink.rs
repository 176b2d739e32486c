//! A smaller input of the same kind.

use crate::function::{Function, Words};

/// `word` nearer to zero by `step`, unless that goes past it.
fn nearer(word: u64, signed: bool, step: u64) -> Option<u64> {
    if signed && (word as i64) < 0 {
        (word.wrapping_neg() >= step).then(|| word.wrapping_add(step))
    } else {
        word.checked_sub(step)
    }
}

/// The places of one argument, or of two that differ.
fn places(count: usize) -> impl Iterator<Item = (usize, usize)> {
    let one = (0..count).map(|at| (at, at));
    one.chain((0..count).flat_map(move |a| (a + 1..count).map(move |b| (a, b))))
}

/// `args` with those at two places nearer to zero by `step`; they may be the same place.
fn moved<F: Function>(args: &[u64], (a, b): (usize, usize), step: u64) -> Option<Words> {
    let mut input = args.to_vec();
    input[a] = nearer(args[a], F::arg(a).signed, step)?;
    input[b] = nearer(args[b], F::arg(b).signed, step)?;
    Some(input)
}

/// Each input that lacks a repeated argument, then those nearer to zero in one argument or, by
/// the same step, in two; large steps first.
fn smaller<F: Function>(args: &[u64]) -> impl Iterator<Item = Words> {
    let count = args.len();
    let fixed = F::fixed().unwrap_or(count);
    let shorter = (fixed..count).map(|at| [&args[..at], &args[at + 1..]].concat());
    let zeros = (0..count).filter_map(|at| moved::<F>(args, (at, at), size::<F>(args, at)));
    let zeros = zeros.filter(move |input| input != args);
    let steps = places(count)
        .flat_map(|pair| (0..64).rev().map(move |k| (pair, 1 << k)))
        .filter_map(|(pair, step)| moved::<F>(args, pair, step));
    shorter.chain(zeros).chain(steps)
}

/// How far an argument is from zero.
pub fn size<F: Function>(args: &[u64], at: usize) -> u64 {
    match F::arg(at).signed {
        true => (args[at] as i64).unsigned_abs(),
        false => args[at],
    }
}

/// The smallest input found, going down from `args`, on which `same` still holds.
pub fn shrink<F: Function>(mut args: Words, same: impl Fn(&[u64]) -> bool) -> Words {
    loop {
        let next = smaller::<F>(&args).find(|input| same(input));
        match next {
            Some(next) => args = next,
            None => return args,
        }
    }
}
