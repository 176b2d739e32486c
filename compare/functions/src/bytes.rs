//! Little-endian numbers, with Rust's own `from_le_bytes` and `to_le_bytes`.

use std::ops::Range;

use crate::function::{FILL, Function, Inputs, Rust, Words, call};
use crate::inputs::{Draw, LIMITS, Random, boxed, random};
use crate::rattle;
use crate::rule::{MALFORMED, OUTSIDE, SHORT};

const WIDTHS: [u64; 4] = [1, 2, 4, 8];

/// A width, often none of the four.
fn width(r: &mut Random) -> u64 {
    match r.below(16) {
        0 => r.below(20),
        1 => r.bits() >> 32,
        _ => r.pick(&WIDTHS),
    }
}

/// A place, often about the end of `len` bytes or far outside.
fn place(r: &mut Random, len: u64) -> u64 {
    match r.below(4) {
        0 => r.pick(&LIMITS),
        1 => len.saturating_sub(r.below(10)),
        _ => r.below(len + 2),
    }
}

/// A value, mostly one that fits `width` bytes, often just too long for some width.
fn value(r: &mut Random, width: u64) -> u64 {
    let limit = r.pick(&[1 << 8, 1 << 16, 1 << 32]);
    match r.below(4) {
        0 => r.beside(limit),
        1 => r.bits() >> r.below(64),
        _ => r.bits() >> (64 - 8 * width.clamp(1, 8)),
    }
}

/// Inputs of `first` and as many words of one byte each as it was told.
fn on_bytes(first: impl Fn(&mut Random, u64) -> Words + 'static) -> Inputs {
    boxed(random(200_000, move |r| {
        let len = r.pick(&[0, 1, 2, 3, 4, 7, 8, 9, 16, 16, 16, 33]);
        let mut args = first(r, len);
        args.extend((0..len).map(|_| r.below(256)));
        args
    }))
}

fn byte_slice(words: &[u64]) -> Vec<u8> {
    words.iter().map(|&word| word as u8).collect()
}

/// The places of `len` bytes from `at` on.
fn places(at: u64, len: usize) -> Option<Range<usize>> {
    let at = usize::try_from(at).ok()?;
    Some(at..at.checked_add(len)?)
}

/// Calls `f` with `words` as bytes: its code, and the bytes after it.
fn call_on_bytes(words: &[u64], f: impl FnOnce(&mut [u8]) -> u64) -> Words {
    let mut lent = byte_slice(words);
    let mut answer = vec![f(&mut lent)];
    answer.extend(lent.into_iter().map(u64::from));
    answer
}

pub struct Load;

impl Function for Load {
    const NAME: &'static str = "load";
    const ARGS: &'static str = "width, at, byte...";

    fn inputs() -> Inputs {
        on_bytes(|r, len| vec![width(r), place(r, len)])
    }

    fn rust(args: &[u64]) -> Rust {
        let lent = byte_slice(&args[2..]);
        let part = |len| lent.get(places(args[1], len)?);
        let value = match args[0] {
            1 => part(1).map(|b| u8::from_le_bytes(b.try_into().unwrap()).into()),
            2 => part(2).map(|b| u16::from_le_bytes(b.try_into().unwrap()).into()),
            4 => part(4).map(|b| u32::from_le_bytes(b.try_into().unwrap()).into()),
            8 => part(8).map(|b| u64::from_le_bytes(b.try_into().unwrap())),
            _ => return Rust::Lacks,
        };
        Rust::Answer(value.map_or(vec![MALFORMED, FILL], |value| vec![0, value]))
    }

    fn rule(args: &[u64]) -> Words {
        let (width, at, bytes) = (args[0], args[1], &args[2..]);
        let len = bytes.len() as u64;
        if !WIDTHS.contains(&width) || at > len || len - at < width {
            return vec![MALFORMED, FILL];
        }
        let digits = bytes[at as usize..][..width as usize].iter().rev();
        vec![0, digits.fold(0, |value, byte| value * 256 + byte)]
    }

    fn rattle(args: &[u64]) -> Words {
        let bytes = byte_slice(&args[2..]);
        call(&[FILL], |out| {
            rattle::load(args[0] as u32, args[1], &bytes, out)
        })
    }
}

pub struct Store;

impl Function for Store {
    const NAME: &'static str = "store";
    const ARGS: &'static str = "width, at, value, byte...";

    fn inputs() -> Inputs {
        on_bytes(|r, len| {
            let width = width(r);
            vec![width, place(r, len), value(r, width)]
        })
    }

    fn rust(args: &[u64]) -> Rust {
        let (at, value) = (args[1], args[2]);
        let digits = match args[0] {
            1 => u8::try_from(value).map(|n| n.to_le_bytes().to_vec()),
            2 => u16::try_from(value).map(|n| n.to_le_bytes().to_vec()),
            4 => u32::try_from(value).map(|n| n.to_le_bytes().to_vec()),
            8 => Ok(value.to_le_bytes().to_vec()),
            _ => return Rust::Lacks,
        };
        Rust::Answer(call_on_bytes(&args[3..], |lent| {
            let Ok(digits) = digits else { return OUTSIDE };
            match places(at, digits.len()).and_then(|places| lent.get_mut(places)) {
                Some(part) => part.copy_from_slice(&digits),
                None => return SHORT,
            }
            0
        }))
    }

    fn rule(args: &[u64]) -> Words {
        let (width, at, value) = (args[0], args[1], args[2]);
        let mut answer = args[2..].to_vec();
        let len = answer.len() as u64 - 1;
        answer[0] = if !WIDTHS.contains(&width) {
            MALFORMED
        } else if width < 8 && value >> (8 * width) > 0 {
            OUTSIDE
        } else if at > len || len - at < width {
            SHORT
        } else {
            for i in 0..width {
                answer[(1 + at + i) as usize] = value >> (8 * i) & 255;
            }
            0
        };
        answer
    }

    fn rattle(args: &[u64]) -> Words {
        call_on_bytes(&args[3..], |lent| {
            rattle::store(args[0] as u32, args[1], args[2], lent).into()
        })
    }
}
