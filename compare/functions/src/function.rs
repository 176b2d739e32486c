//! What is compared: a function of the interface, answered by the Rust, by the written rule and by
//! the proved library. Arguments and answers are 64-bit words.

use std::any::Any;
use std::panic::{AssertUnwindSafe, catch_unwind, resume_unwind};

use orderbook::Side;

/// An answer has the code first, then every word that was lent to be written.
pub type Words = Vec<u64>;

pub type Inputs = Box<dyn Iterator<Item = Words>>;

/// What an output has before the call.
pub const FILL: u64 = 0xA5A5_A5A5_A5A5_A5A5;

/// The arguments that are read with a sign.
const SIGNED: [&str; 10] = [
    "price",
    "fee",
    "mark",
    "amount",
    "old",
    "new",
    "cash",
    "position",
    "cash_held",
    "position_held",
];

/// An argument's name, and how its word is read.
pub struct Arg {
    pub name: &'static str,
    pub signed: bool,
}

/// What the Rust says.
pub enum Rust {
    Answer(Words),
    /// It panics with this text, or wraps where sums are not checked.
    Overflow(&'static str),
    /// Its types have no such input.
    Lacks,
}

pub trait Function {
    const NAME: &'static str;
    /// The arguments' names; a last one with dots comes any number of times.
    const ARGS: &'static str;
    /// How many leading words of the rule's answer tell one kind of overflow from another.
    const KIND: usize = 1;

    fn inputs() -> Inputs;
    fn rust(args: &[u64]) -> Rust;
    fn rule(args: &[u64]) -> Words;
    fn rattle(args: &[u64]) -> Words;

    /// How often an input calls the library.
    fn calls(_args: &[u64]) -> u64 {
        1
    }

    /// The argument at a place.
    fn arg(at: usize) -> Arg {
        let name = Self::ARGS.split(", ").take(at + 1).last();
        let name = name.expect("a name").trim_end_matches('.');
        let signed = SIGNED.contains(&name);
        Arg { name, signed }
    }

    /// How many arguments come once each, where the last comes any number of times.
    fn fixed() -> Option<usize> {
        let names = Self::ARGS.strip_suffix("...")?;
        Some(names.split(", ").count() - 1)
    }
}

pub fn side(code: u64) -> Option<Side> {
    match code {
        0 => Some(Side::Buy),
        1 => Some(Side::Sell),
        _ => None,
    }
}

/// What the Rust answers in `f`, unless a sum overflows there.
pub fn unless_overflow(f: impl FnOnce() -> Words) -> Rust {
    match catch_unwind(AssertUnwindSafe(f)) {
        Ok(answer) => Rust::Answer(answer),
        Err(panic) => match overflow(&*panic) {
            Some(text) => Rust::Overflow(text),
            None => resume_unwind(panic),
        },
    }
}

pub fn overflow(panic: &(dyn Any + Send)) -> Option<&'static str> {
    let text = *panic.downcast_ref::<&str>()?;
    text.ends_with("with overflow").then_some(text)
}

pub fn to_bytes(words: &[u64]) -> Vec<u8> {
    words.iter().flat_map(|word| word.to_le_bytes()).collect()
}

pub fn to_words(bytes: &[u8]) -> impl Iterator<Item = u64> {
    let (words, _) = bytes.as_chunks();
    words.iter().map(|&word| u64::from_le_bytes(word))
}

/// Lends `words` to `f`: its code, and the words after it.
pub fn call(words: &[u64], f: impl FnOnce(&mut [u8]) -> u32) -> Words {
    let mut lent = to_bytes(words);
    let mut answer = vec![f(&mut lent).into()];
    answer.extend(to_words(&lent));
    answer
}
