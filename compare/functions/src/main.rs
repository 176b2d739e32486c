//! Compares the proved library's entry points with the published Rust, and with the written rule
//! where the Rust has no answer. `--overflows` also shows the smallest inputs found on which the
//! Rust overflows; `--sample FILE` writes a sample of the Rust's answers instead.

mod bytes;
mod exchange;
mod function;
mod inputs;
mod lengths;
mod money;
mod rattle;
mod risk;
mod rule;
mod sample;
mod shrink;

use std::collections::BTreeMap;
use std::process::exit;

use function::{Function, Rust, Words, overflow};
use shrink::shrink;

/// Calls compared, by who decided them.
#[derive(Clone, Copy, Default)]
struct Count {
    rust: u64,
    overflow: u64,
    lacks: u64,
}

impl Count {
    fn line(self, name: &str) {
        let rule = self.overflow + self.lacks;
        println!(
            "{name:22} {:8} equal; the rule decided {rule:6}: the Rust overflows on {:6}, lacks {:6}",
            self.rust + rule,
            self.overflow,
            self.lacks
        );
    }

    fn add(&mut self, other: Count) {
        self.rust += other.rust;
        self.overflow += other.overflow;
        self.lacks += other.lacks;
    }
}

fn show<F: Function>(args: &[u64]) -> String {
    let show = |(at, &word): (usize, &u64)| {
        let arg = F::arg(at);
        match arg.signed {
            true => format!("{} {}", arg.name, word as i64),
            false => format!("{} {word}", arg.name),
        }
    };
    let shown: Vec<String> = args.iter().enumerate().map(show).collect();
    format!("{} of {}", F::NAME, shown.join(", "))
}

/// Whether all three agree, as far as they answer.
fn agree<F: Function>(args: &[u64]) -> bool {
    let rule = F::rule(args);
    let rust = match F::rust(args) {
        Rust::Answer(answer) => answer == rule,
        Rust::Overflow(_) | Rust::Lacks => true,
    };
    rust && F::rattle(args) == rule
}

fn difference<F: Function>(args: Words) -> String {
    let args = shrink::<F>(args, |input| !agree::<F>(input));
    let rust = match F::rust(&args) {
        Rust::Answer(answer) => format!("{answer:?}"),
        Rust::Overflow(text) => text.to_owned(),
        Rust::Lacks => "has no such input".to_owned(),
    };
    format!(
        "{}\n  Rattle   {:?}\n  Rust     {rust}\n  the rule {:?}",
        show::<F>(&args),
        F::rattle(&args),
        F::rule(&args)
    )
}

/// How large an input is: arguments that are not 0, then their bits, then their sum.
fn size<F: Function>(args: &[u64]) -> (usize, u32, u128) {
    let sizes = (0..args.len()).map(|at| shrink::size::<F>(args, at));
    (
        sizes.clone().filter(|&size| size > 0).count(),
        sizes.clone().map(|size| 64 - size.leading_zeros()).sum(),
        sizes.map(u128::from).sum(),
    )
}

/// What the Rust says of an overflow, and the first words of the rule's answer to it.
type Kind = (&'static str, Words);

/// The overflowing inputs seen, by kind: how many, and the smallest found.
type Overflows = BTreeMap<Kind, (usize, Words)>;

fn kind<F: Function>(args: &[u64]) -> Option<Kind> {
    match F::rust(args) {
        Rust::Overflow(text) => Some((text, F::rule(args)[..F::KIND].to_vec())),
        _ => None,
    }
}

fn note_overflow<F: Function>(seen: &mut Overflows, args: Words) {
    let Some(this) = kind::<F>(&args) else {
        return;
    };
    let (count, least) = seen.entry(this.clone()).or_insert((0, args.clone()));
    *count += 1;
    // Some from all over the inputs are made smaller, to find a small one.
    if *count <= 10 || count.is_power_of_two() {
        let small = shrink::<F>(args, |input| kind::<F>(input).as_ref() == Some(&this));
        if size::<F>(&small) < size::<F>(least) {
            *least = small;
        }
    }
}

fn compare<F: Function>(show_overflows: bool) -> Result<Count, String> {
    let mut count = Count::default();
    let mut overflows = Overflows::new();
    for args in F::inputs() {
        let rule = F::rule(&args);
        if F::rattle(&args) != rule {
            return Err(difference::<F>(args));
        }
        let calls = F::calls(&args);
        match F::rust(&args) {
            Rust::Answer(answer) if answer != rule => return Err(difference::<F>(args)),
            Rust::Answer(_) => count.rust += calls,
            Rust::Lacks => count.lacks += calls,
            Rust::Overflow(_) => {
                count.overflow += calls;
                if show_overflows {
                    note_overflow::<F>(&mut overflows, args);
                }
            }
        }
    }
    count.line(F::NAME);
    for ((text, _), (_, least)) in overflows {
        println!(
            "    {}: {text}; the rule says {:?}",
            show::<F>(&least),
            F::rule(&least)
        );
    }
    Ok(count)
}

fn compare_all(show: bool) -> Result<(), String> {
    let compared = [
        compare::<money::HoldOf>(show)?,
        compare::<money::Covers>(show)?,
        compare::<money::Hold>(show)?,
        compare::<money::HoldInExchange>(show)?,
        compare::<money::Settle>(show)?,
        compare::<risk::Near>(show)?,
        compare::<risk::TakeToken>(show)?,
        compare::<risk::TakeTokenOf>(show)?,
        compare::<bytes::Load>(show)?,
        compare::<bytes::Store>(show)?,
        compare::<lengths::Lengths>(show)?,
    ];
    let mut all = Count::default();
    compared.into_iter().for_each(|count| all.add(count));
    all.line("in all");
    Ok(())
}

/// Overflows are caught and compared, so only other panics are told.
fn tell_other_panics() {
    let tell = std::panic::take_hook();
    std::panic::set_hook(Box::new(move |info| {
        if overflow(info.payload()).is_none() {
            tell(info);
        }
    }));
}

fn main() {
    tell_other_panics();
    let args: Vec<String> = std::env::args().skip(1).collect();
    let result = match &args.iter().map(String::as_str).collect::<Vec<_>>()[..] {
        [] => compare_all(false),
        ["--overflows"] => compare_all(true),
        ["--sample", file] => sample::write(file),
        _ => Err("usage: wallet [--overflows | --sample FILE]".to_owned()),
    };
    if let Err(text) = result {
        eprintln!("{text}");
        exit(1);
    }
}
