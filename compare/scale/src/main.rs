//! `scale CALLS [SEED]` makes lists of random calls on both gateways and the model, from that seed on, until there were so many calls; a
//! difference is made short and printed as a test. `scale --list SEED` makes one list. `scale --strict CALLS [SEED]` fails too where
//! something of document 01 was not met.

use std::process::ExitCode;
use std::time::Instant;

use scale::list::{Tally, make};
use scale::replay;
use scale::shrink::shrink;
use scale::sides::Counts;
use scale::source::test;
use scale::spread::spread;

fn counted(name: &str, counts: &Counts) {
    let Counts { calls, with_rust, refused, alone, panics, replays, untracked, charged, checkpoints, drained } = counts;
    println!("{name}: {calls} calls, {with_rust} with the published Rust, {refused} refused, {alone} by the model alone");
    println!("  the Rust left {panics} lists by a panic, {replays} after a replay, {untracked} at `Unavailable`; {charged} had a fee");
    println!("  {checkpoints} checkpoints compared, {drained} states drained for their live orders");
}

fn main() -> ExitCode {
    let mut words: Vec<String> = std::env::args().skip(1).collect();
    let mut flag = |name: &str| {
        let found = words.first().is_some_and(|word| word == name);
        found.then(|| words.remove(0)).is_some()
    };
    let (one, strict) = (flag("--list"), flag("--strict"));
    let numbers: Vec<u64> = words.iter().map(|word| word.parse().expect("a number")).collect();
    std::panic::set_hook(Box::new(|_| {}));
    let begun = Instant::now();
    let mut tally = Tally::default();
    let done = if one {
        make(numbers[0], &mut tally).map(drop).map_err(|difference| (numbers[0], difference))
    } else {
        let all = spread(numbers[0], numbers.get(1).copied().unwrap_or(0), make);
        all.map(|all| all.into_iter().for_each(|more| tally.add(more)))
    };
    match done {
        Ok(()) => {}
        Err((seed, difference)) => {
            println!("difference in list {seed}, step {}: {}", difference.steps.len(), difference.what);
            let (start, steps) = shrink(&difference.start, &difference.steps);
            let what = replay(&start, &steps).err().unwrap_or("gone when made again".to_owned());
            println!("{}", test(&start, &steps, &what));
            return ExitCode::FAILURE;
        }
    }
    println!("{}", tally.coverage.text());
    counted("first gateways", &tally.first);
    counted("restarted gateways", &tally.second);
    let Tally { lists, restarts, items, cut, finished, .. } = tally;
    println!("{restarts} restarts, {items} items fed, {finished} finished, {cut} ended by an event from before the checkpoint");
    let seconds = begun.elapsed().as_secs_f64();
    let missing = tally.coverage.missing();
    println!("not met: {}", if missing.is_empty() { "nothing".to_owned() } else { missing.join(", ") });
    println!("scale: {lists} lists, {} calls, no difference, {seconds:.1} s", tally.first.calls);
    if strict && !missing.is_empty() { ExitCode::FAILURE } else { ExitCode::SUCCESS }
}
