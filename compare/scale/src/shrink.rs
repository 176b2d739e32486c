//! Makes a list that shows a difference short.

use std::time::{Duration, Instant};

use calls::Start;

use crate::play::{Step, replay};

/// How long shrinking may take.
const PATIENCE: Duration = Duration::from_secs(60);

fn differs(start: &Start, steps: &[Step]) -> bool {
    replay(start, steps).is_err()
}

/// Without parts of `items`, by halves and less, as long as `fails` holds.
fn shorter<T: Clone>(items: &[T], until: Instant, fails: impl Fn(&[T]) -> bool) -> Vec<T> {
    let mut items = items.to_vec();
    let mut size = items.len().div_ceil(2);
    while size > 0 {
        let mut at = 0;
        while at < items.len() && Instant::now() < until {
            let end = (at + size).min(items.len());
            let fewer = [&items[..at], &items[end..]].concat();
            if fails(&fewer) { items = fewer } else { at = end }
        }
        size = if size == 1 { 0 } else { size.div_ceil(2) };
    }
    items
}

pub fn shrink(start: &Start, steps: &[Step]) -> (Start, Vec<Step>) {
    let until = Instant::now() + PATIENCE;
    let steps = shorter(steps, until, |steps| differs(start, steps));
    let start = match start {
        Start::SetUp(fee, limit, last, accounts, listing, timing) => {
            let with = |listing: &[calls::Listed]| Start::SetUp(*fee, *limit, *last, accounts.clone(), listing.to_vec(), *timing);
            let listing = shorter(listing, until, |listing| differs(&with(listing), &steps));
            let with = |accounts: &[_]| Start::SetUp(*fee, *limit, *last, accounts.to_vec(), listing.clone(), *timing);
            with(&shorter(accounts, until, |accounts| differs(&with(accounts), &steps)))
        }
        Start::Restore(..) => start.clone(),
    };
    let steps = shorter(&steps, until, |steps| differs(&start, steps));
    (start, steps)
}
