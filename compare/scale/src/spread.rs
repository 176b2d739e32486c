//! Lists by their seeds, on all cores.

use std::sync::atomic::{AtomicBool, AtomicU64, Ordering};
use std::thread;

/// Makes lists from `seed` on, until they made so many calls. `list` makes one and gives its number of calls. What each core counted, or the
/// first failure with its seed.
pub fn spread<T: Default + Send, E: Send>(
    calls: u64,
    seed: u64,
    list: impl Fn(u64, &mut T) -> Result<u64, E> + Sync,
) -> Result<Vec<T>, (u64, E)> {
    let (next, made, stop) = (AtomicU64::new(seed), AtomicU64::new(0), AtomicBool::new(false));
    let work = || {
        let mut tally = T::default();
        while made.load(Ordering::Relaxed) < calls && !stop.load(Ordering::Relaxed) {
            let seed = next.fetch_add(1, Ordering::Relaxed);
            let count = list(seed, &mut tally).map_err(|failure| {
                stop.store(true, Ordering::Relaxed);
                (seed, failure)
            })?;
            made.fetch_add(count, Ordering::Relaxed);
        }
        Ok(tally)
    };
    let threads = thread::available_parallelism().map_or(1, usize::from);
    thread::scope(|scope| {
        let workers: Vec<_> = (0..threads).map(|_| scope.spawn(work)).collect();
        workers.into_iter().map(|worker| worker.join().expect("no panic")).collect()
    })
}
