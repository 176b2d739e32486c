//! The time of both sides, in turns, and a table of it.

use std::hint::black_box;
use std::time::{Duration, Instant};

/// What both sides took for one kind of operation: nanoseconds each, in every round.
struct Line {
    name: &'static str,
    proved: Vec<f64>,
    standard: Vec<f64>,
}

#[derive(Default)]
pub struct Table(Vec<Line>);

/// The number that this part of them are below.
fn quantile(mut numbers: Vec<f64>, part: f64) -> f64 {
    numbers.sort_by(f64::total_cmp);
    numbers[((numbers.len() - 1) as f64 * part).round() as usize]
}

impl Table {
    fn line(&mut self, name: &'static str) -> &mut Line {
        let at = self.0.iter().position(|line| line.name == name);
        let at = at.unwrap_or_else(|| {
            let (proved, standard) = (Vec::new(), Vec::new());
            self.0.push(Line {
                name,
                proved,
                standard,
            });
            self.0.len() - 1
        });
        &mut self.0[at]
    }

    /// Times both sides, which do `count` operations of each name: one is first in the even
    /// rounds, the other in the odd ones.
    pub fn time<const N: usize>(
        &mut self,
        names: [&'static str; N],
        count: usize,
        proved: impl FnOnce() -> [Duration; N],
        standard: impl FnOnce() -> [Duration; N],
    ) {
        let round = self.line(names[0]).proved.len();
        let (proved, standard) = in_turns(round, proved, standard);
        let each = |time: Duration| time.as_nanos() as f64 / count as f64;
        for (at, name) in names.into_iter().enumerate() {
            let line = self.line(name);
            line.proved.push(each(proved[at]));
            line.standard.push(each(standard[at]));
        }
    }

    pub fn print(&self, standard: &str) {
        println!("| operation | proved, ns | {standard}, ns | ratio | in half of the rounds |");
        println!("|---|---|---|---|---|");
        for line in &self.0 {
            let proved = quantile(line.proved.clone(), 0.5);
            let standard = quantile(line.standard.clone(), 0.5);
            let ratios = line.proved.iter().zip(&line.standard).map(|(p, s)| p / s);
            let ratios: Vec<f64> = ratios.collect();
            println!(
                "| {} | {proved:.1} | {standard:.1} | {:.2} | {:.2} to {:.2} |",
                line.name,
                proved / standard,
                quantile(ratios.clone(), 0.25),
                quantile(ratios, 0.75),
            );
        }
    }
}

/// Runs one side, then the other; which is first goes by the round.
fn in_turns<T>(round: usize, proved: impl FnOnce() -> T, standard: impl FnOnce() -> T) -> (T, T) {
    match round % 2 {
        0 => {
            let proved = proved();
            (proved, standard())
        }
        _ => {
            let standard = standard();
            (proved(), standard)
        }
    }
}

fn time(run: impl FnOnce()) -> Duration {
    let start = Instant::now();
    run();
    start.elapsed()
}

/// The time of a call for each input. The answers are summed, so that none is left out.
pub fn time_each<T>(inputs: &[T], mut call: impl FnMut(&T) -> u64) -> [Duration; 1] {
    [time(|| {
        let sum = inputs
            .iter()
            .fold(0u64, |sum, input| sum.wrapping_add(call(input)));
        black_box(sum);
    })]
}

/// Calls of one kind, then of another.
pub struct Batch<A, B> {
    pub firsts: Vec<A>,
    pub seconds: Vec<B>,
}

/// The time of the first calls of all batches, and of the second ones.
pub fn time_parts<S, A, B>(
    side: &mut S,
    batches: &[Batch<A, B>],
    first: impl Fn(&mut S, &A),
    second: impl Fn(&mut S, &B),
) -> [Duration; 2] {
    batches.iter().fold([Duration::ZERO; 2], |sum, batch| {
        let firsts = time(|| batch.firsts.iter().for_each(|input| first(side, input)));
        let seconds = time(|| batch.seconds.iter().for_each(|input| second(side, input)));
        [sum[0] + firsts, sum[1] + seconds]
    })
}
