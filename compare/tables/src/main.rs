//! The proved tables beside the standard library's maps: `--check` compares what they answer,
//! `--bench` how long they take.

mod bench;
mod check;
mod levels;
mod orders;
mod proved;
mod random;
mod standard;
mod table;
mod timing;

use std::process::exit;

fn main() {
    let args: Vec<String> = std::env::args().skip(1).collect();
    let result = match &args.iter().map(String::as_str).collect::<Vec<_>>()[..] {
        ["--check"] => check::check(),
        ["--bench"] => {
            bench::bench();
            Ok(())
        }
        _ => Err("usage: tables --check | --bench".to_owned()),
    };
    if let Err(text) = result {
        eprintln!("{text}");
        exit(1);
    }
}
