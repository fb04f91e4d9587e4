//! What could not be tested by hand: damage to lines, frames and fixed blocks,
//! read by the library's own readers.
//!
//! ```text
//! damage [--seconds N] [--all] [--threads N]
//! ```
//!
//! `--seconds` sets the time for the slice of bit pairs (60), `--all` tries
//! every pair of a full block instead, with `--threads` at a time (1). The
//! program prints what was tried, refused and accepted, and ends by an
//! assertion where the third property does not hold.

mod burst;
#[allow(dead_code, unused_attributes)]
#[path = "../../bindings/rust/src/lib.rs"]
mod corridor;
mod counts;
mod diagonals;
mod fixed_damage;
#[allow(dead_code)]
mod frames;
#[allow(dead_code)]
mod lines;
mod pairs;
mod part_bytes;
#[allow(dead_code)]
mod peer;
mod property;
#[allow(dead_code)]
mod random;
mod specimen;
mod substitution;
mod syndromes;

use std::process::ExitCode;
use std::time::Duration;

struct Arguments {
    seconds: u64,
    all: bool,
    threads: usize,
}

fn main() -> ExitCode {
    let Some(arguments) = arguments() else {
        eprintln!("usage: damage [--seconds N] [--all] [--threads N]");
        return ExitCode::from(2);
    };
    substitution::run();
    burst::run();
    part_bytes::run();
    diagonals::run();
    fixed_damage::run();
    syndromes::run();
    pairs::shorter();
    if arguments.all {
        pairs::all(arguments.threads);
    } else {
        pairs::slice(Duration::from_secs(arguments.seconds));
    }
    println!("the third property holds in all that was tried");
    ExitCode::SUCCESS
}

fn arguments() -> Option<Arguments> {
    let mut found = Arguments {
        seconds: 60,
        all: false,
        threads: 1,
    };
    let mut given = std::env::args().skip(1);
    while let Some(name) = given.next() {
        match name.as_str() {
            "--all" => found.all = true,
            "--seconds" => found.seconds = given.next()?.parse().ok()?,
            "--threads" => found.threads = given.next()?.parse().ok().filter(|n| *n > 0)?,
            _ => return None,
        }
    }
    Some(found)
}
