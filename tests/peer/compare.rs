//! Compares the library with the peer, call by call.
//!
//! ```text
//! compare [--seed N] [--cases N]
//! ```
//!
//! `--seed` starts the generated cases elsewhere, `--cases` sets the rounds of
//! generated cases. The program prints what it tried by stage, by call and by
//! answer number, and ends with 1 on the first difference, where a number of
//! document 01 was never met, or where a call answered another's number.

mod claims;
#[allow(dead_code, unused_attributes)]
#[path = "../../bindings/rust/src/lib.rs"]
mod corridor;
mod expected;
mod fixed_blocks;
mod forms;
mod frames;
mod generated;
mod interleaving;
mod joins;
mod judge;
mod lengths;
mod limits;
mod lines;
mod links;
#[allow(dead_code)]
mod peer;
mod random;
mod replays;
mod rows;
mod senders;
mod small;
mod tally;
mod typed;

use judge::Judge;
use random::Random;
use std::process::ExitCode;
use std::time::Instant;

/// Seed and rounds of the default run.
const SEED: u64 = 28_082;
const CASES: u64 = 1_000_000;

/// Calls of the sender.
const SENDER_CALLS: u64 = 3_000_000;

/// Calls of the two stations of a link.
const LINK_CALLS: u64 = 700_000;

/// Texts that are interleaved, behind the small ones.
const INTERLEAVED: u64 = 50_000;

/// Calls of the two readers of a recorded line.
const REPLAY_CALLS: u64 = 500_000;

fn main() -> ExitCode {
    let Some((seed, cases)) = arguments() else {
        eprintln!("usage: compare [--seed N] [--cases N]");
        return ExitCode::from(2);
    };
    let mut judge = Judge::new();
    let mut random = Random::of_seed(seed);
    println!("seed {seed}, {cases} generated rounds");
    let tried = &mut judge;
    stage("rows and published values", tried, rows::run);
    stage("limits", tried, |judge| limits::run(judge, &mut random));
    stage("everything small", tried, small::run);
    stage("checks at every length", tried, |judge| {
        forms::checks::run(judge, &mut random)
    });
    stage("blocks at every place", tried, |judge| {
        forms::blocks::run(judge, &mut random);
        forms::fill::run(judge, &mut random);
    });
    stage("frames at every bit", tried, |judge| {
        forms::frames::run(judge, &mut random)
    });
    stage("contents of any number of bits", tried, |judge| {
        claims::run(judge, &mut random)
    });
    stage("generated", tried, |judge| {
        generated::run(judge, &mut random, cases)
    });
    stage("histories of a sender", tried, |judge| {
        senders::run(&mut judge.tally, &mut random, SENDER_CALLS)
    });
    stage("histories of a link", tried, |judge| {
        links::run(&mut judge.tally, &mut random, LINK_CALLS)
    });
    stage("interleaving", tried, |judge| {
        interleaving::run(&mut judge.tally, &mut random, INTERLEAVED)
    });
    stage("replays", tried, |judge| {
        replays::run(&mut judge.tally, &mut random, REPLAY_CALLS)
    });
    stage("joined checks", tried, |judge| {
        joins::run(&mut judge.tally, &mut random)
    });
    stage("fixed blocks", tried, |judge| {
        fixed_blocks::run(&mut judge.tally, &mut random)
    });
    stage("longest lines and frames", tried, |judge| {
        lengths::run(&mut judge.tally, &mut random)
    });
    judge.tally.print();
    let missing = judge.tally.missing();
    if !missing.is_empty() {
        println!("NEVER MET: {missing:?}");
        return ExitCode::FAILURE;
    }
    let strange = judge.tally.strange();
    if !strange.is_empty() {
        println!("NO NUMBER OF THE CALL: {strange:?}");
        return ExitCode::FAILURE;
    }
    println!("{} calls compared, no difference", judge.tally.total());
    ExitCode::SUCCESS
}

/// Runs a stage and tells how many calls it compared, checks included.
fn stage(name: &str, judge: &mut Judge, run: impl FnOnce(&mut Judge)) {
    let start = Instant::now();
    let calls = |judge: &Judge| judge.tally.total() + judge.tally.checks;
    let before = calls(judge);
    run(judge);
    let (made, seconds) = (calls(judge) - before, start.elapsed().as_secs_f64());
    println!("{name}: {made} calls, {seconds:.1} s");
}

/// Seed and rounds; nothing where the arguments are not understood.
fn arguments() -> Option<(u64, u64)> {
    let (mut seed, mut cases) = (SEED, CASES);
    let mut arguments = std::env::args().skip(1);
    while let Some(name) = arguments.next() {
        let value = arguments.next()?.parse().ok()?;
        match name.as_str() {
            "--seed" => seed = value,
            "--cases" => cases = value,
            _ => return None,
        }
    }
    Some((seed, cases))
}
