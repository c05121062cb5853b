//! Compares every call of include/gateway.h with documents 01 and 02, written once more from the papers.
//!
//! --seed N     only this seed
//! --seconds N  random inputs for N seconds, in place of a fixed count
//! --all-floats only setpoints_to_bytes, on every f32: some minutes

mod calls;
mod compare;
mod door;
mod guard;
mod inputs;
mod paper;
mod pieces;
mod random;
mod sweeps;

use compare::{Compare, CALLS};
use random::Random;
use std::process::ExitCode;
use std::time::{Duration, Instant, SystemTime, UNIX_EPOCH};

const SEEDS: [u64; 3] = [1, 2, 3];
/// Rounds of random inputs for each seed where no time is given.
const ROUNDS: u64 = 60_000;
/// One round in this many also lists captures, whole and in pieces, and runs a door.
const LISTING: u64 = 64;

struct Arguments {
    seed: Option<u64>,
    seconds: Option<u64>,
    all_floats: bool,
}

fn arguments() -> Option<Arguments> {
    let mut found = Arguments {
        seed: None,
        seconds: None,
        all_floats: false,
    };
    let mut words = std::env::args().skip(1);
    while let Some(word) = words.next() {
        let mut number = || words.next()?.parse().ok();
        match word.as_str() {
            "--seed" => found.seed = Some(number()?),
            "--seconds" => found.seconds = Some(number()?),
            "--all-floats" => found.all_floats = true,
            _ => return None,
        }
    }
    Some(found)
}

/// A seed that is new in each run.
fn clock() -> u64 {
    let now = SystemTime::now().duration_since(UNIX_EPOCH);
    now.map_or(0, |since| since.as_nanos() as u64)
}

fn seeds(arguments: &Arguments) -> Vec<u64> {
    match (arguments.seed, arguments.seconds) {
        (Some(seed), _) => vec![seed],
        (None, Some(_)) => vec![clock()],
        (None, None) => SEEDS.into_iter().chain([clock()]).collect(),
    }
}

fn random_part(compare: &mut Compare, random: &mut Random, seconds: Option<u64>) {
    let start = Instant::now();
    let over = |round| match seconds {
        Some(seconds) => start.elapsed() >= Duration::from_secs(seconds),
        None => round >= ROUNDS,
    };
    let mut state = inputs::state(random);
    let mut round = 0;
    while !over(round) {
        for _ in 0..LISTING {
            inputs::round(compare, random, &mut state);
        }
        let size = random.pick(&[0, 10, 100, 400]);
        let size = random.from(size, size + 100);
        inputs::listings(compare, random, size);
        pieces::random_cutting(compare, random, size);
        door::random_run(compare, random);
        round += LISTING;
    }
}

/// Prints what was met of each call; gives how many of its answers were never met, and how many
/// were met that are none of its own.
fn table(compare: &Compare) -> usize {
    let mut amiss = 0;
    println!(
        "{:<34} {:>11} {:>9}  refused",
        "call", "compared", "accepted"
    );
    for ((name, refusals), counts) in CALLS.iter().zip(&compare.counts) {
        let total: u64 = counts.iter().sum();
        print!("{name:<34} {total:>11} {:>9} ", counts[0]);
        for &number in *refusals {
            print!(" {number}:{}", counts[usize::from(number)]);
        }
        println!();
        for (number, &count) in (0u8..).zip(counts) {
            let its_own = number == 0 || refusals.contains(&number);
            if its_own != (count > 0) {
                let what = if its_own {
                    "was never met"
                } else {
                    "is none of its own"
                };
                println!("{name}: answer {number} {what}");
                amiss += 1;
            }
        }
    }
    amiss
}

/// Inputs in order, then random ones; gives what the table gives.
fn everything(compare: &mut Compare, seeds: Vec<u64>, seconds: Option<u64>) -> usize {
    sweeps::all(compare, &mut Random::new(seeds[0]));
    println!("in order: {} compared", compare.passed + compare.failed);
    for seed in seeds {
        println!("seed {seed}");
        compare.reseed(seed);
        random_part(compare, &mut Random::new(seed), seconds);
    }
    table(compare)
}

fn main() -> ExitCode {
    let Some(arguments) = arguments() else {
        eprintln!("usage: outside [--seed N] [--seconds N] [--all-floats]");
        return ExitCode::from(2);
    };
    guard::report_faults();
    let start = Instant::now();
    let seeds = seeds(&arguments);
    let mut compare = Compare::new(seeds[0]);
    let amiss = if arguments.all_floats {
        sweeps::floats(&mut compare);
        0
    } else {
        everything(&mut compare, seeds, arguments.seconds)
    };
    println!("{:.1} seconds", start.elapsed().as_secs_f64());
    println!("{} passed, {} failed", compare.passed, compare.failed);
    if compare.failed > 0 || amiss > 0 {
        return ExitCode::FAILURE;
    }
    ExitCode::SUCCESS
}
