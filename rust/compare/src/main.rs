//! `compare [--seed N] [--rounds N]`: makes the same calls to the proved archive and to the second
//! program, and ends with status 1 at the first difference.

use std::process::ExitCode;
use std::time::Instant;

use compare::pair::Pair;
use compare::parts::PARTS;
use compare::random::Random;

const USAGE: &str = "usage: compare [--seed N] [--rounds N]";

struct Options {
    seed: u64,
    rounds: u64,
}

fn main() -> ExitCode {
    let Some(options) = options(std::env::args().skip(1)) else {
        eprintln!("{USAGE}");
        return ExitCode::from(2);
    };
    match compare(&options) {
        Ok(()) => ExitCode::SUCCESS,
        Err(message) => {
            println!("{message}");
            ExitCode::FAILURE
        }
    }
}

fn options(mut arguments: impl Iterator<Item = String>) -> Option<Options> {
    let mut options = Options { seed: 1, rounds: 1 };
    while let Some(name) = arguments.next() {
        let value = arguments.next()?.parse().ok()?;
        match name.as_str() {
            "--seed" => options.seed = value,
            "--rounds" => options.rounds = value,
            _ => return None,
        }
    }
    Some(options)
}

fn compare(options: &Options) -> Result<(), String> {
    let (seed, begun) = (options.seed, Instant::now());
    let mut pair = Pair::new();
    for round in 0..options.rounds {
        for (part, (name, run)) in PARTS.iter().enumerate() {
            let before = pair.calls;
            let mut random = Random::new(seed, round, part as u64);
            run(&mut pair, &mut random).map_err(|difference| {
                format!("seed {seed}, round {round}, {name}: {difference}")
            })?;
            println!("round {round}: {:>9} calls  {name}", pair.calls - before);
        }
    }
    report(&pair)?;
    let time = begun.elapsed().as_secs_f64();
    println!(
        "seed {seed}: {} calls in {time:.1} s, no difference",
        pair.calls
    );
    Ok(())
}

/// Says how often each function answered each number. One that was never answered would mean that
/// the comparison misses something.
fn report(pair: &Pair) -> Result<(), String> {
    for (function, numbers) in pair.counts() {
        let numbers = numbers
            .iter()
            .map(|(number, count)| format!("{number}: {count}"));
        println!("{function:<25} {}", numbers.collect::<Vec<_>>().join(", "));
    }
    let missing = pair.not_seen();
    if missing.is_empty() {
        return Ok(());
    }
    Err(format!("never answered: {missing:?}"))
}
