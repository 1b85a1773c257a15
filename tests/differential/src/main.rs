//! Holds the proved library, through its Rust wrapper, against the other planner: `differential [SEED COUNT]`.

use std::process::ExitCode;
use std::time::Instant;

use differential::LIBRARY;
use other::compare::compare;
use other::operations::DOCUMENT;

/// What the gate runs.
const SEED: u64 = 1;
const COUNT: u64 = 6_000;

fn arguments() -> Result<(u64, u64), String> {
    let given: Vec<String> = std::env::args().skip(1).collect();
    let number = |text: &String| {
        text.parse::<u64>()
            .map_err(|_| format!("not a number: {text}"))
    };
    match &given[..] {
        [] => Ok((SEED, COUNT)),
        [seed, count] => Ok((number(seed)?, number(count)?)),
        _ => Err("differential [SEED COUNT]".to_string()),
    }
}

fn run() -> Result<(), String> {
    let (seed, count) = arguments()?;
    let begun = Instant::now();
    match compare(&DOCUMENT, &LIBRARY, seed, count) {
        Ok(calls) => {
            let seconds = begun.elapsed().as_secs_f64();
            println!("seed {seed}: {count} cases, {calls} calls agree ({seconds:.0} s)");
            Ok(())
        }
        Err(difference) => Err(format!(
            "seed {seed}, case {}\n{}",
            difference.case, difference.text
        )),
    }
}

fn main() -> ExitCode {
    match run() {
        Ok(()) => ExitCode::SUCCESS,
        Err(complaint) => {
            eprintln!("{complaint}");
            ExitCode::FAILURE
        }
    }
}
