//! The program: `other self-test`, `practice`, `cases`, `compare`, `wrong`, `trials`, `listings`.

use std::io::Read;
use std::panic::catch_unwind;
use std::process::ExitCode;
use std::time::Instant;

use other::compare::{compare, first_differences};
use other::listing::listings;
use other::make::practice::practice_map;
use other::mapcheck::MOST_JUNCTIONS;
use other::operations::{Operations, DOCUMENT};
use other::self_test::tests;
use other::summary::summary;
use other::trials;
use other::wrong::wrong_copies;

const USAGE: &str = "\
other self-test                    run the tests
other practice J START FILE        write the practice map of J junctions and a start value
other cases SEED COUNT             say what the random cases reach
other compare SEED COUNT [WRONG]   hold the planner against itself, or against a wrong copy
other wrong SEED COUNT             say how many cases it takes to find each wrong copy
other trials < STORED              answer the stored worked cases
other listings < TRIPS             list trips as the program `plan` does, an empty line behind each";

fn main() -> ExitCode {
    let arguments: Vec<String> = std::env::args().skip(1).collect();
    let arguments: Vec<&str> = arguments.iter().map(String::as_str).collect();
    let done = match arguments[..] {
        ["self-test"] => self_test(),
        ["practice", junctions, start, file] => write_practice(junctions, start, file),
        ["cases", seed, count] => print_cases(seed, count),
        ["compare", seed, count] => compare_with(None, seed, count),
        ["compare", seed, count, wrong] => compare_with(Some(wrong), seed, count),
        ["wrong", seed, count] => find_wrong_copies(seed, count),
        ["trials"] => answer(trials::answers),
        ["listings"] => answer(listings),
        _ => Err(USAGE.to_string()),
    };
    match done {
        Ok(()) => ExitCode::SUCCESS,
        Err(complaint) => {
            eprintln!("{complaint}");
            ExitCode::FAILURE
        }
    }
}

fn number<T: std::str::FromStr>(text: &str) -> Result<T, String> {
    text.parse().map_err(|_| format!("not a number: {text}"))
}

fn self_test() -> Result<(), String> {
    let tests = tests();
    let mut failed = 0;
    for (name, test) in &tests {
        let passes = catch_unwind(test).is_ok();
        println!("{} {name}", if passes { "ok" } else { "FAILED" });
        failed += usize::from(!passes);
    }
    println!("{} passed, {failed} failed", tests.len() - failed);
    if failed == 0 {
        Ok(())
    } else {
        Err("the self-test failed".to_string())
    }
}

fn write_practice(junctions: &str, start: &str, file: &str) -> Result<(), String> {
    let (junctions, start): (u64, u32) = (number(junctions)?, number(start)?);
    if start == 0 || !(1..=MOST_JUNCTIONS).contains(&junctions) {
        return Err(format!("J is 1 to {MOST_JUNCTIONS} and START is not 0"));
    }
    let bytes = practice_map(junctions, start).bytes();
    std::fs::write(file, &bytes).map_err(|error| format!("{file}: {error}"))?;
    println!("{} bytes", bytes.len());
    Ok(())
}

fn print_cases(seed: &str, count: &str) -> Result<(), String> {
    let (seed, count): (u64, u64) = (number(seed)?, number(count)?);
    let begun = Instant::now();
    print!("{}", summary(seed, count).describe());
    print_speed(begun, count);
    Ok(())
}

fn print_speed(begun: Instant, count: u64) {
    let seconds = begun.elapsed().as_secs_f64();
    let each = 1_000.0 * seconds / count.max(1) as f64;
    println!("{count} cases in {seconds:.1} s, {each:.2} ms each");
}

fn compare_with(wrong: Option<&str>, seed: &str, count: &str) -> Result<(), String> {
    let (seed, count): (u64, u64) = (number(seed)?, number(count)?);
    let tried = match wrong {
        None => DOCUMENT,
        Some(wrong) => {
            let copies = wrong_copies();
            let found = copies.iter().find(|copy| copy.name == wrong);
            found.ok_or(format!("no wrong copy {wrong}"))?.operations
        }
    };
    let begun = Instant::now();
    match compare(&DOCUMENT, &tried, seed, count) {
        Ok(calls) => println!("{calls} calls agree"),
        Err(difference) => {
            return Err(format!(
                "seed {seed}, case {}\n{}",
                difference.case, difference.text
            ))
        }
    }
    print_speed(begun, count);
    Ok(())
}

fn find_wrong_copies(seed: &str, count: &str) -> Result<(), String> {
    let (seed, count): (u64, u64) = (number(seed)?, number(count)?);
    let copies = wrong_copies();
    let tried: Vec<Operations> = copies.iter().map(|copy| copy.operations).collect();
    let mut unfound = Vec::new();
    for (copy, found) in copies
        .iter()
        .zip(first_differences(&DOCUMENT, &tried, seed, count))
    {
        match found {
            Some(case) => println!("{case:>6}  {}", copy.name),
            None => unfound.push(copy.name),
        }
    }
    if unfound.is_empty() {
        Ok(())
    } else {
        Err(format!(
            "not found in {count} cases: {}",
            unfound.join(", ")
        ))
    }
}

/// Prints what is answered to all of standard input.
fn answer(answers: fn(&[u8]) -> String) -> Result<(), String> {
    let mut given = Vec::new();
    std::io::stdin()
        .read_to_end(&mut given)
        .map_err(|error| error.to_string())?;
    print!("{}", answers(&given));
    Ok(())
}
