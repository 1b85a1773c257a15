//! Plans the trip of a map and an order, with no road banned, and keeps the sheet: `plan_files MAP ORDER SHEET`.
mod ending;
mod files;

use std::error::Error;
use std::fs;
use std::process::ExitCode;

use trunk::{LABEL_WORDS, MOST_LABELS, Planned, Refusal, Refused};

fn main() -> ExitCode {
    let arguments: Vec<String> = std::env::args().skip(1).collect();
    match &arguments[..] {
        [map, order, sheet] => ending::ended(plan_files(map, order, sheet)),
        _ => files::usage("plan_files MAP ORDER SHEET"),
    }
}

fn plan_files(map: &str, order: &str, file: &str) -> Result<(), Box<dyn Error>> {
    let (planned, sheet) = plan(&read(map)?, &read(order)?)?;
    files::named(file, fs::write(file, &sheet))?;
    println!("planned {} {}", planned.labels, planned.arrival);
    Ok(())
}

fn read(file: &str) -> Result<Vec<u8>, String> {
    files::named(file, fs::read(file))
}

/// With no room for a sheet, refusal 14 tells how many bytes the plan needs.
fn plan(map: &[u8], order: &[u8]) -> Result<(Planned, Vec<u8>), Refused> {
    let mut words = vec![0; LABEL_WORDS * MOST_LABELS];
    let mut sheet = Vec::new();
    loop {
        match trunk::plan(map, order, &[], &mut words, &mut sheet) {
            Ok(planned) => return Ok((planned, sheet)),
            Err(refused) if refused.refusal == Refusal::ShortSheet => {
                sheet.resize(refused.place as usize, 0);
            }
            Err(refused) => return Err(refused),
        }
    }
}
