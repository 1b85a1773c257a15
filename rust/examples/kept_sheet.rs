//! Audits a kept sheet against a kept map and order, or times its moves afresh under them:
//! `kept_sheet audit MAP ORDER SHEET` or `kept_sheet retime MAP ORDER SHEET NEW_SHEET`. No road is banned.
mod ending;
mod files;

use std::error::Error;
use std::fs;
use std::process::ExitCode;

fn main() -> ExitCode {
    let arguments: Vec<String> = std::env::args().skip(1).collect();
    let arguments: Vec<&str> = arguments.iter().map(String::as_str).collect();
    match arguments[..] {
        ["audit", map, order, sheet] => ending::ended(audit(map, order, sheet)),
        ["retime", map, order, sheet, new] => ending::ended(retime(map, order, sheet, new)),
        _ => files::usage("kept_sheet audit MAP ORDER SHEET | retime MAP ORDER SHEET NEW_SHEET"),
    }
}

fn audit(map: &str, order: &str, sheet: &str) -> Result<(), Box<dyn Error>> {
    let (map, order) = (read(map)?, read(order)?);
    let timed = trunk::audit(&map, &order, &[], &read(sheet)?)?;
    println!("audited {} {}", timed.moves, timed.arrival);
    Ok(())
}

/// The sheet that is written is as long as the one read.
fn retime(map: &str, order: &str, sheet: &str, new: &str) -> Result<(), Box<dyn Error>> {
    let (map, order, kept) = (read(map)?, read(order)?, read(sheet)?);
    let mut out = vec![0; kept.len()];
    let timed = trunk::retime(&map, &order, &[], &kept, &mut out)?;
    files::named(new, fs::write(new, &out))?;
    println!("retimed {} {}", timed.moves, timed.arrival);
    Ok(())
}

fn read(file: &str) -> Result<Vec<u8>, String> {
    files::named(file, fs::read(file))
}
