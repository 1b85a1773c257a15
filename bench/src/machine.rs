//! What the machine is and does, to stand above the tables, and what it is told at the end.

use std::fs::read_to_string;
use std::process::ExitCode;

/// The processor's name, as the system has it.
pub fn processor() -> String {
    let all = read_to_string("/proc/cpuinfo").unwrap_or_default();
    let model = all
        .lines()
        .find_map(|line| line.strip_prefix("model name\t: "));
    model.unwrap_or("unknown processor").to_string()
}

pub fn load() -> String {
    let all = read_to_string("/proc/loadavg").unwrap_or_default();
    format!(
        "load average {}",
        all.split(' ').next().unwrap_or("unknown")
    )
}

/// A program's exit status; a complaint is printed.
pub fn exit_code(done: Result<(), String>) -> ExitCode {
    match done {
        Ok(()) => ExitCode::SUCCESS,
        Err(complaint) => {
            eprintln!("{complaint}");
            ExitCode::FAILURE
        }
    }
}
