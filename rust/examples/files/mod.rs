//! What the examples on files share: an error names its file, and wrong arguments are told the usage.
use std::io;
use std::process::ExitCode;

/// What reading or writing this file gave.
pub fn named<T>(file: &str, given: io::Result<T>) -> Result<T, String> {
    given.map_err(|error| format!("{file}: {error}"))
}

/// Status 2, as for any command that is called wrongly.
pub fn usage(line: &str) -> ExitCode {
    eprintln!("usage: {line}");
    ExitCode::from(2)
}
