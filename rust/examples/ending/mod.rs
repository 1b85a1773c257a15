//! How the examples end: an error is one line on standard error, and status 1.
use std::fmt::Display;
use std::process::ExitCode;

pub fn ended(outcome: Result<(), impl Display>) -> ExitCode {
    match outcome {
        Ok(()) => ExitCode::SUCCESS,
        Err(error) => {
            eprintln!("{error}");
            ExitCode::FAILURE
        }
    }
}
