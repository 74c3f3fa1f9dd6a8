//! Answers the call script on standard input by the port.
use std::process::ExitCode;

use judges::drive::{drive, exit};
use port::Port;

/// Takes no argument.
fn run(args: &[&str]) -> Result<bool, String> {
    match args {
        [] => drive(&mut Port::default()).map(|_| true),
        _ => Err("port: takes no argument".to_string()),
    }
}

/// Runs what the command line asks for.
fn main() -> ExitCode {
    exit(run)
}
