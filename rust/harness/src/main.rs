use std::process::ExitCode;

use harness::commands;
use harness::large_stack::{LARGE, run_on};

fn main() -> ExitCode {
    let arguments: Vec<String> = std::env::args().skip(1).collect();
    let status = run_on(LARGE, move || commands::run(&arguments));
    // A panic has already printed its message.
    ExitCode::from(status.unwrap_or(1))
}
