//! The program: reads its arguments, does what they say, and ends with the status that belongs to it.

use reference::arguments::{self, Command};
use reference::bench;
use std::io::{self, Write};
use std::process::ExitCode;

fn main() -> ExitCode {
    let done = match arguments::read(std::env::args_os().skip(1)) {
        Ok(Command::Play(arguments)) => bench::run(&arguments),
        Ok(Command::Help) => bench::print(arguments::USAGE),
        Ok(Command::Version) => bench::print(arguments::VERSION),
        Err(unknown) => {
            complain(&unknown.to_string());
            return ExitCode::from(2);
        }
    };
    match done {
        Ok(()) => ExitCode::SUCCESS,
        Err(message) => {
            complain(&message);
            ExitCode::FAILURE
        }
    }
}

/// Nobody is left to be told where standard error itself cannot be written, so that is let pass.
fn complain(message: &str) {
    let _ = io::stderr().write_all(format!("bench: {message}\n").as_bytes());
}
