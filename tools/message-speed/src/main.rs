//! Reads and writes messages by `message_c`, by `reference` and, the check alone, by zlib: first whether they agree, then
//! how long each takes. A line for each run: what was done, by what, and the nanoseconds a message.
//!
//! usage: message-speed RUNS

mod agreement;
mod answers;
mod by_rattle;
mod by_rust;
mod by_zlib;
mod messages;
mod timing;

use std::process::ExitCode;
use timing::Prepared;

fn main() -> ExitCode {
    let runs = match std::env::args().nth(1).and_then(|runs| runs.parse().ok()) {
        Some(runs) => runs,
        None => {
            eprintln!("usage: message-speed RUNS");
            return ExitCode::from(2);
        }
    };
    match agreement::tried() {
        Ok(tried) => println!("agreed\t{tried}"),
        Err(what) => {
            eprintln!("message-speed: they do not agree: {what}");
            return ExitCode::FAILURE;
        }
    }
    println!("zlib\t{}", by_zlib::version());
    measure(runs);
    ExitCode::SUCCESS
}

/// One after the other in each run, so that what else the machine does falls on all alike.
fn measure(runs: u32) {
    let mut prepared = Prepared::new();
    for _ in 0..runs {
        println!("read\trattle\t{:.3}", prepared.read_by_rattle());
        println!("read\trust\t{:.3}", prepared.read_by_rust());
        println!("read\tzlib\t{:.3}", prepared.read_by_zlib());
        println!("write\trattle\t{:.3}", prepared.write_by_rattle());
        println!("write\trust\t{:.3}", prepared.write_by_rust());
        println!("write\tzlib\t{:.3}", prepared.write_by_zlib());
    }
}
