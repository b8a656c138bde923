//! `gen SEED COUNT`: COUNT random `drive` commands to standard output.

use std::io::{self, Write};
use std::process::ExitCode;

fn main() -> ExitCode {
    let numbers: Vec<u64> = std::env::args().skip(1).filter_map(|word| word.parse().ok()).collect();
    let [seed, count] = numbers[..] else {
        eprintln!("gen SEED COUNT");
        return ExitCode::FAILURE;
    };
    let commands = reference::generate::stream(seed, count as usize);
    match io::stdout().lock().write_all(&commands) {
        Ok(()) => ExitCode::SUCCESS,
        Err(_) => ExitCode::FAILURE,
    }
}
