//! The program of cabinet.c in Rust, over the safe wrappers of hemtaluq.rs.
//!
//!     cabinet PLANT WEIGHTS G D CONTENT...

// The program makes two of the calls.
#[allow(dead_code)]
mod hemtaluq;

use hemtaluq::{Fault, Weighed};
use std::ffi::{OsStr, OsString};
use std::process::ExitCode;

fn refuse(fault: Fault) -> ExitCode {
    println!("refused with {} at {}: {}", fault.number, fault.place, fault.in_words());
    ExitCode::from(2)
}

/// A number of the command line: digits alone. The largest one stands for a word that is no number and for a number above
/// 32 bits: the call refuses it, at the word's place and after the faults that come before.
fn number_of(word: &OsStr) -> u32 {
    let digits = word.to_str().filter(|text| text.bytes().all(|byte| byte.is_ascii_digit()));
    digits.and_then(|text| text.parse().ok()).unwrap_or(u32::MAX)
}

fn show_cycle(plant: &[u8], weights: &[u16]) -> ExitCode {
    match hemtaluq::weigh(plant, weights) {
        Ok(Weighed::Cycle(rows)) => {
            print!("no ceiling: these rows can go on for ever without a fresh reading:");
            rows.iter().for_each(|row| print!(" {row}"));
            println!();
            ExitCode::from(1)
        }
        Ok(Weighed::Passed { .. }) => ExitCode::SUCCESS,
        Err(fault) => refuse(fault),
    }
}

fn main() -> ExitCode {
    if hemtaluq::version() != hemtaluq::VERSION {
        eprintln!("cabinet: the library has version {}, the wrappers {}", hemtaluq::version(), hemtaluq::VERSION);
        return ExitCode::from(3);
    }
    let arguments: Vec<OsString> = std::env::args_os().collect();
    if arguments.len() < 5 {
        eprintln!("usage: cabinet PLANT WEIGHTS G D CONTENT...");
        return ExitCode::from(2);
    }
    let plant = std::fs::read(&arguments[1]).unwrap_or_default();
    let bytes = std::fs::read(&arguments[2]).unwrap_or_default();
    let mut weights: Vec<u16> = bytes.chunks_exact(2).map(|pair| u16::from_le_bytes([pair[0], pair[1]])).collect();
    if bytes.len() % 2 == 1 {
        // Half a weight is one weight too many for any plant.
        weights = vec![0; 65];
    }
    let numbers: Vec<u32> = arguments[3..].iter().map(|word| number_of(word)).collect();
    match hemtaluq::quote(&plant, &weights, &numbers[2..], numbers[0], numbers[1]) {
        Ok(quote) => {
            println!("at most {} steps without a fresh reading (price class {})", quote.ceiling, quote.price_class);
            ExitCode::SUCCESS
        }
        Err(Fault { number: 22, .. }) => show_cycle(&plant, &weights),
        Err(fault) => refuse(fault),
    }
}
