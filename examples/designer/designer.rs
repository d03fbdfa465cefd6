//! The program of designer.c in Rust, over the safe wrappers of hemtaluq.rs.
//!
//!     designer LIST PLANT

// The program makes one of the calls.
#[allow(dead_code)]
#[path = "../cabinet/hemtaluq.rs"]
mod hemtaluq;

use hemtaluq::Fault;
use std::ffi::{OsStr, OsString};
use std::process::ExitCode;

/// How many numbers a row of a list has.
const ROW_NUMBERS: usize = 6;

/// A word of a list: digits alone. The largest number stands for a word that is no number from 0 to 65,535. It is right at no place of a
/// list, where 255 is the largest number that can be: the call refuses it as a wrong number, at the word's index and after the faults that
/// come before.
fn number_of(word: &[u8]) -> u16 {
    let digits = std::str::from_utf8(word).ok().filter(|text| text.bytes().all(|byte| byte.is_ascii_digit()));
    digits.and_then(|text| text.parse().ok()).unwrap_or(u16::MAX)
}

/// The numbers of a list, and the line that each stands on.
fn numbers_of(text: &[u8]) -> (Vec<u16>, Vec<usize>) {
    let (mut numbers, mut lines) = (Vec::new(), Vec::new());
    for (before, line) in text.split(|&byte| byte == b'\n').enumerate() {
        let said = line.split(|&byte| byte == b'#').next().unwrap_or_default();
        for word in said.split(|byte| b" \t\r".contains(byte)).filter(|word| !word.is_empty()) {
            numbers.push(number_of(word));
            lines.push(before + 1);
        }
    }
    (numbers, lines)
}

/// The index of the row that a twin row is equal to. The call has found it among the rows of the machine.
fn earlier_row(numbers: &[u16], place: usize) -> usize {
    let (before, behind) = numbers.split_at(place);
    place - ROW_NUMBERS * (1 + before.rchunks(ROW_NUMBERS).take_while(|row| *row != &behind[..ROW_NUMBERS]).count())
}

/// An index is hard to find in a text, so the line is told as well.
fn refuse(fault: Fault, numbers: &[u16], lines: &[usize]) -> ExitCode {
    let line = match (lines.get(fault.place), lines.last()) {
        (Some(line), _) if fault.number == 26 => format!("line {line}; the earlier row is in line {}", lines[earlier_row(numbers, fault.place)]),
        (Some(line), _) => format!("line {line}"),
        (None, Some(last)) => format!("after line {last}"),
        (None, None) => "no number".to_string(),
    };
    println!("refused with {} at {}: {} ({line})", fault.number, fault.place, fault.in_words());
    ExitCode::from(2)
}

fn store(name: &OsStr, file: &[u8]) -> ExitCode {
    if std::fs::write(name, file).is_err() {
        eprintln!("designer: {} cannot be written", name.to_string_lossy());
        return ExitCode::from(1);
    }
    println!("wrote {} bytes", file.len());
    ExitCode::SUCCESS
}

fn main() -> ExitCode {
    if hemtaluq::version() != hemtaluq::VERSION {
        eprintln!("designer: the library has version {}, the wrappers {}", hemtaluq::version(), hemtaluq::VERSION);
        return ExitCode::from(3);
    }
    let arguments: Vec<OsString> = std::env::args_os().collect();
    if arguments.len() != 3 {
        eprintln!("usage: designer LIST PLANT");
        return ExitCode::from(2);
    }
    let (numbers, lines) = numbers_of(&std::fs::read(&arguments[1]).unwrap_or_default());
    match hemtaluq::write(&numbers) {
        Ok(file) => store(&arguments[2], &file),
        Err(fault) => refuse(fault, &numbers, &lines),
    }
}
