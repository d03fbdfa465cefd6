//! The program of panel.c in Rust, over the safe wrappers of hemtaluq.rs.
//!
//!     panel PLANT WEIGHTS CONTENT...

// The program makes the calls on a watcher alone.
#[allow(dead_code)]
#[path = "../cabinet/hemtaluq.rs"]
mod hemtaluq;

use hemtaluq::{Fault, Watcher};
use std::ffi::{OsStr, OsString};
use std::io::{BufRead, Write};
use std::process::ExitCode;

/// The most bytes of a line without its comment. A longer one is no event.
const LONGEST_LINE: usize = 80;

/// A number: digits alone. The largest one stands for a word that is no number and for a number above 32 bits, which the calls refuse.
fn number_of(word: &str) -> u32 {
    let digits = Some(word).filter(|text| text.bytes().all(|byte| byte.is_ascii_digit()));
    digits.and_then(|text| text.parse().ok()).unwrap_or(u32::MAX)
}

/// The words of a line without its comment; none where it is too long or no text.
fn words_of(line: &[u8]) -> Option<Vec<&str>> {
    let said = line.split(|&byte| byte == b'#').next().unwrap_or_default();
    let text = std::str::from_utf8(said).ok().filter(|text| text.len() <= LONGEST_LINE)?;
    Some(text.split([' ', '\t', '\r']).filter(|word| !word.is_empty()).collect())
}

/// What the watcher answers to the event that two words say; none where they say none.
fn happens(watcher: &mut Watcher, kind: &str, digits: &str) -> Option<Result<u64, Fault>> {
    if !digits.bytes().all(|byte| byte.is_ascii_digit()) {
        return None;
    }
    match kind {
        "row" => Some(watcher.row(number_of(digits))),
        "loss" => Some(watcher.loss(number_of(digits))),
        "doubling" => Some(watcher.doubling(number_of(digits))),
        _ => None,
    }
}

fn left_in_words(left: u64) -> String {
    format!("{left} {} left", if left == 1 { "step" } else { "steps" })
}

/// What is printed for a line, if anything, and whether it is an event that was accepted, or says nothing.
fn answer_to(watcher: &mut Watcher, line: &[u8], number: usize) -> (Option<String>, bool) {
    let words = words_of(line);
    let answer = match words.as_deref() {
        Some([]) => return (None, true),
        Some([kind, digits]) => happens(watcher, kind, digits).map(|answer| (format!("{kind} {digits}"), answer)),
        _ => None,
    };
    match answer {
        None => (Some(format!("line {number}: expected row, loss or doubling and a number")), false),
        Some((event, Ok(left))) => (Some(format!("{event}: {}", left_in_words(left))), true),
        Some((event, Err(fault))) => (Some(format!("{event}: refused with {}: {}", fault.number, fault.in_words())), false),
    }
}

/// Answers all lines; whether each is an event that was accepted, or says nothing.
fn watch(watcher: &mut Watcher) -> std::io::Result<bool> {
    let (mut input, mut output, mut good) = (std::io::stdin().lock(), std::io::stdout(), true);
    writeln!(output, "{}", left_in_words(watcher.left()))?;
    for number in 1.. {
        let mut line = Vec::new();
        if input.read_until(b'\n', &mut line)? == 0 {
            break;
        }
        let (text, accepted) = answer_to(watcher, line.strip_suffix(b"\n").unwrap_or(&line), number);
        good = good && accepted;
        if let Some(text) = text {
            writeln!(output, "{text}")?;
        }
    }
    Ok(good)
}

/// The weights of a file, of two bytes each, low byte first. Half a weight is one weight too many for any plant.
fn weights_of(name: &OsStr) -> Vec<u16> {
    let bytes = std::fs::read(name).unwrap_or_default();
    if bytes.len() % 2 == 1 {
        return vec![0; 65];
    }
    bytes.chunks_exact(2).map(|pair| u16::from_le_bytes([pair[0], pair[1]])).collect()
}

fn main() -> ExitCode {
    if hemtaluq::version() != hemtaluq::VERSION {
        eprintln!("panel: the library has version {}, the wrappers {}", hemtaluq::version(), hemtaluq::VERSION);
        return ExitCode::from(3);
    }
    let arguments: Vec<OsString> = std::env::args_os().collect();
    if arguments.len() < 3 {
        eprintln!("usage: panel PLANT WEIGHTS CONTENT...");
        return ExitCode::from(2);
    }
    let plant = std::fs::read(&arguments[1]).unwrap_or_default();
    let contents: Vec<u32> = arguments[3..].iter().map(|word| number_of(word.to_str().unwrap_or("no text"))).collect();
    match Watcher::open(&plant, &weights_of(&arguments[2]), &contents) {
        Ok(mut watcher) => match watch(&mut watcher) {
            Ok(good) => ExitCode::from(u8::from(!good)),
            Err(_) => ExitCode::from(2),
        },
        Err(fault) => {
            println!("refused with {} at {}: {}", fault.number, fault.place, fault.in_words());
            ExitCode::from(2)
        }
    }
}
