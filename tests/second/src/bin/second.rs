//! `second [--slow]`: reads a day file on standard input and writes its sheet. `second --selftest [SEED [ROUNDS]]`: checks itself.
#![deny(warnings)]

use reading::{house::Finder, largest, selftest, sheet};
use std::io::{self, BufReader};
use std::process::ExitCode;

/// Chooses by the first argument.
fn main() -> ExitCode {
    let words: Vec<String> = std::env::args().skip(1).collect();
    let number = |at: usize, otherwise: u64| words.get(at).map_or(Ok(otherwise), |w| w.parse::<u64>());
    match words.first().map(String::as_str) {
        None => write(largest::by_take_off),
        Some("--slow") if words.len() == 1 => write(largest::slowly),
        Some("--selftest") if words.len() <= 3 => match (number(1, 1), number(2, 20_000)) {
            (Ok(seed), Ok(rounds)) => check(seed, rounds),
            _ => usage(),
        },
        _ => usage(),
    }
}

/// Writes the sheet of the day file on standard input.
fn write(finder: Finder) -> ExitCode {
    let mut input = BufReader::with_capacity(1 << 16, io::stdin().lock());
    match sheet::write_sheet(&mut input, &mut io::stdout().lock(), finder) {
        Ok(()) => ExitCode::SUCCESS,
        Err(error) => {
            eprintln!("second: {error}");
            ExitCode::from(2)
        }
    }
}

/// Checks the ways to the largest set against each other and tells what was seen.
fn check(seed: u64, rounds: u64) -> ExitCode {
    match selftest::run(seed, rounds) {
        Ok(seen) => {
            println!("{seen}");
            ExitCode::SUCCESS
        }
        Err(what) => {
            eprintln!("second: {what}");
            ExitCode::FAILURE
        }
    }
}

/// Tells how it is called.
fn usage() -> ExitCode {
    eprintln!("usage: second [--slow] < DAYFILE > SHEET, or second --selftest [SEED [ROUNDS]]");
    ExitCode::from(2)
}
