//! `nights SEED KIND [LINES]`: writes one day file on standard output.
#![deny(warnings)]

use reading::nights;
use std::io::{self, Write};
use std::process::ExitCode;

/// Writes the day file that the arguments name.
fn main() -> ExitCode {
    let words: Vec<String> = std::env::args().skip(1).collect();
    let file = match &words[..] {
        [seed, kind] => seed.parse().ok().and_then(|seed| nights::night(seed, kind, None)),
        [seed, kind, lines] => match (seed.parse(), lines.parse()) {
            (Ok(seed), Ok(lines)) if lines >= 2_000 => nights::night(seed, kind, Some(lines)),
            _ => None,
        },
        _ => None,
    };
    let Some(file) = file else {
        eprintln!("usage: nights SEED KIND [LINES]; LINES, at least 2000, is for million and full; kinds: {}", nights::KINDS.join(" "));
        return ExitCode::from(2);
    };
    match io::stdout().lock().write_all(&file) {
        Ok(()) => ExitCode::SUCCESS,
        Err(error) => {
            eprintln!("nights: {error}");
            ExitCode::from(2)
        }
    }
}
