//! The night: a day file read line by line, and the sheet it gives.

use crate::dayfile::{line, next_line, Line, MOST_LINES};
use crate::house::{Finder, House, BAD_LINE, BAD_OPENING, MOST_MEMBERS};
use std::io::{BufRead, Result, Write};

/// How far a night is.
enum Stage {
    /// The house line is next.
    Start,
    /// The member lines are read.
    Opening { count: i128, balances: Vec<i128>, lines: Vec<i128> },
    /// The house is open.
    Open(House),
    /// Nothing more is read.
    Over,
}

/// A night: its stage, and how its resolutions are found.
pub struct Night {
    stage: Stage,
    finder: Finder,
}

/// Writes one line of the sheet: what is said of an input line.
macro_rules! say {
    ($sheet:expr, $($part:tt)*) => { writeln!($sheet, $($part)*).expect("a list takes every byte") };
}

/// Writes a refusal.
fn refuse(sheet: &mut Vec<u8>, at: u64, code: u32) {
    say!(sheet, "{at}\trefused\t{code}");
}

impl Night {
    /// A night whose first line is still to come.
    pub fn new(finder: Finder) -> Night {
        Night { stage: Stage::Start, finder }
    }

    /// Whether nothing more is read.
    pub fn is_over(&self) -> bool {
        matches!(self.stage, Stage::Over)
    }

    /// Reads one line, the `at`th, and writes what the sheet says of it.
    pub fn read(&mut self, at: u64, bytes: &[u8], sheet: &mut Vec<u8>) {
        let line = line(bytes);
        match &mut self.stage {
            Stage::Over => {}
            Stage::Open(house) => {
                if !in_the_night(house, self.finder, at, line, sheet) {
                    self.stage = Stage::Over;
                }
            }
            Stage::Start | Stage::Opening { .. } => match self.opening(line) {
                Err(code) => {
                    refuse(sheet, at, code);
                    self.stage = Stage::Over;
                }
                Ok(()) => {
                    if let Stage::Open(house) = &self.stage {
                        say!(sheet, "{at}\topen\t{}\t{}", house.members.len(), house.money());
                    }
                }
            },
        }
    }

    /// Reads a line of the opening: the house line, then member lines 1 to count; after the last the house is open, or refused.
    fn opening(&mut self, line: Option<Line>) -> std::result::Result<(), u32> {
        match (&mut self.stage, line) {
            (Stage::Start, Some(Line::House { count })) => {
                if !(1..=MOST_MEMBERS as i128).contains(&count) {
                    return Err(BAD_OPENING);
                }
                self.stage = Stage::Opening { count, balances: Vec::new(), lines: Vec::new() };
                Ok(())
            }
            (Stage::Opening { count, balances, lines }, Some(Line::Member { number, balance, line })) => {
                if number != balances.len() as i128 + 1 {
                    return Err(BAD_LINE);
                }
                balances.push(balance);
                lines.push(line);
                if number == *count {
                    self.stage = Stage::Open(House::open(*count, balances, lines)?);
                }
                Ok(())
            }
            _ => Err(BAD_LINE),
        }
    }
}

/// Reads a line of an open house and tells whether the night goes on.
fn in_the_night(house: &mut House, finder: Finder, at: u64, line: Option<Line>, sheet: &mut Vec<u8>) -> bool {
    let answer: std::result::Result<(), u32> = match line {
        None | Some(Line::House { .. }) | Some(Line::Member { .. }) => Err(BAD_LINE),
        Some(Line::Pay { payer, number, payee, amount }) => {
            house.submit(payer, number, payee, amount).map(|()| say!(sheet, "{at}\tqueued\t{payer}\t{number}"))
        }
        Some(Line::Deposit { member, amount }) => {
            house.deposit(member, amount).map(|balance| say!(sheet, "{at}\tdeposited\t{member}\t{balance}"))
        }
        Some(Line::Release { member }) => {
            house.release(member).map(|r| say!(sheet, "{at}\treleased\t{member}\t{}\t{}", r.number, r.amount))
        }
        Some(Line::Group { counts }) => house.group(&counts).map(|b| say!(sheet, "{at}\tgroup\t{}\t{}", b.payments, b.sum)),
        Some(Line::Resolve) => {
            let r = house.resolve(finder);
            let (payments, sum, many, lowest) = (r.booked.payments, r.booked.sum, r.waiting.len(), r.lowest());
            say!(sheet, "{at}\tresolve\t{}\t{payments}\t{sum}\t{many}\t{lowest}", r.verdict);
            Ok(())
        }
        Some(Line::End) => {
            for (i, member) in house.members.iter().enumerate() {
                say!(sheet, "balance\t{}\t{}\t{}", i + 1, member.balance, member.queue.len());
            }
            say!(sheet, "money\t{}", house.money());
            return false;
        }
    };
    if let Err(code) = answer {
        refuse(sheet, at, code);
    }
    true
}

/// Reads a day file to its end and writes its sheet.
pub fn write_sheet<R: BufRead, W: Write>(input: &mut R, output: &mut W, finder: Finder) -> Result<()> {
    let mut night = Night::new(finder);
    let mut bytes = Vec::new();
    let mut sheet = Vec::new();
    let mut at = 0;
    while !night.is_over() {
        if !next_line(input, &mut bytes)? {
            refuse(&mut sheet, 0, BAD_LINE);
            break;
        }
        at += 1;
        if at > MOST_LINES {
            refuse(&mut sheet, at, BAD_LINE);
            break;
        }
        night.read(at, &bytes, &mut sheet);
        if sheet.len() > 1 << 16 {
            output.write_all(&sheet)?;
            sheet.clear();
        }
    }
    output.write_all(&sheet)?;
    output.flush()
}

/// The sheet of a day file, both in memory.
pub fn sheet_of(file: &[u8], finder: Finder) -> Vec<u8> {
    let mut sheet = Vec::new();
    write_sheet(&mut &file[..], &mut sheet, finder).expect("a list takes every byte");
    sheet
}
