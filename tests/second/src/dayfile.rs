//! The day file: its lines, their kinds and their numbers.

use std::io::{BufRead, Result};

/// The most bytes of a line before its byte 10, and the most lines of a file.
pub const LONGEST_LINE: usize = 400;
pub const MOST_LINES: u64 = 1_000_000;

/// The most digits of a number.
const MOST_DIGITS: usize = 18;

/// A well-formed line. Numbers are as written, in range or not; a house line has edition 1.
#[derive(Clone, Debug, PartialEq, Eq)]
pub enum Line {
    House { count: i128 },
    Member { number: i128, balance: i128, line: i128 },
    Pay { payer: i128, number: i128, payee: i128, amount: i128 },
    Deposit { member: i128, amount: i128 },
    Release { member: i128 },
    Group { counts: Vec<i128> },
    Resolve,
    End,
}

/// A number: 1 to 18 digits, no leading zero unless it is `0`.
pub fn number(field: &[u8]) -> Option<i128> {
    if field.is_empty() || field.len() > MOST_DIGITS || !field.iter().all(u8::is_ascii_digit) {
        return None;
    }
    if field[0] == b'0' && field.len() > 1 {
        return None;
    }
    Some(field.iter().fold(0, |value, digit| 10 * value + (digit - b'0') as i64) as i128)
}

/// A balance: a number, or `-` and a number other than 0.
pub fn balance(field: &[u8]) -> Option<i128> {
    match field.strip_prefix(b"-") {
        None => number(field),
        Some(rest) => number(rest).filter(|&value| value != 0).map(|value| -value),
    }
}

/// All of these fields as numbers, or nothing.
fn numbers<const N: usize>(fields: &[&[u8]]) -> Option<[i128; N]> {
    let mut values = [0; N];
    if fields.len() != N {
        return None;
    }
    for (value, field) in values.iter_mut().zip(fields) {
        *value = number(field)?;
    }
    Some(values)
}

/// A line's kind and fields, or nothing for a bad line. Only the form is judged here.
pub fn line(bytes: &[u8]) -> Option<Line> {
    if bytes.len() > LONGEST_LINE {
        return None;
    }
    let mut parts = bytes.split(|&b| b == b'\t');
    let kind = parts.next()?;
    let fields: Vec<&[u8]> = parts.collect();
    match kind {
        b"house" => {
            let [edition, count] = numbers(&fields)?;
            (edition == 1).then_some(Line::House { count })
        }
        b"member" => match fields[..] {
            [n, b, l] => Some(Line::Member { number: number(n)?, balance: balance(b)?, line: number(l)? }),
            _ => None,
        },
        b"pay" => {
            let [payer, number, payee, amount] = numbers(&fields)?;
            Some(Line::Pay { payer, number, payee, amount })
        }
        b"deposit" => {
            let [member, amount] = numbers(&fields)?;
            Some(Line::Deposit { member, amount })
        }
        b"release" => {
            let [member] = numbers(&fields)?;
            Some(Line::Release { member })
        }
        b"group" if (1..=64).contains(&fields.len()) => {
            let counts = fields.iter().map(|f| number(f)).collect::<Option<Vec<i128>>>()?;
            Some(Line::Group { counts })
        }
        b"resolve" if fields.is_empty() => Some(Line::Resolve),
        b"end" if fields.is_empty() => Some(Line::End),
        _ => None,
    }
}

/// Reads the next line into `line`, without its byte 10, and tells whether there was one. Of a line that is too long only the first 401
/// bytes are kept: enough to see that it is.
pub fn next_line<R: BufRead>(input: &mut R, line: &mut Vec<u8>) -> Result<bool> {
    line.clear();
    let mut any = false;
    loop {
        let lot = input.fill_buf()?;
        if lot.is_empty() {
            return Ok(any);
        }
        any = true;
        let ends = lot.iter().position(|&b| b == b'\n');
        let part = &lot[..ends.unwrap_or(lot.len())];
        let room = LONGEST_LINE + 1 - line.len();
        line.extend_from_slice(&part[..part.len().min(room)]);
        let used = part.len() + ends.map_or(0, |_| 1);
        input.consume(used);
        if ends.is_some() {
            return Ok(true);
        }
    }
}
