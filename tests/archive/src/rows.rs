//! The table of rows in rows.txt: each call's code and answer are written by hand, and the archive must give them.

use crate::linked;
use reading::bytetest::{Call, Lent};
use reading::tables::{read_i64, write, LEAST};

/// The longest answer, in bytes, and the byte that stands in one before a call.
const ANSWER: usize = 48;
const BLANK: u8 = 0x5a;

/// What is lent from row to row, the tables as they were before the puts, and how many rows came out right and wrong.
struct Table {
    lent: Lent,
    answer: usize,
    kept: Option<Vec<u8>>,
    passed: u64,
    failed: u64,
}

/// Plays all rows and tells how many came out right and how many did not.
pub fn play(text: &str) -> (u64, u64) {
    let lent = Lent { tables: vec![0; LEAST], counts: vec![], answer: vec![] };
    let mut table = Table { lent, answer: ANSWER, kept: None, passed: 0, failed: 0 };
    for (at, row) in text.lines().enumerate().filter(|(_, row)| !row.is_empty() && !row.starts_with('#')) {
        if let Err(what) = table.row(row) {
            table.failed += 1;
            println!("archive: rows.txt:{}: {row}: {what}", at + 1);
        }
    }
    println!("archive: {} rows with their answers written by hand", table.passed);
    (table.passed, table.failed)
}

impl Table {
    /// Plays one row: a call and what it must answer, or a change of what is lent.
    fn row(&mut self, row: &str) -> Result<(), String> {
        let (asked, told) = row.split_once('=').unwrap_or((row, ""));
        let (kind, rest) = asked.trim().split_once(' ').unwrap_or((asked.trim(), ""));
        if kind == "lent" {
            return self.lend(rest);
        }
        let (numbers, told) = (lists(rest)?, lists(told)?);
        let n = |k: usize| numbers[0].get(k).copied().unwrap_or(0);
        match kind {
            "put" => {
                self.kept.get_or_insert_with(|| self.lent.tables.clone());
                write(&mut self.lent.tables, n(0) as usize, n(1) as usize, n(2));
                return Ok(());
            }
            "back" => {
                self.lent.tables = self.kept.take().ok_or("nothing was put")?;
                return Ok(());
            }
            "balance" => {
                let stands = read_i64(&self.lent.tables, 8 * (n(0) as usize - 1));
                must(vec![stands] == told[0], || format!("it is {stands}"))?;
            }
            "each" => {
                let three = lists("0 0 0")?;
                self.call(Call::Deposit { member: 1, amount: 1 }, &[], &told)?;
                self.call(Call::Submit { payer: 1, number: 3, payee: 2, amount: 1 }, &[], &told)?;
                self.call(Call::Release { member: 1 }, &[], &told)?;
                self.call(Call::Group, &three[0], &told)?;
                self.call(Call::Resolve, &three[0], &told)?;
            }
            "open" => {
                let bytes = |k: usize| numbers.get(k).into_iter().flatten().flat_map(|x| (*x as i64).to_le_bytes()).collect();
                self.call(Call::Open { count: n(0) as u64, balances: bytes(1), lines: bytes(2) }, &[], &told)?;
                self.kept = None;
            }
            "deposit" => self.call(Call::Deposit { member: n(0) as u64, amount: n(1) as u64 }, &[], &told)?,
            "submit" => {
                let (payer, number, payee, amount) = (n(0) as u64, n(1) as u64, n(2) as u64, n(3) as u64);
                self.call(Call::Submit { payer, number, payee, amount }, &[], &told)?;
            }
            "release" => self.call(Call::Release { member: n(0) as u64 }, &[], &told)?,
            "group" => self.call(Call::Group, &numbers[0], &told)?,
            "resolve" => self.call(Call::Resolve, &vec![0x7777; n(0) as usize], &told)?,
            _ => return Err(String::from("no such row")),
        }
        self.passed += 1;
        Ok(())
    }

    /// Other lengths of what is lent; tables keep the bytes that they have.
    fn lend(&mut self, what: &str) -> Result<(), String> {
        match what.split_once(' ') {
            Some(("tables", length)) => self.lent.tables.resize(number(length)? as usize, BLANK),
            Some(("answer", length)) => self.answer = number(length)? as usize,
            _ => {
                self.lent.tables.resize(LEAST, BLANK);
                self.answer = ANSWER;
            }
        }
        Ok(())
    }

    /// Makes a call on the archive with these counts lent, and compares code, answer and counts; a refusal has changed nothing.
    fn call(&mut self, call: Call, counts: &[i128], told: &[Vec<i128>]) -> Result<(), String> {
        self.lent.counts = counts.iter().flat_map(|c| (*c as u16).to_le_bytes()).collect();
        self.lent.answer = vec![BLANK; self.answer];
        let mut want = self.lent.clone();
        let code = linked::in_archive(&call, &mut self.lent, 1)?;
        must(Some(&(code as i128)) == told[0].first(), || format!("code {code}"))?;
        if code != 0 {
            return must(self.lent == want, || format!("code {code}, and a byte has changed"));
        }
        told[0][1..].iter().enumerate().for_each(|(k, part)| write(&mut want.answer, 8 * k, 8, *part));
        let after: Vec<u8> = told.get(1).into_iter().flatten().flat_map(|c| (*c as u16).to_le_bytes()).collect();
        must(self.lent.answer == want.answer, || format!("it answers {:02x?}", self.lent.answer))?;
        let past = |lent: &Lent| lent.tables[LEAST..].to_vec();
        must(past(&self.lent) == past(&want), || String::from("a byte past the tables has changed"))?;
        must(!matches!(call, Call::Resolve) || self.lent.counts == after, || format!("it writes the counts {:02x?}", self.lent.counts))
    }
}

/// Lists of numbers with a ';' between them.
fn lists(text: &str) -> Result<Vec<Vec<i128>>, String> {
    text.split(';').map(list).collect()
}

/// A list of numbers, where N*V is V, N times.
fn list(text: &str) -> Result<Vec<i128>, String> {
    let mut all = vec![];
    for word in text.split_whitespace() {
        match word.split_once('*') {
            Some((times, value)) => all.extend(vec![number(value)?; number(times)? as usize]),
            None => all.push(number(word)?),
        }
    }
    Ok(all)
}

fn number(word: &str) -> Result<i128, String> {
    word.trim().parse().map_err(|_| format!("no number: {word}"))
}

/// Something that must hold, or else what went wrong.
fn must(holds: bool, what: impl Fn() -> String) -> Result<(), String> {
    if holds {
        Ok(())
    } else {
        Err(what())
    }
}
