//! The calls of the archive, as include/snarevapor.h has them.

use crate::guarded::Guarded;
use reading::bytetest::{Call, Lent};

extern "C" {
    fn snarevapor_open(
        tables: *mut u8,
        tables_length: usize,
        count: u64,
        balances: *const u8,
        balances_length: usize,
        lines: *const u8,
        lines_length: usize,
        answer: *mut u8,
        answer_length: usize,
    ) -> u32;
    fn snarevapor_deposit(tables: *mut u8, length: usize, member: u64, amount: u64, answer: *mut u8, answer_length: usize) -> u32;
    fn snarevapor_submit(tables: *mut u8, length: usize, payer: u64, number: u64, payee: u64, amount: u64) -> u32;
    fn snarevapor_release(tables: *mut u8, length: usize, member: u64, answer: *mut u8, answer_length: usize) -> u32;
    fn snarevapor_group(
        tables: *mut u8,
        length: usize,
        counts: *const u8,
        counts_length: usize,
        answer: *mut u8,
        answer_length: usize,
    ) -> u32;
    fn snarevapor_resolve(
        tables: *mut u8,
        length: usize,
        counts: *mut u8,
        counts_length: usize,
        answer: *mut u8,
        answer_length: usize,
    ) -> u32;
}

/// Makes a call on the archive with copies of what is lent, `shift` bytes into their rooms. What is lent then holds what came back. Tells
/// the code, or that a byte beside a slice, or in a list that is only read, has changed.
pub fn in_archive(call: &Call, lent: &mut Lent, shift: usize) -> Result<u32, String> {
    let mut tables = Guarded::new(&lent.tables, shift);
    let mut counts = Guarded::new(&lent.counts, shift);
    let mut answer = Guarded::new(&lent.answer, shift);
    let (mut balances, mut lines) = match call {
        Call::Open { balances, lines, .. } => (Guarded::new(balances, shift), Guarded::new(lines, shift)),
        _ => (Guarded::new(&[], shift), Guarded::new(&[], shift)),
    };
    let (t, tl, c, cl) = (tables.pointer(), tables.length(), counts.pointer(), counts.length());
    let (a, al) = (answer.pointer(), answer.length());
    // Each pointer is that of a room of its own, with as many bytes as its length says.
    let code = unsafe {
        match *call {
            Call::Open { count, .. } => {
                let (b, bl, l, ll) = (balances.pointer(), balances.length(), lines.pointer(), lines.length());
                snarevapor_open(t, tl, count, b, bl, l, ll, a, al)
            }
            Call::Deposit { member, amount } => snarevapor_deposit(t, tl, member, amount, a, al),
            Call::Submit { payer, number, payee, amount } => snarevapor_submit(t, tl, payer, number, payee, amount),
            Call::Release { member } => snarevapor_release(t, tl, member, a, al),
            Call::Group => snarevapor_group(t, tl, c, cl, a, al),
            Call::Resolve => snarevapor_resolve(t, tl, c, cl, a, al),
        }
    };
    if ![&tables, &counts, &answer, &balances, &lines].iter().all(|room| room.guards_stand()) {
        return Err(format!("code {code}, and a byte beside a lent slice has changed"));
    }
    if let Call::Open { balances: b, lines: l, .. } = call {
        if balances.bytes() != b || lines.bytes() != l {
            return Err(format!("code {code}, and a list that is only read has changed"));
        }
    }
    lent.tables.copy_from_slice(tables.bytes());
    lent.counts.copy_from_slice(counts.bytes());
    lent.answer.copy_from_slice(answer.bytes());
    Ok(code)
}
