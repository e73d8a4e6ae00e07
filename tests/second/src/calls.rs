//! The calls of the host, over lent bytes. Each answers its code; 0 is accepted. A refusal changes no byte.

use crate::house::{House, ACCEPTED, BAD_COUNTS, BAD_OPENING, MOST_MEMBERS, NO_TABLES};
use crate::largest;
use crate::tables::{decode, encode, read_i64, write, LEAST};

/// Writes the parts of an answer, 8 bytes each.
fn write_parts(answer: &mut [u8], parts: &[i128]) {
    for (i, part) in parts.iter().enumerate() {
        write(answer, 8 * i, 8, *part);
    }
}

/// The house in the tables, when the answer has room for that many parts; else 1.
fn lent(tables: &[u8], answer: &[u8], parts: usize) -> Result<House, u32> {
    if answer.len() < 8 * parts {
        return Err(NO_TABLES);
    }
    decode(tables).ok_or(NO_TABLES)
}

/// The code of a call that ended one way or the other.
fn code(ended: Result<(), u32>) -> u32 {
    ended.err().unwrap_or(ACCEPTED)
}

/// Open: 1, 11. The answer is the sum of balances.
pub fn open(tables: &mut [u8], count: u64, balances: &[u8], lines: &[u8], answer: &mut [u8]) -> u32 {
    code((|| {
        if tables.len() < LEAST || answer.len() < 8 {
            return Err(NO_TABLES);
        }
        if !(1..=MOST_MEMBERS).contains(&count) {
            return Err(BAD_OPENING);
        }
        let read = |list: &[u8]| -> Result<Vec<i128>, u32> {
            if list.len() as u64 != 8 * count {
                return Err(BAD_OPENING);
            }
            Ok((0..count as usize).map(|i| read_i64(list, 8 * i)).collect())
        };
        let house = House::open(count as i128, &read(balances)?, &read(lines)?)?;
        encode(&house, tables);
        write_parts(answer, &[house.money()]);
        Ok(())
    })())
}

/// Deposit: 1, 2, 4, 7. The answer is the new balance.
pub fn deposit(tables: &mut [u8], member: u64, amount: u64, answer: &mut [u8]) -> u32 {
    code((|| {
        let mut house = lent(tables, answer, 1)?;
        let balance = house.deposit(member as i128, amount as i128)?;
        encode(&house, tables);
        write_parts(answer, &[balance]);
        Ok(())
    })())
}

/// Submit: 1, 2, 3, 4, 5, 6.
pub fn submit(tables: &mut [u8], payer: u64, number: u64, payee: u64, amount: u64) -> u32 {
    code((|| {
        let mut house = lent(tables, &[], 0)?;
        house.submit(payer as i128, number as i128, payee as i128, amount as i128)?;
        encode(&house, tables);
        Ok(())
    })())
}

/// Release: 1, 2, 8, 9. The answer is the payment's number and amount.
pub fn release(tables: &mut [u8], member: u64, answer: &mut [u8]) -> u32 {
    code((|| {
        let mut house = lent(tables, answer, 2)?;
        let released = house.release(member as i128)?;
        encode(&house, tables);
        write_parts(answer, &[released.number, released.amount]);
        Ok(())
    })())
}

/// Group: 1, 10, 9. The answer is how many payments, and their sum.
pub fn group(tables: &mut [u8], counts: &[u8], answer: &mut [u8]) -> u32 {
    code((|| {
        let mut house = lent(tables, answer, 2)?;
        if counts.len() != 2 * house.members.len() {
            return Err(BAD_COUNTS);
        }
        let counts: Vec<i128> = counts.chunks(2).map(|two| u16::from_le_bytes([two[0], two[1]]) as i128).collect();
        let booked = house.group(&counts)?;
        encode(&house, tables);
        write_parts(answer, &[booked.payments as i128, booked.sum]);
        Ok(())
    })())
}

/// Resolve: 1, 10. The counts go into the lent list. The answer is verdict, payments, sum, set of members still waiting, how many, lowest.
pub fn resolve(tables: &mut [u8], counts: &mut [u8], answer: &mut [u8]) -> u32 {
    code((|| {
        let mut house = lent(tables, answer, 6)?;
        if counts.len() != 2 * house.members.len() {
            return Err(BAD_COUNTS);
        }
        let resolved = house.resolve(largest::slowly);
        encode(&house, tables);
        for (m, count) in resolved.counts.iter().enumerate() {
            write(counts, 2 * m, 2, *count as i128);
        }
        let parts = [
            resolved.verdict as i128,
            resolved.booked.payments as i128,
            resolved.booked.sum,
            resolved.set() as i128,
            resolved.waiting.len() as i128,
            resolved.lowest() as i128,
        ];
        write_parts(answer, &parts);
        Ok(())
    })())
}
