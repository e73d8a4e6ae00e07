//! The lent tables as bytes, and the house they hold.

use crate::house::{House, Member, Payment, MOST_AMOUNT, MOST_LINE, MOST_MEMBERS, MOST_MONEY, MOST_WAITING};
use std::collections::VecDeque;

/// Where the tables begin, and the least length of all together.
pub const ACCOUNTS: usize = 0;
pub const COUNTERS: usize = 4_096;
pub const PLACES: usize = 6_144;
pub const LEAST: usize = 22_528;

/// The members of a block.
const BLOCK: usize = 64;

/// The byte place of a member's balance, line, last number and settled count (member from 0), and of a waiting payment.
pub fn balance_at(member: usize) -> usize {
    ACCOUNTS + 8 * member
}
pub fn line_at(member: usize) -> usize {
    ACCOUNTS + 8 * (BLOCK + member)
}
pub fn last_at(member: usize) -> usize {
    COUNTERS + 4 * (BLOCK + member)
}
pub fn settled_at(member: usize) -> usize {
    COUNTERS + 4 * (2 * BLOCK + member)
}
pub fn place_at(place: usize) -> usize {
    PLACES + 8 * place
}

/// Eight bytes as a signed number.
pub fn read_i64(bytes: &[u8], at: usize) -> i128 {
    i64::from_le_bytes(bytes[at..at + 8].try_into().unwrap()) as i128
}

/// Eight bytes as an unsigned number.
pub fn read_u64(bytes: &[u8], at: usize) -> u64 {
    u64::from_le_bytes(bytes[at..at + 8].try_into().unwrap())
}

/// Four bytes as an unsigned number.
pub fn read_u32(bytes: &[u8], at: usize) -> u32 {
    u32::from_le_bytes(bytes[at..at + 4].try_into().unwrap())
}

/// Writes a number's low bytes at a place.
pub fn write(bytes: &mut [u8], at: usize, width: usize, number: i128) {
    bytes[at..at + width].copy_from_slice(&number.to_le_bytes()[..width]);
}

/// The house that tables hold, or nothing when they are too short or hold no state. Only the used fields are read and judged here; that
/// all the rest is zero, and each counter right, is judged by writing the house again and comparing every byte.
pub fn decode(tables: &[u8]) -> Option<House> {
    let tables = tables.get(..LEAST)?;
    let count = read_u32(tables, COUNTERS) as usize;
    if count < 1 || count > MOST_MEMBERS as usize {
        return None;
    }
    let member = |m| Member {
        balance: read_i64(tables, balance_at(m)),
        line: read_i64(tables, line_at(m)),
        last: read_u32(tables, last_at(m)) as i128,
        queue: VecDeque::new(),
    };
    let mut house = House { members: (0..count).map(member).collect(), next_order: 0 };
    for place in 0..MOST_WAITING {
        let word = read_u64(tables, place_at(place));
        if word == 0 {
            break;
        }
        let (amount, payer, payee) = ((word >> 16) as i128, (word >> 6 & 63) as usize, (word & 63) as usize);
        if payer >= count || payee >= count || payer == payee || !(1..=MOST_AMOUNT).contains(&amount) {
            return None;
        }
        house.members[payer].queue.push_back(Payment { order: house.next_order, payee, amount });
        house.next_order += 1;
    }
    let good = |m: &Member| (0..=MOST_LINE).contains(&m.line) && m.balance + m.line >= 0 && m.queue.len() as i128 <= m.last;
    if !house.members.iter().all(good) || house.money() > MOST_MONEY {
        return None;
    }
    let mut again = vec![0; LEAST];
    encode(&house, &mut again);
    (again == tables).then_some(house)
}

/// Writes a house into tables of at least the least length; the bytes past it are not touched.
pub fn encode(house: &House, tables: &mut [u8]) {
    tables[..LEAST].fill(0);
    write(tables, COUNTERS, 4, house.members.len() as i128);
    write(tables, COUNTERS + 4, 4, house.waiting() as i128);
    for (m, member) in house.members.iter().enumerate() {
        write(tables, balance_at(m), 8, member.balance);
        write(tables, line_at(m), 8, member.line);
        write(tables, last_at(m), 4, member.last);
        write(tables, settled_at(m), 4, member.last - member.queue.len() as i128);
    }
    let mut words: Vec<(u64, i128)> = Vec::new();
    for (payer, member) in house.members.iter().enumerate() {
        for p in &member.queue {
            words.push((p.order, (p.amount << 16) + ((payer << 6) + p.payee) as i128));
        }
    }
    words.sort();
    for (place, (_, word)) in words.iter().enumerate() {
        write(tables, place_at(place), 8, *word);
    }
}
