//! Houses and tables to make calls on: small ones, full ones, ones at a limit, and tables that are damaged.

use reading::bytetest::{damage_tables, Call};
use reading::house::{House, MOST_LINE, MOST_MONEY, MOST_WAITING};
use reading::random::Random;
use reading::selftest::small_house;
use reading::tables::{balance_at, last_at, line_at, place_at, read_u32, read_u64, settled_at, write, COUNTERS, LEAST};

/// Some house: mostly small, now and then large, or near the last number, the most money or the most waiting.
pub fn any_house(random: &mut Random) -> House {
    let mut house = if random.percent(10) { large_house(random) } else { small_house(random) };
    if random.percent(15) {
        let first = &mut house.members[0];
        first.last = first.queue.len() as i128 + random.from(4_294_967_280, 4_294_967_295);
        first.last = first.last.min(4_294_967_295);
    }
    if random.percent(10) {
        house.members[0].balance += MOST_MONEY - house.money() - random.from(0, 9);
    }
    if random.percent(3) && house.members.len() > 1 {
        let until = MOST_WAITING - random.below(3);
        while house.waiting() < until && house.submit(2, house.members[1].last + 1, 1, 3).is_ok() {}
    }
    house
}

/// A house of up to 64 members with up to 2,048 payments waiting, of small or of the largest amounts.
fn large_house(random: &mut Random) -> House {
    let count = random.one(&[2, 3, 9, 31, 32, 33, 63, 64, 64]);
    let (rich, most) = (random.one(&[0, 1_000, 1_000_000_000_000]), random.one(&[10, 10_000, 1_000_000_000_000]));
    let lines: Vec<i128> = (0..count).map(|_| random.from(0, rich)).collect();
    let balances: Vec<i128> = lines.iter().map(|&line| random.from(-line, rich)).collect();
    let mut house = House::open(count, &balances, &lines).expect("a good opening");
    for _ in 0..random.one(&[20, 100, 100, 1_000, 2_048]) {
        let payer = random.from(1, count);
        let payee = (payer - 1 + random.from(1, count - 1)) % count + 1;
        let number = house.members[payer as usize - 1].last + 1;
        house.submit(payer, number, payee, random.from(1, most)).expect("a good payment");
    }
    house
}

/// An opening at the limits: lines and balances at them, mostly a sum at or next to the most money, and often one number just past.
pub fn opening_at_limits(random: &mut Random) -> Call {
    let count = random.one(&[1, 2, 3, 31, 32, 63, 64]);
    let (one, odd, past) = (random.below(count), odd_money(random), random.below(6));
    let mut lines: Vec<i128> = (0..count).map(|_| random.one(&[0, 1, 9, MOST_LINE - 1, MOST_LINE, MOST_LINE])).collect();
    if past == 0 {
        lines[one] = random.one(&[-1, MOST_LINE + 1, MOST_LINE + 1, odd]);
    }
    let mut balances: Vec<i128> = lines.iter().map(|&line| random.one(&[-line, -line, 1 - line, 0, MOST_MONEY / 64])).collect();
    if random.percent(60) {
        let at = random.below(count);
        balances[at] += MOST_MONEY - balances.iter().sum::<i128>() + random.one(&[0, 0, -1, 1]);
    }
    if past == 1 {
        balances[one] = random.one(&[-lines[one] - 1, -lines[one] - 1, odd]);
    }
    let bytes = |list: &[i128]| list.iter().flat_map(|&n| (n as i64).to_le_bytes()).collect();
    Call::Open { count: count as u64, balances: bytes(&balances), lines: bytes(&lines) }
}

/// Damages tables in one of many ways; the outcome may still be a house.
pub fn damage(random: &mut Random, tables: &mut Vec<u8>) {
    let count = (read_u32(tables, COUNTERS) as usize).clamp(1, 64);
    let member = random.below(count);
    match random.below(12) {
        0..=3 => damage_tables(random, tables),
        4 => {
            let at = random.below(LEAST);
            tables[at] ^= 1 << random.below(8);
        }
        5 => {
            let odd = odd_money(random);
            let at = random.one(&[balance_at(member), line_at(member)]);
            write(tables, at, 8, odd);
        }
        6 => (0..count).for_each(|m| write(tables, balance_at(m), 8, odd_money(random))),
        7 => write(tables, COUNTERS, 4, random.one(&[0, 1, 2, 63, 64, 65, 256, 4_294_967_295])),
        8 => {
            let waiting = read_u32(tables, COUNTERS + 4) as i128 + random.one(&[-1, 1, 2_048, 4_294_967_295]);
            write(tables, COUNTERS + 4, 4, waiting);
        }
        9 => {
            let at = random.one(&[last_at(member), settled_at(member)]);
            write(tables, at, 4, random.one(&[0, 1, 2_048, 4_294_967_295]));
        }
        10 => odd_payment(random, tables),
        _ => {
            let byte = random.one(&[None, None, Some(0), Some(1), Some(0xff)]);
            tables.iter_mut().for_each(|b| *b = byte.unwrap_or(random.draw() as u8));
        }
    }
    if random.percent(4) {
        tables.truncate(random.one(&[0, 1, 4_096, 6_144, 22_520, LEAST - 1]));
    }
}

/// A balance or line at or past a limit.
fn odd_money(random: &mut Random) -> i128 {
    let near = random.from(-1, 1);
    let limits = [0, 1_000_000_000_000, MOST_MONEY, 2 * MOST_MONEY, i64::MAX as i128 - 1, i64::MAX as i128 / 2, 1 << 32, 1 << 58];
    near + random.one(&limits) * random.one(&[1, 1, -1])
}

/// Changes, moves or removes a waiting payment, or puts one where none stands.
fn odd_payment(random: &mut Random, tables: &mut [u8]) {
    let waiting = (read_u32(tables, COUNTERS + 4) as usize).clamp(1, MOST_WAITING);
    let (one, other) = (place_at(random.below(waiting)), place_at(random.below(waiting)));
    let (word, beside) = (read_u64(tables, one), read_u64(tables, other));
    match random.below(6) {
        0 => {
            write(tables, one, 8, beside as i128);
            write(tables, other, 8, word as i128);
        }
        1 => write(tables, one, 8, 0),
        2 => write(tables, one, 8, (word ^ (1 << random.below(64))) as i128),
        3 => write(
            tables,
            one,
            8,
            (random.one(&[0, 1, 1_000_000_000_000, 1_000_000_000_001, (1 << 48) - 1]) << 16) + (word & 65_535) as i128,
        ),
        4 => write(
            tables,
            place_at(random.one(&[waiting.min(MOST_WAITING - 1), MOST_WAITING - 1])),
            8,
            random.one(&[1 << 16 | 1, 1 << 16, 1]),
        ),
        _ => write(tables, one, 8, beside as i128),
    }
}
