//! Checks of the calls over lent bytes against the model.

use crate::calls;
use crate::house::{House, BAD_COUNTS, BAD_OPENING, MOST_MONEY, MOST_WAITING, NO_TABLES};
use crate::largest::by_take_off;
use crate::random::Random;
use crate::selftest::{must, Seen};
use crate::tables::{decode, encode, read_i64, read_u32, read_u64, LEAST};

/// A call of the host; what it lends stands apart.
#[derive(Clone, Debug)]
pub enum Call {
    Open { count: u64, balances: Vec<u8>, lines: Vec<u8> },
    Deposit { member: u64, amount: u64 },
    Submit { payer: u64, number: u64, payee: u64, amount: u64 },
    Release { member: u64 },
    Group,
    Resolve,
}

/// What the host lends: the tables, a list of counts (group reads it, resolve writes it) and room for an answer.
#[derive(Clone, PartialEq, Eq)]
pub struct Lent {
    pub tables: Vec<u8>,
    pub counts: Vec<u8>,
    pub answer: Vec<u8>,
}

/// Makes a call in bytes.
pub fn in_bytes(call: &Call, lent: &mut Lent) -> u32 {
    let Lent { tables, counts, answer } = lent;
    match call {
        Call::Open { count, balances, lines } => calls::open(tables, *count, balances, lines, answer),
        Call::Deposit { member, amount } => calls::deposit(tables, *member, *amount, answer),
        Call::Submit { payer, number, payee, amount } => calls::submit(tables, *payer, *number, *payee, *amount),
        Call::Release { member } => calls::release(tables, *member, answer),
        Call::Group => calls::group(tables, counts, answer),
        Call::Resolve => calls::resolve(tables, counts, answer),
    }
}

/// Refuses with a code unless something holds.
fn or(code: u32, holds: bool) -> Result<(), u32> {
    if holds {
        Ok(())
    } else {
        Err(code)
    }
}

/// Makes a call on the model: the parts of its answer, and for a resolution the counts, or its code.
fn on_model(call: &Call, house: &mut House, lent: &Lent) -> Result<(Vec<i128>, Option<Vec<usize>>), u32> {
    let room = |parts: usize| or(NO_TABLES, lent.answer.len() >= 8 * parts);
    let values = |list: &[u8]| -> Vec<i128> { list.chunks_exact(8).map(|c| read_i64(c, 0)).collect() };
    let whole = |list: &[u8], width: usize| list.chunks_exact(width).remainder().is_empty();
    let parts = match call {
        Call::Open { count, balances, lines } => {
            room(1)?;
            or(BAD_OPENING, whole(balances, 8) && whole(lines, 8))?;
            *house = House::open(*count as i128, &values(balances), &values(lines))?;
            vec![house.money()]
        }
        Call::Deposit { member, amount } => {
            room(1)?;
            vec![house.deposit(*member as i128, *amount as i128)?]
        }
        Call::Submit { payer, number, payee, amount } => {
            house.submit(*payer as i128, *number as i128, *payee as i128, *amount as i128)?;
            vec![]
        }
        Call::Release { member } => {
            room(2)?;
            let released = house.release(*member as i128)?;
            vec![released.number, released.amount]
        }
        Call::Group => {
            room(2)?;
            or(BAD_COUNTS, whole(&lent.counts, 2))?;
            let counts: Vec<i128> = lent.counts.chunks_exact(2).map(|c| c[0] as i128 + 256 * c[1] as i128).collect();
            let booked = house.group(&counts)?;
            vec![booked.payments as i128, booked.sum]
        }
        Call::Resolve => {
            room(6)?;
            or(BAD_COUNTS, lent.counts.len() == 2 * house.members.len())?;
            let resolved = house.resolve(by_take_off);
            let set: u64 = resolved.waiting.iter().fold(0, |set, m| set | 1 << m);
            let lowest = if set == 0 { 0 } else { set.trailing_zeros() as i128 + 1 };
            let (verdict, booked) = (resolved.verdict as i128, resolved.booked);
            let parts = vec![verdict, booked.payments as i128, booked.sum, set as i128, set.count_ones() as i128, lowest];
            return Ok((parts, Some(resolved.counts)));
        }
    };
    Ok((parts, None))
}

/// A number near a right one, or far off.
fn near(random: &mut Random, right: i128) -> u64 {
    let off = [0, 1, 65, 1_000_000_000_000, 1_000_000_000_001, 4_294_967_295, 4_294_967_296, u64::MAX];
    match random.below(14) {
        0 => random.one(&off),
        1 => (right + 1) as u64,
        2 => (right - 1).max(0) as u64,
        _ => right as u64,
    }
}

/// A list of numbers from `low` to `high`, of the width and now and then a little too long or too short.
fn list(random: &mut Random, count: usize, width: usize, low: i128, high: i128) -> Vec<u8> {
    let mut list: Vec<u8> = (0..count).flat_map(|_| random.from(low, high).to_le_bytes()[..width].to_vec()).collect();
    let length = (list.len() as i128 + random.one(&[0, 0, 0, 0, 0, 0, 0, 0, -1, 1, width as i128, -(width as i128)])) as usize;
    list.resize(length, 0);
    list
}

/// Some call that fits a house more or less, and lends more or less what it needs.
pub fn any_call(random: &mut Random, house: &House, lent: &mut Lent) -> Call {
    let count = house.members.len();
    let member = random.from(1, count as i128);
    let payee = random.from(1, count as i128);
    let amount = random.from(1, 9);
    lent.answer = vec![0x5a; random.one(&[0, 7, 8, 15, 16, 47, 48, 48, 48, 48, 50, 50, 50, 50])];
    let most = random.one(&[0, 0, 1, 1, 2, 65_535]);
    lent.counts = list(random, count, 2, 0, most);
    match random.below(12) {
        0 => {
            let low = random.one(&[0, 0, 0, -1, -9]);
            let (balances, lines) = (list(random, count, 8, low, 9), list(random, count, 8, low.max(-1), 9));
            Call::Open { count: near(random, count as i128), balances, lines }
        }
        1 => Call::Deposit { member: near(random, member), amount: near(random, amount) },
        2..=6 => {
            let payer = near(random, member);
            let next = house.members.get((payer as usize).wrapping_sub(1)).map_or(1, |m| m.last + 1);
            Call::Submit { payer, number: near(random, next), payee: near(random, payee), amount: near(random, amount) }
        }
        7 | 8 => Call::Release { member: near(random, member) },
        9 | 10 => Call::Group,
        _ => Call::Resolve,
    }
}

/// A day of calls over lent bytes, each against the model: code, answer, list and every byte of the tables.
pub fn a_day(random: &mut Random, mut house: House, seen: &mut Seen) -> Result<(), String> {
    if random.percent(20) {
        // Near the last number there is.
        house.members[0].last = random.from(4_294_967_290, 4_294_967_295);
    }
    if random.percent(10) {
        // Near the most money there is.
        house.members[0].balance += MOST_MONEY - house.money() - random.from(0, 9);
    }
    if random.percent(3) && house.members.len() > 1 {
        // Near the most payments that may wait.
        while house.waiting() < MOST_WAITING - 1 && house.submit(2, house.members[1].last + 1, 1, 3).is_ok() {}
    }
    let spare = random.below(20);
    let mut lent = Lent { tables: vec![0xa5; LEAST + spare], counts: Vec::new(), answer: Vec::new() };
    encode(&house, &mut lent.tables);
    for _ in 0..12 {
        let call = any_call(random, &house, &mut lent);
        // What must stand in the lent bytes afterwards: the same after a refusal.
        let mut expected = lent.clone();
        let told = on_model(&call, &mut house, &lent);
        if let Ok((parts, counts)) = &told {
            encode(&house, &mut expected.tables);
            for (i, part) in parts.iter().enumerate() {
                expected.answer[8 * i..8 * i + 8].copy_from_slice(&part.to_le_bytes()[..8]);
            }
            for (i, count) in counts.iter().flatten().enumerate() {
                expected.counts[2 * i..2 * i + 2].copy_from_slice(&(*count as u16).to_le_bytes());
            }
        }
        let code = in_bytes(&call, &mut lent);
        must(code == told.clone().err().unwrap_or(0), || format!("code {code}, model {told:?}: {call:?} {house:?}"))?;
        must(lent == expected, || format!("code {code}, other bytes than the model's: {call:?} {house:?}"))?;
        seen.calls += 1;
        seen.codes[code as usize] += 1;
    }
    damaged_tables(random, &lent.tables, seen)
}

/// Whether tables hold a state, read straight from the list of what is no state.
pub fn holds_state(tables: &[u8]) -> bool {
    if tables.len() < LEAST {
        return false;
    }
    let account = |i: usize| read_i64(tables, 8 * i);
    let counter = |i: usize| read_u32(tables, 4_096 + 4 * i) as i128;
    let word = |i: usize| read_u64(tables, 6_144 + 8 * i);
    let count = counter(0);
    if !(1..=64).contains(&count) {
        return false;
    }
    let members = count as usize;
    let words = (0..2_048).take_while(|&i| word(i) != 0).count();
    let lines = (0..members).all(|i| (0..=1_000_000_000_000).contains(&account(64 + i)));
    let cover = (0..members).all(|i| account(i) >= -account(64 + i));
    let sum = (0..members).map(account).sum::<i128>() <= 1_000_000_000_000_000;
    let good = |w: u64| {
        let (amount, flags, payer, payee) = (w / 65_536, w / 4_096 % 16, w / 64 % 64, w % 64);
        let known = (payer as i128) < count && (payee as i128) < count;
        (1..=1_000_000_000_000).contains(&amount) && flags == 0 && known && payer != payee
    };
    let good_words = (0..words).all(|i| good(word(i)));
    let no_gap = (words..2_048).all(|i| word(i) == 0);
    let waiting = counter(1) == words as i128;
    let queued = |m: usize| (0..words).filter(|&i| word(i) / 64 % 64 == m as u64).count() as i128;
    let numbers = (0..members).all(|m| counter(64 + m) - counter(128 + m) == queued(m));
    let accounts_used = |i: usize| i < 128 && i % 64 < members;
    let counters_used = |i: usize| i < 2 || (64..192).contains(&i) && i % 64 < members;
    let spare_accounts = (0..512).all(|i| accounts_used(i) || account(i) == 0);
    let spare_counters = (0..512).all(|i| counters_used(i) || counter(i) == 0);
    lines && cover && sum && good_words && no_gap && waiting && numbers && spare_accounts && spare_counters
}

/// Changes one or two bytes of tables, mostly where something stands, and now and then cuts them short.
pub fn damage_tables(random: &mut Random, tables: &mut Vec<u8>) {
    for _ in 0..random.one(&[1, 1, 2]) {
        let at = match random.below(4) {
            0 => random.below(LEAST),
            1 => 8 * random.below(70) + random.below(8),
            2 => 4_096 + 4 * random.one(&[0, 0, 1, 2, 63, 64, 65, 69, 127, 128, 129, 191, 192]) + random.below(2),
            _ => 6_144 + 8 * random.below(10) + random.below(8),
        };
        tables[at] = if random.percent(50) { tables[at].wrapping_add(random.one(&[1, 255])) } else { random.draw() as u8 };
    }
    if random.percent(3) {
        tables.truncate(random.one(&[0, LEAST - 1, 22_000]));
    }
}

/// Damaged tables: both ways of judging them agree, and a call on tables without a state is 1 and changes nothing.
fn damaged_tables(random: &mut Random, tables: &[u8], seen: &mut Seen) -> Result<(), String> {
    for _ in 0..6 {
        let mut lent = Lent { tables: tables.to_vec(), counts: vec![9; 4], answer: vec![9; 48] };
        damage_tables(random, &mut lent.tables);
        let state = holds_state(&lent.tables);
        let house = decode(&lent.tables);
        must(state == house.is_some(), || format!("holds a state: {state}, decoded: {house:?}"))?;
        if state {
            seen.states += 1;
            continue;
        }
        seen.no_states += 1;
        let before = lent.clone();
        let some = Call::Submit { payer: 0, number: 0, payee: 0, amount: 0 };
        for call in [Call::Deposit { member: 1, amount: 1 }, some, Call::Release { member: 1 }, Call::Group, Call::Resolve] {
            let code = in_bytes(&call, &mut lent);
            must(code == NO_TABLES && lent == before, || format!("no state, but code {code}: {call:?}"))?;
        }
    }
    Ok(())
}
