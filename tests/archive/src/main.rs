//! `archive ROUNDS SEED`: the static archive against the second program. Each round makes calls, right and wrong ones, on a house and on
//! damaged tables. Code, answer, counts and every byte of the tables must be equal, and no byte beside them may change.
//! Before that come the rows of rows.txt, whose answers were written by hand.
#![deny(warnings)]

mod guarded;
mod houses;
mod linked;
mod rows;

use reading::bytetest::{any_call, in_bytes, Call, Lent};
use reading::house::House;
use reading::random::Random;
use reading::tables::{decode, encode, LEAST};
use std::process::ExitCode;

/// So many differences are shown in full.
const MOST_SHOWN: u64 = 10;

/// What was seen.
#[derive(Default)]
struct Seen {
    passed: u64,
    failed: u64,
    codes: [u64; 12],
    kinds: [u64; 6],
    states: u64,
    no_states: u64,
}

fn main() -> ExitCode {
    let words: Vec<u64> = std::env::args().skip(1).filter_map(|w| w.parse().ok()).collect();
    let &[rounds, seed] = words.as_slice() else {
        eprintln!("usage: archive ROUNDS SEED");
        return ExitCode::from(2);
    };
    println!("archive: seed {seed}, {rounds} rounds");
    let mut seen = Seen::default();
    (seen.passed, seen.failed) = rows::play(include_str!("../rows.txt"));
    for round in 0..rounds {
        // Each round has its own row of numbers, so that one can be made again alone.
        let mut random = Random::new(seed ^ round.wrapping_mul(0x2545_f491_4f6c_dd1d));
        a_round(&mut random, round, &mut seen);
    }
    println!("archive: codes 0 to 11 {:?}", seen.codes);
    println!("archive: open, deposit, submit, release, group, resolve {:?}", seen.kinds);
    println!("archive: damaged tables that are a house {}, that are none {}", seen.states, seen.no_states);
    println!("{} passed, {} failed", seen.passed, seen.failed);
    ExitCode::from((seen.failed > 0) as u8)
}

/// Twelve calls one after another on a house, then a few on damaged copies of what is left.
fn a_round(random: &mut Random, round: u64, seen: &mut Seen) {
    let house = houses::any_house(random);
    let mut lent = Lent { tables: vec![0xa5; LEAST + random.one(&[0, 0, 1, 8, 19, 4_096])], counts: vec![], answer: vec![] };
    encode(&house, &mut lent.tables);
    for _ in 0..12 {
        let Some(house) = decode(&lent.tables) else {
            return differs(seen, round, "the second program left tables that it does not read", &Call::Group, &lent);
        };
        let call = fitting_call(random, &house, &mut lent);
        compare(random, round, &call, &mut lent, seen);
    }
    for _ in 0..6 {
        let mut damaged = lent.clone();
        houses::damage(random, &mut damaged.tables);
        let read = decode(&damaged.tables);
        *(if read.is_some() { &mut seen.states } else { &mut seen.no_states }) += 1;
        let near = read.unwrap_or_else(|| house.clone());
        for _ in 0..3 {
            let call = any_call(random, &near, &mut damaged);
            compare(random, round, &call, &mut damaged.clone(), seen);
        }
    }
}

/// Some call, where an opening now and then is at the limits, and a group proposes what a resolution would settle, or one payment more
/// or less.
fn fitting_call(random: &mut Random, house: &House, lent: &mut Lent) -> Call {
    let call = any_call(random, house, lent);
    if matches!(call, Call::Open { .. }) && random.percent(50) {
        return houses::opening_at_limits(random);
    }
    if matches!(call, Call::Group) && random.percent(50) {
        let largest = reading::largest::by_prefix_search(house);
        let change = random.one(&[0, 0, 1, -1]);
        let at = random.below(largest.len());
        let count = |m: usize| largest[m] as i64 + if m == at { change } else { 0 };
        lent.counts = (0..largest.len()).flat_map(|m| (count(m).max(0) as u16).to_le_bytes()).collect();
    }
    call
}

/// Makes a call both ways and compares all that comes back; what is lent is then as the second program left it.
fn compare(random: &mut Random, round: u64, call: &Call, lent: &mut Lent, seen: &mut Seen) {
    let (before, mut other) = (lent.clone(), lent.clone());
    let code = in_bytes(call, lent);
    let told = linked::in_archive(call, &mut other, random.below(9));
    let kinds = |c: &Call| match c {
        Call::Open { .. } => 0,
        Call::Deposit { .. } => 1,
        Call::Submit { .. } => 2,
        Call::Release { .. } => 3,
        Call::Group => 4,
        Call::Resolve => 5,
    };
    seen.codes[code as usize] += 1;
    seen.kinds[kinds(call)] += 1;
    let what = match told {
        Err(what) => what,
        Ok(told) if told != code => format!("code {told}, second program {code}"),
        Ok(_) if other.tables != lent.tables => format!("code {code}, other tables: {}", first(&other.tables, &lent.tables)),
        Ok(_) if other.counts != lent.counts => format!("code {code}, other counts: {}", first(&other.counts, &lent.counts)),
        Ok(_) if other.answer != lent.answer => format!("code {code}, other answer: {}", first(&other.answer, &lent.answer)),
        Ok(_) if code != 0 && other != before => format!("code {code}, and a byte has changed"),
        Ok(_) => {
            seen.passed += 1;
            return;
        }
    };
    differs(seen, round, &what, call, &before);
}

/// The first place where two rows of bytes of one length differ.
fn first(archive: &[u8], second: &[u8]) -> String {
    match (0..archive.len()).find(|&i| archive[i] != second[i]) {
        Some(i) => format!("byte {i} is {:02x}, second program {:02x}", archive[i], second[i]),
        None => String::from("none"),
    }
}

/// Counts a difference, and shows the whole case: every byte of the tables that is not 0.
fn differs(seen: &mut Seen, round: u64, what: &str, call: &Call, before: &Lent) {
    seen.failed += 1;
    if seen.failed > MOST_SHOWN {
        return;
    }
    println!("archive: round {round}: {what}\n  {call:?}\n  counts {:02x?}, answer of {}", before.counts, before.answer.len());
    println!("  tables of {} bytes:", before.tables.len());
    for (row, bytes) in before.tables.chunks(8).enumerate().filter(|(_, bytes)| bytes.iter().any(|&b| b != 0)) {
        println!("    {:6} {bytes:02x?}", 8 * row);
    }
}
