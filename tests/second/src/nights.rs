//! Day files made up from a seed, to compare programs on.

use crate::damage::damaged;
use crate::draft::Draft;
use crate::house::MOST_WAITING;
use crate::limits::limits;
use crate::openings::openings;
use crate::random::Random;

/// The kinds of day files.
pub const KINDS: [&str; 7] = ["small", "large", "limits", "damaged", "openings", "million", "full"];

/// The day file of a seed and a kind, or nothing for an unknown kind. `lines` is about how many lines million and full have.
pub fn night(seed: u64, kind: &str, lines: Option<usize>) -> Option<Vec<u8>> {
    let place = KINDS.iter().position(|k| *k == kind)? as u64;
    let mut random = Random::new(seed.wrapping_mul(8).wrapping_add(place));
    Some(match kind {
        "small" => small(random),
        "large" => large(random),
        "limits" => limits(random),
        "damaged" => {
            let (kind, good) = (random.below(4), random.clone());
            let file = match kind {
                0 => large(good),
                1 => limits(good),
                _ => small(good),
            };
            random.draw();
            damaged(random, &file)
        }
        "openings" => openings(random),
        "million" => million(random, lines),
        _ => full(random, lines.unwrap_or(40_000)),
    })
}

/// A small house whose queues lock: few members, small amounts, many cycles.
fn small(mut random: Random) -> Vec<u8> {
    let count = random.from(2, 6) as usize;
    let rich = random.one(&[0, 0, 3, 20]);
    let lend = random.one(&[0, 0, 2, 10]);
    let credit: Vec<i128> = (0..count).map(|_| random.from(0, lend)).collect();
    let balances: Vec<i128> = credit.iter().map(|&line| random.from(-line, rich)).collect();
    let most = random.one(&[2, 5, 30]);
    let key = random.one(&[2, 6, 12]);
    let lines = random.from(5, 150) as usize;
    let mut draft = Draft::open(random, &balances, &credit);
    while draft.lines < lines {
        let amount = draft.random.from(1, most);
        let member = draft.member();
        match draft.random.from(0, 99) {
            0..=34 => draft.pay_any(amount),
            35..=54 => draft.cycle(amount),
            55..=69 => draft.release(member),
            70..=77 => draft.group_any(),
            78..=82 => draft.deposit(member, amount),
            83..=87 => draft.refused(),
            x if x < 88 + key => draft.resolve(),
            _ => draft.pay_any(amount),
        }
    }
    draft.resolve();
    draft.end()
}

/// A large house: up to 64 members and 2,048 waiting payments.
fn large(mut random: Random) -> Vec<u8> {
    let count = if random.percent(50) { random.from(33, 64) } else { random.from(2, 64) } as usize;
    let rich = random.one(&[0, 1_000, 100_000, 2_000_000]);
    let lend = random.one(&[0, 500, 100_000]);
    let credit: Vec<i128> = (0..count).map(|_| random.from(0, lend)).collect();
    let balances: Vec<i128> = credit.iter().map(|&line| random.from(-line, rich)).collect();
    let most = random.one(&[100, 10_000, 1_000_000]);
    let fill = random.one(&[300, 1_000, 2_048, 2_060]);
    let rounds = random.from(1, 5);
    let mut draft = Draft::open(random, &balances, &credit);
    for _ in 0..rounds {
        let many = draft.lines + 2 * fill;
        while draft.house.waiting() < fill.min(MOST_WAITING) && draft.lines < many {
            let amount = draft.random.from(1, most);
            match draft.random.below(20) {
                0 => draft.cycle(amount),
                1 => {
                    let member = draft.member();
                    draft.release(member);
                }
                _ => draft.pay_any(amount),
            }
        }
        for _ in 0..draft.random.from(0, 12) {
            let (member, amount) = (draft.member(), draft.random.from(1, most));
            match draft.random.below(5) {
                0 => draft.deposit(member, amount),
                1 => draft.group_any(),
                2 => draft.refused(),
                3 => draft.release(member),
                _ => draft.pay_any(amount),
            }
        }
        draft.resolve();
    }
    draft.end()
}

/// About a million lines with few payments waiting: a line or so more or less than the most, with and without `end`.
fn million(mut random: Random, lines: Option<usize>) -> Vec<u8> {
    let most = lines.unwrap_or(1_000_000);
    let count = random.one(&[2, 5, 20, 64]) as usize;
    let credit: Vec<i128> = (0..count).map(|_| random.from(0, 1_000)).collect();
    let balances: Vec<i128> = credit.iter().map(|&line| random.from(-line, 100_000)).collect();
    let last = random.below(6);
    let rare = random.one(&[50, 400]);
    let mut draft = Draft::open(random, &balances, &credit);
    let stop = if last == 5 { most - 1_000 } else { most - 1 };
    while draft.lines < stop {
        let (member, amount) = (draft.member(), draft.random.from(1, 5_000));
        match draft.random.from(0, 99) {
            0..=49 => draft.pay_any(amount),
            50..=89 => draft.release(member),
            90..=95 => draft.deposit(member, amount),
            96..=97 => draft.refused(),
            98 => draft.line("release\t01"),
            _ => draft.resolve(),
        }
        if draft.house.waiting() > rare && draft.lines < stop {
            draft.resolve();
        }
    }
    match last {
        // The last allowed line is `end`, or is not; or `end` comes one too late.
        1 => draft.line("resolve"),
        2 => ["resolve", "end"].iter().for_each(|l| draft.line(l)),
        3 => {
            draft.line("resolve");
            draft.text.push(b'e');
        }
        4 => ["resolve", "release\t1", "release\t2", "end"].iter().for_each(|l| draft.line(l)),
        _ => draft.line("end"),
    }
    draft.text
}

/// A house where about 2,000 payments wait most of the time.
fn full(mut random: Random, lines: usize) -> Vec<u8> {
    let count = random.one(&[2, 8, 40, 64]) as usize;
    let credit: Vec<i128> = (0..count).map(|_| random.from(0, 2_000)).collect();
    let balances: Vec<i128> = credit.iter().map(|&line| random.from(-line, 2_000)).collect();
    let half = (count as i128 + 1) / 2;
    let mut draft = Draft::open(random, &balances, &credit);
    while draft.lines < lines {
        let (member, amount) = (draft.member(), draft.random.from(1, 3_000));
        let few = draft.house.waiting() < 2_000;
        match draft.random.from(0, 99) {
            0 => draft.group_any(),
            1 => draft.refused(),
            2..=4 => draft.resolve(),
            5..=9 => draft.deposit(member, amount),
            10..=24 if !few => draft.release(member),
            // Now and then a member of the first half owes one of the second a sum that nothing covers for long.
            98.. if few => {
                let (payer, payee) = (draft.random.from(1, half), draft.random.from(half + 1, 2 * half));
                draft.pay(payer, payee.min(count as i128), 200_000);
            }
            _ if few => draft.pay_any(amount),
            x if x < 50 => draft.pay_any(amount),
            _ => draft.release(member),
        }
    }
    draft.resolve();
    draft.end()
}
