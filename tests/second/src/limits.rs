//! Nights at and around every limit.

use crate::dayfile::{self, Line};
use crate::draft::Draft;
use crate::house::{House, MOST_AMOUNT, MOST_MONEY};
use crate::largest;
use crate::random::Random;

/// Numbers at and around every limit, as they are written in a file.
#[rustfmt::skip]
pub const EDGES: [&str; 44] = [
    "0", "1", "2", "3", "63", "64", "65", "255", "256", "2047", "2048", "2049", "65535", "65536", "65537", "2147483647", "2147483648",
    "4294967294", "4294967295", "4294967296", "4294967297", "999999999999", "1000000000000", "1000000000001", "999999999999999",
    "1000000000000000", "1000000000000001", "1999999999999999", "2000000000000000", "2000000000000001", "99999999999999999",
    "100000000000000000", "999999999999999999", "1000000000000000000", "9223372036854775807", "18446744073709551617", "00", "01", "-0",
    "-1", "+1", "", "-", "1 ",
];

/// A night at the limits of amounts, balances, lines, sums and numbers.
pub fn limits(mut random: Random) -> Vec<u8> {
    let count = random.one(&[1, 2, 2, 3, 3, 5, 64]) as usize;
    let mut credit: Vec<i128> = (0..count).map(|_| random.one(&[0, 0, 1, 999_999_999_999, MOST_AMOUNT])).collect();
    let mut balances: Vec<i128> = (0..count)
        .map(|i| {
            let line = credit[i];
            random.one(&[0, 1, -line, -line, 1 - line, MOST_AMOUNT, MOST_AMOUNT - 1])
        })
        .collect();
    // One member takes the sum to the most that it may be, or near it.
    if random.percent(70) {
        let others: i128 = balances[1..].iter().sum();
        let below = random.one(&[0, 0, 1, 2, MOST_AMOUNT - 1, MOST_AMOUNT, MOST_AMOUNT + 1, 5 * MOST_AMOUNT]);
        balances[0] = (MOST_MONEY - others - below).max(-credit[0]);
    }
    if random.percent(15) {
        return limits_of_opening(random, &mut balances, &mut credit);
    }
    let lines = random.from(10, 300) as usize;
    let locked = random.percent(30);
    let mut draft = Draft::open(random, &balances, &credit);
    while draft.lines < lines {
        let member = draft.member();
        let amount = draft.random.one(&[1, 1, 2, 2_147_483_648, 4_294_967_296, MOST_AMOUNT - 1, MOST_AMOUNT, MOST_AMOUNT]);
        match draft.random.from(0, 99) {
            0..=29 => draft.pay_any(amount),
            30..=37 => draft.cycle(amount.min(MOST_AMOUNT - 2)),
            38..=47 => draft.release(member),
            48..=51 => draft.group_any(),
            52..=59 => draft.deposit(member, amount),
            60..=64 => draft.refused(),
            65..=66 if !locked => draft.resolve(),
            67..=69 => edge_deposit(&mut draft),
            _ => edge_line(&mut draft),
        }
    }
    draft.resolve();
    draft.end()
}

/// A deposit that takes the sum of balances to its limit, or one cent past it.
fn edge_deposit(draft: &mut Draft) {
    let member = draft.member();
    let room = MOST_MONEY - draft.house.money();
    let amount = room + draft.random.one(&[-1, 0, 0, 1, 1]);
    draft.deposit(member, amount.clamp(0, MOST_AMOUNT + 1));
}

/// A line whose numbers are partly right and partly from the edges.
fn edge_line(draft: &mut Draft) {
    let payer = draft.member();
    let number = draft.house.members[payer as usize - 1].last + 1;
    let payee = payer % draft.count() + 1;
    let (kind, mut fields): (&str, Vec<i128>) = match draft.random.below(6) {
        0 => ("deposit", vec![payer, 1]),
        1 => ("release", vec![payer]),
        2 => ("group", vec![0; draft.count() as usize]),
        _ => ("pay", vec![payer, number, payee, 1]),
    };
    if draft.random.percent(3) {
        fields.push(1);
    }
    let mut words: Vec<String> = fields.iter().map(|f| f.to_string()).collect();
    for _ in 0..draft.random.one(&[1, 1, 1, 2, 3]) {
        let at = draft.random.below(words.len());
        words[at] = draft.random.one(&EDGES).to_string();
    }
    let line = format!("{kind}\t{}", words.join("\t"));
    follow(&mut draft.house, &line);
    draft.line(&line);
}

/// Does what a line says, so that the draft's house stays the one of its file.
fn follow(house: &mut House, line: &str) {
    match dayfile::line(line.as_bytes()) {
        Some(Line::Pay { payer, number, payee, amount }) => drop(house.submit(payer, number, payee, amount)),
        Some(Line::Deposit { member, amount }) => drop(house.deposit(member, amount)),
        Some(Line::Release { member }) => drop(house.release(member)),
        Some(Line::Group { counts }) => drop(house.group(&counts)),
        Some(Line::Resolve) => drop(house.resolve(largest::by_take_off)),
        _ => {}
    }
}

/// An opening one cent on either side of a limit, and a short night after it.
fn limits_of_opening(mut random: Random, balances: &mut [i128], credit: &mut [i128]) -> Vec<u8> {
    let at = random.below(balances.len());
    match random.below(6) {
        0 => credit[at] = random.one(&[MOST_AMOUNT + 1, MOST_AMOUNT, 999_999_999_999_999_999]),
        1 => balances[at] = -credit[at] - random.one(&[0, 1]),
        2 => balances[at] = 2 * MOST_MONEY + random.one(&[0, 1]),
        3 => balances[at] = random.one(&[999_999_999_999_999_999, -999_999_999_999_999_999]),
        _ => {
            let sum: i128 = balances.iter().sum();
            balances[at] += MOST_MONEY - sum + random.one(&[0, 1, 1]);
        }
    }
    let mut text = format!("house\t1\t{}\n", balances.len());
    for (i, (balance, line)) in balances.iter().zip(credit).enumerate() {
        text += &format!("member\t{}\t{balance}\t{line}\n", i + 1);
    }
    text += "deposit\t1\t1\npay\t1\t1\t2\t1\nresolve\nend\n";
    text.into_bytes()
}
