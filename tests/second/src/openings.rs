//! Openings that are bad in one of many ways.

use crate::house::{MOST_AMOUNT, MOST_MONEY};
use crate::limits::EDGES;
use crate::random::Random;

/// An opening that is bad in one of many ways, or good to its last cent, and a short night after it.
pub fn openings(mut random: Random) -> Vec<u8> {
    let count = random.one(&[1, 2, 3, 3, 7, 63, 64]) as usize;
    let mut rows: Vec<String> = vec![format!("house\t1\t{count}")];
    for i in 1..=count {
        let line = random.from(0, 9);
        rows.push(format!("member\t{i}\t{}\t{line}", random.from(-line, 20)));
    }
    let at = 1 + random.below(count);
    let before = rows.len();
    match random.below(30) {
        0 => return random.one(&["", "\n", "\n\n", "end", "end\n", "house", "house\t1", "house\t1\t2", "x"]).as_bytes().to_vec(),
        1 => rows[0] = format!("house\t1\t{}", random.one(&["0", "65", "64", "66", "256", "65537", "4294967297", "999999999999999999"])),
        2 => rows[0] = format!("house\t{}\t{count}", random.one(&EDGES)),
        3 => rows[0] = format!("house\t{}\t{}", random.one(&["0", "2", "10", "01", "1", ""]), random.one(&EDGES)),
        4 => {
            rows[0] = random
                .one(&[
                    "house",
                    "house\t1",
                    "house\t1\t",
                    "house\t1\t2\t",
                    "house\t1\t2\t0",
                    "House\t1\t2",
                    "house 1 2",
                    "\thouse\t1\t2",
                    "house\t\t2",
                ])
                .to_string()
        }
        5 => drop(rows.remove(0)),
        6 => drop(rows.remove(at)),
        7 => rows.insert(at, rows[at].clone()),
        8 => rows.insert(0, random.one(&["", "end", "resolve", "pay\t1\t1\t2\t1", "member\t1\t0\t0"]).to_string()),
        9 => rows.insert(
            at,
            random.one(&["", "end", "resolve", "pay\t1\t1\t2\t1", "house\t1\t2", "deposit\t1\t1", "group\t0", "release\t1"]).to_string(),
        ),
        10 => {
            let other = 1 + random.below(count);
            rows.swap(at, other);
        }
        11 => rows[at] = format!("member\t{}\t0\t0", random.one(&EDGES)),
        12 => rows[at] = format!("member\t{at}\t{}\t0", random.one(&EDGES)),
        13 => rows[at] = format!("member\t{at}\t0\t{}", random.one(&EDGES)),
        14 => rows[at] = format!("member\t{at}\t-{}\t1000000000000", random.one(&EDGES)),
        15 => rows[at] = format!("member\t{at}\t-{}\t{}", random.one(&EDGES), random.one(&EDGES)),
        16 => {
            rows[at] = random
                .one(&[
                    "member",
                    "member\t1",
                    "member\t1\t0",
                    "member\t1\t0\t",
                    "member\t1\t0\t0\t",
                    "member\t1\t0\t0\t0",
                    "Member\t1\t0\t0",
                    "member 1 0 0",
                ])
                .to_string()
        }
        17 => rows[at] = format!("member\t{at}\t{}\t0", "0".repeat(random.one(&[300, 388, 389, 500]))),
        18 => rows[0] = format!("house\t1\t{}", count + 1),
        19 if count > 1 => rows[0] = format!("house\t1\t{}", count - 1),
        20 => rows.truncate(at),
        21 => {
            // The sum at its limit and past it, with one balance above 10^15 where others stand below zero.
            for (i, row) in rows.iter_mut().enumerate().skip(1) {
                *row = format!("member\t{i}\t-1000000000000\t1000000000000");
            }
            let balance = MOST_MONEY + MOST_AMOUNT * (count as i128 - 1) + random.one(&[0, 0, 1]);
            rows[at] = format!("member\t{at}\t{balance}\t0");
        }
        22 => {
            rows[at] = format!(
                "member\t{at}\t{}\t0",
                random.one(&["1000000000000000", "1000000000000001", "2000000000000000", "2000000000000001"])
            )
        }
        23 => {
            // A bad balance, told at the last member line, and a bad line that comes before that.
            rows[at] = format!("member\t{at}\t-1\t0");
            let later = 1 + random.below(count);
            rows[later] += random.one(&["", "\t", "0", "x"]);
        }
        24 => rows[at] += random.one(&["\r", " ", "\t", "\0"]),
        25 => rows[at] = rows[at].replacen('\t', random.one(&[" ", "", "\t\t"]), 1),
        26 => rows[at] = format!("member\t{at}\t{}\t{}", random.one(&["-1", "-2", "0"]), random.one(&["0", "1", "2"])),
        _ => {}
    }
    rows.push("deposit\t1\t5".to_string());
    rows.push("pay\t1\t1\t2\t1".to_string());
    rows.push("resolve".to_string());
    rows.push("end".to_string());
    let mut text = rows.join("\n").into_bytes();
    match random.below(8) {
        // The input stops in the opening or just after it, at any byte or at an end of line.
        0 => {
            let whole: usize = rows[..before.min(rows.len())].iter().map(|r| r.len() + 1).sum();
            text.truncate(random.below(whole + 2));
        }
        1 => {
            let kept = random.below(rows.len());
            text.truncate(rows[..kept].iter().map(|r| r.len() + 1).sum());
        }
        2 => {}
        _ => text.push(b'\n'),
    }
    text
}
