//! The calls over lent bytes: layout, codes in their order, and what is not touched.
#![deny(warnings)]

use reading::bytetest::holds_state;
use reading::calls::{deposit, group, open, release, resolve, submit};
use reading::tables::{decode, LEAST};

/// A list of signed numbers, 8 bytes each.
fn list(values: &[i64]) -> Vec<u8> {
    values.iter().flat_map(|v| v.to_le_bytes()).collect()
}

/// The parts of an answer.
fn parts(answer: &[u8]) -> Vec<i64> {
    answer.chunks_exact(8).map(|c| i64::from_le_bytes(c.try_into().unwrap())).collect()
}

/// Tables of an open house, with three bytes past the least length.
fn opened(balances: &[i64], lines: &[i64]) -> Vec<u8> {
    let mut tables = vec![0xee; LEAST + 3];
    let mut answer = [0; 8];
    assert_eq!(open(&mut tables, balances.len() as u64, &list(balances), &list(lines), &mut answer), 0);
    assert_eq!(parts(&answer), [balances.iter().sum::<i64>()]);
    assert_eq!(tables[LEAST..], [0xee; 3]);
    assert!(holds_state(&tables));
    tables
}

#[test]
fn layout() {
    let mut tables = opened(&[10, -3], &[0, 7]);
    assert_eq!(submit(&mut tables, 1, 1, 2, 30), 0);
    assert_eq!(submit(&mut tables, 2, 1, 1, 20), 0);
    assert_eq!(submit(&mut tables, 1, 2, 2, 5), 0);
    let mut expected = vec![0; LEAST];
    expected[0..8].copy_from_slice(&10i64.to_le_bytes());
    expected[8..16].copy_from_slice(&(-3i64).to_le_bytes());
    expected[520..528].copy_from_slice(&7i64.to_le_bytes());
    expected[4_096] = 2;
    expected[4_100] = 3;
    expected[4_096 + 256] = 2;
    expected[4_096 + 260] = 1;
    for (place, word) in [30u64 * 65_536 + 1, 20 * 65_536 + 64, 5 * 65_536 + 1].iter().enumerate() {
        expected[6_144 + 8 * place..6_152 + 8 * place].copy_from_slice(&word.to_le_bytes());
    }
    expected.extend([0xee; 3]);
    assert!(tables == expected);
    let mut answer = [0x77; 50];
    let mut counts = [0x77; 4];
    assert_eq!(resolve(&mut tables, &mut counts, &mut answer), 0);
    assert_eq!(counts, [1, 0, 1, 0]);
    assert_eq!(parts(&answer), [2, 2, 50, 1, 1, 1]);
    assert_eq!(answer[48..], [0x77; 2]);
    expected[0..8].copy_from_slice(&0i64.to_le_bytes());
    expected[8..16].copy_from_slice(&7i64.to_le_bytes());
    expected[4_100] = 1;
    expected[4_096 + 512] = 1;
    expected[4_096 + 516] = 1;
    expected[6_144..6_152].copy_from_slice(&(5u64 * 65_536 + 1).to_le_bytes());
    expected[6_152..6_168].fill(0);
    assert!(tables == expected);
}

#[test]
fn code_1_comes_first() {
    let mut tables = opened(&[10, 0], &[0, 0]);
    let before = tables.clone();
    assert_eq!(open(&mut tables[..LEAST - 1], 0, &[], &[], &mut [0; 8]), 1);
    assert_eq!(open(&mut tables, 0, &[], &[], &mut [0; 7]), 1);
    assert_eq!(deposit(&mut tables, 0, 0, &mut [0; 7]), 1);
    assert_eq!(deposit(&mut tables[..LEAST - 1], 0, 0, &mut [0; 8]), 1);
    assert_eq!(submit(&mut tables[..LEAST - 1], 0, 0, 0, 0), 1);
    assert_eq!(release(&mut tables, 0, &mut [0; 15]), 1);
    assert_eq!(group(&mut tables, &[], &mut [0; 15]), 1);
    assert_eq!(resolve(&mut tables, &mut [], &mut [0; 47]), 1);
    assert_eq!(group(&mut tables, &[0; 3], &mut [0; 16]), 10);
    assert_eq!(resolve(&mut tables, &mut [0; 5], &mut [0; 48]), 10);
    assert!(tables == before);
}

#[test]
fn openings() {
    let mut tables = vec![0xee; LEAST];
    let before = tables.clone();
    let most = 1_000_000_000_000;
    let mut bad = |count: u64, balances: &[i64], lines: &[i64]| {
        let mut answer = [3; 8];
        assert_eq!(open(&mut tables, count, &list(balances), &list(lines), &mut answer), 11);
        assert!(tables == before && answer == [3; 8]);
    };
    bad(0, &[], &[]);
    bad(65, &[0; 65], &[0; 65]);
    bad(u64::MAX, &[], &[]);
    bad(2_305_843_009_213_693_953, &[0], &[0]);
    bad(2, &[0], &[0, 0]);
    bad(2, &[0, 0], &[0, 0, 0]);
    bad(1, &[0], &[-1]);
    bad(1, &[0], &[most + 1]);
    bad(1, &[-1], &[0]);
    bad(1, &[i64::MIN], &[most]);
    bad(2, &[2_000_000_000_000_001, -most], &[0, most]);
    bad(2, &[1_000_000_000_000_001, 0], &[0, most]);
    bad(64, &[i64::MAX; 64], &[0; 64]);
    opened(&[1_000_000_000_000_001, -1], &[0, most]);
    let mut lines = [most; 64];
    lines[0] = 0;
    let mut balances = [-most; 64];
    balances[0] = 1_063_000_000_000_000;
    opened(&balances, &lines);
}

#[test]
fn the_last_number() {
    let mut tables = opened(&[10, 0], &[0, 0]);
    // Member 1 has settled all but the last of its numbers.
    tables[4_352..4_356].copy_from_slice(&4_294_967_294u32.to_le_bytes());
    tables[4_608..4_612].copy_from_slice(&4_294_967_294u32.to_le_bytes());
    assert_eq!(submit(&mut tables, 1, 4_294_967_294, 2, 5), 5);
    assert_eq!(submit(&mut tables, 1, 4_294_967_295, 2, 5), 0);
    for number in [0, 1, 4_294_967_295, 4_294_967_296, u64::MAX] {
        assert_eq!(submit(&mut tables, 1, number, 2, 5), 5);
    }
    let mut answer = [0; 16];
    assert_eq!(release(&mut tables, 1, &mut answer), 0);
    assert_eq!(parts(&answer), [4_294_967_295, 5]);
    assert_eq!(submit(&mut tables, 1, 4_294_967_296, 2, 5), 5);
    assert!(decode(&tables).is_some());
}

#[test]
fn room_and_money() {
    let mut tables = opened(&[999_999_999_999_990, 0], &[0, 0]);
    let mut answer = [0; 16];
    assert_eq!(deposit(&mut tables, 2, 11, &mut answer), 7);
    assert_eq!(deposit(&mut tables, 2, 10, &mut answer), 0);
    assert_eq!(deposit(&mut tables, 2, 1, &mut answer), 7);
    for number in 1..=2_048 {
        assert_eq!(submit(&mut tables, 1, number, 2, 1_000_000_000_000), 0);
    }
    assert_eq!(submit(&mut tables, 2, 1, 1, 1), 6);
    assert_eq!(submit(&mut tables, 2, 2, 1, 1), 5);
    assert_eq!(release(&mut tables, 1, &mut answer), 0);
    assert_eq!(parts(&answer), [1, 1_000_000_000_000]);
    assert_eq!(submit(&mut tables, 2, 1, 1, 1), 0);
    // 2,047 x 10^12 are more than 10^15 - 10^12: the resolution is partial.
    let (mut answer, mut counts) = ([0; 48], [0; 4]);
    assert_eq!(resolve(&mut tables, &mut counts, &mut answer), 0);
    assert_eq!(counts, [0xe6, 3, 1, 0]);
    assert_eq!(parts(&answer), [2, 999, 998_000_000_000_001, 1, 1, 1]);
}

#[test]
fn member_64() {
    let mut tables = opened(&[0; 64], &[0; 64]);
    assert_eq!(submit(&mut tables, 64, 1, 63, 1), 0);
    let (mut answer, mut counts) = ([0; 48], [1; 128]);
    assert_eq!(resolve(&mut tables, &mut counts, &mut answer), 0);
    assert_eq!(counts, [0; 128]);
    assert_eq!(parts(&answer), [3, 0, 0, i64::MIN, 1, 64]);
}

/// Tables of two members with these eight or four byte numbers written over.
fn changed(wide: &[(usize, i64)], narrow: &[(usize, u32)]) -> Vec<u8> {
    let mut tables = opened(&[10, -5], &[0, 5]);
    assert_eq!(submit(&mut tables, 1, 1, 2, 30), 0);
    assert_eq!(submit(&mut tables, 2, 1, 1, 20), 0);
    for (at, value) in wide {
        tables[*at..at + 8].copy_from_slice(&value.to_le_bytes());
    }
    for (at, value) in narrow {
        tables[*at..at + 4].copy_from_slice(&value.to_le_bytes());
    }
    assert_eq!(holds_state(&tables), decode(&tables).is_some());
    tables
}

#[test]
fn states_at_their_edges() {
    let state = |wide: &[(usize, i64)], narrow: &[(usize, u32)]| decode(&changed(wide, narrow)).is_some();
    let most = 1_000_000_000_000;
    let (balance, line, count, waiting, last, settled) = ([0, 8], [512, 520], 4_096, 4_100, [4_352, 4_356], [4_608, 4_612]);
    let place = |i: usize| 6_144 + 8 * i;
    let word = |amount: i64, payer: i64, payee: i64| amount * 65_536 + (payer - 1) * 64 + payee - 1;
    assert!(state(&[], &[]));
    // Balances, lines and their sum.
    assert!(!state(&[(balance[1], -6)], &[]));
    assert!(state(&[(balance[1], -6), (line[1], 6)], &[]));
    assert!(state(&[(line[0], most)], &[]));
    assert!(!state(&[(line[0], most + 1)], &[]));
    assert!(!state(&[(line[0], -1)], &[]));
    assert!(!state(&[(line[0], -10)], &[]));
    assert!(state(&[(balance[0], 1_000 * most + 5)], &[]));
    assert!(!state(&[(balance[0], 1_000 * most + 6)], &[]));
    assert!(!state(&[(balance[0], i64::MAX), (balance[1], i64::MAX)], &[]));
    assert!(!state(&[(balance[0], i64::MIN), (line[0], i64::MIN)], &[]));
    // The member count.
    assert!(!state(&[], &[(count, 0)]));
    assert!(!state(&[], &[(count, 1)]));
    assert!(state(&[], &[(count, 3)]));
    assert!(state(&[], &[(count, 64)]));
    assert!(!state(&[], &[(count, 65)]));
    // Words.
    assert!(state(&[(place(0), word(most, 1, 2))], &[]));
    assert!(!state(&[(place(0), word(most + 1, 1, 2))], &[]));
    assert!(!state(&[(place(0), word(0, 1, 2))], &[]));
    assert!(!state(&[(place(0), word(30, 1, 1))], &[]));
    assert!(!state(&[(place(0), word(30, 1, 3))], &[]));
    assert!(state(&[(place(0), word(30, 1, 3))], &[(count, 3)]));
    assert!(!state(&[(place(0), word(30, 2, 1))], &[]));
    assert!(!state(&[(place(0), word(30, 3, 1))], &[]));
    for flag in [4_096, 8_192, 16_384, 32_768] {
        assert!(!state(&[(place(0), word(30, 1, 2) + flag)], &[]));
    }
    assert!(state(&[(place(0), word(20, 2, 1)), (place(1), word(30, 1, 2))], &[]));
    // Gaps and counters.
    assert!(!state(&[(place(1), 0)], &[]));
    assert!(state(&[(place(1), 0)], &[(waiting, 1), (settled[1], 1)]));
    assert!(!state(&[(place(0), 0)], &[(waiting, 1), (settled[0], 1)]));
    assert!(!state(&[(place(2_047), word(30, 1, 2))], &[(waiting, 3), (last[0], 2)]));
    assert!(!state(&[], &[(waiting, 3)]));
    assert!(!state(&[], &[(last[0], 2)]));
    assert!(state(&[], &[(last[0], 4_294_967_295), (settled[0], 4_294_967_294)]));
    assert!(!state(&[], &[(last[0], 0), (settled[0], 4_294_967_295)]));
    // What is unused.
    for at in [16, 504, 528, 1_016, 1_024, 4_088] {
        assert!(!state(&[(at, 1)], &[]), "{at}");
    }
    for at in [4_104, 4_348, 4_360, 4_604, 4_616, 4_860, 4_864, 6_140] {
        assert!(!state(&[], &[(at, 1)]), "{at}");
    }
    assert!(!state(&[], &[(last[1] + 4, 1), (settled[1] + 4, 1)]));
}
