//! The situations of document 01: the example file, P1 to P10, and those that are only run.
#![deny(warnings)]

use reading::house::{Booked, House, Released, Resolved};
use reading::largest::{by_prefix_search, by_take_off, slowly};
use reading::sheet::sheet_of;

/// A house with these balances and lines and these payments (payer, payee, amount) waiting.
fn house(balances: &[i128], lines: &[i128], pays: &[(i128, i128, i128)]) -> House {
    let mut house = House::open(balances.len() as i128, balances, lines).unwrap();
    for &(payer, payee, amount) in pays {
        pay(&mut house, payer, payee, amount).unwrap();
    }
    house
}

/// A payment with the payer's next number.
fn pay(house: &mut House, payer: i128, payee: i128, amount: i128) -> Result<(), u32> {
    house.submit(payer, house.members[payer as usize - 1].last + 1, payee, amount)
}

/// The balances of a house.
fn balances(house: &House) -> Vec<i128> {
    house.members.iter().map(|m| m.balance).collect()
}

/// Resolves in each way; all must agree.
fn resolve(house: &mut House) -> Resolved {
    let (mut second, mut third) = (house.clone(), house.clone());
    let resolved = house.resolve(by_take_off);
    assert_eq!(resolved, second.resolve(slowly));
    assert_eq!(resolved, third.resolve(by_prefix_search));
    assert_eq!(balances(house), balances(&second));
    resolved
}

/// A situation that is resolved at once: its verdict and the balances after it.
fn ends(start: &[i128], lines: &[i128], pays: &[(i128, i128, i128)], verdict: u32, end: &[i128]) {
    let mut house = house(start, lines, pays);
    assert_eq!(resolve(&mut house).verdict, verdict);
    assert_eq!(balances(&house), end);
}

const FILE: &str = "house 1 2\nmember 1 10 0\nmember 2 0 0\npay 1 1 2 30\npay 2 1 1 20\npay 1 2 2 5\nrelease 2\nresolve\nend\n";
const SHEET: &str = "3 open 2 10\n4 queued 1 1\n5 queued 2 1\n6 queued 1 2\n7 refused 9\n8 resolve 2 2 50 1 1\n\
                     balance 1 0 1\nbalance 2 10 0\nmoney 10\n";

#[test]
fn the_example_file() {
    for finder in [by_take_off, slowly] {
        let sheet = sheet_of(FILE.replace(' ', "\t").as_bytes(), finder);
        assert_eq!(String::from_utf8(sheet).unwrap(), SHEET.replace(' ', "\t"));
    }
}

#[test]
fn p1_p2_p3() {
    let ring = |second| [(1, 2, 100), (2, 3, second), (3, 1, 100)];
    ends(&[0, 0, 0], &[0, 0, 0], &ring(100), 1, &[0, 0, 0]);
    ends(&[0, 0, 0], &[0, 0, 0], &ring(101), 3, &[0, 0, 0]);
    ends(&[0, 0, 0], &[0, 1, 0], &ring(101), 1, &[0, -1, 1]);
}

#[test]
fn p4() {
    ends(&[50, 0], &[0, 0], &[(1, 2, 50)], 1, &[0, 50]);
}

#[test]
fn p5() {
    let mut house = house(&[10, 0], &[0, 0], &[(1, 2, 30), (2, 1, 20), (1, 2, 5)]);
    let resolved = resolve(&mut house);
    assert_eq!((resolved.verdict, resolved.counts.clone()), (2, vec![1, 1]));
    assert_eq!((resolved.set(), resolved.waiting.len(), resolved.lowest()), (1, 1, 1));
    assert_eq!(resolved.booked, Booked { payments: 2, sum: 50 });
}

#[test]
fn p6() {
    ends(&[10, 0], &[0, 0], &[(1, 2, 30), (1, 2, 5)], 3, &[10, 0]);
}

#[test]
fn p7() {
    let resolved = resolve(&mut house(&[3, 4], &[0, 0], &[]));
    assert_eq!((resolved.verdict, resolved.counts.clone()), (0, vec![0, 0]));
    assert_eq!((resolved.set(), resolved.waiting.len(), resolved.lowest()), (0, 0, 0));
}

#[test]
fn p8() {
    let pays = [(1, 2, 1), (2, 3, 2), (3, 4, 1), (3, 5, 1), (5, 2, 1)];
    let mut house = house(&[1, 0, 0, 0, 0], &[0; 5], &pays);
    assert_eq!(house.release(1), Ok(Released { number: 1, amount: 1 }));
    assert_eq!(house.release(2), Err(9));
    assert_eq!(resolve(&mut house).verdict, 1);
    assert_eq!(balances(&house), [0, 0, 0, 1, 0]);
}

#[test]
fn p9() {
    ends(&[0, 0], &[0, 0], &[(1, 2, 2_147_483_648), (1, 2, 2_147_483_648)], 3, &[0, 0]);
}

#[test]
fn p10() {
    let mut house = house(&[10, 0], &[0, 0], &[(1, 2, 30), (2, 1, 20)]);
    assert_eq!(resolve(&mut house).verdict, 1);
    pay(&mut house, 1, 2, 5).unwrap();
    assert_eq!(resolve(&mut house).verdict, 3);
    assert_eq!(balances(&house), [0, 10]);
    assert_eq!(house.members[0].queue.len(), 1);
    assert_eq!(house.members[0].queue[0].amount, 5);
}

#[test]
fn run_only_amounts() {
    let mut house = house(&[0, 0, 0], &[0, 0, 0], &[]);
    assert_eq!(pay(&mut house, 1, 2, 1_000_000_000_000), Ok(()));
    assert_eq!(pay(&mut house, 1, 2, 1_000_000_000_001), Err(4));
    assert_eq!(pay(&mut house, 1, 2, 0), Err(4));
    assert_eq!(house.submit(9, 1, 9, 5), Err(2));
    assert_eq!(house.submit(1, 1, 1, 0), Err(3));
}

#[test]
fn run_only_room() {
    let mut house = house(&[5, 0], &[0, 0], &[]);
    for _ in 0..2_048 {
        assert_eq!(pay(&mut house, 1, 2, 5), Ok(()));
    }
    assert_eq!(house.submit(1, 2_049, 2, 5), Err(6));
    assert_eq!(house.release(1), Ok(Released { number: 1, amount: 5 }));
    assert_eq!(house.submit(1, 2_049, 2, 5), Ok(()));
    assert_eq!(house.submit(2, 1, 1, 5), Err(6));
}

#[test]
fn groups() {
    let mut house = house(&[0, 0, 0], &[0, 0, 0], &[(1, 2, 100), (2, 3, 100), (3, 1, 100)]);
    assert_eq!(house.group(&[0, 0, 0]), Ok(Booked { payments: 0, sum: 0 }));
    assert_eq!(house.group(&[1, 1]), Err(10));
    assert_eq!(house.group(&[2, 1, 1]), Err(10));
    assert_eq!(house.group(&[1, 65_536, 1]), Err(10));
    assert_eq!(house.group(&[1, 1, 0]), Err(9));
    assert_eq!(house.group(&[1, 1, 1]), Ok(Booked { payments: 3, sum: 300 }));
}
