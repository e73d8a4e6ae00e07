//! Checks of this reading against itself, on houses and days made up from a seed.

use crate::bytetest;
use crate::house::House;
use crate::largest::{by_building_up, by_prefix_search, by_take_off, by_trying_all, slowly};
use crate::nights;
use crate::random::Random;
use crate::sheet::sheet_of;

/// What the checks have seen.
#[derive(Default)]
pub struct Seen {
    pub verdicts: [u64; 4],
    pub days: u64,
    pub calls: u64,
    pub codes: [u64; 13],
    pub states: u64,
    pub no_states: u64,
    pub large: u64,
    pub nights: u64,
}

/// Runs all checks for so many rounds and tells what was seen, or what went wrong.
pub fn run(seed: u64, rounds: u64) -> Result<String, String> {
    let mut random = Random::new(seed);
    let mut seen = Seen::default();
    for round in 0..rounds {
        let wrong = |what: String| format!("seed {seed}, round {round}: {what}");
        let house = small_house(&mut random);
        all_ways(&house, &mut seen).map_err(wrong)?;
        let (first, second) = (random.draw(), random.draw());
        one_rule(&mut random, first, second, &mut seen).map_err(wrong)?;
        if round % 4 == 0 {
            let house = small_house(&mut random);
            bytetest::a_day(&mut random, house, &mut seen).map_err(wrong)?;
        }
        if round % 200 == 0 {
            large_ways(&large_house(&mut random), &mut seen).map_err(wrong)?;
        }
        if round % 20 == 0 {
            fast_and_slow(&mut random, &mut seen).map_err(wrong)?;
        }
    }
    Ok(format!(
        "{rounds} small houses, four ways each, verdicts {:?}; {} days against the rule; {} calls in bytes, codes 0 to 12 {:?}; \
         {} tables with a state, {} without; {} large houses, three ways; {} nights fast and slow",
        seen.verdicts, seen.days, seen.calls, seen.codes, seen.states, seen.no_states, seen.large, seen.nights
    ))
}

/// Something that must hold, or else what went wrong.
pub fn must(holds: bool, what: impl Fn() -> String) -> Result<(), String> {
    if holds {
        Ok(())
    } else {
        Err(what())
    }
}

/// A house of 1 to 6 members with up to 9 waiting payments of small amounts.
pub fn small_house(random: &mut Random) -> House {
    let count = random.from(1, 6) as usize;
    let (rich, lend, most) = (random.one(&[0, 1, 6]), random.one(&[0, 1, 4]), random.one(&[1, 3, 8]));
    let lines: Vec<i128> = (0..count).map(|_| random.from(0, lend)).collect();
    let balances: Vec<i128> = lines.iter().map(|&line| random.from(-line, rich)).collect();
    let mut house = House::open(count as i128, &balances, &lines).expect("a good opening");
    if count > 1 {
        for _ in 0..random.from(0, 9) {
            pay_any(random, &mut house, most);
        }
    }
    house
}

/// A house of up to 64 members with up to 2,048 waiting payments.
fn large_house(random: &mut Random) -> House {
    let count = random.from(2, 64) as usize;
    let (rich, most) = (random.one(&[0, 1_000, 1_000_000_000_000]), random.one(&[10, 10_000, 1_000_000_000_000]));
    let lines: Vec<i128> = (0..count).map(|_| random.from(0, rich)).collect();
    let balances: Vec<i128> = lines.iter().map(|&line| random.from(-line, rich)).collect();
    let mut house = House::open(count as i128, &balances, &lines).expect("a good opening");
    for _ in 0..random.one(&[100, 1_000, 2_048]) {
        pay_any(random, &mut house, most);
    }
    house
}

/// Submits a payment between two members, with the right number, and gives it back.
fn pay_any(random: &mut Random, house: &mut House, most: i128) -> (i128, i128, i128) {
    let count = house.members.len() as i128;
    let payer = random.from(1, count);
    let payee = (payer - 1 + random.from(1, count - 1)) % count + 1;
    let amount = random.from(1, most);
    house.submit(payer, house.members[payer as usize - 1].last + 1, payee, amount).expect("a good payment");
    (payer, payee, amount)
}

/// The join of all allowed sets, each judged word for word by the definition, and whether one but the empty set is allowed.
fn by_definition(house: &House) -> (Vec<usize>, bool) {
    let mut counts = vec![0; house.members.len()];
    let mut join = counts.clone();
    let mut any = false;
    loop {
        if house.allows(&counts) {
            any = any || counts.iter().any(|&c| c > 0);
            join.iter_mut().zip(&counts).for_each(|(most, &c)| *most = c.max(*most));
        }
        // The next count vector: one more for the first member that has one more; the members before it begin again.
        match (0..counts.len()).find(|&m| counts[m] < house.members[m].queue.len()) {
            None => return (join, any),
            Some(m) => {
                counts[m] += 1;
                counts[..m].fill(0);
            }
        }
    }
}

/// All ways give the same set; it is allowed; and the verdict says what the definition says.
fn all_ways(house: &House, seen: &mut Seen) -> Result<(), String> {
    let tried = by_trying_all(house).ok_or("a small house has too many sets")?;
    let (defined, any) = by_definition(house);
    must(house.allows(&tried), || format!("the join is not allowed: {tried:?} {house:?}"))?;
    must(tried == defined, || format!("tried {tried:?}, defined {defined:?}: {house:?}"))?;
    let (search, taken) = (by_prefix_search(house), by_take_off(house));
    must(tried == search, || format!("tried {tried:?}, searched {search:?}: {house:?}"))?;
    must(tried == taken, || format!("tried {tried:?}, taken off {taken:?}: {house:?}"))?;
    let built = by_building_up(house);
    must(tried == built, || format!("tried {tried:?}, built up {built:?}: {house:?}"))?;
    let (waited, money) = (house.waiting(), house.money());
    let mut after = house.clone();
    let resolved = after.resolve(by_take_off);
    let settled = resolved.booked.payments;
    let verdict = match resolved.verdict {
        0 => waited == 0,
        1 => waited > 0 && after.waiting() == 0,
        2 => any && settled > 0 && after.waiting() > 0,
        _ => waited > 0 && !any && settled == 0,
    };
    must(verdict, || format!("verdict {resolved:?}: {house:?}"))?;
    must(after.waiting() + settled == waited && after.money() == money, || format!("lost: {house:?}"))?;
    seen.verdicts[resolved.verdict as usize] += 1;
    Ok(())
}

/// On a large house the three ways that do not try all sets give the same allowed set.
fn large_ways(house: &House, seen: &mut Seen) -> Result<(), String> {
    let (search, taken) = (by_prefix_search(house), by_take_off(house));
    must(search == taken, || format!("searched {search:?}, taken off {taken:?}: {house:?}"))?;
    let built = by_building_up(house);
    must(built == taken, || format!("built up {built:?}, taken off {taken:?}: {house:?}"))?;
    must(house.allows(&taken), || format!("not allowed {taken:?}: {house:?}"))?;
    seen.large += 1;
    Ok(())
}

/// Condition 3: two days of the same deposits and payments, with releases, groups and resolutions anywhere, both ended by a resolution,
/// end as the rule says for all of it at once.
fn one_rule(random: &mut Random, first: u64, second: u64, seen: &mut Seen) -> Result<(), String> {
    let empty = small_house(&mut Random::new(first));
    let balances: Vec<i128> = empty.members.iter().map(|m| m.balance).collect();
    let lines: Vec<i128> = empty.members.iter().map(|m| m.line).collect();
    let count = balances.len() as i128;
    if count == 1 {
        return Ok(());
    }
    let opened = House::open(count, &balances, &lines).expect("a good opening");
    let mut at_once = opened.clone();
    let most = random.one(&[1, 3, 8]);
    let pays: Vec<_> = (0..random.from(1, 9)).map(|_| pay_any(random, &mut at_once, most)).collect();
    let deposits: Vec<(i128, i128)> = (0..random.from(0, 3)).map(|_| (random.from(1, count), random.from(1, 4))).collect();
    for &(member, amount) in &deposits {
        at_once.deposit(member, amount).expect("a good deposit");
    }
    at_once.resolve(slowly);
    for seed in [first, second] {
        let mut random = Random::new(seed);
        let mut house = opened.clone();
        let (mut pays, mut deposits) = (pays.clone(), deposits.clone());
        while !pays.is_empty() || !deposits.is_empty() {
            match random.below(8) {
                0 => drop(house.release(random.from(1, count))),
                1 => drop(house.resolve(by_take_off)),
                2 => {
                    let counts: Vec<i128> = house.members.iter().map(|m| random.from(0, m.queue.len() as i128)).collect();
                    drop(house.group(&counts));
                }
                3 | 4 if !deposits.is_empty() => {
                    let (member, amount) = deposits.swap_remove(random.below(deposits.len()));
                    house.deposit(member, amount).expect("a good deposit");
                }
                _ if !pays.is_empty() => {
                    // Any payer's first payment of those left: the order within a payer is kept, between payers it is not.
                    let payer = pays[random.below(pays.len())].0;
                    let at = pays.iter().position(|p| p.0 == payer).expect("a payment of this payer");
                    let (_, payee, amount) = pays.remove(at);
                    let number = house.members[payer as usize - 1].last + 1;
                    house.submit(payer, number, payee, amount).expect("a good payment");
                }
                _ => {}
            }
        }
        house.resolve(by_take_off);
        for (one, other) in house.members.iter().zip(&at_once.members) {
            let queue = |m: &crate::house::Member| m.queue.iter().map(|p| (p.payee, p.amount)).collect::<Vec<_>>();
            must(one.balance == other.balance && one.last == other.last && queue(one) == queue(other), || {
                format!("a day ends otherwise than the rule: {house:?} {at_once:?}")
            })?;
        }
        seen.days += 1;
    }
    Ok(())
}

/// A night gives the same sheet with the fast and with the slow resolution, and no line of it is longer than 80 bytes.
fn fast_and_slow(random: &mut Random, seen: &mut Seen) -> Result<(), String> {
    let (seed, kind) = (random.draw() >> 16, random.one(&["small", "small", "limits", "damaged", "openings"]));
    let file = nights::night(seed, kind, None).ok_or("an unknown kind")?;
    let (fast, slow) = (sheet_of(&file, by_take_off), sheet_of(&file, slowly));
    must(fast == slow, || format!("night {seed} {kind}: fast and slow differ"))?;
    must(fast.split(|&b| b == b'\n').all(|line| line.len() < 80), || format!("night {seed} {kind}: a long line"))?;
    seen.nights += 1;
    Ok(())
}
