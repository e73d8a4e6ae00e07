//! The largest allowed set, found in four ways.

use crate::house::House;

/// Up to this many count vectors are tried one by one.
pub const MOST_TRIED: usize = 200_000;

/// How many count vectors there are: the product of (waits + 1) over the members, or nothing when it passes `MOST_TRIED`.
fn vectors(house: &House) -> Option<usize> {
    house.members.iter().try_fold(1usize, |product, member| {
        let product = product.checked_mul(member.queue.len() + 1)?;
        (product <= MOST_TRIED).then_some(product)
    })
}

/// Tries every count vector and joins the allowed ones (the greater count of each member). Nothing when there are too many.
pub fn by_trying_all(house: &House) -> Option<Vec<usize>> {
    vectors(house)?;
    let mut trial = Trial {
        house,
        counts: vec![0; house.members.len()],
        cover: house.members.iter().map(|m| m.balance + m.line).collect(),
        join: vec![0; house.members.len()],
    };
    trial.from(0);
    Some(trial.join)
}

/// The count vector on trial, each member's cover under it, and the join of the allowed ones so far.
struct Trial<'a> {
    house: &'a House,
    counts: Vec<usize>,
    cover: Vec<i128>,
    join: Vec<usize>,
}

impl Trial<'_> {
    /// Tries all counts of this member and the later ones, and leaves counts and cover as they were.
    fn from(&mut self, member: usize) {
        if member == self.counts.len() {
            if self.cover.iter().all(|&c| c >= 0) {
                for (most, &count) in self.join.iter_mut().zip(&self.counts) {
                    *most = count.max(*most);
                }
            }
            return;
        }
        let queue = &self.house.members[member].queue;
        self.from(member + 1);
        for payment in queue {
            self.counts[member] += 1;
            self.cover[member] -= payment.amount;
            self.cover[payment.payee] += payment.amount;
            self.from(member + 1);
        }
        for payment in queue {
            self.counts[member] -= 1;
            self.cover[member] += payment.amount;
            self.cover[payment.payee] -= payment.amount;
        }
    }
}

/// Asks each member in turn for the longest part of its queue that it can pay, if all the others settle what they are now thought to
/// settle, until nobody's answer changes. It begins with all payments. No allowed set is ever cut: what it settles of a member is
/// affordable with less coming in. And where nothing changes, the set is allowed.
pub fn by_prefix_search(house: &House) -> Vec<usize> {
    let members = &house.members;
    // sums[m][k]: the first k payments of m together.
    let sums: Vec<Vec<i128>> = members
        .iter()
        .map(|m| {
            let mut total = 0;
            let mut sums = vec![0];
            sums.extend(m.queue.iter().map(|p| {
                total += p.amount;
                total
            }));
            sums
        })
        .collect();
    let mut counts: Vec<usize> = members.iter().map(|m| m.queue.len()).collect();
    let mut coming: Vec<i128> = vec![0; members.len()];
    for payment in members.iter().flat_map(|m| &m.queue) {
        coming[payment.payee] += payment.amount;
    }
    loop {
        let mut changed = false;
        for (seat, member) in members.iter().enumerate().rev() {
            let means = member.balance + member.line + coming[seat];
            // The sums rise, so those within the means stand first; the sum of none is always within.
            let within = sums[seat].partition_point(|&sum| sum <= means) - 1;
            if within < counts[seat] {
                for payment in member.queue.range(within..counts[seat]) {
                    coming[payment.payee] -= payment.amount;
                }
                counts[seat] = within;
                changed = true;
            }
        }
        if !changed {
            return counts;
        }
    }
}

/// Builds up from nothing: whoever can pay its head alone settles it, again and again; what then still waits is searched by prefixes. A
/// set that is allowed after such payments is, together with them, one that was allowed before; so nothing is lost by settling them first.
pub fn by_building_up(house: &House) -> Vec<usize> {
    let mut rest = house.clone();
    let mut counts = vec![0; house.members.len()];
    loop {
        let before = rest.waiting();
        for (seat, count) in counts.iter_mut().enumerate() {
            while rest.release(seat as i128 + 1).is_ok() {
                *count += 1;
            }
        }
        if rest.waiting() == before {
            break;
        }
    }
    let more = by_prefix_search(&rest);
    counts.iter().zip(more).map(|(count, more)| count + more).collect()
}

/// The slow way: all count vectors where they are few, else building up.
pub fn slowly(house: &House) -> Vec<usize> {
    by_trying_all(house).unwrap_or_else(|| by_building_up(house))
}

/// Document 003's method in 64 bits: from all payments, the last one is taken off a short member until none is short.
pub fn by_take_off(house: &House) -> Vec<usize> {
    let mut counts: Vec<usize> = house.members.iter().map(|m| m.queue.len()).collect();
    let mut cover: Vec<i64> = house.members.iter().map(|m| (m.balance + m.line) as i64).collect();
    for (payer, member) in house.members.iter().enumerate() {
        for payment in &member.queue {
            cover[payer] -= payment.amount as i64;
            cover[payment.payee] += payment.amount as i64;
        }
    }
    let mut short: Vec<usize> = (0..cover.len()).filter(|&m| cover[m] < 0).collect();
    while let Some(member) = short.pop() {
        while cover[member] < 0 {
            counts[member] -= 1;
            let payment = &house.members[member].queue[counts[member]];
            cover[member] += payment.amount as i64;
            let before = cover[payment.payee];
            cover[payment.payee] -= payment.amount as i64;
            if before >= 0 && cover[payment.payee] < 0 {
                short.push(payment.payee);
            }
        }
    }
    counts
}
