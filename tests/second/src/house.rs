//! What a house holds and what can be done, on a model in memory.

use std::collections::VecDeque;

/// The fixed numbers of document 01.
pub const MOST_MEMBERS: u64 = 64;
pub const MOST_WAITING: usize = 2_048;
pub const MOST_AMOUNT: i128 = 1_000_000_000_000;
pub const MOST_LINE: i128 = 1_000_000_000_000;
pub const MOST_MONEY: i128 = 1_000_000_000_000_000;
pub const MOST_BALANCE: i128 = 2 * MOST_MONEY;
pub const LAST_NUMBER: i128 = 4_294_967_295;

/// The codes of document 01 that a call gives; 0 is accepted.
pub const ACCEPTED: u32 = 0;
pub const NO_TABLES: u32 = 1;
pub const NO_MEMBER: u32 = 2;
pub const SAME_MEMBER: u32 = 3;
pub const BAD_AMOUNT: u32 = 4;
pub const BAD_NUMBER: u32 = 5;
pub const NO_ROOM: u32 = 6;
pub const TOO_MUCH_MONEY: u32 = 7;
pub const NOTHING_WAITS: u32 = 8;
pub const NOT_COVERED: u32 = 9;
pub const BAD_COUNTS: u32 = 10;
pub const BAD_OPENING: u32 = 11;
pub const BAD_LINE: u32 = 12;

/// A waiting payment. Its payer is the member whose queue it stands in; members count from 0 here. `order` tells which of two waiting
/// payments of different payers stands first in the tables.
#[derive(Clone, Debug, PartialEq, Eq)]
pub struct Payment {
    pub order: u64,
    pub payee: usize,
    pub amount: i128,
}

/// A member: its balance, its line, its last accepted number and its queue, head first.
#[derive(Clone, Debug, PartialEq, Eq)]
pub struct Member {
    pub balance: i128,
    pub line: i128,
    pub last: i128,
    pub queue: VecDeque<Payment>,
}

/// A house: its members, and the `order` of the next payment.
#[derive(Clone, Debug)]
pub struct House {
    pub members: Vec<Member>,
    pub next_order: u64,
}

/// A way to find the largest allowed set: a count per member.
pub type Finder = fn(&House) -> Vec<usize>;

/// What an accepted release answers.
#[derive(Clone, Debug, PartialEq, Eq)]
pub struct Released {
    pub number: i128,
    pub amount: i128,
}

/// What an accepted group answers.
#[derive(Clone, Debug, PartialEq, Eq)]
pub struct Booked {
    pub payments: usize,
    pub sum: i128,
}

/// What an accepted resolution answers; `waiting` lists the members (from 0) with payments still waiting.
#[derive(Clone, Debug, PartialEq, Eq)]
pub struct Resolved {
    pub verdict: u32,
    pub booked: Booked,
    pub counts: Vec<usize>,
    pub waiting: Vec<usize>,
}

impl Resolved {
    /// The set of members still waiting as one number: member i counts as 2^(i-1).
    pub fn set(&self) -> u64 {
        self.waiting.iter().map(|&m| 1u64 << m).sum()
    }

    /// The lowest member number still waiting, from 1; 0 when none waits.
    pub fn lowest(&self) -> usize {
        self.waiting.iter().map(|&m| m + 1).min().unwrap_or(0)
    }
}

impl House {
    /// Open: as many balances and lines as the count says, or 11.
    pub fn open(count: i128, balances: &[i128], lines: &[i128]) -> Result<House, u32> {
        let as_long = |list: &[i128]| list.len() as i128 == count;
        let good = (1..=MOST_MEMBERS as i128).contains(&count)
            && as_long(balances)
            && as_long(lines)
            && lines.iter().all(|line| (0..=MOST_LINE).contains(line))
            && balances.iter().zip(lines).all(|(balance, line)| (-line..=MOST_BALANCE).contains(balance))
            && balances.iter().sum::<i128>() <= MOST_MONEY;
        if !good {
            return Err(BAD_OPENING);
        }
        let member = |(&balance, &line): (&i128, &i128)| Member { balance, line, last: 0, queue: VecDeque::new() };
        Ok(House { members: balances.iter().zip(lines).map(member).collect(), next_order: 0 })
    }

    /// The sum of all balances.
    pub fn money(&self) -> i128 {
        self.members.iter().map(|m| m.balance).sum()
    }

    /// How many payments wait, over all members.
    pub fn waiting(&self) -> usize {
        self.members.iter().map(|m| m.queue.len()).sum()
    }

    /// A member number from 1 as a place from 0, or 2.
    fn seat(&self, member: i128) -> Result<usize, u32> {
        if member >= 1 && member <= self.members.len() as i128 {
            Ok(member as usize - 1)
        } else {
            Err(NO_MEMBER)
        }
    }

    /// Deposit: 2, 4, 7, or the new balance.
    pub fn deposit(&mut self, member: i128, amount: i128) -> Result<i128, u32> {
        let seat = self.seat(member)?;
        if !(1..=MOST_AMOUNT).contains(&amount) {
            return Err(BAD_AMOUNT);
        }
        if self.money() + amount > MOST_MONEY {
            return Err(TOO_MUCH_MONEY);
        }
        self.members[seat].balance += amount;
        Ok(self.members[seat].balance)
    }

    /// Submit: 2, 3, 4, 5, 6, or the payment stands at the tail of its payer's queue.
    pub fn submit(&mut self, payer: i128, number: i128, payee: i128, amount: i128) -> Result<(), u32> {
        let (from, to) = (self.seat(payer)?, self.seat(payee)?);
        if from == to {
            return Err(SAME_MEMBER);
        }
        if !(1..=MOST_AMOUNT).contains(&amount) {
            return Err(BAD_AMOUNT);
        }
        if number != self.members[from].last + 1 || number > LAST_NUMBER {
            return Err(BAD_NUMBER);
        }
        if self.waiting() >= MOST_WAITING {
            return Err(NO_ROOM);
        }
        self.members[from].last = number;
        self.members[from].queue.push_back(Payment { order: self.next_order, payee: to, amount });
        self.next_order += 1;
        Ok(())
    }

    /// Release: 2, 8, 9, or the head payment is settled.
    pub fn release(&mut self, member: i128) -> Result<Released, u32> {
        let seat = self.seat(member)?;
        let payer = &self.members[seat];
        let amount = match payer.queue.front() {
            None => return Err(NOTHING_WAITS),
            Some(head) => head.amount,
        };
        if payer.balance + payer.line < amount {
            return Err(NOT_COVERED);
        }
        let number = payer.last - payer.queue.len() as i128 + 1;
        self.settle_head(seat);
        Ok(Released { number, amount })
    }

    /// Group: 10, 9, or that many are settled at once from each head.
    pub fn group(&mut self, counts: &[i128]) -> Result<Booked, u32> {
        if counts.len() != self.members.len() {
            return Err(BAD_COUNTS);
        }
        if counts.iter().zip(&self.members).any(|(&count, member)| count > member.queue.len() as i128) {
            return Err(BAD_COUNTS);
        }
        let counts: Vec<usize> = counts.iter().map(|&count| count as usize).collect();
        if !self.allows(&counts) {
            return Err(NOT_COVERED);
        }
        Ok(self.settle(&counts))
    }

    /// Resolve: settles the largest allowed set, found in the given way.
    pub fn resolve(&mut self, largest: Finder) -> Resolved {
        let waited = self.waiting();
        let counts = if waited == 0 { vec![0; self.members.len()] } else { largest(self) };
        let booked = self.settle(&counts);
        let verdict = match (waited, booked.payments) {
            (0, _) => 0,
            (all, settled) if settled == all => 1,
            (_, 0) => 3,
            _ => 2,
        };
        let waiting = (0..self.members.len()).filter(|&m| !self.members[m].queue.is_empty()).collect();
        Resolved { verdict, booked, counts, waiting }
    }

    /// Whether a set is allowed, word for word: no count above what waits, and each member's balance, minus its counted payments, plus
    /// the counted payments to it, plus its line, at or above zero.
    pub fn allows(&self, counts: &[usize]) -> bool {
        if counts.len() != self.members.len() || counts.iter().zip(&self.members).any(|(&c, m)| c > m.queue.len()) {
            return false;
        }
        let mut cover: Vec<i128> = self.members.iter().map(|m| m.balance + m.line).collect();
        for (payer, &count) in counts.iter().enumerate() {
            for payment in self.members[payer].queue.iter().take(count) {
                cover[payer] -= payment.amount;
                cover[payment.payee] += payment.amount;
            }
        }
        cover.iter().all(|&c| c >= 0)
    }

    /// Settles that many payments from each head, without judging.
    fn settle(&mut self, counts: &[usize]) -> Booked {
        let mut sum = 0;
        for (payer, &count) in counts.iter().enumerate() {
            for _ in 0..count {
                sum += self.settle_head(payer);
            }
        }
        Booked { payments: counts.iter().sum(), sum }
    }

    /// Settles one head payment, without judging, and tells its amount (0 where nothing waits).
    fn settle_head(&mut self, payer: usize) -> i128 {
        match self.members[payer].queue.pop_front() {
            None => 0,
            Some(payment) => {
                self.members[payer].balance -= payment.amount;
                self.members[payment.payee].balance += payment.amount;
                payment.amount
            }
        }
    }
}
