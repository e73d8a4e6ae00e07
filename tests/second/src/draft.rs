//! A day file in the making.

use crate::house::House;
use crate::largest;
use crate::random::Random;

/// A day file in the making, and the house as it stands after its lines.
pub struct Draft {
    pub random: Random,
    pub text: Vec<u8>,
    pub lines: usize,
    pub house: House,
}

impl Draft {
    /// A draft with its opening written. The balances and lines must be good.
    pub fn open(random: Random, balances: &[i128], credit: &[i128]) -> Draft {
        let house = House::open(balances.len() as i128, balances, credit).expect("a good opening");
        let mut draft = Draft { random, text: Vec::new(), lines: 0, house };
        draft.line(&format!("house\t1\t{}", balances.len()));
        for (i, (balance, line)) in balances.iter().zip(credit).enumerate() {
            draft.line(&format!("member\t{}\t{balance}\t{line}", i + 1));
        }
        draft
    }

    /// Writes one line.
    pub fn line(&mut self, line: &str) {
        self.text.extend_from_slice(line.as_bytes());
        self.text.push(b'\n');
        self.lines += 1;
    }

    /// How many members the house has.
    pub fn count(&self) -> i128 {
        self.house.members.len() as i128
    }

    /// Any member.
    pub fn member(&mut self) -> i128 {
        let count = self.count();
        self.random.from(1, count)
    }

    /// A payment with the payer's next number.
    pub fn pay(&mut self, payer: i128, payee: i128, amount: i128) {
        let number = self.house.members.get((payer - 1) as usize).map_or(1, |m| m.last + 1);
        self.pay_number(payer, number, payee, amount);
    }

    /// A payment with any number.
    pub fn pay_number(&mut self, payer: i128, number: i128, payee: i128, amount: i128) {
        self.line(&format!("pay\t{payer}\t{number}\t{payee}\t{amount}"));
        let _ = self.house.submit(payer, number, payee, amount);
    }

    /// A payment between two members that are not the same, where there are two.
    pub fn pay_any(&mut self, amount: i128) {
        let payer = self.member();
        let count = self.count();
        let payee = if count == 1 { 1 } else { (payer - 1 + self.random.from(1, count - 1)) % count + 1 };
        self.pay(payer, payee, amount);
    }

    /// A cycle of payments through some members, of about the same amount.
    pub fn cycle(&mut self, amount: i128) {
        let mut seats: Vec<i128> = (1..=self.count()).collect();
        for i in (1..seats.len()).rev() {
            seats.swap(i, self.random.below(i + 1));
        }
        let some = self.random.from(2, self.count().max(2)) as usize;
        seats.truncate(some);
        for (i, &payer) in seats.iter().enumerate() {
            let more = if self.random.percent(15) { self.random.from(0, 2) } else { 0 };
            self.pay(payer, seats[(i + 1) % seats.len()], amount + more);
        }
    }

    /// A deposit.
    pub fn deposit(&mut self, member: i128, amount: i128) {
        self.line(&format!("deposit\t{member}\t{amount}"));
        let _ = self.house.deposit(member, amount);
    }

    /// A release.
    pub fn release(&mut self, member: i128) {
        self.line(&format!("release\t{member}"));
        let _ = self.house.release(member);
    }

    /// A group of these counts.
    pub fn group(&mut self, counts: &[i128]) {
        let fields: Vec<String> = counts.iter().map(|c| c.to_string()).collect();
        self.line(&format!("group\t{}", fields.join("\t")));
        let _ = self.house.group(counts);
    }

    /// A group of some sort: the largest set, a part of it, any counts, none, one too many, or a list of another length.
    pub fn group_any(&mut self) {
        let waits: Vec<i128> = self.house.members.iter().map(|m| m.queue.len() as i128).collect();
        let best: Vec<i128> = largest::by_take_off(&self.house).iter().map(|&c| c as i128).collect();
        let mut counts = match self.random.below(8) {
            0 => vec![0; waits.len()],
            1 | 2 => best,
            3 => best.iter().map(|&c| self.random.from(0, c)).collect(),
            4 => waits.clone(),
            _ => waits.iter().map(|&w| self.random.from(0, w.min(3))).collect(),
        };
        match self.random.below(16) {
            0 => counts.push(0),
            1 if counts.len() > 1 => counts.truncate(counts.len() - 1),
            2 | 3 => {
                let m = self.random.below(counts.len());
                counts[m] = waits[m] + 1;
            }
            4 => {
                let m = self.random.below(counts.len());
                counts[m] = (counts[m] + 1).min(waits[m]);
            }
            5 => {
                let m = self.random.below(counts.len());
                counts[m] += self.random.one(&[65_535, 65_536, 65_537, 4_294_967_296]);
            }
            _ => {}
        }
        counts.truncate(64);
        self.group(&counts);
    }

    /// A resolution.
    pub fn resolve(&mut self) {
        self.line("resolve");
        self.house.resolve(largest::by_take_off);
    }

    /// A line that is refused by its own code.
    pub fn refused(&mut self) {
        let (payer, count) = (self.member(), self.count());
        let number = self.house.members[payer as usize - 1].last + 1;
        let payee = payer % count + 1;
        let stranger = self.random.one(&[0, count + 1, 64, 65, 4_294_967_297]);
        let ahead = self.random.from(1, 3);
        match self.random.below(8) {
            0 => self.pay(stranger, payer, 5),
            1 => self.pay(payer, stranger, 5),
            2 => self.pay(payer, payer, 0),
            3 => self.pay_number(payer, number + 1, payee, 0),
            4 => self.pay_number(payer, number - 1, payee, 7),
            5 => self.pay_number(payer, number + ahead, payee, 7),
            6 => self.release(stranger),
            _ => self.deposit(stranger, 0),
        }
    }

    /// The file, ended; now and then without the last byte 10, with more after `end`, or without `end`.
    pub fn end(mut self) -> Vec<u8> {
        match self.random.below(20) {
            0 => {}
            1 => self.text.extend_from_slice(b"end"),
            2 => self.text.extend_from_slice(b"end\npay\t1\t1\t2\t5\nrubbish"),
            3 => {
                self.text.pop();
            }
            _ => self.line("end"),
        }
        self.text
    }
}
