//! A workload from a seed: an opening text, then asking lines.

use crate::random::Random;
use std::io::{self, Write};

// How many asks after the first one a repeat may come.
const RECENT: usize = 1024;

pub struct Workload {
    pub seed: u64,
    /// Customers of the opening.
    pub customers: u32,
    /// Lines after the opening.
    pub lines: u32,
    /// The weights of the calls: balance, deposit, savings, check, amalgamate, pay.
    pub mix: [u32; 6],
    /// Of 100 lines, how many have a key.
    pub asked: u32,
    /// Of 100 lines with a key, how many repeat one.
    pub repeated: u32,
    /// Of 100 repeats, how many have another call.
    pub changed: u32,
    /// How many customers are hot.
    pub hot: u32,
    /// Of 100 calls, how many name hot customers. The others name any.
    pub hot_calls: u32,
}

struct Ask {
    client: u32,
    request: u32,
    call: String,
}

impl Workload {
    /// Calls of the first five kinds, half of them of a few customers. The measured workload has no
    /// payments, so that it compares with measurements from before there were any.
    pub fn new(seed: u64, customers: u32, lines: u32) -> Self {
        Workload {
            seed,
            customers,
            lines,
            mix: [30, 25, 20, 20, 5, 0],
            asked: 30,
            repeated: 10,
            changed: 10,
            hot: customers.min(100),
            hot_calls: 50,
        }
    }

    /// The same kinds, each call of one customer.
    pub fn one_customer(seed: u64, customers: u32, lines: u32) -> Self {
        Workload {
            hot: 1,
            hot_calls: 100,
            ..Workload::new(seed, customers, lines)
        }
    }

    /// Amalgamates alone, half of them of a few customers.
    pub fn amalgamates(seed: u64, customers: u32, lines: u32) -> Self {
        Workload {
            mix: [0, 0, 0, 0, 1, 0],
            ..Workload::new(seed, customers, lines)
        }
    }

    /// Writes the workload.
    pub fn write(&self, out: &mut impl Write) -> io::Result<()> {
        let mut random = Random::new(self.seed);
        for customer in 0..self.customers {
            let savings = random.below(100_000_000);
            let checking = random.below(100_000_000);
            writeln!(
                out,
                "customer_{customer} {} {}",
                money(savings),
                money(checking)
            )?;
        }
        writeln!(out, "begin")?;
        let mut recent: Vec<Ask> = Vec::with_capacity(RECENT);
        for line in 0..self.lines {
            let call = self.call(&mut random);
            if !random.percent(self.asked) {
                writeln!(out, "{call}")?;
            } else if !recent.is_empty() && random.percent(self.repeated) {
                let ask = random.pick(&recent);
                let again = if random.percent(self.changed) {
                    &call
                } else {
                    &ask.call
                };
                writeln!(out, "ask {} {} {again}", ask.client, ask.request)?;
            } else {
                let ask = Ask {
                    client: 1 + random.below(1000),
                    request: line,
                    call,
                };
                writeln!(out, "ask {} {} {}", ask.client, ask.request, ask.call)?;
                if recent.len() < RECENT {
                    recent.push(ask);
                } else {
                    let place = random.below(RECENT as u32) as usize;
                    recent[place] = ask;
                }
            }
        }
        Ok(())
    }

    fn customer(&self, random: &mut Random) -> String {
        let among = if random.percent(self.hot_calls) {
            self.hot
        } else {
            self.customers
        };
        // One call in some hundreds names nobody in the bank.
        let customer = if random.below(500) == 0 {
            self.customers
        } else {
            random.below(among)
        };
        format!("customer_{customer}")
    }

    fn call(&self, random: &mut Random) -> String {
        let mut left = random.below(self.mix.iter().sum());
        let kind = self.mix.iter().position(|share| {
            let is_this = left < *share;
            left = left.saturating_sub(*share);
            is_this
        });
        let customer = self.customer(random);
        let amount = money(random.below(10_000_000));
        match kind {
            Some(0) => format!("balance {customer}"),
            Some(1) => format!("deposit {customer} {amount}"),
            Some(2) if random.percent(50) => format!("savings {customer} -{amount}"),
            Some(2) => format!("savings {customer} {amount}"),
            Some(3) => format!("check {customer} {amount}"),
            Some(4) => format!("amalgamate {customer} {}", self.customer(random)),
            _ => format!("pay {customer} {} {amount}", self.customer(random)),
        }
    }
}

// Some cents, at least one.
fn money(cents: u32) -> String {
    let cents = cents + 1;
    format!("{}.{:02}", cents / 100, cents % 100)
}
