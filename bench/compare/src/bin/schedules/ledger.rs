//! The log run one by one: the reply to each number, and the rows after it.

use crate::event::{Call, Customer, money, name};

const LIMIT: i64 = 1_000_000_000_000;

/// For each customer savings and checking.
pub type Rows = Vec<(i64, i64)>;

/// The rows after each beginning of a log, and the replies.
pub struct Ledger {
    after: Vec<Rows>,
    replies: Vec<String>,
}

impl Ledger {
    pub fn new(opening: Rows, log: impl Iterator<Item = Call>) -> Self {
        let mut ledger = Ledger {
            after: vec![opening],
            replies: Vec::new(),
        };
        for call in log {
            let mut rows = ledger.after[ledger.replies.len()].clone();
            ledger.replies.push(carry_out(call, &mut rows));
            ledger.after.push(rows);
        }
        ledger
    }

    /// The reply to a number, in words.
    pub fn reply(&self, number: u32) -> &str {
        &self.replies[number as usize - 1]
    }

    /// The total after this many numbers.
    pub fn total(&self, length: u32) -> i64 {
        self.rows(length).iter().map(|row| row.0 + row.1).sum()
    }

    /// How many then have less than 0 in checking.
    pub fn overdrawn(&self, length: u32) -> usize {
        self.rows(length).iter().filter(|row| row.1 < 0).count()
    }

    /// The rows and the total as lines.
    pub fn state(&self, length: u32) -> String {
        let mut text = String::new();
        for ((savings, checking), customer) in self.rows(length).iter().zip(0..) {
            let (savings, checking) = (money(*savings), money(*checking));
            text += &format!("{} {savings} {checking}\n", name(customer));
        }
        text + &format!("total {}\n", money(self.total(length)))
    }

    fn rows(&self, length: u32) -> &Rows {
        &self.after[length as usize]
    }
}

// Executes a call, and answers the reply. A refused call changes nothing.
fn carry_out(call: Call, rows: &mut Rows) -> String {
    let is_known = |customer: Customer| customer < rows.len();
    let reply = match call {
        Call::Balance(n) if is_known(n) => {
            return format!("shown {}", money(rows[n].0 + rows[n].1));
        }
        Call::Deposit(n, amount) if is_known(n) => deposit(&mut rows[n], amount),
        Call::Savings(n, amount) if is_known(n) => savings(&mut rows[n], amount),
        Call::Check(n, amount) if is_known(n) => check(&mut rows[n], amount),
        Call::Amalgamate(from, to) if is_known(from) && is_known(to) => amalgamate(rows, from, to),
        Call::Pay(from, to, amount) if is_known(from) && is_known(to) => {
            pay(rows, from, to, amount)
        }
        _ => "no customer",
    };
    reply.to_owned()
}

fn deposit((_, checking): &mut (i64, i64), amount: i64) -> &'static str {
    if amount < 0 {
        "negative"
    } else if *checking + amount > LIMIT {
        "over limit"
    } else {
        *checking += amount;
        "done"
    }
}

fn savings((savings, _): &mut (i64, i64), amount: i64) -> &'static str {
    if *savings + amount < 0 {
        "would overdraw"
    } else if *savings + amount > LIMIT {
        "over limit"
    } else {
        *savings += amount;
        "done"
    }
}

fn check((savings, checking): &mut (i64, i64), amount: i64) -> &'static str {
    let is_short = *savings + *checking < amount;
    let paid = if is_short { amount + 100 } else { amount };
    if amount < 0 {
        "negative"
    } else if *checking - paid < -LIMIT {
        "over limit"
    } else {
        *checking -= paid;
        if is_short { "penalised" } else { "done" }
    }
}

fn amalgamate(rows: &mut Rows, from: Customer, to: Customer) -> &'static str {
    if from == to {
        return "same customer";
    }
    let sum = rows[to].1 + rows[from].0 + rows[from].1;
    if !(-LIMIT..=LIMIT).contains(&sum) {
        return "over limit";
    }
    rows[from] = (0, 0);
    rows[to].1 = sum;
    "done"
}

fn pay(rows: &mut Rows, from: Customer, to: Customer, amount: i64) -> &'static str {
    if from == to {
        "same customer"
    } else if amount < 0 {
        "negative"
    } else if amount > rows[from].1 {
        "would overdraw"
    } else if rows[to].1 + amount > LIMIT {
        "over limit"
    } else {
        rows[from].1 -= amount;
        rows[to].1 += amount;
        "done"
    }
}
