//! The bank: its customers, and what a call touches and does.

use std::collections::HashMap;

pub const LIMIT: i64 = 1_000_000_000_000;
const PENALTY: i64 = 100;

/// A call with names, as a text or a frame has it.
#[derive(Clone, Copy, PartialEq, Eq)]
pub enum Call<'a> {
    Balance(&'a [u8]),
    Deposit(&'a [u8], i64),
    Savings(&'a [u8], i64),
    Check(&'a [u8], i64),
    Amalgamate(&'a [u8], &'a [u8]),
    Pay(&'a [u8], &'a [u8], i64),
}

#[derive(Clone, Copy, PartialEq, Eq)]
pub enum Reply {
    Shown(i64),
    Done,
    Penalised,
    NoCustomer,
    SameCustomer,
    Negative,
    WouldOverdraw,
    OverLimit,
}

impl Call<'_> {
    /// What this call adds to the bank's total, with this reply.
    pub fn net(&self, reply: Reply) -> i64 {
        match (*self, reply) {
            (Call::Deposit(_, amount) | Call::Savings(_, amount), Reply::Done) => amount,
            (Call::Check(_, amount), Reply::Done) => -amount,
            (Call::Check(_, amount), Reply::Penalised) => -(amount + PENALTY),
            _ => 0,
        }
    }
}

/// The customers, in the order of the opening.
#[derive(Default)]
pub struct Directory<'a> {
    pub names: Vec<&'a [u8]>,
    places: HashMap<&'a [u8], u32>,
}

impl<'a> Directory<'a> {
    pub fn contains(&self, name: &[u8]) -> bool {
        self.places.contains_key(name)
    }

    pub fn push(&mut self, name: &'a [u8]) {
        self.places.insert(name, self.names.len() as u32);
        self.names.push(name);
    }

    /// The call with places instead of names.
    pub fn resolve(&self, call: &Call) -> Op {
        self.try_resolve(call).unwrap_or(Op::NoCustomer)
    }

    fn try_resolve(&self, call: &Call) -> Option<Op> {
        let place = |name: &[u8]| self.places.get(name).copied();
        Some(match *call {
            Call::Balance(name) => Op::Balance(place(name)?),
            Call::Deposit(name, amount) => Op::Deposit(place(name)?, amount),
            Call::Savings(name, amount) => Op::Savings(place(name)?, amount),
            Call::Check(name, amount) => Op::Check(place(name)?, amount),
            Call::Amalgamate(from, to) => match (place(from)?, place(to)?) {
                (from, to) if from == to => Op::SameCustomer,
                (from, to) => Op::Amalgamate(from, to),
            },
            Call::Pay(from, to, amount) => match (place(from)?, place(to)?) {
                (from, to) if from == to => Op::SameCustomer,
                (from, to) => Op::Pay(from, to, amount),
            },
        })
    }
}

/// A call of this bank, with places of customers.
#[derive(Clone, Copy, PartialEq, Eq)]
pub enum Op {
    Balance(u32),
    Deposit(u32, i64),
    Savings(u32, i64),
    Check(u32, i64),
    Amalgamate(u32, u32),
    Pay(u32, u32, i64),
    NoCustomer,
    SameCustomer,
}

/// The most balances that an op touches.
pub const TOUCHED: usize = 3;

/// What the touched balances hold, zeros after them.
pub type Values = [i64; TOUCHED];

/// The balances that an op touches: savings of place i are 2i, checking is 2i + 1.
#[derive(Clone, Copy)]
pub struct Touched {
    balances: [u32; TOUCHED],
    count: usize,
}

impl Touched {
    pub fn as_slice(&self) -> &[u32] {
        &self.balances[..self.count]
    }
}

fn savings(place: u32) -> u32 {
    2 * place
}

fn checking(place: u32) -> u32 {
    2 * place + 1
}

impl Op {
    pub fn touched(self) -> Touched {
        let (balances, count) = match self {
            Op::Balance(at) | Op::Check(at, _) => ([savings(at), checking(at), 0], 2),
            Op::Deposit(at, _) => ([checking(at), 0, 0], 1),
            Op::Savings(at, _) => ([savings(at), 0, 0], 1),
            Op::Amalgamate(from, to) => ([savings(from), checking(from), checking(to)], 3),
            Op::Pay(from, to, _) => ([checking(from), checking(to), 0], 2),
            Op::NoCustomer | Op::SameCustomer => ([0; TOUCHED], 0),
        };
        Touched { balances, count }
    }

    /// The reply, and what the touched balances hold afterwards.
    pub fn perform(self, held: Values) -> (Reply, Values) {
        let [first, second, third] = held;
        match self {
            Op::Balance(_) => (Reply::Shown(first + second), held),
            Op::Deposit(_, amount) if amount < 0 => (Reply::Negative, held),
            Op::Deposit(_, amount) if first + amount > LIMIT => (Reply::OverLimit, held),
            Op::Deposit(_, amount) => (Reply::Done, [first + amount, 0, 0]),
            Op::Savings(_, amount) if first + amount < 0 => (Reply::WouldOverdraw, held),
            Op::Savings(_, amount) if first + amount > LIMIT => (Reply::OverLimit, held),
            Op::Savings(_, amount) => (Reply::Done, [first + amount, 0, 0]),
            Op::Check(_, amount) => check(amount, held),
            Op::Amalgamate(..) if (first + second + third).abs() > LIMIT => {
                (Reply::OverLimit, held)
            }
            Op::Amalgamate(..) => (Reply::Done, [0, 0, first + second + third]),
            Op::Pay(_, _, amount) => pay(amount, held),
            Op::NoCustomer => (Reply::NoCustomer, held),
            Op::SameCustomer => (Reply::SameCustomer, held),
        }
    }
}

fn check(amount: i64, held: Values) -> (Reply, Values) {
    let [savings, checking, _] = held;
    if amount < 0 {
        return (Reply::Negative, held);
    }
    let is_short = savings + checking < amount;
    let left = checking - amount - if is_short { PENALTY } else { 0 };
    if left < -LIMIT {
        (Reply::OverLimit, held)
    } else if is_short {
        (Reply::Penalised, [savings, left, 0])
    } else {
        (Reply::Done, [savings, left, 0])
    }
}

fn pay(amount: i64, held: Values) -> (Reply, Values) {
    let [from, to, _] = held;
    if amount < 0 {
        (Reply::Negative, held)
    } else if from < amount {
        (Reply::WouldOverdraw, held)
    } else if to + amount > LIMIT {
        (Reply::OverLimit, held)
    } else {
        (Reply::Done, [from - amount, to + amount, 0])
    }
}
