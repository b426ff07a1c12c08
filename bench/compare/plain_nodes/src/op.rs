//! Calls in which places stand for names, and their effect on what their cowns hold.

use crate::shared::input::Call;
use crate::shared::output::Reply;
use crate::shared::{LIMIT, PENALTY};
use std::collections::HashMap;

/// How many cowns an op declares at most.
pub const OP_COWNS: usize = 3;

/// What the cowns of an op hold, in their order, filled up with 0.
pub type Held = [i64; OP_COWNS];

/// A call that names customers by their places.
#[derive(Clone, Copy)]
pub enum Op {
    Balance(u32),
    Deposit(u32, i64),
    Savings(u32, i64),
    Check(u32, i64),
    Amalgamate(u32, u32),
    Pay(u32, u32, i64),
    NoCustomer,
    SameCustomer,
}

/// The cowns that an op declares.
#[derive(Clone, Copy)]
pub struct Cowns {
    cowns: [u32; OP_COWNS],
    count: usize,
}

impl Cowns {
    fn new<const N: usize>(declared: [u32; N]) -> Self {
        let mut cowns = [0; OP_COWNS];
        cowns[..N].copy_from_slice(&declared);
        Cowns { cowns, count: N }
    }

    pub fn as_slice(&self) -> &[u32] {
        &self.cowns[..self.count]
    }
}

fn savings(customer: u32) -> u32 {
    2 * customer
}

fn checking(customer: u32) -> u32 {
    2 * customer + 1
}

impl Op {
    /// Looks up the names of a call.
    pub fn resolve(places: &HashMap<&[u8], usize>, call: &Call) -> Op {
        let place = |name: &[u8]| places.get(name).map(|place| *place as u32);
        let op = match *call {
            Call::Balance(name) => place(name).map(Op::Balance),
            Call::Deposit(name, amount) => place(name).map(|at| Op::Deposit(at, amount)),
            Call::Savings(name, amount) => place(name).map(|at| Op::Savings(at, amount)),
            Call::Check(name, amount) => place(name).map(|at| Op::Check(at, amount)),
            Call::Amalgamate(from, to) => two_places(place(from), place(to), Op::Amalgamate),
            Call::Pay(from, to, amount) => {
                two_places(place(from), place(to), |from, to| Op::Pay(from, to, amount))
            }
        };
        op.unwrap_or(Op::NoCustomer)
    }

    pub fn cowns(self) -> Cowns {
        match self {
            Op::Balance(at) | Op::Check(at, _) => Cowns::new([savings(at), checking(at)]),
            Op::Deposit(at, _) => Cowns::new([checking(at)]),
            Op::Savings(at, _) => Cowns::new([savings(at)]),
            Op::Amalgamate(from, to) => Cowns::new([savings(from), checking(from), checking(to)]),
            Op::Pay(from, to, _) => Cowns::new([checking(from), checking(to)]),
            Op::NoCustomer | Op::SameCustomer => Cowns::new([]),
        }
    }

    /// The reply, and what the cowns hold then.
    pub fn perform(self, held: Held) -> (Reply, Held) {
        match self {
            Op::Balance(_) => (Reply::Shown(held[0] + held[1]), held),
            Op::Deposit(_, amount) => deposit(held, amount),
            Op::Savings(_, amount) => transact_savings(held, amount),
            Op::Check(_, amount) => write_check(held, amount),
            Op::Amalgamate(..) => amalgamate(held),
            Op::Pay(_, _, amount) => pay(held, amount),
            Op::NoCustomer => (Reply::NoCustomer, held),
            Op::SameCustomer => (Reply::SameCustomer, held),
        }
    }
}

// The op of two customers, who must differ.
fn two_places(from: Option<u32>, to: Option<u32>, op: impl FnOnce(u32, u32) -> Op) -> Option<Op> {
    from.zip(to).map(|(from, to)| {
        if from == to {
            Op::SameCustomer
        } else {
            op(from, to)
        }
    })
}

fn deposit(held: Held, amount: i64) -> (Reply, Held) {
    let sum = held[0] + amount;
    if amount < 0 {
        (Reply::Negative, held)
    } else if sum > LIMIT {
        (Reply::OverLimit, held)
    } else {
        (Reply::Done, [sum, 0, 0])
    }
}

fn transact_savings(held: Held, amount: i64) -> (Reply, Held) {
    let sum = held[0] + amount;
    if sum < 0 {
        (Reply::WouldOverdraw, held)
    } else if sum > LIMIT {
        (Reply::OverLimit, held)
    } else {
        (Reply::Done, [sum, 0, 0])
    }
}

fn write_check(held: Held, amount: i64) -> (Reply, Held) {
    let [savings, checking, _] = held;
    let is_short = savings + checking < amount;
    let left = checking - amount - if is_short { PENALTY } else { 0 };
    if amount < 0 {
        (Reply::Negative, held)
    } else if left < -LIMIT {
        (Reply::OverLimit, held)
    } else if is_short {
        (Reply::Penalised, [savings, left, 0])
    } else {
        (Reply::Done, [savings, left, 0])
    }
}

fn amalgamate(held: Held) -> (Reply, Held) {
    let sum: i64 = held.iter().sum();
    if sum.abs() > LIMIT {
        (Reply::OverLimit, held)
    } else {
        (Reply::Done, [0, 0, sum])
    }
}

fn pay(held: Held, amount: i64) -> (Reply, Held) {
    let [from, to, _] = held;
    if amount < 0 {
        (Reply::Negative, held)
    } else if from < amount {
        (Reply::WouldOverdraw, held)
    } else if to + amount > LIMIT {
        (Reply::OverLimit, held)
    } else {
        (Reply::Done, [from - amount, to + amount, 0])
    }
}
