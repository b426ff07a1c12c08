//! Events and calls, as a schedule spells them.

use std::fmt;

/// A place in the opening. The number of customers stands for a name that isn't in the bank.
pub type Customer = usize;

/// A call. Amounts are in cents.
#[derive(Clone, Copy, PartialEq, Eq)]
pub enum Call {
    Balance(Customer),
    Deposit(Customer, i64),
    Savings(Customer, i64),
    Check(Customer, i64),
    Amalgamate(Customer, Customer),
    Pay(Customer, Customer, i64),
}

#[derive(Clone, Copy, PartialEq, Eq)]
pub enum How {
    Ok,
    Old,
    New,
}

pub type Key = (u32, u32);

#[derive(Clone, Copy)]
pub enum Event {
    Ask(Key, Call),
    Append(Key, Call),
    Sync,
    Crash(u32),
    Send(u32, u32),
    Resend(u32),
    To(u32, u32),
    Ack(u32),
    Answer(u32, u32),
    From(u32, u32),
    Take(u32, u32, u32),
    Finish(u32, u32),
    Mark(u32, How),
    Restart(u32),
    Cut(u32),
    Next(u32),
    Audit(u32, u32),
    Have(u32),
    Donor(u32),
    Give(u32, u32),
    Adopt(u32, u32),
}

/// Cents as a text has them.
pub fn money(cents: i64) -> String {
    let sign = if cents < 0 { "-" } else { "" };
    let size = cents.unsigned_abs();
    format!("{sign}{}.{:02}", size / 100, size % 100)
}

/// The name of a customer.
pub fn name(customer: Customer) -> String {
    match customer % 4 {
        3 => format!("the_longest_name_{customer:03}"),
        _ => format!("c{customer}"),
    }
}

impl fmt::Display for Call {
    fn fmt(&self, f: &mut fmt::Formatter<'_>) -> fmt::Result {
        match *self {
            Call::Balance(owner) => write!(f, "balance {}", name(owner)),
            Call::Deposit(owner, amount) => {
                write!(f, "deposit {} {}", name(owner), money(amount))
            }
            Call::Savings(owner, amount) => {
                write!(f, "savings {} {}", name(owner), money(amount))
            }
            Call::Check(owner, amount) => write!(f, "check {} {}", name(owner), money(amount)),
            Call::Amalgamate(from, to) => write!(f, "amalgamate {} {}", name(from), name(to)),
            Call::Pay(from, to, amount) => {
                write!(f, "pay {} {} {}", name(from), name(to), money(amount))
            }
        }
    }
}

impl fmt::Display for How {
    fn fmt(&self, f: &mut fmt::Formatter<'_>) -> fmt::Result {
        f.write_str(match self {
            How::Ok => "ok",
            How::Old => "old",
            How::New => "new",
        })
    }
}

impl fmt::Display for Event {
    fn fmt(&self, f: &mut fmt::Formatter<'_>) -> fmt::Result {
        match *self {
            Event::Ask((client, request), call) => write!(f, "ask {client} {request} {call}"),
            Event::Append((client, request), call) => {
                write!(f, "append {client} {request} {call}")
            }
            Event::Sync => f.write_str("sync"),
            Event::Crash(kept) => write!(f, "crash {kept}"),
            Event::Send(replica, number) => write!(f, "send {replica} {number}"),
            Event::Resend(replica) => write!(f, "resend {replica}"),
            Event::To(replica, place) => write!(f, "to {replica} {place}"),
            Event::Ack(replica) => write!(f, "ack {replica}"),
            Event::Answer(replica, number) => write!(f, "answer {replica} {number}"),
            Event::From(replica, place) => write!(f, "from {replica} {place}"),
            Event::Take(replica, worker, index) => write!(f, "take {replica} {worker} {index}"),
            Event::Finish(replica, worker) => write!(f, "finish {replica} {worker}"),
            Event::Mark(replica, how) => write!(f, "mark {replica} {how}"),
            Event::Restart(replica) => write!(f, "restart {replica}"),
            Event::Cut(replica) => write!(f, "cut {replica}"),
            Event::Next(replica) => write!(f, "next {replica}"),
            Event::Audit(first, second) => write!(f, "audit {first} {second}"),
            Event::Have(replica) => write!(f, "have {replica}"),
            Event::Donor(replica) => write!(f, "donor {replica}"),
            Event::Give(donor, replica) => write!(f, "give {donor} {replica}"),
            Event::Adopt(replica, place) => write!(f, "adopt {replica} {place}"),
        }
    }
}
