//! What is asked: a call of SmallBank, under a key.

use crate::customers::Name;

/// The kinds of calls. Their numbers are those of the frames.
#[derive(Clone, Copy, Debug, PartialEq, Eq)]
pub enum Kind {
    Balance = 1,
    Deposit,
    Savings,
    Amalgamate,
    Check,
    Pay,
}

/// How many kinds there are.
pub const KINDS: usize = 6;

/// An amount of money.
#[derive(Clone, Copy, Debug, PartialEq, Eq)]
pub struct Cents(pub i64);

impl Kind {
    pub const ALL: [Kind; KINDS] = [
        Kind::Balance,
        Kind::Deposit,
        Kind::Savings,
        Kind::Amalgamate,
        Kind::Check,
        Kind::Pay,
    ];

    pub fn word(self) -> &'static str {
        match self {
            Kind::Balance => "balance",
            Kind::Deposit => "deposit",
            Kind::Savings => "savings",
            Kind::Amalgamate => "amalgamate",
            Kind::Check => "check",
            Kind::Pay => "pay",
        }
    }

    /// What a call of this kind moves: the amounts of BenchBase's SmallBank.
    pub fn amount(self) -> Option<Cents> {
        match self {
            Kind::Balance | Kind::Amalgamate => None,
            Kind::Deposit => Some(Cents(130)),
            Kind::Savings => Some(Cents(2_020)),
            Kind::Check | Kind::Pay => Some(Cents(500)),
        }
    }

    /// Whether a call of this kind names two customers.
    pub fn has_taker(self) -> bool {
        matches!(self, Kind::Amalgamate | Kind::Pay)
    }
}

/// A client's number.
#[derive(Clone, Copy, Debug, PartialEq, Eq)]
pub struct Client(pub u32);

/// The number of a client's request.
#[derive(Clone, Copy, Debug, PartialEq, Eq)]
pub struct Request(pub u32);

/// What an ask is known by.
#[derive(Clone, Copy, Debug, PartialEq, Eq)]
pub struct Key {
    pub client: Client,
    pub request: Request,
}

/// A call, and the customers that it names.
#[derive(Clone, Copy, Debug)]
pub struct Call<'a> {
    pub kind: Kind,
    pub giver: &'a Name,
    pub taker: Option<&'a Name>,
}

/// What is remembered of an ask until its answer comes.
#[derive(Clone, Copy, Debug)]
pub struct Asked {
    pub key: Key,
    pub kind: Kind,
    /// Whether it is the last of its batch.
    pub is_last: bool,
}
