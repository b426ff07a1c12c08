//! What is answered to an ask.

use crate::ask::Kind;

#[derive(Clone, Copy, Debug, PartialEq, Eq)]
pub enum Reply {
    Shown,
    Done,
    Penalised,
    NoCustomer,
    SameCustomer,
    Negative,
    WouldOverdraw,
    OverLimit,
    Mismatch,
    LogFull,
}

/// How many kinds of replies there are.
pub const REPLIES: usize = 10;

// Those that have a code in frames stand before these.
const CODES: usize = 8;

impl Reply {
    pub const ALL: [Reply; REPLIES] = [
        Reply::Shown,
        Reply::Done,
        Reply::Penalised,
        Reply::NoCustomer,
        Reply::SameCustomer,
        Reply::Negative,
        Reply::WouldOverdraw,
        Reply::OverLimit,
        Reply::Mismatch,
        Reply::LogFull,
    ];

    pub fn words(self) -> &'static str {
        match self {
            Reply::Shown => "shown",
            Reply::Done => "done",
            Reply::Penalised => "penalised",
            Reply::NoCustomer => "no customer",
            Reply::SameCustomer => "same customer",
            Reply::Negative => "negative",
            Reply::WouldOverdraw => "would overdraw",
            Reply::OverLimit => "over limit",
            Reply::Mismatch => "mismatch",
            Reply::LogFull => "log full",
        }
    }

    /// The reply with this code in frames.
    pub fn of_code(code: u8) -> Option<Reply> {
        Reply::ALL[..CODES].get(usize::from(code)).copied()
    }

    /// The reply that a store says in words: `shown` has a total in cents behind it.
    pub fn of_words(text: &[u8]) -> Option<Reply> {
        if let Some(total) = text.strip_prefix(b"shown ") {
            return str::from_utf8(total)
                .ok()
                .and_then(|total| total.parse::<i64>().ok())
                .map(|_| Reply::Shown);
        }
        Reply::ALL[Reply::Done as usize..]
            .iter()
            .find(|reply| reply.words().as_bytes() == text)
            .copied()
    }

    /// Whether a call of this kind may be answered so; nobody asks for an amount below 0.
    pub fn fits(self, kind: Kind) -> bool {
        match self {
            Reply::Shown => kind == Kind::Balance,
            Reply::Done | Reply::OverLimit => kind != Kind::Balance,
            Reply::Penalised => kind == Kind::Check,
            Reply::SameCustomer => kind.has_taker(),
            Reply::Negative => false,
            Reply::WouldOverdraw => matches!(kind, Kind::Savings | Kind::Pay),
            Reply::NoCustomer | Reply::Mismatch | Reply::LogFull => true,
        }
    }
}
