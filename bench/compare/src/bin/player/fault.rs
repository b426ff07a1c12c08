//! Why a schedule is refused.

use std::fmt;

#[derive(Debug, Clone, Copy)]
pub enum Fault {
    BadHead,
    BadLine,
    BadName,
    DoubleName,
    BadMoney,
    NegativeSavings,
    TooManyCustomers,
    NoBegin,
    UnknownEvent,
    WrongWords,
    BadNumber,
    UnknownVerb,
}

impl Fault {
    /// This fault, at a line.
    pub fn at(self, line: usize) -> LineFault {
        LineFault { line, fault: self }
    }
}

impl fmt::Display for Fault {
    fn fmt(&self, f: &mut fmt::Formatter<'_>) -> fmt::Result {
        f.write_str(match self {
            Fault::BadHead => "bad head",
            Fault::BadLine => "bad line",
            Fault::BadName => "bad name",
            Fault::DoubleName => "double name",
            Fault::BadMoney => "bad money",
            Fault::NegativeSavings => "negative savings",
            Fault::TooManyCustomers => "too many customers",
            Fault::NoBegin => "no begin",
            Fault::UnknownEvent => "unknown event",
            Fault::WrongWords => "wrong words",
            Fault::BadNumber => "bad number",
            Fault::UnknownVerb => "unknown verb",
        })
    }
}

/// The first line at fault.
#[derive(Debug)]
pub struct LineFault {
    pub line: usize,
    pub fault: Fault,
}
