//! The notes on events.

use crate::bank::Reply;
use crate::printing::{push_money, push_number, push_reply};

#[derive(Clone, Copy)]
pub enum Column {
    Savings,
    Checking,
}

/// The result of one event.
#[derive(Clone, Copy)]
pub enum Note {
    Nothing,
    New(u64),
    Repeat(u64),
    Mismatch(u64),
    LogFull,
    Synced(u64),
    Crashed(u64),
    Sent(u64),
    Resent(u64),
    Accepted(u64),
    Held(u64),
    Gap(u64),
    BusyAt(u64),
    Recorded(u64),
    Odd,
    Kept(u64),
    OddAnswer(u64),
    Unknown(u64),
    Has(u64),
    Donor(u64, u64),
    Gave(u64),
    Adopted(u64),
    Behind(u64),
    Took(u64),
    HandFull,
    Finished(u64, Reply),
    Stranger(u64),
    Marked(u64),
    Busy,
    StoreFault,
    Restarted(u64),
    Cut(u64),
    Pending(u64),
    Apart(u64, u64),
    Differ(Column, u64),
    OffBooks(i64, i64),
    Same(i64, u64),
}

impl Note {
    /// Appends the note's line.
    pub fn print(self, out: &mut Vec<u8>) {
        out.extend_from_slice(self.words());
        if let Some(number) = self.number() {
            push_number(out, number);
        }
        match self {
            Note::Finished(_, reply) => {
                out.push(b' ');
                push_reply(out, reply);
            }
            Note::Apart(_, second) | Note::Donor(_, second) => {
                out.push(b' ');
                push_number(out, second);
            }
            Note::OffBooks(total, expected) => {
                push_money(out, total);
                out.push(b' ');
                push_money(out, expected);
            }
            Note::Same(total, overdrawn) => {
                push_money(out, total);
                out.push(b' ');
                push_number(out, overdrawn);
            }
            _ => {}
        }
        out.push(b'\n');
    }

    // The number that comes first, if there is one.
    fn number(self) -> Option<u64> {
        match self {
            Note::New(number)
            | Note::Repeat(number)
            | Note::Mismatch(number)
            | Note::Synced(number)
            | Note::Crashed(number)
            | Note::Sent(number)
            | Note::Resent(number)
            | Note::Accepted(number)
            | Note::Held(number)
            | Note::Gap(number)
            | Note::BusyAt(number)
            | Note::Recorded(number)
            | Note::Kept(number)
            | Note::OddAnswer(number)
            | Note::Unknown(number)
            | Note::Has(number)
            | Note::Donor(number, _)
            | Note::Gave(number)
            | Note::Adopted(number)
            | Note::Behind(number)
            | Note::Took(number)
            | Note::Finished(number, _)
            | Note::Stranger(number)
            | Note::Marked(number)
            | Note::Restarted(number)
            | Note::Cut(number)
            | Note::Pending(number)
            | Note::Apart(number, _)
            | Note::Differ(_, number) => Some(number),
            _ => None,
        }
    }

    // The words before its numbers.
    fn words(self) -> &'static [u8] {
        match self {
            Note::Nothing => b"nothing",
            Note::New(_) => b"new ",
            Note::Repeat(_) => b"repeat ",
            Note::Mismatch(_) => b"mismatch ",
            Note::LogFull => b"log full",
            Note::Synced(_) => b"synced ",
            Note::Crashed(_) => b"crashed ",
            Note::Sent(_) => b"sent ",
            Note::Resent(_) => b"resent ",
            Note::Accepted(_) => b"accepted ",
            Note::Held(_) => b"held ",
            Note::Gap(_) => b"gap ",
            Note::BusyAt(_) => b"busy ",
            Note::Recorded(_) => b"recorded ",
            Note::Odd => b"odd",
            Note::Kept(_) => b"kept ",
            Note::OddAnswer(_) => b"odd ",
            Note::Unknown(_) => b"unknown ",
            Note::Has(_) => b"has ",
            Note::Donor(..) => b"donor ",
            Note::Gave(_) => b"gave ",
            Note::Adopted(_) => b"adopted ",
            Note::Behind(_) => b"behind ",
            Note::Took(_) => b"took ",
            Note::HandFull => b"hand full",
            Note::Finished(..) => b"finished ",
            Note::Stranger(_) => b"stranger ",
            Note::Marked(_) => b"marked ",
            Note::Busy => b"busy",
            Note::StoreFault => b"store fault",
            Note::Restarted(_) => b"restarted ",
            Note::Cut(_) => b"cut ",
            Note::Pending(_) => b"pending ",
            Note::Apart(..) => b"apart ",
            Note::Differ(Column::Savings, _) => b"differ savings ",
            Note::Differ(Column::Checking, _) => b"differ checking ",
            Note::OffBooks(..) => b"off books ",
            Note::Same(..) => b"same ",
        }
    }
}
