//! A log of asks, and the bank that executes it: the number of each key, the calls, replies, columns.

use crate::frames::{Frame, Outcome, read_frame};
use crate::op::{OP_COWNS, Op};
use crate::sequencer::{Asked, Sequencer};
use crate::shared::bank::Bank;
use crate::shared::input::{self, Call, Key, LineFault, lines};
use crate::shared::output::{Reply, push_rows};

/// A bank without nodes, workers or a board: it executes each call as it is numbered.
pub struct Books {
    bank: Bank<'static>,
    sequencer: Sequencer,
    // By cown: the savings of customer i, then the checking balance.
    balances: Vec<i64>,
    replies: Vec<Reply>,
}

impl Books {
    /// Opens a bank by a text with nothing behind its line `begin`. The text stays to the end.
    pub fn open(text: Vec<u8>) -> Result<Books, LineFault> {
        let mut lines = lines(Vec::leak(text)).zip(1..);
        let bank = Bank::read(&mut lines)?;
        if let Some((_, line)) = lines.next() {
            let fault = input::Fault::BadLine;
            return Err(LineFault { line, fault });
        }
        let rows = bank.savings.iter().zip(&bank.checking);
        Ok(Books {
            balances: rows.flat_map(|(s, c)| [*s, *c]).collect(),
            bank,
            sequencer: Sequencer::default(),
            replies: Vec::new(),
        })
    }

    /// Numbers an ask, and executes it if it is new.
    pub fn ask(&mut self, key: Key, call: &Call) -> Asked {
        let asked = self.sequencer.ask(key, call);
        if let Asked::New(_) = asked {
            let reply = self.perform(Op::resolve(&self.bank.places, call));
            self.replies.push(reply);
        }
        asked
    }

    fn perform(&mut self, op: Op) -> Reply {
        let cowns = op.cowns();
        let mut held = [0; OP_COWNS];
        for (cown, held) in cowns.as_slice().iter().zip(&mut held) {
            *held = self.balances[*cown as usize];
        }
        let (reply, held) = op.perform(held);
        for (cown, held) in cowns.as_slice().iter().zip(held) {
            self.balances[*cown as usize] = held;
        }
        reply
    }

    /// Takes the asks of a batch. Whether it is one: not empty, asks alone, each with a new key.
    pub fn take_batch(&mut self, body: &[u8]) -> bool {
        let mut rest = body;
        while !rest.is_empty() {
            let Ok((Frame::Ask { key, call }, behind)) = read_frame(rest) else {
                return false;
            };
            let Asked::New(_) = self.ask(key, &call) else {
                return false;
            };
            rest = behind;
        }
        !body.is_empty()
    }

    pub fn outcome(&self, asked: Asked) -> Outcome {
        match asked {
            Asked::New(number) | Asked::Repeat(number) => {
                Outcome::Replied(self.replies[number as usize - 1])
            }
            Asked::Mismatch => Outcome::Mismatch,
            Asked::Full => Outcome::LogFull,
        }
    }

    /// How many entries the log has.
    pub fn length(&self) -> usize {
        self.replies.len()
    }

    pub fn push_state(&self, out: &mut Vec<u8>) {
        let balances = self.balances.chunks_exact(2);
        let rows = self.bank.names.iter().zip(balances);
        push_rows(out, rows.map(|(name, held)| (*name, held[0], held[1])));
    }
}
