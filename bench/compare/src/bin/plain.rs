//! What `smallbank run` does, in plain Rust: nothing proved, std alone, written for speed.
//!
//! One buffer for the input, a hash map from names to places, columns of cents, one buffer for the
//! output. Calls are executed as they are read. If a line is at fault, the output is dropped.
//!
//! The maps are std's, whose hasher keeps clients from choosing keys that collide. The product's
//! hashers have fixed seeds and don't.
//!
//! Requests that have a key are remembered; with the word `every-line` all are, as the product does.

#[path = "../shared/mod.rs"]
mod shared;

use shared::bank::Bank;
use shared::input::{Call, Key, LineFault, asking, lines};
use shared::output::{Answers, Reply, push_mismatch, push_reply, push_rows};
use shared::{LIMIT, LOG_CALLS, PENALTY};
use std::collections::HashMap;
use std::env;
use std::io::{self, Read, Write};
use std::process::ExitCode;

/// A numbered request.
struct Numbered<'a> {
    number: u32,
    call: Call<'a>,
    reply: Reply,
}

// ---- the procedures

impl Bank<'_> {
    #[inline]
    fn carry_out(&mut self, call: &Call) -> Reply {
        self.try_carry_out(call).unwrap_or(Reply::NoCustomer)
    }

    // `None` if a customer isn't in the bank.
    #[inline]
    fn try_carry_out(&mut self, call: &Call) -> Option<Reply> {
        let place = |name: &[u8]| self.places.get(name).copied();
        let reply = match *call {
            Call::Balance(name) => {
                let at = place(name)?;
                Reply::Shown(self.savings[at] + self.checking[at])
            }
            Call::Deposit(name, amount) => {
                let at = place(name)?;
                let sum = self.checking[at] + amount;
                if amount < 0 {
                    Reply::Negative
                } else if sum > LIMIT {
                    Reply::OverLimit
                } else {
                    self.checking[at] = sum;
                    Reply::Done
                }
            }
            Call::Savings(name, amount) => {
                let at = place(name)?;
                let sum = self.savings[at] + amount;
                if sum < 0 {
                    Reply::WouldOverdraw
                } else if sum > LIMIT {
                    Reply::OverLimit
                } else {
                    self.savings[at] = sum;
                    Reply::Done
                }
            }
            Call::Check(name, amount) => {
                let at = place(name)?;
                let is_short = self.savings[at] + self.checking[at] < amount;
                let left = self.checking[at] - amount - if is_short { PENALTY } else { 0 };
                if amount < 0 {
                    Reply::Negative
                } else if left < -LIMIT {
                    Reply::OverLimit
                } else {
                    self.checking[at] = left;
                    if is_short {
                        Reply::Penalised
                    } else {
                        Reply::Done
                    }
                }
            }
            Call::Amalgamate(from, to) => {
                let (from, to) = (place(from)?, place(to)?);
                let sum = self.checking[to] + self.savings[from] + self.checking[from];
                if from == to {
                    Reply::SameCustomer
                } else if sum.abs() > LIMIT {
                    Reply::OverLimit
                } else {
                    self.savings[from] = 0;
                    self.checking[from] = 0;
                    self.checking[to] = sum;
                    Reply::Done
                }
            }
            Call::Pay(from, to, amount) => {
                let (from, to) = (place(from)?, place(to)?);
                self.pay(from, to, amount)
            }
        };
        Some(reply)
    }

    #[inline]
    fn pay(&mut self, from: usize, to: usize, amount: i64) -> Reply {
        if from == to {
            Reply::SameCustomer
        } else if amount < 0 {
            Reply::Negative
        } else if self.checking[from] < amount {
            Reply::WouldOverdraw
        } else if self.checking[to] + amount > LIMIT {
            Reply::OverLimit
        } else {
            self.checking[from] -= amount;
            self.checking[to] += amount;
            Reply::Done
        }
    }
}

// ---- a run

/// Which requests are remembered.
#[derive(Clone, Copy, PartialEq, Eq)]
enum Memory {
    Keyed,
    EveryLine,
}

/// Gives a request without a key one of client 0, if every line is remembered.
struct Keys {
    memory: Memory,
    running: u32,
}

impl Keys {
    #[inline]
    fn key_of(&mut self, key: Option<Key>) -> Option<Key> {
        if key.is_none() && self.memory == Memory::EveryLine {
            self.running += 1;
            return Some((0, self.running));
        }
        key
    }
}

fn output_of(input: &[u8], memory: Memory) -> Result<(Vec<u8>, Answers), LineFault> {
    let mut lines = lines(input).zip(1..);
    let mut keys = Keys { memory, running: 0 };
    let mut bank = Bank::read(&mut lines)?;
    let mut requests: HashMap<Key, Numbered> = HashMap::new();
    let mut out = Vec::new();
    let mut length = 0;
    let mut answers = Answers::default();
    for (text, line) in lines {
        let (key, call) = asking(text).map_err(|fault| LineFault { line, fault })?;
        let key = keys.key_of(key);
        answers.lines += 1;
        if let Some(first) = key.and_then(|key| requests.get(&key)) {
            if first.call == call {
                push_reply(&mut out, first.number, first.reply);
            } else {
                push_mismatch(&mut out, first.number);
                answers.mismatches += 1;
            }
        } else if length == LOG_CALLS {
            out.extend_from_slice(b"log full\n");
            answers.log_full += 1;
        } else {
            length += 1;
            let reply = bank.carry_out(&call);
            push_reply(&mut out, length, reply);
            if let Some(key) = key {
                requests.insert(
                    key,
                    Numbered {
                        number: length,
                        call,
                        reply,
                    },
                );
            }
        }
    }
    let balances = bank.savings.iter().zip(&bank.checking);
    let rows = bank.names.iter().zip(balances);
    push_rows(
        &mut out,
        rows.map(|(name, (savings, checking))| (*name, *savings, *checking)),
    );
    Ok((out, answers))
}

fn run(memory: Memory) -> io::Result<Result<(), LineFault>> {
    let mut input = Vec::new();
    io::stdin().lock().read_to_end(&mut input)?;
    match output_of(&input, memory) {
        Ok((output, answers)) => {
            let mut stdout = io::stdout().lock();
            stdout.write_all(&output)?;
            stdout.flush()?;
            answers.tell();
            Ok(Ok(()))
        }
        Err(fault) => Ok(Err(fault)),
    }
}

fn main() -> ExitCode {
    let memory = match env::args().nth(1).as_deref() {
        Some("every-line") => Memory::EveryLine,
        _ => Memory::Keyed,
    };
    match run(memory) {
        Ok(Ok(())) => ExitCode::SUCCESS,
        Ok(Err(LineFault { line, fault })) => {
            eprintln!("smallbank: line {line}: {fault}");
            ExitCode::from(1)
        }
        Err(_) => {
            eprintln!("smallbank: device");
            ExitCode::from(3)
        }
    }
}
