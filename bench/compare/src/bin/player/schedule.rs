//! The text of a schedule.

use crate::bank::{Call, Directory};
use crate::fault::{Fault, LineFault};
use crate::words::{call, exactly, lines, money, name, number, numbers, words};

const NODES: u32 = 16;
const WORKERS: u32 = 16;
const CUSTOMERS: usize = 65_536;

/// How a mark's put ends: it works, or it fails and leaves the old or the new bytes.
#[derive(Clone, Copy)]
pub enum How {
    Ok,
    Old,
    New,
}

/// One event. Numbers are as the line has them.
#[derive(Clone, Copy)]
pub enum Event<'a> {
    Ask {
        key: (u32, u32),
        call: Call<'a>,
    },
    Append {
        key: (u32, u32),
        call: Call<'a>,
    },
    Sync,
    /// Of the calls that aren't synced, those up to the number `kept` stay.
    Crash {
        kept: u32,
    },
    Send {
        replica: u32,
        number: u32,
    },
    Resend {
        replica: u32,
    },
    To {
        replica: u32,
        place: u32,
    },
    Ack {
        replica: u32,
    },
    Answer {
        replica: u32,
        number: u32,
    },
    From {
        replica: u32,
        place: u32,
    },
    Take {
        replica: u32,
        worker: u32,
        index: u32,
    },
    Finish {
        replica: u32,
        worker: u32,
    },
    Mark {
        replica: u32,
        how: How,
    },
    Restart {
        replica: u32,
    },
    Cut {
        replica: u32,
    },
    Next {
        replica: u32,
    },
    Audit {
        first: u32,
        second: u32,
    },
    Have {
        replica: u32,
    },
    Donor {
        replica: u32,
    },
    Give {
        donor: u32,
        replica: u32,
    },
    Adopt {
        replica: u32,
        place: u32,
    },
}

/// A schedule without fault.
pub struct Schedule<'a> {
    pub nodes: u32,
    pub workers: u32,
    pub directory: Directory<'a>,
    /// For each customer savings, then checking.
    pub opening: Vec<i64>,
    pub events: Vec<Event<'a>>,
}

/// Reads a schedule, or answers its first fault.
pub fn read(text: &[u8]) -> Result<Schedule<'_>, LineFault> {
    let mut lines = lines(text).zip(1..);
    let (first, _) = lines.next().unwrap_or_default();
    let (nodes, workers) = head(first).ok_or(Fault::BadHead.at(1))?;
    let mut schedule = Schedule {
        nodes,
        workers,
        directory: Directory::default(),
        opening: Vec::new(),
        events: Vec::new(),
    };
    schedule.read_opening(&mut lines)?;
    for (text, line) in lines {
        let event = event(text).map_err(|fault| fault.at(line))?;
        schedule.events.push(event);
    }
    Ok(schedule)
}

fn head(line: &[u8]) -> Option<(u32, u32)> {
    let words = exactly(words(line), Fault::BadHead).ok()?;
    let [b"nodes", nodes, b"workers", workers] = words else {
        return None;
    };
    let (nodes, workers) = (number(nodes).ok()?, number(workers).ok()?);
    let is_in_range = (1..=NODES).contains(&nodes) && (1..=WORKERS).contains(&workers);
    is_in_range.then_some((nodes, workers))
}

impl<'a> Schedule<'a> {
    fn read_opening(
        &mut self,
        lines: &mut impl Iterator<Item = (&'a [u8], usize)>,
    ) -> Result<(), LineFault> {
        for (text, line) in lines {
            if text == b"begin" {
                return Ok(());
            }
            self.read_customer(text).map_err(|fault| fault.at(line))?;
        }
        // The head comes before the customers.
        Err(Fault::NoBegin.at(self.directory.names.len() + 2))
    }

    fn read_customer(&mut self, line: &'a [u8]) -> Result<(), Fault> {
        let [owner, savings, checking] = exactly(words(line), Fault::BadLine)?;
        let owner = name(owner)?;
        if self.directory.contains(owner) {
            return Err(Fault::DoubleName);
        }
        let (savings, checking) = (money(savings)?, money(checking)?);
        if savings < 0 {
            return Err(Fault::NegativeSavings);
        }
        if self.directory.names.len() == CUSTOMERS {
            return Err(Fault::TooManyCustomers);
        }
        self.directory.push(owner);
        self.opening.extend([savings, checking]);
        Ok(())
    }
}

fn event(line: &[u8]) -> Result<Event<'_>, Fault> {
    let mut words = words(line);
    let verb = words.next().unwrap_or_default();
    Ok(match verb {
        b"ask" => asked(words).map(|(key, call)| Event::Ask { key, call })?,
        b"append" => asked(words).map(|(key, call)| Event::Append { key, call })?,
        b"sync" => numbers(words).map(|[]| Event::Sync)?,
        b"crash" => numbers(words).map(|[kept]| Event::Crash { kept })?,
        b"send" => numbers(words).map(|[replica, number]| Event::Send { replica, number })?,
        b"resend" => numbers(words).map(|[replica]| Event::Resend { replica })?,
        b"to" => numbers(words).map(|[replica, place]| Event::To { replica, place })?,
        b"ack" => numbers(words).map(|[replica]| Event::Ack { replica })?,
        b"answer" => numbers(words).map(|[replica, number]| Event::Answer { replica, number })?,
        b"from" => numbers(words).map(|[replica, place]| Event::From { replica, place })?,
        b"take" => numbers(words).map(|[replica, worker, index]| Event::Take {
            replica,
            worker,
            index,
        })?,
        b"finish" => numbers(words).map(|[replica, worker]| Event::Finish { replica, worker })?,
        b"mark" => mark(words)?,
        b"restart" => numbers(words).map(|[replica]| Event::Restart { replica })?,
        b"cut" => numbers(words).map(|[replica]| Event::Cut { replica })?,
        b"next" => numbers(words).map(|[replica]| Event::Next { replica })?,
        b"audit" => numbers(words).map(|[first, second]| Event::Audit { first, second })?,
        b"have" => numbers(words).map(|[replica]| Event::Have { replica })?,
        b"donor" => numbers(words).map(|[replica]| Event::Donor { replica })?,
        b"give" => numbers(words).map(|[donor, replica]| Event::Give { donor, replica })?,
        b"adopt" => numbers(words).map(|[replica, place]| Event::Adopt { replica, place })?,
        _ => return Err(Fault::UnknownEvent),
    })
}

type Asked<'a> = ((u32, u32), Call<'a>);

fn asked<'a>(mut words: impl Iterator<Item = &'a [u8]>) -> Result<Asked<'a>, Fault> {
    let (Some(client), Some(request)) = (words.next(), words.next()) else {
        return Err(Fault::WrongWords);
    };
    let key = (number(client)?, number(request)?);
    Ok((key, call(words)?))
}

fn mark<'a>(words: impl Iterator<Item = &'a [u8]>) -> Result<Event<'a>, Fault> {
    let [replica, how] = exactly(words, Fault::WrongWords)?;
    let replica = number(replica)?;
    let how = match how {
        b"ok" => How::Ok,
        b"old" => How::Old,
        b"new" => How::New,
        _ => return Err(Fault::BadNumber),
    };
    Ok(Event::Mark { replica, how })
}
