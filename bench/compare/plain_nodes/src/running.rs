//! A run: from an input to its output.

use crate::Size;
use crate::board::Board;
use crate::crew::{Bench, Crew, CrewGone, InPlace, Threads};
use crate::follower::{Followers, Strayed};
use crate::log::{Log, Standing};
use crate::node::Node;
use crate::shared::bank::Bank;
use crate::shared::input::{LineFault, lines};
use crate::shared::output::{Answers, push_mismatch, push_reply, push_rows};
use std::fmt;
use std::io;
use std::thread;

/// Why a run fails.
pub enum Fault {
    Input(LineFault),
    Strayed(usize),
    CrewGone,
    Device,
}

impl Fault {
    /// The exit status.
    pub fn status(&self) -> u8 {
        match self {
            Fault::Input(_) => 1,
            _ => 3,
        }
    }
}

impl fmt::Display for Fault {
    fn fmt(&self, f: &mut fmt::Formatter<'_>) -> fmt::Result {
        match self {
            Fault::Input(LineFault { line, fault }) => write!(f, "line {line}: {fault}"),
            Fault::Strayed(number) => write!(f, "node {number} strayed"),
            Fault::CrewGone => f.write_str("crew gone"),
            Fault::Device => f.write_str("device"),
        }
    }
}

impl From<LineFault> for Fault {
    fn from(fault: LineFault) -> Self {
        Fault::Input(fault)
    }
}

impl From<Strayed> for Fault {
    fn from(Strayed(number): Strayed) -> Self {
        Fault::Strayed(number)
    }
}

impl From<CrewGone> for Fault {
    fn from(_: CrewGone) -> Self {
        Fault::CrewGone
    }
}

impl From<io::Error> for Fault {
    fn from(_: io::Error) -> Self {
        Fault::Device
    }
}

/// The output of a run of this input, and how its requests were answered.
pub fn output_of(input: &[u8], size: Size) -> Result<(Vec<u8>, Answers), Fault> {
    let mut lines = lines(input).zip(1..);
    let bank = Bank::read(&mut lines)?;
    let log = Log::read(lines)?;
    let mut node = Node::open(&bank);
    node.board.reserve(log.calls.len());
    let bench = Bench::default();
    thread::scope(|scope| -> Result<(), Fault> {
        let mut followers = Followers::start(scope, &bank, size.nodes, log.calls.len())?;
        if size.workers == 0 {
            carry_out(&log, &mut node, &mut followers, &mut InPlace)?;
        } else {
            let mut crew = Threads::start(scope, &bench, size.workers)?;
            carry_out(&log, &mut node, &mut followers, &mut crew)?;
        }
        Ok(followers.join(&node)?)
    })?;
    let mut output = Vec::new();
    let answers = push_answers(&mut output, &log, &node.board);
    push_state(&mut output, &bank, &node.board);
    Ok((output, answers))
}

/// The rows of an idle board, and their total.
pub fn push_state(output: &mut Vec<u8>, bank: &Bank, board: &Board) {
    let balances = board.balances().chunks_exact(2);
    let rows = bank.names.iter().zip(balances);
    push_rows(output, rows.map(|(name, held)| (*name, held[0], held[1])));
}

// Executes the log on node 0, while the others get it too.
fn carry_out(
    log: &Log,
    node: &mut Node,
    followers: &mut Followers,
    crew: &mut impl Crew,
) -> Result<(), CrewGone> {
    for (call, number) in log.calls.iter().zip(1..) {
        followers.feed(number, call);
        node.hear(call, crew)?;
    }
    followers.flush();
    node.settle(crew)
}

fn push_answers(output: &mut Vec<u8>, log: &Log, board: &Board) -> Answers {
    let mut answers = Answers::default();
    for standing in &log.standings {
        match *standing {
            Standing::Numbered(number) => {
                if let Some(reply) = board.reply(number) {
                    push_reply(output, number, reply);
                }
            }
            Standing::Mismatch(number) => {
                push_mismatch(output, number);
                answers.mismatches += 1;
            }
            Standing::Full => {
                output.extend_from_slice(b"log full\n");
                answers.log_full += 1;
            }
        }
    }
    answers.lines = log.standings.len();
    answers
}
