//! Makes schedules.
//!
//! `schedules random SEED COUNT FOLDER` writes this many, as `N.schedule`. Beside each it writes
//! what the definitions expect: `N.output` for standard output or, if a line is at fault, `N.fault`
//! for standard error. `schedules restarts SEED COUNT FOLDER` makes this many short ones without
//! fault. It writes each with restarts, marks, cuts, adoptions and crashes at every place, as
//! `N.schedule` and `N.output` too. Half as many more have no append, and a crash at every place:
//! it fails if one of them doesn't end as it does without the crash. Both print how often each
//! event had each note, in those without fault.
//! `schedules long EVENTS NODES` writes a long one without fault to standard output.

mod crashes;
mod event;
mod faults;
mod ledger;
mod long;
mod machine;
mod making;
#[path = "../../random.rs"]
mod random;
mod restarts;
mod tally;

use crashes::Pair;
use event::{Event, money, name};
use ledger::{Ledger, Rows};
use machine::{Machine, Note};
use making::Maker;
use random::Random;
use std::error::Error;
use std::io::{self, BufWriter, Write};
use std::path::Path;
use std::{env, fs};
use tally::Tally;

// For the long schedule. Its maker draws three numbers more than it did before sequencers crashed, so
// it begins three numbers earlier: what is measured stays the same schedule.
const SEED: u64 = 5u64.wrapping_sub(3u64.wrapping_mul(random::STEP));

const NODES: u32 = 16;
const WORKERS: u32 = 16;
const CUSTOMERS: u32 = 6;
const EVENTS: u32 = 200;
// More entries than a replica holds back.
const AHEAD: u32 = 80;

// One of this many schedules has too many customers.
const TOO_MANY: u32 = 5_000;

/// How large a schedule may be.
struct Limits {
    nodes: u32,
    workers: u32,
    events: u32,
    ahead: u32,
    // Whether there are calls that aren't synced at once.
    appends: bool,
}

const LARGE: Limits = Limits {
    nodes: NODES,
    workers: WORKERS,
    events: EVENTS,
    ahead: AHEAD,
    appends: true,
};

const SHORT: Limits = Limits {
    nodes: 2,
    workers: 3,
    events: 24,
    ahead: 0,
    appends: true,
};

// Longer, so that the sequencer was told more by the time it crashes.
const SYNCED: Limits = Limits {
    events: 60,
    appends: false,
    ..SHORT
};

/// The parts of a schedule.
struct Schedule {
    nodes: u32,
    workers: u32,
    opening: Rows,
    events: Vec<Event>,
}

impl Schedule {
    fn machine(&self) -> Machine {
        Machine::open(self.opening.len(), self.nodes, self.workers)
    }
}

/// The lines of a schedule, its output by the definitions, and how often each note came.
struct Made {
    lines: Vec<String>,
    customers: usize,
    notes: String,
    // Where each replica is at the end.
    states: String,
    tally: Tally,
}

impl Made {
    fn output(&self) -> String {
        format!("{}{}", self.notes, self.states)
    }
}

fn drawn(mut random: Random, limits: &Limits) -> Schedule {
    let nodes = 1 + random.below(limits.nodes);
    let workers = 1 + random.below(limits.workers);
    let customers = random.below(CUSTOMERS + 1) as usize;
    let count = random.below(limits.events + 1);
    let mut maker = Maker::new(random);
    if !limits.appends {
        maker = maker.without_appends();
    }
    let opening: Rows = (0..customers)
        .map(|_| (maker.amount().max(0), maker.amount()))
        .collect();
    let mut machine = Machine::open(customers, nodes, workers);
    let ahead = *maker.random.pick(&[0, 0, 0, 0, limits.ahead]);
    let mut events = maker.burst(customers, ahead);
    for event in &events {
        machine.step(*event);
    }
    for _ in 0..count {
        let event = maker.event(&machine);
        events.push(event);
        machine.step(event);
    }
    Schedule {
        nodes,
        workers,
        opening,
        events,
    }
}

fn played(schedule: &Schedule, events: &[Event]) -> Made {
    let Schedule {
        nodes,
        workers,
        opening,
        ..
    } = schedule;
    let mut lines = vec![format!("nodes {nodes} workers {workers}")];
    lines.extend(opening.iter().zip(0..).map(|((savings, checking), place)| {
        format!("{} {} {}", name(place), money(*savings), money(*checking))
    }));
    lines.push("begin".to_owned());
    lines.extend(events.iter().map(Event::to_string));
    let customers = opening.len();
    let mut machine = schedule.machine();
    let mut tally = Tally::default();
    let notes: Vec<Note> = events
        .iter()
        .map(|event| tally.step(&mut machine, *event))
        .collect();
    let ledger = Ledger::new(opening.clone(), machine.log.iter().map(|(_, call)| *call));
    Made {
        lines,
        customers,
        notes: notes.iter().map(|note| note.text(&ledger) + "\n").collect(),
        states: states(&machine, &ledger),
        tally,
    }
}

fn states(machine: &Machine, ledger: &Ledger) -> String {
    let states = machine.nodes.iter().zip(0..).map(|(node, replica)| {
        let head = format!("replica {replica} length {}", node.length);
        match node.open.is_empty() {
            true => format!("{head} idle\n{}", ledger.state(node.length)),
            false => format!("{head} busy\n"),
        }
    });
    states.collect()
}

// Writes a schedule and what is expected of it. A third has a fault, and counts nothing.
fn write_random(seed: u64, folder: &Path, number: u32, tally: &mut Tally) -> io::Result<()> {
    let mut random = Random::new(seed ^ u64::from(number) << 32);
    let write = |ending, text| fs::write(folder.join(format!("{number}.{ending}")), text);
    if number.is_multiple_of(TOO_MANY) {
        let (text, fault) = faults::too_many();
        write("schedule", text)?;
        return write("fault", fault);
    }
    let schedule = drawn(Random::new(seed ^ u64::from(number)), &LARGE);
    let made = played(&schedule, &schedule.events);
    if random.percent(33) {
        let (text, fault) = faults::spoil(&mut random, made.lines, made.customers);
        write("schedule", text)?;
        return write("fault", fault);
    }
    // A last line needs no line feed.
    let end = if random.percent(10) { "" } else { "\n" };
    write("schedule", made.lines.join("\n") + end)?;
    write("output", made.output())?;
    tally.add(made.tally);
    Ok(())
}

/// Where schedules without fault go, numbered from 0.
struct Folder<'a> {
    path: &'a Path,
    number: u32,
    tally: Tally,
}

impl Folder<'_> {
    fn write(&mut self, made: Made) -> io::Result<()> {
        let path = |ending| self.path.join(format!("{}.{ending}", self.number));
        fs::write(path("schedule"), made.lines.join("\n") + "\n")?;
        fs::write(path("output"), made.output())?;
        self.tally.add(made.tally);
        self.number += 1;
        Ok(())
    }
}

// Writes this many schedules, each with a restart, an adoption and a crash at every place.
fn write_restarts(seed: u64, folder: &mut Folder, count: u32) -> io::Result<()> {
    for base in 0..count {
        let mut random = Random::new(seed ^ u64::from(base) << 32);
        let schedule = drawn(Random::new(seed ^ u64::from(base)), &SHORT);
        let replica = random.below(schedule.nodes);
        let machine = schedule.machine();
        for events in restarts::everywhere(&schedule.events, machine, replica, &mut random) {
            folder.write(played(&schedule, &events))?;
        }
    }
    Ok(())
}

// Writes this many schedules without appends, each with a crash at every place, or answers which
// events end otherwise than without it.
fn write_crashes(seed: u64, folder: &mut Folder, count: u32) -> Result<(), Box<dyn Error>> {
    for base in 0..count {
        let schedule = drawn(Random::new(seed ^ u64::from(base)), &SYNCED);
        for Pair { crashed, without } in crashes::everywhere(&schedule.events, &schedule.machine())
        {
            let made = played(&schedule, &crashed);
            if made.states != played(&schedule, &without).states {
                let lines = made.lines.join("\n");
                return Err(format!("this doesn't end as without its crash:\n{lines}").into());
            }
            folder.write(made)?;
        }
    }
    Ok(())
}

fn main() -> Result<(), Box<dyn Error>> {
    let words: Vec<String> = env::args().skip(1).collect();
    match words.iter().map(String::as_str).collect::<Vec<_>>()[..] {
        ["random", seed, count, folder] => {
            fs::create_dir_all(folder)?;
            let mut tally = Tally::default();
            for number in 0..count.parse()? {
                write_random(seed.parse()?, Path::new(folder), number, &mut tally)?;
            }
            print!("{tally}");
        }
        ["restarts", seed, count, folder] => {
            fs::create_dir_all(folder)?;
            let (seed, count) = (seed.parse()?, count.parse()?);
            let mut folder = Folder {
                path: Path::new(folder),
                number: 0,
                tally: Tally::default(),
            };
            write_restarts(seed, &mut folder, count)?;
            write_crashes(seed, &mut folder, count / 2)?;
            print!("{}", folder.tally);
        }
        ["long", events, nodes] => {
            let mut out = BufWriter::new(io::stdout().lock());
            // The measured schedule has no payments, so it compares with those from before there
            // were any.
            let mut maker = Maker::new(Random::new(SEED)).without_payments();
            long::write(&mut out, &mut maker, events.parse()?, nodes.parse()?)?;
            out.flush()?;
        }
        _ => {
            return Err(
                "usage: schedules random SEED COUNT FOLDER, schedules restarts SEED COUNT FOLDER, \
                 or schedules long EVENTS NODES"
                    .into(),
            );
        }
    }
    Ok(())
}
