//! What `smallbank play` does, in plain Rust: nothing proved, std alone, written for speed.
//!
//! The whole schedule is read and checked, then played over real replicas. Frames, jobs and
//! checkpoints are as in the product; frames and checkpoints are bytes. The output is made whole
//! and written once.

mod bank;
mod board;
mod checkpoint;
mod fault;
mod frame;
mod lists;
mod note;
mod printing;
mod schedule;
mod sequencer;
mod words;
mod world;

use fault::LineFault;
use std::io::{self, Read, Write};
use std::process::ExitCode;
use world::World;

fn output_of(input: &[u8]) -> Result<Vec<u8>, LineFault> {
    let schedule = schedule::read(input)?;
    let mut world = World::open(&schedule);
    let mut out = Vec::with_capacity(input.len());
    for event in &schedule.events {
        world.step(event).print(&mut out);
    }
    world.print(&mut out);
    Ok(out)
}

fn run() -> io::Result<Result<(), LineFault>> {
    let mut input = Vec::new();
    io::stdin().lock().read_to_end(&mut input)?;
    match output_of(&input) {
        Ok(output) => {
            let mut stdout = io::stdout().lock();
            stdout.write_all(&output)?;
            stdout.flush()?;
            Ok(Ok(()))
        }
        Err(fault) => Ok(Err(fault)),
    }
}

fn main() -> ExitCode {
    match run() {
        Ok(Ok(())) => ExitCode::SUCCESS,
        Ok(Err(LineFault { line, fault })) => {
            eprintln!("smallbank: line {line}: {fault}");
            ExitCode::from(1)
        }
        Err(_) => {
            eprintln!("smallbank: device");
            ExitCode::from(3)
        }
    }
}
