//! What `smallbank run --nodes N --workers W` does, in plain Rust.
//!
//! `plain_nodes NODES WORKERS < INPUT`. Node 0 is this thread. It hands jobs to worker threads over
//! a bounded queue and takes the results back over a channel; without workers it executes the jobs
//! itself. The other nodes are threads, each with a bank of its own, fed with frames. At the end
//! each must agree with node 0.

use plain_nodes::Size;
use plain_nodes::running::{Fault, output_of};
use std::env;
use std::io::{self, Read, Write};
use std::process::ExitCode;

fn size() -> Option<Size> {
    let mut words = env::args().skip(1);
    let nodes = words.next()?.parse().ok()?;
    let workers = words.next()?.parse().ok()?;
    let is_known = (1..=16).contains(&nodes) && workers <= 16 && words.next().is_none();
    is_known.then_some(Size { nodes, workers })
}

fn run(size: Size) -> Result<(), Fault> {
    let mut input = Vec::new();
    io::stdin().lock().read_to_end(&mut input)?;
    let (output, answers) = output_of(&input, size)?;
    let mut stdout = io::stdout().lock();
    stdout.write_all(&output)?;
    stdout.flush()?;
    answers.tell();
    Ok(())
}

fn main() -> ExitCode {
    let Some(size) = size() else {
        eprintln!("usage: plain_nodes 1..16 0..16 < INPUT");
        return ExitCode::from(2);
    };
    match run(size) {
        Ok(()) => ExitCode::SUCCESS,
        Err(fault) => {
            eprintln!("smallbank: {fault}");
            ExitCode::from(fault.status())
        }
    }
}
