//! Asks a server that listens on this machine, and prints how many nanoseconds it took.
//!
//! `load --port P --asks N --flush F --customers C [--seed S] [--outcomes FILE]`. The asks are
//! those of the workload of this seed. Client 0 asks the lines without a key, with their running
//! number. After each F of them comes a flush, in the same write. Their outcomes are read before
//! the next write. The file gets all outcomes as they came.

use plain_nodes::frames::{Frame, OUTCOME_FRAME, push_frame, read_frame};
use plain_nodes::shared::input::{Key, asking, lines};
use plain_nodes::workload::Workload;
use std::error::Error;
use std::io::{Read, Write};
use std::net::{Ipv4Addr, TcpStream};
use std::ops::Range;
use std::time::{Duration, Instant};
use std::{env, fs};

const USAGE: &str =
    "usage: load --port P --asks N --flush F --customers C [--seed S] [--outcomes FILE]";
const SEED: u64 = 20;

type Answer<T> = Result<T, Box<dyn Error>>;

/// What is sent; each batch ends with a flush.
struct Load {
    frames: Vec<u8>,
    batches: Vec<Range<usize>>,
    keys: Vec<Key>,
}

impl Load {
    fn new(workload: &Workload, flush: usize) -> Answer<Load> {
        let mut text = Vec::new();
        workload.write(&mut text)?;
        // After the customers and the line `begin`.
        let asks: Vec<&[u8]> = lines(&text).skip(workload.customers as usize + 1).collect();
        let mut load = Load {
            frames: Vec::new(),
            batches: Vec::new(),
            keys: Vec::with_capacity(asks.len()),
        };
        let mut without_key = 0;
        for batch in asks.chunks(flush) {
            let start = load.frames.len();
            for line in batch {
                let (key, call) = asking(line).map_err(|fault| fault.to_string())?;
                let key = key.unwrap_or_else(|| {
                    without_key += 1;
                    (0, without_key)
                });
                push_frame(&mut load.frames, &Frame::Ask { key, call });
                load.keys.push(key);
            }
            push_frame(&mut load.frames, &Frame::Flush);
            load.batches.push(start..load.frames.len());
        }
        Ok(load)
    }

    /// Sends all, batch by batch, and reads the outcomes.
    fn run(&self, port: u16, flush: usize) -> Answer<(Duration, Vec<u8>)> {
        let mut outcomes = vec![0; self.keys.len() * OUTCOME_FRAME];
        let mut stream = TcpStream::connect((Ipv4Addr::LOCALHOST, port))?;
        stream.set_nodelay(true)?;
        let start = Instant::now();
        for (batch, read) in self
            .batches
            .iter()
            .zip(outcomes.chunks_mut(flush * OUTCOME_FRAME))
        {
            stream.write_all(&self.frames[batch.clone()])?;
            stream.read_exact(read)?;
        }
        Ok((start.elapsed(), outcomes))
    }

    /// Checks that these are the outcomes of the asks.
    fn check(&self, outcomes: &[u8]) -> Answer<()> {
        let mut rest = outcomes;
        for asked in &self.keys {
            match read_frame(rest) {
                Ok((Frame::Outcome { key, .. }, behind)) if key == *asked => rest = behind,
                other => return Err(format!("{asked:?} was answered {other:?}").into()),
            }
        }
        Ok(())
    }
}

struct Words {
    port: u16,
    asks: u32,
    flush: usize,
    customers: u32,
    seed: u64,
    outcomes: Option<String>,
}

impl Words {
    // `None` if they are wrong.
    fn read(mut words: impl Iterator<Item = String>) -> Option<Words> {
        let (mut port, mut asks, mut flush, mut customers) = (None, None, None, None);
        let (mut seed, mut outcomes) = (SEED, None);
        while let Some(option) = words.next() {
            let value = words.next()?;
            match option.as_str() {
                "--port" => port = value.parse().ok(),
                "--asks" => asks = value.parse().ok(),
                "--flush" => flush = value.parse().ok().filter(|count| *count > 0),
                "--customers" => customers = value.parse().ok().filter(|count| *count > 0),
                "--seed" => seed = value.parse().ok()?,
                "--outcomes" => outcomes = Some(value),
                _ => return None,
            }
        }
        Some(Words {
            port: port?,
            asks: asks?,
            flush: flush?,
            customers: customers?,
            seed,
            outcomes,
        })
    }
}

fn main() -> Answer<()> {
    let words = Words::read(env::args().skip(1)).ok_or(USAGE)?;
    let workload = Workload::new(words.seed, words.customers, words.asks);
    let load = Load::new(&workload, words.flush)?;
    let (took, outcomes) = load.run(words.port, words.flush)?;
    load.check(&outcomes)?;
    if let Some(path) = words.outcomes {
        fs::write(path, &outcomes)?;
    }
    println!("{}", took.as_nanos());
    Ok(())
}
