//! A whole load: its clients connect, threads drive them, and what they counted is added up.

use crate::ask::Client;
use crate::connection::{self, Beginning, Connection};
use crate::driver::{Driver, Plan};
use crate::fault::{Fault, Trouble};
use crate::pace::Pace;
use crate::protocol::Protocol;
use crate::random::{Random, STEP};
use crate::tally::Tally;
use crate::window::Window;
use crate::words::Words;
use crate::workload::Workload;
use std::thread;
use std::time::{Duration, Instant};

/// What was measured, and for how long.
pub struct Measured {
    pub tally: Tally,
    pub time: Duration,
}

pub fn run(words: &Words, protocol: &impl Protocol) -> Result<Measured, Fault> {
    let workload = Workload::new(words.mix.clone(), words.choice, words.customers);
    let connections = connect(words, protocol)?;
    let start = Instant::now();
    let plan = Plan {
        protocol,
        workload: &workload,
        window: Window::new(start, words.warm_up, words.measured, words.asks),
        pace: pace(words, start),
        patience: words.patience,
        flush: words.flush,
    };
    let tally = drive(&plan, deal(connections, words.threads))?;
    let time = plan.window.measured();
    if tally.answered == 0 || time.is_zero() {
        return Err(Fault::NothingMeasured);
    }
    Ok(Measured { tally, time })
}

fn connect(words: &Words, protocol: &impl Protocol) -> Result<Vec<Connection>, Fault> {
    (0..words.clients)
        .map(|place| {
            let client = Client(words.first_client.0 + place);
            let line = connection::connect(words.server, protocol, client, words.patience)
                .map_err(|error| Fault::Of(client, Trouble::Connecting(error)))?;
            // What a client asks depends on its number and the seed alone.
            let own = u64::from(client.0).wrapping_mul(STEP).rotate_left(32);
            let beginning = Beginning {
                client,
                place: u64::from(place),
                first: words.from,
                random: Random::new(words.seed ^ own),
            };
            Ok(Connection::new(line, beginning))
        })
        .collect()
}

fn pace(words: &Words, start: Instant) -> Pace {
    words.rate.map_or(Pace::Closed, |rate| Pace::Open {
        start,
        gap: words.flush as f64 / f64::from(rate) * 1e9,
        clients: u64::from(words.clients),
    })
}

// Deals the clients out to threads, in turn.
fn deal(connections: Vec<Connection>, threads: usize) -> Vec<Vec<Connection>> {
    let threads = threads.min(connections.len());
    let mut shares: Vec<Vec<Connection>> = (0..threads).map(|_| Vec::new()).collect();
    for (place, connection) in connections.into_iter().enumerate() {
        shares[place % threads].push(connection);
    }
    shares
}

// Ends at the first fault of any thread.
fn drive<P: Protocol>(plan: &Plan<'_, P>, shares: Vec<Vec<Connection>>) -> Result<Tally, Fault> {
    thread::scope(|scope| {
        let threads: Vec<_> = shares
            .into_iter()
            .map(|share| scope.spawn(|| drive_share(plan, share)))
            .collect();
        let mut all = Tally::default();
        for thread in threads {
            all.merge(&thread.join().expect("a driver never panics")?);
        }
        Ok(all)
    })
}

fn drive_share<P: Protocol>(plan: &Plan<'_, P>, share: Vec<Connection>) -> Result<Tally, Fault> {
    let ended = Driver::new(plan, share).and_then(Driver::run);
    if ended.is_err() {
        plan.window.give_up();
    }
    ended
}
