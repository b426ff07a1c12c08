//! Crews that execute jobs.

use crate::board::{Board, Done, Job};
use crossbeam_channel::{Receiver, Sender, bounded};
use crossbeam_queue::ArrayQueue;
use std::thread::{self, Builder, Scope};
use std::time::Duration;

// The most jobs in the queue, or done in the channel: all that may be unfinished, and a stop for
// each worker.
const CAPACITY: usize = 1_040;
// How often a worker that finds nothing yields before it sleeps.
const YIELDS: u32 = 64;
const SHORTEST: Duration = Duration::from_micros(1);
const LONGEST: Duration = Duration::from_micros(100);

/// A worker couldn't be started, or all have ended.
pub struct CrewGone;

pub trait Crew {
    /// Gives it a job. A job that is done at once comes back.
    fn give(&mut self, job: Job) -> Option<Done>;

    /// Waits for a job to be done.
    fn next(&mut self) -> Result<Done, CrewGone>;
}

/// Has the crew execute all that is unfinished.
pub fn drain(board: &mut Board, crew: &mut impl Crew) -> Result<(), CrewGone> {
    loop {
        while let Some(job) = board.take() {
            if let Some(done) = crew.give(job) {
                board.finish(done);
            }
        }
        if board.is_idle() {
            return Ok(());
        }
        board.finish(crew.next()?);
    }
}

/// Executes each job in place.
pub struct InPlace;

impl Crew for InPlace {
    fn give(&mut self, job: Job) -> Option<Done> {
        Some(job.run())
    }

    fn next(&mut self) -> Result<Done, CrewGone> {
        Err(CrewGone)
    }
}

pub enum Work {
    Run(Job),
    Stop,
}

/// A queue in which jobs lie until a worker takes them.
pub struct Bench {
    queue: ArrayQueue<Work>,
}

impl Default for Bench {
    fn default() -> Self {
        Bench {
            queue: ArrayQueue::new(CAPACITY),
        }
    }
}

/// Threads that take jobs from a bench.
pub struct Threads<'a> {
    bench: &'a Bench,
    inbox: Receiver<Done>,
    workers: usize,
}

impl<'a> Threads<'a> {
    pub fn start<'s>(
        scope: &'s Scope<'s, 'a>,
        bench: &'a Bench,
        workers: usize,
    ) -> Result<Self, CrewGone> {
        let (outbox, inbox) = bounded(CAPACITY);
        let mut crew = Threads {
            bench,
            inbox,
            workers: 0,
        };
        for _ in 0..workers {
            let outbox = outbox.clone();
            Builder::new()
                .spawn_scoped(scope, move || work(bench, &outbox))
                .map_err(|_| CrewGone)?;
            crew.workers += 1;
        }
        Ok(crew)
    }
}

impl Crew for Threads<'_> {
    fn give(&mut self, job: Job) -> Option<Done> {
        match self.bench.queue.push(Work::Run(job)) {
            Err(Work::Run(back)) => Some(back.run()),
            _ => None,
        }
    }

    fn next(&mut self) -> Result<Done, CrewGone> {
        self.inbox.recv().map_err(|_| CrewGone)
    }
}

impl Drop for Threads<'_> {
    fn drop(&mut self) {
        for _ in 0..self.workers {
            while self.bench.queue.push(Work::Stop).is_err() {
                thread::yield_now();
            }
        }
    }
}

fn work(bench: &Bench, outbox: &Sender<Done>) {
    let mut back_off = BackOff::new();
    loop {
        match bench.queue.pop() {
            Some(Work::Run(job)) => {
                if outbox.send(job.run()).is_err() {
                    return;
                }
                back_off = BackOff::new();
            }
            Some(Work::Stop) => return,
            None => back_off.wait(),
        }
    }
}

// Waits longer each time.
struct BackOff {
    yields: u32,
    pause: Duration,
}

impl BackOff {
    fn new() -> Self {
        BackOff {
            yields: 0,
            pause: SHORTEST,
        }
    }

    fn wait(&mut self) {
        if self.yields < YIELDS {
            self.yields += 1;
            thread::yield_now();
        } else {
            thread::sleep(self.pause);
            self.pause = (2 * self.pause).min(LONGEST);
        }
    }
}
