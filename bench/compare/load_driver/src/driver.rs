//! A thread that drives some of the clients.

use crate::ask::Call;
use crate::connection::{BUFFER, Connection, Heard};
use crate::epoll::{Interest, Poll, Ready, wake_on_time};
use crate::fault::{Fault, Patience};
use crate::pace::{Pace, Turn};
use crate::protocol::Protocol;
use crate::tally::Tally;
use crate::window::Window;
use crate::workload::Workload;
use std::time::{Duration, Instant};

// How often it looks for clients that wait for too long, or for nothing.
const SWEEP: Duration = Duration::from_millis(100);

/// What all threads do.
pub struct Plan<'a, P> {
    pub protocol: &'a P,
    pub workload: &'a Workload,
    pub window: Window,
    pub pace: Pace,
    pub patience: Patience,
    /// Asks to a batch.
    pub flush: u64,
}

pub struct Driver<'a, P> {
    plan: &'a Plan<'a, P>,
    connections: Vec<Connection>,
    poll: Poll,
    buffer: Vec<u8>,
    // A client's calls while they are spelled.
    calls: Vec<Call<'a>>,
    tally: Tally,
    // How many connections aren't gone.
    open: usize,
    // How many batches the clock has called for.
    called: u64,
    swept: Instant,
}

impl<'a, P: Protocol> Driver<'a, P> {
    /// Drives clients in the order of their places; there is at least one.
    pub fn new(plan: &'a Plan<'a, P>, connections: Vec<Connection>) -> Result<Self, Fault> {
        let poll = Poll::new(connections.len()).map_err(Fault::System)?;
        for (token, connection) in connections.iter().enumerate() {
            poll.watch(&connection.line, token, Interest::Reading)
                .map_err(Fault::System)?;
        }
        Ok(Driver {
            plan,
            open: connections.len(),
            connections,
            poll,
            buffer: vec![0; BUFFER],
            calls: Vec::new(),
            tally: Tally::default(),
            called: 0,
            swept: Instant::now(),
        })
    }

    /// Asks until the window's end, and then hears all that is left.
    pub fn run(mut self) -> Result<Tally, Fault> {
        wake_on_time();
        for token in 0..self.connections.len() {
            self.ask_next(token, Instant::now())?;
        }
        let mut ready = Vec::with_capacity(self.connections.len());
        while self.open > 0 && !self.plan.window.is_given_up() {
            let now = Instant::now();
            self.ask_due(now)?;
            self.sweep(now)?;
            let most = self.until_due(now);
            self.poll
                .wait(Some(most), &mut ready)
                .map_err(Fault::System)?;
            self.serve_all(&ready)?;
        }
        Ok(self.tally)
    }

    fn serve_all(&mut self, ready: &[Ready]) -> Result<(), Fault> {
        ready.iter().try_for_each(|each| self.serve(each))
    }

    fn serve(&mut self, ready: &Ready) -> Result<(), Fault> {
        let token = ready.token;
        if ready.is_writable && self.connections[token].is_blocked() {
            self.send(token, true)?;
        }
        if !ready.is_readable {
            return Ok(());
        }
        let connection = &mut self.connections[token];
        let heard = connection.hear(&mut self.buffer, self.plan.protocol, &mut self.tally)?;
        let now = Instant::now();
        connection.heard = now;
        match heard {
            Heard::Part => Ok(()),
            Heard::All => self.complete(token, now),
            Heard::Gone => self.forget(token),
        }
    }

    fn complete(&mut self, token: usize, now: Instant) -> Result<(), Fault> {
        let (window, begun) = (&self.plan.window, self.connections[token].begun);
        if window.touches(begun, now) {
            self.tally
                .latencies
                .add(now.saturating_duration_since(begun));
        }
        if window.measures(now) {
            self.tally.answered += self.plan.flush;
        }
        self.ask_next(token, now)
    }

    // Has a client that waits for nothing ask its next batch, if that is due, or leave.
    fn ask_next(&mut self, token: usize, now: Instant) -> Result<(), Fault> {
        let Plan {
            protocol,
            workload,
            window,
            pace,
            flush,
            ..
        } = self.plan;
        let connection = &mut self.connections[token];
        let turn = connection.turn();
        if !connection.is_idle() || !pace.is_due(turn, now) {
            return Ok(());
        }
        if !window.takes(now, *flush) {
            return self.leave(token);
        }
        connection.spell(*protocol, workload, *flush, &mut self.calls);
        connection.begun = pace.begins(turn);
        connection.heard = now;
        self.send(token, false)
    }

    // Has all clients ask whose batches have become due by the clock.
    fn ask_due(&mut self, now: Instant) -> Result<(), Fault> {
        while let Some((token, due)) = self.next_call()
            && due <= now
        {
            // A client that still waits asks late, once it has its outcomes.
            self.ask_next(token, now)?;
            self.called += 1;
        }
        Ok(())
    }

    // Whom the clock calls next, and when.
    fn next_call(&self) -> Option<(usize, Instant)> {
        let clients = self.connections.len() as u64;
        let token = (self.called % clients) as usize;
        let turn = Turn {
            round: self.called / clients,
            ..self.connections[token].turn()
        };
        self.plan.pace.due(turn).map(|due| (token, due))
    }

    fn until_due(&self, now: Instant) -> Duration {
        let due = self
            .next_call()
            .map_or(SWEEP, |(_, due)| due.saturating_duration_since(now));
        due.min(SWEEP)
    }

    // Looks after clients that hear nothing.
    fn sweep(&mut self, now: Instant) -> Result<(), Fault> {
        if now.saturating_duration_since(self.swept) < SWEEP {
            return Ok(());
        }
        self.swept = now;
        let window = &self.plan.window;
        let (is_over, end) = (window.is_over(now), window.end());
        for token in 0..self.connections.len() {
            self.connections[token].check(now, end, self.plan.patience)?;
            if is_over && self.connections[token].is_idle() {
                self.leave(token)?;
            }
        }
        Ok(())
    }

    fn leave(&mut self, token: usize) -> Result<(), Fault> {
        let connection = &mut self.connections[token];
        let pace = &self.plan.pace;
        let unsent = pace.due_before(connection.turn(), self.plan.window.end());
        self.tally.unsent += unsent * self.plan.flush;
        connection.leave(self.plan.protocol);
        connection.heard = Instant::now();
        self.send(token, false)
    }

    // Sends what a line takes, and waits until it takes more only as long as it has to.
    fn send(&mut self, token: usize, was_blocked: bool) -> Result<(), Fault> {
        let connection = &mut self.connections[token];
        connection.send()?;
        let is_blocked = connection.is_blocked();
        if is_blocked == was_blocked {
            return Ok(());
        }
        let what = if is_blocked {
            Interest::Both
        } else {
            Interest::Reading
        };
        self.poll
            .change(&connection.line, token, what)
            .map_err(Fault::System)
    }

    fn forget(&mut self, token: usize) -> Result<(), Fault> {
        self.open -= 1;
        self.poll
            .forget(&self.connections[token].line)
            .map_err(Fault::System)
    }
}
