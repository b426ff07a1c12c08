//! The turns of a server: who has sent something is heard, all is saved, and then it is told.

use crate::bank::Bank;
use crate::client::{BUFFER, Client};
use plain_nodes::epoll::{Interest, Poll, Ready};
use plain_nodes::session::SessionFault;
use std::fmt;
use std::io::{self, ErrorKind, Write};
use std::net::{TcpListener, TcpStream};

/// Why all ends.
pub enum ServerFault {
    Log(io::Error),
    Device(io::Error),
}

impl fmt::Display for ServerFault {
    fn fmt(&self, f: &mut fmt::Formatter<'_>) -> fmt::Result {
        match self {
            ServerFault::Log(error) => write!(f, "log: {error}"),
            ServerFault::Device(error) => write!(f, "{error}"),
        }
    }
}

impl From<io::Error> for ServerFault {
    fn from(error: io::Error) -> Self {
        ServerFault::Device(error)
    }
}

pub struct Server<'b> {
    listener: TcpListener,
    bank: &'b mut Bank,
    poll: Poll,
    // A client's place is the token of its line. The token behind all is the listener's.
    clients: Vec<Option<Client>>,
    sessions: u64,
    ended: u64,
    buffer: Vec<u8>,
}

impl<'b> Server<'b> {
    pub fn new(
        listener: TcpListener,
        bank: &'b mut Bank,
        clients: usize,
        sessions: u64,
    ) -> io::Result<Self> {
        listener.set_nonblocking(true)?;
        let poll = Poll::new(clients + 1)?;
        poll.watch(&listener, clients, Interest::Reading)?;
        Ok(Server {
            listener,
            bank,
            poll,
            clients: (0..clients).map(|_| None).collect(),
            sessions,
            ended: 0,
            buffer: vec![0; BUFFER],
        })
    }

    /// Serves until all sessions are over.
    pub fn run(mut self) -> Result<(), ServerFault> {
        let mut ready = Vec::new();
        while self.ended < self.sessions {
            self.poll.wait(None, &mut ready)?;
            self.turn(&ready)?;
        }
        Ok(())
    }

    fn turn(&mut self, ready: &[Ready]) -> Result<(), ServerFault> {
        for each in ready.iter().filter(|each| each.is_readable) {
            self.hear(each.token)?;
        }
        if ready.iter().any(|each| self.is_owed(each.token)) {
            self.bank.save().map_err(ServerFault::Log)?;
        }
        for each in ready {
            self.tell(each.token)?;
        }
        Ok(())
    }

    // Whether a client is owed that all it asked is on disk.
    fn is_owed(&self, token: usize) -> bool {
        let client = self.clients.get(token).and_then(Option::as_ref);
        client.is_some_and(Client::is_owed)
    }

    fn hear(&mut self, token: usize) -> Result<(), ServerFault> {
        match self.clients.get_mut(token) {
            Some(Some(client)) => client.hear(&mut self.buffer, self.bank),
            Some(None) => {}
            None => self.accept()?,
        }
        Ok(())
    }

    fn accept(&mut self) -> Result<(), ServerFault> {
        loop {
            let line = match self.listener.accept() {
                Ok((line, _)) => line,
                Err(error) if error.kind() == ErrorKind::WouldBlock => return Ok(()),
                Err(error) if error.kind() == ErrorKind::ConnectionAborted => continue,
                Err(error) => return Err(error.into()),
            };
            self.seat(line)?;
        }
    }

    // Hangs up on a client if all places are taken.
    fn seat(&mut self, line: TcpStream) -> io::Result<()> {
        let Some(token) = self.clients.iter().position(Option::is_none) else {
            return Ok(());
        };
        let client = Client::new(line)?;
        self.poll.watch(&client.line, token, client.interest)?;
        self.clients[token] = Some(client);
        Ok(())
    }

    fn tell(&mut self, token: usize) -> Result<(), ServerFault> {
        let Some(Some(client)) = self.clients.get_mut(token) else {
            return Ok(());
        };
        client.tell();
        if let Some(ended) = client.ended() {
            self.ended += 1;
            print_end(self.ended, ended)?;
            self.clients[token] = None;
            return Ok(());
        }
        let wanted = client.wanted();
        if wanted != client.interest {
            client.interest = wanted;
            self.poll.change(&client.line, token, wanted)?;
        }
        Ok(())
    }
}

fn print_end(session: u64, ended: Result<(), SessionFault>) -> io::Result<()> {
    let mut out = io::stdout().lock();
    match ended {
        Ok(()) => writeln!(out, "session {session} ok")?,
        Err(fault) => writeln!(out, "session {session} fault {}", fault.number())?,
    }
    out.flush()
}
