//! Nodes in threads of their own, fed with frames.

use crate::crew::{CrewGone, InPlace};
use crate::frames::{Frame, FrameFault, push_frame, read_frame};
use crate::node::Node;
use crate::shared::bank::Bank;
use crate::shared::input::Call;
use crossbeam_channel::{Receiver, Sender, bounded};
use std::mem;
use std::sync::Arc;
use std::thread::{Builder, Scope, ScopedJoinHandle};

// The least length of a message that isn't the last.
const MESSAGE: usize = 64 * 1024;
// How many messages a follower may be behind.
const MESSAGES: usize = 4;
// The longest entry has two bytes of length and 60 of body.
const FRAME: usize = 62;

/// This follower couldn't be started, or isn't where node 0 is.
pub struct Strayed(pub usize);

// Why a follower stopped.
struct Stopped;

impl From<FrameFault> for Stopped {
    fn from(_: FrameFault) -> Self {
        Stopped
    }
}

impl From<CrewGone> for Stopped {
    fn from(_: CrewGone) -> Self {
        Stopped
    }
}

type Message = Arc<Vec<u8>>;

struct Follower<'s, 'a> {
    outbox: Sender<Message>,
    thread: ScopedJoinHandle<'s, Result<Node<'a>, Stopped>>,
}

/// The followers, and the frames that they get next.
pub struct Followers<'s, 'a> {
    followers: Vec<Follower<'s, 'a>>,
    frames: Vec<u8>,
}

impl<'s, 'a> Followers<'s, 'a> {
    /// Starts followers 1 to `nodes - 1`, each with room for this many entries.
    pub fn start(
        scope: &'s Scope<'s, '_>,
        bank: &'s Bank<'a>,
        nodes: usize,
        entries: usize,
    ) -> Result<Self, Strayed>
    where
        'a: 's,
    {
        let mut followers = Vec::new();
        for number in 1..nodes {
            let (outbox, inbox) = bounded(MESSAGES);
            let thread = Builder::new()
                .spawn_scoped(scope, move || follow(bank, &inbox, entries))
                .map_err(|_| Strayed(number))?;
            followers.push(Follower { outbox, thread });
        }
        Ok(Followers {
            followers,
            frames: Vec::new(),
        })
    }

    /// Feeds the next entry of the log.
    pub fn feed(&mut self, number: u64, call: &Call) {
        if self.followers.is_empty() {
            return;
        }
        push_frame(
            &mut self.frames,
            &Frame::Entry {
                number,
                call: *call,
            },
        );
        if self.frames.len() >= MESSAGE {
            self.send();
        }
    }

    // One copy for all of them. A follower that has stopped is found at the end.
    fn send(&mut self) {
        let next = Vec::with_capacity(MESSAGE + FRAME);
        let message = Arc::new(mem::replace(&mut self.frames, next));
        for follower in &self.followers {
            let _ = follower.outbox.send(Arc::clone(&message));
        }
    }

    /// Feeds what is left, and the end of the log.
    pub fn flush(&mut self) {
        push_frame(&mut self.frames, &Frame::Flush);
        self.send();
    }

    /// Waits for all, and compares each with node 0.
    pub fn join(self, node: &Node) -> Result<(), Strayed> {
        for (place, Follower { outbox, thread }) in self.followers.into_iter().enumerate() {
            drop(outbox);
            match thread.join() {
                Ok(Ok(follower)) if follower.board.agrees_with(&node.board) => {}
                _ => return Err(Strayed(place + 1)),
            }
        }
        Ok(())
    }
}

fn follow<'a>(
    bank: &Bank<'a>,
    inbox: &Receiver<Message>,
    entries: usize,
) -> Result<Node<'a>, Stopped> {
    let mut node = Node::open(bank);
    node.board.reserve(entries);
    for message in inbox {
        hear_all(&mut node, &message)?;
    }
    Ok(node)
}

fn hear_all(node: &mut Node, message: &[u8]) -> Result<(), Stopped> {
    let mut rest = message;
    while !rest.is_empty() {
        let (frame, behind) = read_frame(rest)?;
        match frame {
            Frame::Entry { number, call } if number == node.board.length() + 1 => {
                node.hear(&call, &mut InPlace)?;
            }
            Frame::Flush => node.settle(&mut InPlace)?,
            _ => return Err(Stopped),
        }
        rest = behind;
    }
    Ok(())
}
