//! Which of many sockets are ready, by Linux's epoll. The standard library doesn't have it, so its
//! four calls are declared here; they are the only ones that Rust can't check.

use std::ffi::{c_int, c_long, c_ulong, c_void};
use std::io::{self, ErrorKind};
use std::os::fd::{AsRawFd, FromRawFd, OwnedFd};
use std::ptr;
use std::time::Duration;

const CLOSE_ON_EXEC: c_int = 0o2_000_000;
const ADD: c_int = 1;
const FORGET: c_int = 2;
const CHANGE: c_int = 3;
const READABLE: u32 = 1;
const WRITABLE: u32 = 4;
const SET_TIMER_SLACK: c_int = 29;

// As the kernel has it on x86-64, without a gap.
#[derive(Clone, Copy)]
#[repr(C, packed)]
struct Event {
    states: u32,
    token: u64,
}

#[repr(C)]
struct Span {
    seconds: i64,
    nanoseconds: c_long,
}

unsafe extern "C" {
    fn epoll_create1(flags: c_int) -> c_int;
    fn epoll_ctl(epoll: c_int, operation: c_int, file: c_int, event: *mut Event) -> c_int;
    fn epoll_pwait2(
        epoll: c_int,
        events: *mut Event,
        most: c_int,
        span: *const Span,
        signals: *const c_void,
    ) -> c_int;
    fn prctl(option: c_int, ...) -> c_int;
}

/// What is waited for at a socket. That it broke is told in any case.
#[derive(Clone, Copy, Debug, PartialEq, Eq)]
pub enum Interest {
    Reading = READABLE as isize,
    Writing = WRITABLE as isize,
    Both = (READABLE | WRITABLE) as isize,
}

/// A socket that has something to read, takes something, or broke; the latter counts as both.
#[derive(Clone, Copy, Debug)]
pub struct Ready {
    pub token: usize,
    pub is_readable: bool,
    pub is_writable: bool,
}

/// The sockets that are watched, each under a token. One that is closed isn't watched any more.
pub struct Poll {
    epoll: OwnedFd,
    events: Vec<Event>,
}

impl Poll {
    /// Tells at most so many sockets at a time.
    pub fn new(most: usize) -> io::Result<Poll> {
        let nothing = Event {
            states: 0,
            token: 0,
        };
        // SAFETY: it takes no pointer, and what it answers is nobody else's.
        let epoll = unsafe {
            let file = checked(epoll_create1(CLOSE_ON_EXEC))?;
            OwnedFd::from_raw_fd(file)
        };
        Ok(Poll {
            epoll,
            events: vec![nothing; most],
        })
    }

    pub fn watch(&self, socket: &impl AsRawFd, token: usize, what: Interest) -> io::Result<()> {
        self.control(ADD, socket, token, what)
    }

    /// Waits for something else at a socket that is watched.
    pub fn change(&self, socket: &impl AsRawFd, token: usize, what: Interest) -> io::Result<()> {
        self.control(CHANGE, socket, token, what)
    }

    /// Watches a socket no more.
    pub fn forget(&self, socket: &impl AsRawFd) -> io::Result<()> {
        self.control(FORGET, socket, 0, Interest::Reading)
    }

    fn control(
        &self,
        operation: c_int,
        socket: &impl AsRawFd,
        token: usize,
        what: Interest,
    ) -> io::Result<()> {
        let mut event = Event {
            states: what as u32,
            token: token as u64,
        };
        let (epoll, file) = (self.epoll.as_raw_fd(), socket.as_raw_fd());
        // SAFETY: the event outlives the call, which keeps no pointer to it.
        checked(unsafe { epoll_ctl(epoll, operation, file, &mut event) }).map(|_| ())
    }

    /// Waits until a socket is ready, at most so long, or without an end; a signal ends it too.
    /// Answers all that are ready in the place of what was there.
    pub fn wait(&mut self, most: Option<Duration>, ready: &mut Vec<Ready>) -> io::Result<()> {
        let span = most.map(|most| Span {
            seconds: most.as_secs().min(i64::MAX as u64) as i64,
            nanoseconds: c_long::from(most.subsec_nanos()),
        });
        let span = span.as_ref().map_or(ptr::null(), ptr::from_ref);
        let (epoll, room) = (self.epoll.as_raw_fd(), self.events.len() as c_int);
        // SAFETY: there is room for so many events, and the span, if any, outlives the call.
        let told =
            unsafe { epoll_pwait2(epoll, self.events.as_mut_ptr(), room, span, ptr::null()) };
        let count = match checked(told) {
            Err(error) if error.kind() == ErrorKind::Interrupted => 0,
            counted => counted? as usize,
        };
        ready.clear();
        ready.extend(self.events[..count].iter().map(Event::told));
        Ok(())
    }
}

impl Event {
    fn told(&self) -> Ready {
        let states = self.states;
        Ready {
            token: self.token as usize,
            is_readable: states & !WRITABLE != 0,
            is_writable: states & !READABLE != 0,
        }
    }
}

/// From now on this thread's waits end when they should: else the system lets them last 50
/// microseconds longer.
pub fn wake_on_time() {
    let one_nanosecond: c_ulong = 1;
    // SAFETY: this option takes a number, and changes nothing but the thread's timers.
    unsafe { prctl(SET_TIMER_SLACK, one_nanosecond) };
}

fn checked(answer: c_int) -> io::Result<c_int> {
    if answer < 0 {
        Err(io::Error::last_os_error())
    } else {
        Ok(answer)
    }
}
