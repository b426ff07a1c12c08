//! A bank on nodes and workers, and its sessions, in plain Rust: nothing proved, std and crossbeam,
//! written for speed.

pub mod board;
pub mod books;
pub mod crew;
#[path = "../../src/epoll.rs"]
pub mod epoll;
pub mod follower;
pub mod frames;
pub mod log;
pub mod log_file;
pub mod node;
pub mod op;
#[path = "../../src/random.rs"]
mod random;
pub mod running;
pub mod sequencer;
pub mod session;
mod sha256;
#[path = "../../src/shared/mod.rs"]
pub mod shared;
pub mod starting;
#[path = "../../src/workload.rs"]
pub mod workload;

/// How many nodes and workers a run has.
#[derive(Clone, Copy)]
pub struct Size {
    pub nodes: usize,
    pub workers: usize,
}
