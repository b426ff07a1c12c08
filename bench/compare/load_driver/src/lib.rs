//! Many clients of a served bank, driven by few threads, which check each answer and time it.

pub mod ask;
pub mod chooser;
pub mod connection;
pub mod customers;
pub mod driver;
#[path = "../../src/epoll.rs"]
pub mod epoll;
pub mod fault;
pub mod frames;
pub mod histogram;
pub mod load;
pub mod mix;
pub mod pace;
pub mod postgres;
pub mod protocol;
#[path = "../../src/random.rs"]
pub mod random;
pub mod redis;
pub mod reply;
pub mod report;
pub mod tally;
pub mod window;
pub mod words;
pub mod workload;
