//! One run of a program: its time, the most memory that it held, and what it told.

use std::fs::File;
use std::io::{self, Read};
use std::path::Path;
use std::process::{Command, Stdio};
use std::time::{Duration, Instant};

#[derive(Clone, Copy)]
pub struct Measure {
    pub time: Duration,
    pub peak_kib: i64,
}

impl Measure {
    /// The medians of time and of memory.
    pub fn median(measures: &[Measure]) -> Measure {
        let mut times: Vec<Duration> = measures.iter().map(|measure| measure.time).collect();
        let mut peaks: Vec<i64> = measures.iter().map(|measure| measure.peak_kib).collect();
        times.sort();
        peaks.sort();
        Measure {
            time: times[times.len() / 2],
            peak_kib: peaks[peaks.len() / 2],
        }
    }
}

/// A run that ended well.
pub struct Ran {
    pub measure: Measure,
    /// The error text.
    pub told: String,
}

// `struct rusage` of Linux on x86-64: two times of two words each, then the peak of resident memory
// in KiB.
#[repr(C)]
#[derive(Default)]
struct Usage {
    times: [i64; 4],
    peak_kib: i64,
    others: [i64; 13],
}

unsafe extern "C" {
    fn wait4(pid: i32, status: *mut i32, options: i32, usage: *mut Usage) -> i32;
}

/// Runs a program with these words from the file `input` to the file `output`, which it must end
/// with status 0.
pub fn run(program: &Path, words: &[&str], input: &Path, output: &Path) -> io::Result<Ran> {
    let mut command = Command::new(program);
    command
        .args(words)
        .stdin(Stdio::from(File::open(input)?))
        .stdout(Stdio::from(File::create(output)?))
        .stderr(Stdio::piped());
    let start = Instant::now();
    let mut child = command.spawn()?;
    let mut told = String::new();
    if let Some(stderr) = &mut child.stderr {
        stderr.read_to_string(&mut told)?;
    }
    let mut status = 0;
    let mut usage = Usage::default();
    // Safety: both point to what the call writes, and nobody else waits for this child.
    let ended = unsafe { wait4(child.id() as i32, &mut status, 0, &mut usage) };
    let time = start.elapsed();
    if ended < 0 {
        return Err(io::Error::last_os_error());
    }
    if status != 0 {
        return Err(io::Error::other(format!(
            "{} ended with status {status}: {told}",
            program.display()
        )));
    }
    let measure = Measure {
        time,
        peak_kib: usage.peak_kib,
    };
    Ok(Ran { measure, told })
}
