//! How long it takes to put a file's bytes into another file: `put FROM FOLDER`.
//!
//! It prints two times in nanoseconds. The first is for writing and syncing the bytes. The second
//! is for replacing a file so that a crash leaves the old or the new bytes: write to a spare, sync,
//! rename, and sync the folder.

use std::env;
use std::fs::{self, File};
use std::io::{self, Write};
use std::path::Path;
use std::process::ExitCode;
use std::time::Instant;

fn write(bytes: &[u8], to: &Path) -> io::Result<()> {
    let mut file = File::create(to)?;
    file.write_all(bytes)?;
    file.sync_all()
}

fn replace(bytes: &[u8], folder: &Path) -> io::Result<()> {
    let spare = folder.join("other.tmp");
    write(bytes, &spare)?;
    fs::rename(&spare, folder.join("other"))?;
    File::open(folder)?.sync_all()
}

fn put(from: &Path, folder: &Path) -> io::Result<(u128, u128)> {
    let bytes = fs::read(from)?;
    let start = Instant::now();
    write(&bytes, &folder.join("written"))?;
    let written = start.elapsed().as_nanos();
    let start = Instant::now();
    replace(&bytes, folder)?;
    Ok((written, start.elapsed().as_nanos()))
}

fn main() -> ExitCode {
    let words: Vec<String> = env::args().skip(1).collect();
    let [from, folder] = words.as_slice() else {
        eprintln!("usage: put FROM FOLDER");
        return ExitCode::from(2);
    };
    match put(Path::new(from), Path::new(folder)) {
        Ok((written, replaced)) => {
            println!("{written} {replaced}");
            ExitCode::SUCCESS
        }
        Err(fault) => {
            eprintln!("put: {fault}");
            ExitCode::from(3)
        }
    }
}
