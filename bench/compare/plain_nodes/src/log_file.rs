//! A log on disk: records, of which the first has the opening and each other one the asks of a batch.
//!
//! A record is the length of its body, a `u32`, that length's complement, the SHA-256 of all bodies up
//! to and with its own, and the body.

use crate::sha256::{DIGEST, Digest, Sha256};
use std::fs::{File, OpenOptions, TryLockError};
use std::io::{self, BufReader, ErrorKind, Read, Seek, SeekFrom, Write};
use std::path::{Path, PathBuf};

const HEAD: usize = 4 + 4 + DIGEST;
const MAGIC: &[u8] = b"SBLOG001";

/// Why a log can't be had.
pub enum LogFault {
    InUse,
    /// The byte, and how many follow it.
    Damaged(u64, u64),
    AnotherOpening,
    System(PathBuf, io::Error),
}

/// A file whose records are whole, and that nobody else writes.
pub struct LogFile {
    file: File,
    hasher: Sha256,
    // Room for a head, then the body of the next record.
    record: Vec<u8>,
    is_healthy: bool,
}

/// What a file has: the opening, unless it is no log yet, and how many bytes aren't a whole record.
pub struct Found {
    pub opening: Option<Vec<u8>>,
    pub torn: u64,
}

impl LogFile {
    /// Locks and reads `FOLDER/log`, hands each batch on, cuts what is torn, and writes all once more.
    /// `take` gets the opening before the first batch and answers whether a body is one.
    pub fn open(
        folder: &Path,
        mut take: impl FnMut(Body) -> bool,
    ) -> Result<(LogFile, Found), LogFault> {
        let path = folder.join("log");
        let system = |error| LogFault::System(path.clone(), error);
        let mut options = OpenOptions::new();
        let options = options.read(true).write(true).create(true).truncate(false);
        let file = options.open(&path).map_err(system)?;
        match file.try_lock() {
            Ok(()) => {}
            Err(TryLockError::WouldBlock) => return Err(LogFault::InUse),
            Err(TryLockError::Error(error)) => return Err(system(error)),
        }
        let size = file.metadata().map_err(system)?.len();
        let mut log = LogFile {
            file,
            hasher: Sha256::new(),
            record: vec![0; HEAD],
            is_healthy: true,
        };
        let (whole, opening) = log.read(&mut take).map_err(system)?;
        log.check_rest(whole, size)
            .map_err(system)?
            .map_or(Ok(()), Err)?;
        log.renew(whole).map_err(system)?;
        sync_folder(folder).map_err(system)?;
        let torn = size - whole;
        Ok((log, Found { opening, torn }))
    }

    /// The size of all whole records, and the opening.
    fn read(&mut self, take: &mut impl FnMut(Body) -> bool) -> io::Result<(u64, Option<Vec<u8>>)> {
        let mut reader = BufReader::with_capacity(1 << 16, &self.file);
        let (mut whole, mut opening) = (0, None);
        let mut body = Vec::new();
        while let Some(digest) = read_record(&mut reader, &mut body)? {
            let mut hasher = self.hasher.clone();
            hasher.update(&body);
            let is_good = hasher.digest() == digest
                && match &opening {
                    None => body
                        .strip_prefix(MAGIC)
                        .is_some_and(|text| take(Body::Opening(text))),
                    Some(_) => take(Body::Batch(&body)),
                };
            if !is_good {
                break;
            }
            opening.get_or_insert_with(|| body[MAGIC.len()..].to_vec());
            self.hasher = hasher;
            whole += (HEAD + body.len()) as u64;
        }
        Ok((whole, opening))
    }

    /// The fault of what stands behind the whole records, unless it is torn.
    fn check_rest(&mut self, whole: u64, size: u64) -> io::Result<Option<LogFault>> {
        self.file.seek(SeekFrom::Start(whole))?;
        let mut rest = Vec::new();
        self.file.read_to_end(&mut rest)?;
        let is_torn = is_beginning(&rest) || rest.iter().all(|byte| *byte == 0);
        Ok((!is_torn).then_some(LogFault::Damaged(whole, size - whole)))
    }

    /// Cuts what follows, and writes and syncs the rest once more: the system may believe that pages are
    /// on disk which aren't.
    fn renew(&mut self, whole: u64) -> io::Result<()> {
        self.file.set_len(whole)?;
        let mut piece = vec![0; 1 << 20];
        let mut at = 0;
        while at < whole {
            let count = piece.len().min((whole - at) as usize);
            self.file.seek(SeekFrom::Start(at))?;
            self.file.read_exact(&mut piece[..count])?;
            self.file.seek(SeekFrom::Start(at))?;
            self.file.write_all(&piece[..count])?;
            at += count as u64;
        }
        self.file.seek(SeekFrom::Start(whole))?;
        self.file.sync_all()
    }

    /// The body of the next record, to which spellings are added.
    pub fn body(&mut self) -> &mut Vec<u8> {
        &mut self.record
    }

    /// Begins a new file with the opening.
    pub fn begin(&mut self, opening: &[u8]) -> io::Result<()> {
        self.record.extend_from_slice(MAGIC);
        self.record.extend_from_slice(opening);
        self.save()
    }

    /// Appends what was added as one record, and syncs it; nothing, if nothing was added.
    pub fn save(&mut self) -> io::Result<()> {
        let (head, body) = self.record.split_at_mut(HEAD);
        if body.is_empty() {
            return Ok(());
        }
        if !self.is_healthy {
            return Err(ErrorKind::Other.into());
        }
        self.hasher.update(body);
        let length = body.len() as u32;
        head[..4].copy_from_slice(&length.to_be_bytes());
        head[4..8].copy_from_slice(&(!length).to_be_bytes());
        head[8..].copy_from_slice(&self.hasher.digest());
        self.is_healthy = false;
        self.file.write_all(&self.record)?;
        self.file.sync_data()?;
        self.is_healthy = true;
        self.record.truncate(HEAD);
        Ok(())
    }

    pub fn digest(&self) -> Digest {
        self.hasher.digest()
    }
}

/// The body of a record, as it is read.
pub enum Body<'a> {
    Opening(&'a [u8]),
    Batch(&'a [u8]),
}

// The digest of the next record, if it is whole.
fn read_record(reader: &mut impl Read, body: &mut Vec<u8>) -> io::Result<Option<Digest>> {
    let mut head = [0; HEAD];
    if !fill(reader, &mut head)? {
        return Ok(None);
    }
    let Some(length) = length_of(&head) else {
        return Ok(None);
    };
    body.clear();
    let count = reader.take(u64::from(length)).read_to_end(body)?;
    let mut digest = [0; DIGEST];
    digest.copy_from_slice(&head[8..]);
    Ok((count == length as usize).then_some(digest))
}

fn fill(reader: &mut impl Read, buffer: &mut [u8]) -> io::Result<bool> {
    match reader.read_exact(buffer) {
        Ok(()) => Ok(true),
        Err(error) if error.kind() == ErrorKind::UnexpectedEof => Ok(false),
        Err(error) => Err(error),
    }
}

// The length that a head has, if the complement is right.
fn length_of(head: &[u8]) -> Option<u32> {
    let (length, rest) = head.split_first_chunk()?;
    let (complement, _) = rest.split_first_chunk()?;
    let length = u32::from_be_bytes(*length);
    (u32::from_be_bytes(*complement) == !length).then_some(length)
}

// Whether these bytes are a beginning of a record, and not all of it.
fn is_beginning(rest: &[u8]) -> bool {
    let Some((length, others)) = rest.split_first_chunk() else {
        return true;
    };
    let length = u32::from_be_bytes(*length);
    let complement = (!length).to_be_bytes();
    let seen = others.len().min(complement.len());
    others[..seen] == complement[..seen] && rest.len() < HEAD + length as usize
}

// A file that was made stays only once its folder is synced.
fn sync_folder(folder: &Path) -> io::Result<()> {
    File::open(folder)?.sync_all()
}
