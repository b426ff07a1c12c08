//! All frames ever sent one way.

use crate::frame::Frame;

/// A list of frames, their bytes one after the other.
#[derive(Default)]
pub struct Sent {
    bytes: Vec<u8>,
    // Where each frame ends.
    ends: Vec<usize>,
}

impl Sent {
    /// Appends a frame, and answers its place, counted from 1.
    pub fn push(&mut self, frame: &Frame) -> u64 {
        frame.encode(&mut self.bytes);
        self.ends.push(self.bytes.len());
        self.ends.len() as u64
    }

    /// The bytes of the frame at a place.
    pub fn get(&self, place: u32) -> Option<&[u8]> {
        let index = (place as usize).checked_sub(1)?;
        let end = *self.ends.get(index)?;
        let start = index.checked_sub(1).map_or(0, |before| self.ends[before]);
        Some(&self.bytes[start..end])
    }
}
