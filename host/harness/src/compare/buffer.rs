//! Answers areas, and the answers in them.

use crate::random::Random;
use crate::subject::Subject;
use reference::answer::{Record, RECORD};
use std::ops::Range;
use tray::frame::show;

/// An answers area filled with random bytes, between two others that must keep theirs.
#[derive(Clone, PartialEq)]
pub struct Buffer {
    pub bytes: Vec<u8>,
    pub area: Range<usize>,
}

impl Buffer {
    pub fn new(random: &mut Random, length: usize) -> Buffer {
        let (before, behind) = (16 + random.below(16), 16);
        let mut bytes = Vec::with_capacity(before + length + behind + 8);
        while bytes.len() < before + length + behind {
            bytes.extend(random.number().to_le_bytes());
        }
        Buffer { bytes, area: before..before + length }
    }

    pub fn area(&mut self) -> &mut [u8] {
        &mut self.bytes[self.area.clone()]
    }

    /// The bytes of each record with one of these places.
    fn places(&self, range: Range<usize>) -> impl Iterator<Item = &[u8]> {
        self.bytes[self.area.clone()].chunks_exact(RECORD).skip(range.start).take(range.len())
    }

    pub fn records(&self, range: Range<usize>) -> Vec<Record> {
        self.places(range).map(Record::read).collect()
    }

    /// The records, a line each; with byte 3, where it is not 0.
    pub fn lines(&self, range: Range<usize>) -> String {
        let blanks = |byte: u8| if byte == 0 { String::new() } else { format!(", blanks {byte}") };
        let line = |bytes: &[u8]| format!("    {}{}\n", tray::record::Record::read(bytes).line(), blanks(bytes[3]));
        self.places(range).map(line).collect()
    }
}

/// Both answers to a frame, which are lines.
pub fn both<S: Subject>(frame: &[u8], ours: &str, theirs: &str) -> String {
    let bytes: Vec<String> = frame.iter().map(|byte| format!("{byte:02x}")).collect();
    let (line, bytes) = (show(frame), bytes.join(" "));
    format!("{line}\n  bytes: {bytes}\n  {}:\n{ours}  the reference:\n{theirs}", S::NAME)
}
