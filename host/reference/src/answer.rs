//! Answer records of 28 bytes, written one behind the other into the answers area.

use crate::frame::{word, Mark};

pub const RECORD: usize = 28;
/// A step writes at most 25 records.
pub const STEP: usize = 25 * RECORD;

#[derive(Clone, Copy, PartialEq, Eq, Debug)]
pub enum Kind {
    Written = 1,
    Found = 2,
    Nothing = 3,
    Waiting = 4,
    Created = 5,
    Committed = 6,
    Aborted = 7,
    Exception = 8,
    Ticked = 9,
    Notified = 10,
    Rung = 11,
    Renewed = 12,
    Refused = 15,
}

#[derive(Clone, Copy, PartialEq, Eq, Debug)]
pub struct Record {
    pub kind: u8,
    pub party: u8,
    pub refusal: u8,
    pub transaction: u32,
    /// Of kinds 10 and 11 the registration's number.
    pub entry: u32,
    /// Fields and blanks.
    pub mark: Mark,
}

impl Record {
    pub fn new(kind: Kind, party: u8, transaction: u32) -> Record {
        Record { kind: kind as u8, party, refusal: 0, transaction, entry: 0, mark: Mark::NONE }
    }

    pub fn is(&self, kind: Kind) -> bool {
        self.kind == kind as u8
    }

    pub fn write(&self, to: &mut [u8]) {
        to[0] = self.kind;
        to[1] = self.party;
        to[2] = self.refusal;
        to[3] = self.mark.blanks;
        to[4..8].copy_from_slice(&self.transaction.to_le_bytes());
        to[8..12].copy_from_slice(&self.entry.to_le_bytes());
        for (part, field) in to[12..28].chunks_exact_mut(4).zip(self.mark.fields) {
            part.copy_from_slice(&field.to_le_bytes());
        }
    }

    pub fn read(bytes: &[u8]) -> Record {
        let fields = [word(bytes, 12), word(bytes, 16), word(bytes, 20), word(bytes, 24)];
        Record {
            kind: bytes[0],
            party: bytes[1],
            refusal: bytes[2],
            transaction: word(bytes, 4),
            entry: word(bytes, 8),
            mark: Mark { fields, blanks: bytes[3] },
        }
    }
}

/// What a step's records are written to.
pub struct Answers<'a> {
    area: &'a mut [u8],
    pub records: usize,
}

impl<'a> Answers<'a> {
    pub fn new(area: &'a mut [u8]) -> Answers<'a> {
        Answers { area, records: 0 }
    }

    pub fn put(&mut self, record: Record) {
        let at = RECORD * self.records;
        record.write(&mut self.area[at..at + RECORD]);
        self.records += 1;
    }
}
