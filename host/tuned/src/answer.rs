//! Answer records.

use crate::frame::{Fields, Renewal};

pub const RECORD: usize = 28;
pub const STEP: usize = 25 * RECORD;

pub const WRITTEN: u8 = 1;
pub const FOUND: u8 = 2;
pub const NOTHING: u8 = 3;
pub const WAITING: u8 = 4;
pub const CREATED: u8 = 5;
pub const COMMITTED: u8 = 6;
pub const ABORTED: u8 = 7;
pub const EXCEPTION: u8 = 8;
pub const TICKED: u8 = 9;
const NOTIFIED: u8 = 10;
const RUNG: u8 = 11;
const RENEWED: u8 = 12;
const REFUSED: u8 = 15;

/// The records of a step.
pub struct Answers<'a> {
    area: &'a mut [u8; STEP],
    pub count: usize,
}

impl<'a> Answers<'a> {
    /// None if the area is too small: refusal 1.
    #[inline(always)]
    pub fn new(area: &'a mut [u8]) -> Option<Answers<'a>> {
        Some(Answers { area: area.first_chunk_mut()?, count: 0 })
    }

    #[inline(always)]
    fn put(&mut self, head: [u8; 4], transaction: u32, entry: u32, fields: Fields) {
        let at = RECORD * self.count;
        let record = &mut self.area[at..at + RECORD];
        record[0..4].copy_from_slice(&head);
        record[4..8].copy_from_slice(&transaction.to_le_bytes());
        record[8..12].copy_from_slice(&entry.to_le_bytes());
        for (i, field) in fields.into_iter().enumerate() {
            record[12 + 4 * i..16 + 4 * i].copy_from_slice(&field.to_le_bytes());
        }
        self.count += 1;
    }

    /// A record without an entry.
    #[inline(always)]
    pub fn plain(&mut self, kind: u8, party: u8, transaction: u32) {
        self.put([kind, party, 0, 0], transaction, 0, [0; 4]);
    }

    #[inline(always)]
    pub fn written(&mut self, party: u8, transaction: u32, entry: u32) {
        self.put([WRITTEN, party, 0, 0], transaction, entry, [0; 4]);
    }

    #[inline(always)]
    pub fn found(&mut self, party: u8, transaction: u32, entry: u32, blanks: u8, fields: Fields) {
        self.put([FOUND, party, 0, blanks], transaction, entry, fields);
    }

    pub fn notified(&mut self, party: u8, registration: u32) {
        self.put([NOTIFIED, party, 0, 0], 0, registration, [0; 4]);
    }

    pub fn rung(&mut self, party: u8, registration: u32, count: u32, total: u32) {
        self.put([RUNG, party, 0, 0], 0, registration, [count, total, 0, 0]);
    }

    pub fn renewed(&mut self, renewal: &Renewal) {
        self.put([RENEWED, renewal.party, 0, 0], 0, renewal.entry, [0; 4]);
    }

    /// The whole answer of a refused frame; gives what its step returns.
    #[inline(always)]
    pub fn refused(&mut self, frame: &[u8], number: u8) -> u64 {
        let party = frame.get(1).copied().unwrap_or(0);
        self.put([REFUSED, party, number, 0], 0, 0, [0; 4]);
        1 + 65536 * u64::from(number)
    }
}
