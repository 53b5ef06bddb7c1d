//! What both layouts have: the clock, the next numbers, and the transactions in their slots.

use crate::answer::{Answers, CREATED, TICKED};
use crate::bells::Bells;
use crate::frame::{Long, FOREVER, LAST_CLOCK};

pub const SLOTS: usize = 8;

/// In the bits of the parties that wait: registrations live. It is the bit of party 0, which there is not, and set in
/// `if_exists`, so that one test tells a step whether IfExists look-ups wait or bells may ring.
pub const BELLS: u32 = 1;

/// The slot of no transaction.
pub const NO_SLOT: u8 = 8;

#[derive(Clone, PartialEq)]
pub struct Common {
    pub clock: u32,
    next_entry: u32,
    next_transaction: u32,
    /// No entry, transaction, waiting look-up or registration ends before this.
    pub next_end: u32,
    /// The transactions by slot; number 0: the slot is free.
    pub numbers: [u32; SLOTS],
    pub ends: [u32; SLOTS],
    pub owners: [u8; SLOTS],
    pub bells: Bells,
}

/// The words that equal x, as bits.
#[inline(always)]
fn equal(words: &[u32; SLOTS], x: u32) -> u8 {
    let mut bits = 0;
    for (i, &word) in words.iter().enumerate() {
        bits |= u8::from(word == x) << i;
    }
    bits
}

impl Common {
    pub fn beginning(clock: u32, [next_entry, next_transaction, next_registration]: [u32; 3]) -> Common {
        Common {
            clock,
            next_entry,
            next_transaction,
            next_end: FOREVER,
            numbers: [0; SLOTS],
            ends: [0; SLOTS],
            owners: [0; SLOTS],
            bells: Bells::beginning(next_registration),
        }
    }

    /// The slot of a commit's or abort's transaction; 7 and 8.
    #[inline(always)]
    pub fn slot(&self, party: u8, transaction: u32) -> Result<u8, u8> {
        let found = equal(&self.numbers, transaction);
        if transaction == 0 || found == 0 {
            return Err(7);
        }
        let slot = found.trailing_zeros() as u8 & 7;
        if self.owners[usize::from(slot)] == party {
            Ok(slot)
        } else {
            Err(8)
        }
    }

    #[inline(always)]
    pub fn slot_or_none(&self, party: u8, transaction: u32) -> Result<u8, u8> {
        if transaction == 0 {
            Ok(NO_SLOT)
        } else {
            self.slot(party, transaction)
        }
    }

    /// clock + duration, or FOREVER; 10.
    #[inline(always)]
    pub fn end_of(&self, duration: u32) -> Result<u32, u8> {
        if duration == FOREVER {
            return Ok(FOREVER);
        }
        match self.clock.checked_add(duration) {
            Some(end) if end <= LAST_CLOCK => Ok(end),
            _ => Err(10),
        }
    }

    /// The number of a new entry; 13.
    #[inline(always)]
    pub fn entry_number(&mut self) -> Result<u32, u8> {
        let number = self.next_entry;
        if number == FOREVER {
            return Err(13);
        }
        self.next_entry = number + 1;
        Ok(number)
    }

    #[inline(always)]
    pub fn create(&mut self, party: u8, lease: u32, answers: &mut Answers) -> Result<(), u8> {
        if lease == 0 {
            return Err(9);
        }
        let end = self.end_of(lease)?;
        let free = equal(&self.numbers, 0);
        if free == 0 {
            return Err(12);
        }
        let number = self.next_transaction;
        if number == FOREVER {
            return Err(13);
        }
        self.next_transaction = number + 1;
        let slot = free.trailing_zeros() as usize & 7;
        self.numbers[slot] = number;
        self.ends[slot] = end;
        self.owners[slot] = party;
        self.next_end = self.next_end.min(end);
        answers.plain(CREATED, party, number);
        Ok(())
    }

    /// The number of a new registration; 9, 10, 17 and 13.
    pub fn notify(&mut self, long: &Long) -> Result<u32, u8> {
        if long.duration == 0 {
            return Err(9);
        }
        let end = self.end_of(long.duration)?;
        let number = self.bells.register(long, end)?;
        self.next_end = self.next_end.min(end);
        Ok(number)
    }

    /// Ends the registrations that end now; whether none is left.
    pub fn end_registrations(&mut self) -> bool {
        self.next_end = self.next_end.min(self.bells.end(self.clock));
        self.bells.none_live()
    }

    /// Whether anything may end now; 10.
    #[inline(always)]
    pub fn tick(&mut self, answers: &mut Answers) -> Result<bool, u8> {
        if self.clock >= LAST_CLOCK {
            return Err(10);
        }
        self.clock += 1;
        answers.plain(TICKED, 0, 0);
        Ok(self.next_end <= self.clock)
    }

    /// Of these slots, the one whose transaction has the lowest number.
    #[inline(always)]
    pub fn oldest(&self, slots: u8) -> usize {
        let all = (0..SLOTS).filter(|slot| slots >> slot & 1 == 1);
        all.min_by_key(|&slot| self.numbers[slot]).expect("one is left")
    }
}
