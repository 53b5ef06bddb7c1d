//! Registrations, which both layouts have. They are rare: while none lives, a step does not come here.

use crate::answer::Answers;
use crate::arcs::lies;
use crate::frame::{asked, Fields, Long, FOREVER};

const REGISTRATIONS: usize = 8;

#[derive(Clone, Copy, PartialEq)]
struct Registration {
    number: u32,
    end: u32,
    total: u32,
    /// The matching entries made public in this step; 0 between steps.
    count: u32,
    asks: Fields,
    fields: Fields,
    mask: u8,
    party: u8,
    is_arc: bool,
}

#[derive(Clone, PartialEq)]
pub struct Bells {
    next: u32,
    live: usize,
    /// By number.
    rows: [Registration; REGISTRATIONS],
}

impl Bells {
    pub fn beginning(next: u32) -> Bells {
        let (asks, fields, is_arc) = ([0; 4], [0; 4], false);
        let row = Registration { number: 0, end: 0, total: 0, count: 0, asks, fields, mask: 0, party: 0, is_arc };
        Bells { next, live: 0, rows: [row; REGISTRATIONS] }
    }

    pub fn none_live(&self) -> bool {
        self.live == 0
    }

    /// The number of a new registration; 17 and 13.
    pub fn register(&mut self, long: &Long, end: u32) -> Result<u32, u8> {
        let &Long { party, mask, fields, is_arc, .. } = long;
        let (number, row) = (self.next, self.live);
        if row >= REGISTRATIONS {
            return Err(17);
        }
        if number == FOREVER {
            return Err(13);
        }
        let asks = asked(mask);
        self.rows[row] = Registration { number, end, total: 0, count: 0, asks, fields, mask, party, is_arc };
        self.live = row + 1;
        self.next = number + 1;
        Ok(number)
    }

    /// An entry becomes public.
    pub fn count(&mut self, fields: &Fields, blanks: u8) {
        for row in &mut self.rows[..self.live] {
            let differs = (0..4).fold(0, |bits, i| bits | (row.fields[i] ^ fields[i]) & row.asks[i]);
            let placed = !row.is_arc || lies(row.fields[3], blanks, fields[3]);
            row.count += u32::from(differs == 0 && blanks & row.mask == 0 && placed);
        }
    }

    /// A record for each registration that matches what has become public in this step.
    #[cold]
    #[inline(never)]
    pub fn ring(&mut self, answers: &mut Answers) {
        for row in self.rows[..self.live].iter_mut().filter(|row| row.count != 0) {
            row.total += row.count;
            answers.rung(row.party, row.number, row.count, row.total);
            row.count = 0;
        }
    }

    /// Removes those that end now; gives the least end of the others.
    pub fn end(&mut self, clock: u32) -> u32 {
        let (mut kept, mut least) = (0, FOREVER);
        for i in 0..self.live {
            let row = self.rows[i];
            if row.end != clock {
                self.rows[kept] = row;
                kept += 1;
                least = least.min(row.end);
            }
        }
        self.live = kept;
        least
    }
}
