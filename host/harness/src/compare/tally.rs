//! The sums of a history (document 02, T-11), kept frame by frame "from frames and answers alone": look-ups not refused
//! = found + nothing + look-ups closed by an exception or abort + still waiting. `tray::tally` has them by the
//! definition, for a whole history.

use reference::answer::{Kind, Record};
use reference::frame::{word, LOOK_UPS};
use tray::tally::Tally;

#[derive(Clone, Default)]
pub struct Sums {
    pub tally: Tally,
    /// Party and transaction of each look-up that no record has closed.
    open: Vec<(u8, u32)>,
}

impl Sums {
    /// A frame, with the records that it was answered.
    pub fn feed(&mut self, frame: &[u8], records: &[Record]) {
        let Some(own) = records.first() else { return };
        if !own.is(Kind::Refused) && LOOK_UPS.contains(&frame[0]) {
            self.tally.asked += 1;
            self.open.push((frame[1], word(frame, 4)));
        }
        for record in records {
            self.record(record);
        }
    }

    fn record(&mut self, record: &Record) {
        let (found, nothing) = (record.is(Kind::Found), record.is(Kind::Nothing));
        let by_transaction = record.is(Kind::Exception) || record.is(Kind::Aborted);
        self.tally.found += usize::from(found);
        self.tally.nothing += usize::from(nothing);
        if !(found || nothing || by_transaction) {
            return;
        }
        let before = self.open.len();
        self.open.retain(|&open| open != (record.party, record.transaction));
        if by_transaction {
            self.tally.closed += before - self.open.len();
        }
    }

    /// What does not add up, if so many wait in the space.
    pub fn check(&self, waiting: usize) -> Result<(), String> {
        match self.tally.balances(waiting) {
            true => Ok(()),
            false => Err(self.tally.words(waiting)),
        }
    }
}
