//! What the counts of situations look at: a step, and how often something occurred in it.

use reference::answer::{Kind, Record};
use reference::frame::{word, FOREVER};
use reference::space::{Entry, LookUp, Space};

/// How often a situation has occurred.
pub type Times = (&'static str, usize);

pub fn of(holds: bool) -> usize {
    usize::from(holds)
}

/// A frame of the history, as it was compared.
pub struct Step<'a> {
    pub before: &'a Space,
    pub frame: &'a [u8],
    pub records: &'a [Record],
    pub after: &'a Space,
}

pub fn entry_in(space: &Space, number: u32) -> Option<&Entry> {
    space.entries.iter().find(|entry| entry.number == number)
}

impl Step<'_> {
    pub fn own(&self, kind: Kind) -> bool {
        self.records[0].is(kind)
    }

    /// Whether the frame's lease or timeout is.
    pub fn is_too_late(&self) -> bool {
        let duration = word(self.frame, 8);
        duration != FOREVER && u64::from(self.before.clock) + u64::from(duration) > u64::from(FOREVER - 1)
    }

    /// Whether the transaction is the frame's party's.
    pub fn is_own(&self, transaction: u32) -> bool {
        self.before.transactions.iter().any(|live| live.number == transaction && live.owner == self.frame[1])
    }

    /// The look-ups that wait on, though the step sets an entry free that they pass over.
    pub fn waiting_on(&self, passes_over: impl Fn(&LookUp, &Entry) -> bool) -> usize {
        let waited = |look_up: &&LookUp| self.before.waiting.contains(look_up);
        let set_free = |look_up: &LookUp, entry: &Entry| {
            passes_over(look_up, entry)
                && !entry_in(self.before, entry.number).is_some_and(|it| passes_over(look_up, it))
        };
        let passed = |look_up: &&LookUp| self.after.entries.iter().any(|entry| set_free(look_up, entry));
        self.after.waiting.iter().filter(waited).filter(passed).count()
    }

    /// The numbers of the entries handed out.
    pub fn founds(&self) -> impl Iterator<Item = u32> + '_ {
        self.records.iter().filter(|record| record.is(Kind::Found)).map(|record| record.entry)
    }
}
