//! What became of the look-ups of a history, and the sums that document 02 explains a waiting list by (T-11): "look-ups
//! not refused = found + nothing + look-ups closed by an exception or abort + still waiting, the last counted in the
//! space and the others from frames and answers alone".
//!
//! These are the definitions of crates/demands/specs/WaitingList.antt, in which the equation is proved: `is_asked`,
//! `closes`, `closed_as`, `fates`, `tally_of`, `Balances`. Nothing here sees tables; who waits is counted elsewhere.

use crate::frame::{operation_of, Class};
use crate::record::{Record, ABORTED, EXCEPTION, FOUND, NOTHING, REFUSED};
use std::ops::AddAssign;

/// A frame with the records that its step wrote.
#[derive(Clone, Copy, Debug)]
pub struct Logged<'a> {
    pub frame: &'a [u8],
    pub records: &'a [Record],
}

/// A look-up that is not refused, and what became of it.
#[derive(Clone, Copy, PartialEq, Eq, Debug)]
pub struct Fate {
    /// The place of the frame that asked, counted from 0.
    pub frame: usize,
    pub party: u8,
    pub transaction: u32,
    /// The first record, from its own step on, that closes it, with the place of its frame; none: it is open.
    pub closed: Option<(usize, Record)>,
}

impl Fate {
    /// Found, nothing, exception or aborted; none: it is open.
    pub fn closed_as(&self) -> Option<u8> {
        self.closed.map(|(_, record)| record.kind)
    }
}

/// Party and transaction of a look-up that is not refused. Bytes that a frame does not have are 0.
fn asks(logged: &Logged) -> Option<(u8, u32)> {
    let byte = |at: usize| logged.frame.get(at).copied().unwrap_or(0);
    let looks_up = operation_of(byte(0)).is_some_and(|operation| matches!(operation.class, Class::LookUp { .. }));
    let refused = logged.records.first().is_none_or(|own| own.kind == REFUSED);
    (looks_up && !refused).then(|| (byte(1), u32::from_le_bytes(std::array::from_fn(|i| byte(4 + i)))))
}

fn closes(party: u8, transaction: u32, record: &Record) -> bool {
    (record.party, record.transaction) == (party, transaction)
        && matches!(record.kind, FOUND | NOTHING | EXCEPTION | ABORTED)
}

fn fate(log: &[Logged], frame: usize) -> Option<Fate> {
    let (party, transaction) = asks(&log[frame])?;
    let steps = log.iter().enumerate().skip(frame);
    let mut records = steps.flat_map(|(place, logged)| logged.records.iter().map(move |record| (place, *record)));
    let closed = records.find(|(_, record)| closes(party, transaction, record));
    Some(Fate { frame, party, transaction, closed })
}

/// Of each look-up that is not refused, in order.
pub fn fates(log: &[Logged]) -> Vec<Fate> {
    (0..log.len()).filter_map(|frame| fate(log, frame)).collect()
}

/// The sums of a history.
#[derive(Clone, Copy, Default, PartialEq, Eq, Debug)]
pub struct Tally {
    /// Look-ups not refused.
    pub asked: usize,
    /// Records of these kinds.
    pub found: usize,
    pub nothing: usize,
    /// Look-ups closed by an exception or abort.
    pub closed: usize,
}

impl Tally {
    pub fn of(log: &[Logged]) -> Tally {
        let fates = fates(log);
        let said = |kind| log.iter().flat_map(|logged| logged.records).filter(|record| record.kind == kind).count();
        let by_transaction = |fate: &&Fate| matches!(fate.closed_as(), Some(EXCEPTION | ABORTED));
        Tally {
            asked: fates.len(),
            found: said(FOUND),
            nothing: said(NOTHING),
            closed: fates.iter().filter(by_transaction).count(),
        }
    }

    /// Whether the equation holds, with so many that still wait.
    pub fn balances(&self, waiting: usize) -> bool {
        self.asked == self.found + self.nothing + self.closed + waiting
    }

    /// The equation; or, where it does not hold, that it does not.
    pub fn words(&self, waiting: usize) -> String {
        let Tally { asked, found, nothing, closed } = self;
        let equals = if self.balances(waiting) { " =" } else { ", which is NOT" };
        let answered = format!("{found} found + {nothing} nothing");
        let others = format!("{closed} closed by an exception or abort + {waiting} still waiting");
        format!("look-ups not refused: {asked}{equals} {answered} + {others}")
    }
}

impl AddAssign for Tally {
    fn add_assign(&mut self, other: Tally) {
        self.asked += other.asked;
        self.found += other.found;
        self.nothing += other.nothing;
        self.closed += other.closed;
    }
}
