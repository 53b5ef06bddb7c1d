//! Setups of trial panes as text and as words, and what a trial counts (document 02, T-13). The library counts
//! (`boundary`); `replay` goes through the same rounds frame by frame, `advice` tells from them what to change, and
//! `tell` words it all.

pub mod advice;
pub mod parse;
pub mod replay;
pub mod tell;

use crate::boundary::trial;
use crate::words::{Fields, FOREVER};
use replay::Replay;

/// What a pane goes round with.
#[derive(Clone, Copy, PartialEq, Eq, Debug)]
pub struct Pane {
    /// Of its transactions.
    pub lease: u32,
    pub timeout: u32,
    pub takes: u32,
    pub written_lease: u32,
    pub writes: u32,
    pub hold: u32,
}

impl Pane {
    /// The rounds from a create to the next, if the take finds at once and nothing ends between: create, take, the
    /// hold, commit. "hold 0 writes in the next round", as hold 1 does.
    pub fn trip(&self) -> u64 {
        3 + u64::from(self.hold.max(1))
    }

    /// The shortest transaction lease with which it can commit: it lives to the round of the commit.
    pub fn least_lease(&self) -> u32 {
        lease_of(self.trip())
    }

    /// The transaction lease with which no exception can come: it has room for the longest wait, which ends with a
    /// found by the tick of its deadline, and for the hold.
    pub fn safe_lease(&self) -> u32 {
        match self.timeout {
            0 => self.least_lease(),
            FOREVER => FOREVER,
            timeout => lease_of(3 + u64::from(timeout) + u64::from(self.hold)),
        }
    }
}

/// So many ticks; for ever where a create in the last round would be refused with 10.
fn lease_of(ticks: u64) -> u32 {
    match u32::try_from(ticks) {
        Ok(lease) if lease <= LONGEST => lease,
        _ => FOREVER,
    }
}

/// The longest lease or timeout, but for ever, that no round refuses: in the last one the clock is 999.
pub const LONGEST: u32 = FOREVER - MOST_ROUNDS;

#[derive(Clone, Copy, PartialEq, Eq, Debug)]
pub struct Start {
    pub fields: Fields,
    pub lease: u32,
}

#[derive(Clone, Default, PartialEq, Eq, Debug)]
pub struct Setup {
    pub rounds: u32,
    pub panes: Vec<Pane>,
    pub starts: Vec<Start>,
}

pub const MOST_PANES: usize = 4;
pub const MOST_STARTS: usize = 8;
pub const MOST_ROUNDS: u32 = 1000;

/// Commits, exceptions and nothings of a pane.
#[derive(Clone, Copy, Default, PartialEq, Eq, Debug)]
pub struct Counts {
    pub commits: u32,
    pub exceptions: u32,
    pub nothings: u32,
}

/// What the library says: the counts of each pane, or the number of a refusal.
pub type Tried = Result<Vec<Counts>, u64>;

impl Setup {
    /// As the library wants it.
    pub fn words(&self) -> Vec<u32> {
        let mut words = vec![self.rounds, self.panes.len() as u32, self.starts.len() as u32];
        for Pane { lease, timeout, takes, written_lease, writes, hold } in &self.panes {
            words.extend([lease, timeout, takes, written_lease, writes, hold]);
        }
        for Start { fields, lease } in &self.starts {
            words.extend(fields);
            words.push(*lease);
        }
        words
    }

    pub fn tried(&self) -> Tried {
        let mut counts = vec![0; 3 * self.panes.len()];
        match trial(&self.words(), &mut counts) {
            0 => Ok(counts
                .chunks_exact(3)
                .map(|of| Counts { commits: of[0], exceptions: of[1], nothings: of[2] })
                .collect()),
            returned => Err(returned / 65536),
        }
    }

    /// The number at a place of the text.
    pub fn slot(&mut self, slot: Slot) -> &mut u32 {
        match slot {
            Slot::Rounds => &mut self.rounds,
            Slot::Lease(pane) => &mut self.panes[pane].lease,
            Slot::Timeout(pane) => &mut self.panes[pane].timeout,
            Slot::WrittenLease(pane) => &mut self.panes[pane].written_lease,
            Slot::Hold(pane) => &mut self.panes[pane].hold,
            Slot::StartLease(start) => &mut self.starts[start].lease,
        }
    }

    /// The same with another number there.
    pub fn with(&self, slot: Slot, number: u32) -> Setup {
        let mut setup = self.clone();
        *setup.slot(slot) = number;
        setup
    }
}

/// A number of the text that may be a range. Panes and starting entries are counted from 0 here, from 1 in words.
#[derive(Clone, Copy, PartialEq, Eq, Debug)]
pub enum Slot {
    Rounds,
    Lease(usize),
    Timeout(usize),
    WrittenLease(usize),
    Hold(usize),
    StartLease(usize),
}

impl Slot {
    /// As the head of a column.
    pub fn name(self) -> &'static str {
        match self {
            Slot::Rounds => "rounds",
            Slot::Lease(_) | Slot::WrittenLease(_) | Slot::StartLease(_) => "lease",
            Slot::Timeout(_) => "timeout",
            Slot::Hold(_) => "hold",
        }
    }

    /// "hold of pane 1"
    pub fn words(self) -> String {
        match self {
            Slot::Rounds => "rounds".to_string(),
            Slot::Lease(pane) => format!("transaction lease of pane {}", pane + 1),
            Slot::Timeout(pane) => format!("timeout of pane {}", pane + 1),
            Slot::WrittenLease(pane) => format!("lease of what pane {} writes", pane + 1),
            Slot::Hold(pane) => format!("hold of pane {}", pane + 1),
            Slot::StartLease(start) => format!("lease of starting entry {}", start + 1),
        }
    }
}

/// The numbers from the first to the last, one after the other.
#[derive(Clone, Copy, PartialEq, Eq, Debug)]
pub struct Range {
    pub slot: Slot,
    pub first: u32,
    pub last: u32,
}

/// What a text asks for: a trial, or one for each number of a range.
#[derive(Clone, PartialEq, Eq, Debug)]
pub struct Asked {
    pub setup: Setup,
    pub range: Option<Range>,
}

/// A trial that was not refused, and the same once more, frame by frame.
pub struct Trial {
    pub setup: Setup,
    pub counts: Vec<Counts>,
    pub replay: Replay,
}

impl Trial {
    /// The number of the refusal, if it is refused.
    pub fn of(setup: Setup) -> Result<Trial, u64> {
        let counts = setup.tried()?;
        let replay = Replay::of(&setup);
        Ok(Trial { setup, counts, replay })
    }

    /// What the proofs exclude: the replay, which carries the same frames out by the proved space, counts otherwise.
    pub fn fault(&self) -> Option<String> {
        let counts = |(counted, seen): (&Counts, &replay::Seen)| *counted == seen.counts;
        let pane = self.counts.iter().zip(&self.replay.panes).position(|pane| !counts(pane))?;
        Some(format!("the counts of pane {} are not those of its frames", pane + 1))
    }
}
