//! Waiting times over many sittings (document 02, T-14), told by the frames of each tray, the answers to them, and the
//! clock after each frame.

use crate::answer::{Kind, Record, RECORD, STEP};
use crate::frame::{word, Refusal, LOOK_UPS};
use crate::tray::{judge, run_watched};

pub const MOST_TRAYS: u32 = 64;
pub const PARTIES: u8 = 16;

/// The words of a report: trays handed in, refused ones, then the figures of each party.
pub const HANDED_IN: usize = 0;
pub const REFUSED: usize = 1;
pub const FIGURES_AT: usize = 2;
pub const FIGURES: usize = 5;
pub const REPORT: usize = FIGURES_AT + FIGURES * PARTIES as usize;

pub type Report = [u32; REPORT];

/// A frame of a sitting, the records that its step wrote, and the clock after it.
#[derive(Clone, PartialEq, Eq, Debug)]
pub struct Step {
    pub frame: Vec<u8>,
    pub records: Vec<Record>,
    pub clock: u32,
}

/// "each run from an empty space to its last frame": each step has its 700 bytes. Or refusal 15 or 16.
pub fn sitting(tray: &[u8]) -> Result<Vec<Step>, Refusal> {
    let frames = judge(tray)?;
    let mut area = vec![0; STEP * frames.len()];
    let mut steps = Vec::with_capacity(frames.len());
    run_watched(tray, &mut area, |place, written, space| {
        let records = written.chunks_exact(RECORD).map(Record::read).collect();
        steps.push(Step { frame: tray[frames[place].clone()].to_vec(), records, clock: space.clock });
    });
    Ok(steps)
}

impl Step {
    /// A look-up of this party, not refused.
    pub fn asks(&self, party: u8) -> bool {
        !self.records[0].is(Kind::Refused) && LOOK_UPS.contains(&self.frame[0]) && self.frame[1] == party
    }

    /// "Only a look-up answered waiting has a wait."
    pub fn waits(&self, party: u8) -> bool {
        self.asks(party) && self.records[0].is(Kind::Waiting)
    }

    pub fn closes(&self, party: u8, transaction: u32) -> bool {
        self.records.iter().any(|record| closes(record, party, transaction))
    }
}

/// Whether a record is the closing answer to the look-up of this party that waits, in this transaction or in none: its
/// found or nothing (it has no other look-up meanwhile), or the end of that transaction by an exception or its abort.
pub fn closes(record: &Record, party: u8, transaction: u32) -> bool {
    let answers = record.is(Kind::Found) || record.is(Kind::Nothing);
    let ends = record.is(Kind::Exception) || record.is(Kind::Aborted);
    record.party == party && (answers || ends && record.transaction == transaction)
}

/// The waits of a party: "It runs from the look-up to its closing answer, or to the end of the tray, and is the
/// difference of the two clocks after those frames."
pub fn waits(steps: &[Step], party: u8) -> Vec<u32> {
    let waits_from = |first: usize| {
        let (look_up, later) = (&steps[first], &steps[first + 1..]);
        let transaction = word(&look_up.frame, 4);
        let last = later.iter().find(|step| step.closes(party, transaction)).or(later.last());
        last.map_or(0, |last| last.clock - look_up.clock)
    };
    (0..steps.len()).filter(|&place| steps[place].waits(party)).map(waits_from).collect()
}

/// "look-ups not refused, founds, the longest wait (0 if none), and the mean wait as two whole numbers, ticks waited in
/// all and count of waits"
#[derive(Clone, Copy, Default, PartialEq, Eq, Debug)]
pub struct Figures {
    pub look_ups: u32,
    pub founds: u32,
    pub longest: u32,
    pub ticks: u32,
    pub waits: u32,
}

impl Figures {
    /// Of a party in one history; founds are all of them, at once and served.
    pub fn of(steps: &[Step], party: u8) -> Figures {
        let records = steps.iter().flat_map(|step| &step.records);
        let waits = waits(steps, party);
        Figures {
            look_ups: steps.iter().filter(|step| step.asks(party)).count() as u32,
            founds: records.filter(|record| record.party == party && record.is(Kind::Found)).count() as u32,
            longest: waits.iter().copied().max().unwrap_or(0),
            ticks: waits.iter().sum(),
            waits: waits.len() as u32,
        }
    }

    /// "Each figure equals its sum or maximum over the histories." In a report that calls made no sum comes near 2^32:
    /// a tray has 2,000 frames at most. On other words the call is to end all the same.
    pub fn and(self, more: Figures) -> Figures {
        Figures {
            look_ups: self.look_ups.wrapping_add(more.look_ups),
            founds: self.founds.wrapping_add(more.founds),
            longest: self.longest.max(more.longest),
            ticks: self.ticks.wrapping_add(more.ticks),
            waits: self.waits.wrapping_add(more.waits),
        }
    }

    /// As they stand in a report.
    pub fn at(report: &Report, party: u8) -> Figures {
        let words = &report[first_word(party)..];
        Figures { look_ups: words[0], founds: words[1], longest: words[2], ticks: words[3], waits: words[4] }
    }

    pub fn put(self, report: &mut Report, party: u8) {
        let Figures { look_ups, founds, longest, ticks, waits } = self;
        let first = first_word(party);
        report[first..first + FIGURES].copy_from_slice(&[look_ups, founds, longest, ticks, waits]);
    }
}

fn first_word(party: u8) -> usize {
    FIGURES_AT + FIGURES * (usize::from(party) - 1)
}

/// Before the first tray.
pub fn empty(report: &mut Report) {
    *report = [0; REPORT];
}

/// A tray is handed in. As the host gets it: 0, or 65,536 × number.
pub fn add(report: &mut Report, tray: &[u8]) -> u64 {
    // "25 when more than 64 trays are handed in"
    if report[HANDED_IN] >= MOST_TRAYS {
        return 65536 * Refusal::Sittings as u64;
    }
    report[HANDED_IN] += 1;
    match sitting(tray) {
        Ok(steps) => {
            for party in 1..=PARTIES {
                Figures::at(report, party).and(Figures::of(&steps, party)).put(report, party);
            }
            0
        }
        // "Refused trays add only to their own count."
        Err(refusal) => {
            report[REFUSED] = report[REFUSED].wrapping_add(1);
            65536 * refusal as u64
        }
    }
}
