//! Trial panes (document 02, T-13): each pane is a small machine that hears the records to its party and says which
//! frame it sends next.

use crate::answer::{Kind, Record, RECORD, STEP};
use crate::frame::{Fields, Refusal, NONE};
use crate::space::Space;

pub const MOST_PANES: usize = 4;
pub const MOST_STARTING: usize = 8;
pub const MOST_ROUNDS: u32 = 1000;

/// Words of each pane, of each starting entry, and of each pane's counts.
pub const PANE_WORDS: usize = 6;
pub const STARTING_WORDS: usize = 5;
pub const COUNTS: usize = 3;

/// "starting entries .. are written first by party 16"
pub const STARTING_PARTY: u8 = 16;

/// "Each has its own leases, timeout, kinds and hold"
#[derive(Clone, Copy, PartialEq, Eq, Debug)]
pub struct Pane {
    /// Of its transactions.
    pub lease: u32,
    /// Of its takes.
    pub timeout: u32,
    pub takes: u32,
    /// Of what it writes.
    pub written_lease: u32,
    pub writes: u32,
    pub hold: u32,
}

impl Pane {
    fn of(&[lease, timeout, takes, written_lease, writes, hold]: &[u32; PANE_WORDS]) -> Pane {
        Pane { lease, timeout, takes, written_lease, writes, hold }
    }
}

/// "starting entries, each with its own fields and lease"
#[derive(Clone, Copy, PartialEq, Eq, Debug)]
pub struct Starting {
    pub fields: Fields,
    pub lease: u32,
}

impl Starting {
    fn of(&[kind, side, image, place, lease]: &[u32; STARTING_WORDS]) -> Starting {
        Starting { fields: [kind, side, image, place], lease }
    }

    pub fn frame(&self) -> Vec<u8> {
        let [kind, side, image, place] = self.fields;
        frame(1, STARTING_PARTY, 0, &[NONE, self.lease, kind, side, image, place])
    }
}

#[derive(Clone, PartialEq, Eq, Debug)]
pub struct Setup {
    pub rounds: u32,
    pub panes: Vec<Pane>,
    pub starting: Vec<Starting>,
}

/// The setup that the words stand for: rounds, number of panes, number of starting entries, then the panes and the
/// entries; none if the words are not as many as that.
pub fn setup(words: &[u32]) -> Option<Setup> {
    let (&[rounds, panes, starting], rest) = words.split_first_chunk()?;
    let (of_panes, of_starting) = rest.split_at_checked(PANE_WORDS * panes as usize)?;
    if of_starting.len() != STARTING_WORDS * starting as usize {
        return None;
    }
    let panes = of_panes.as_chunks().0.iter().map(Pane::of).collect();
    let starting = of_starting.as_chunks().0.iter().map(Starting::of).collect();
    Some(Setup { rounds, panes, starting })
}

/// What is handed in, if it is accepted: "23 when panes are not 1-4 or starting entries exceed 8; 24 when rounds exceed
/// 1,000, after 23". 23 also stands for words that are no setup, and for too few words for the counts.
pub fn judge(words: &[u32], room: usize) -> Result<Setup, Refusal> {
    let fits = |setup: &Setup| {
        let panes = setup.panes.len();
        (1..=MOST_PANES).contains(&panes) && setup.starting.len() <= MOST_STARTING && COUNTS * panes <= room
    };
    let setup = setup(words).filter(fits).ok_or(Refusal::Setup)?;
    if setup.rounds > MOST_ROUNDS {
        return Err(Refusal::Rounds);
    }
    Ok(setup)
}

/// Document 01: "Byte 0 operation, 1 party (1 to 16; 0 for tick), 2 mask, 3 zero", then words.
pub fn frame(operation: u8, party: u8, mask: u8, words: &[u32]) -> Vec<u8> {
    let head = [operation, party, mask, 0];
    head.into_iter().chain(words.iter().flat_map(|word| word.to_le_bytes())).collect()
}

pub fn tick() -> Vec<u8> {
    frame(9, 0, 0, &[])
}

/// What a pane does next: "create, take one kind (mask 1), hold for some ticks after the found, write another kind
/// (other fields 0), commit".
#[derive(Clone, Copy, PartialEq, Eq, Debug)]
pub enum Stage {
    Create,
    Take,
    /// Its take waits.
    Wait,
    /// From this clock on; before, it holds.
    Write {
        from: u64,
    },
    Commit,
    Abort,
}

#[derive(Clone, Copy, PartialEq, Eq, Debug)]
pub struct Machine {
    pub party: u8,
    pub pane: Pane,
    /// The transaction that it created last.
    pub transaction: u32,
    pub stage: Stage,
}

impl Machine {
    fn new(party: u8, pane: Pane) -> Machine {
        Machine { party, pane, transaction: NONE, stage: Stage::Create }
    }

    /// What it sends at this clock; none while it is "waiting or holding".
    pub fn next(&self, clock: u32) -> Option<Vec<u8>> {
        let Machine { party, pane, transaction, stage } = *self;
        match stage {
            Stage::Create => Some(frame(6, party, 0, &[NONE, pane.lease])),
            Stage::Take => Some(frame(3, party, 1, &[transaction, pane.timeout, pane.takes, 0, 0, 0])),
            Stage::Wait => None,
            Stage::Write { from } if u64::from(clock) < from => None,
            Stage::Write { .. } => Some(frame(1, party, 0, &[transaction, pane.written_lease, pane.writes, 0, 0, 0])),
            Stage::Commit => Some(frame(7, party, 0, &[transaction])),
            Stage::Abort => Some(frame(8, party, 0, &[transaction])),
        }
    }

    /// A record to it, and the clock after the record's frame: "A hold counts whole ticks, without the tick that itself
    /// served the found". Each record is heard, so "of two answers in a round the later decides".
    pub fn hear(&mut self, record: &Record, clock: u32) {
        let is = |kind: Kind| record.is(kind);
        if is(Kind::Created) {
            self.transaction = record.transaction;
            self.stage = Stage::Take;
        } else if is(Kind::Waiting) {
            self.stage = Stage::Wait;
        } else if is(Kind::Found) {
            self.stage = Stage::Write { from: u64::from(clock) + u64::from(self.pane.hold) };
        } else if is(Kind::Written) {
            self.stage = Stage::Commit;
        } else if is(Kind::Nothing) || is(Kind::Refused) && self.stage != Stage::Create {
            // "After nothing, or a refused frame in a transaction, the pane aborts next"
            self.stage = Stage::Abort;
        } else {
            // "after an exception, a refused create, an abort or a commit, it starts over"
            self.stage = Stage::Create;
        }
    }
}

/// A frame that was sent, and the records that its step wrote. Rounds are counted from 1; what comes before them is in
/// round 0.
#[derive(Clone, PartialEq, Eq, Debug)]
pub struct Step {
    pub round: u32,
    pub frame: Vec<u8>,
    pub records: Vec<Record>,
}

/// A trial, as far as it has come.
pub struct Trial {
    pub space: Space,
    pub round: u32,
    /// By number.
    pub machines: Vec<Machine>,
    pub steps: Vec<Step>,
}

impl Trial {
    /// Before the first frame.
    pub fn new(panes: &[Pane]) -> Trial {
        let machines = (1..).zip(panes).map(|(party, &pane)| Machine::new(party, pane)).collect();
        Trial { space: Space::new(), round: 0, machines, steps: Vec::new() }
    }

    /// The space's answer to a frame; no pane hears of it yet.
    pub fn carry_out(&mut self, frame: Vec<u8>) -> Vec<Record> {
        let mut area = [0; STEP];
        let written = self.space.step(&frame, &mut area).records;
        let records: Vec<Record> = area.chunks_exact(RECORD).take(written).map(Record::read).collect();
        self.steps.push(Step { round: self.round, frame, records: records.clone() });
        records
    }

    fn send(&mut self, frame: Vec<u8>) {
        for record in self.carry_out(frame) {
            let clock = self.space.clock;
            let hearer = self.machines.iter_mut().find(|machine| machine.party == record.party);
            hearer.into_iter().for_each(|machine| machine.hear(&record, clock));
        }
    }

    /// "Each round every pane not waiting or holding sends one frame, by number, then a tick follows." Who sends, and
    /// what, is settled when the round begins: only a pane that waits is answered by the frames of others, and one that
    /// is served in the middle of a round sends nothing in it.
    fn round(&mut self) {
        self.round += 1;
        let clock = self.space.clock;
        let frames: Vec<Vec<u8>> = self.machines.iter().filter_map(|machine| machine.next(clock)).collect();
        frames.into_iter().for_each(|frame| self.send(frame));
        self.send(tick());
    }

    /// Commits, exceptions and nothings of a pane: every such record to it, in whatever step.
    pub fn counts(&self, party: u8) -> [u32; COUNTS] {
        [Kind::Committed, Kind::Exception, Kind::Nothing].map(|kind| {
            let records = self.steps.iter().flat_map(|step| &step.records);
            records.filter(|record| record.party == party && record.is(kind)).count() as u32
        })
    }
}

/// The whole trial.
pub fn run(setup: &Setup) -> Trial {
    let mut trial = Trial::new(&setup.panes);
    setup.starting.iter().for_each(|entry| trial.send(entry.frame()));
    (0..setup.rounds).for_each(|_| trial.round());
    trial
}

/// Puts each pane's counts in front of `counts`.
pub fn put(panes: usize, counts: &mut [u32], of: impl Fn(u8) -> [u32; COUNTS]) {
    counts.chunks_exact_mut(COUNTS).take(panes).zip(1..).for_each(|(words, party)| words.copy_from_slice(&of(party)));
}

/// As the host gets it: 0 and the counts, or 65,536 × number.
pub fn trial(words: &[u32], counts: &mut [u32]) -> u64 {
    match judge(words, counts.len()) {
        Ok(setup) => {
            let trial = run(&setup);
            put(setup.panes.len(), counts, |party| trial.counts(party));
            0
        }
        Err(refusal) => 65536 * refusal as u64,
    }
}
