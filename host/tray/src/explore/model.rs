//! One step of the panes: what is sent, what each pane gets, and what the claims make of it.

use super::monitor::Monitors;
use super::situation::{place, Doing, Situation, NAMES, PLACE, RANG, ROUND};
use super::store::TICK;
use crate::boundary::{self, Space, Stepped};
use crate::frame::tick_frame;
use crate::panes::{Action, Pane, Script, EVENTS};
use crate::record::{Record, CREATED, EXCEPTION, FOUND, RECORD_BYTES, REFUSED, RUNG, STEP_BYTES, WAITING, WRITTEN};
use crate::words::FOREVER;

/// In place of a pane, for the records of a party that is none.
const NOBODY: usize = usize::MAX;

/// A record that a pane gets: the pane, the line that it answers, the record. A bell that comes while the pane does not
/// listen answers none.
#[derive(Clone, Copy, Debug)]
pub struct Got {
    pub pane: usize,
    pub line: Option<usize>,
    pub record: Record,
}

impl Got {
    /// Neither refused nor waiting.
    pub fn succeeds(&self) -> bool {
        !matches!(self.record.kind, REFUSED | WAITING | EXCEPTION)
    }
}

pub struct Model<'a> {
    pub script: &'a Script,
    /// By party.
    pane_of: [Option<usize>; 17],
    /// By pane and line; a named transaction or entry is put in before it is sent.
    frames: Vec<Vec<Vec<u8>>>,
    tick: Vec<u8>,
    area: Vec<u8>,
    pub got: Vec<Got>,
    pub monitors: Monitors,
}

/// Bytes 4 to 7 of a frame name the transaction, or the entry that it renews.
const AT_NUMBER: std::ops::Range<usize> = 4..8;
/// Sent for a name that nothing has got: no transaction and no entry ever has this number.
const NO_NUMBER: u32 = FOREVER;

/// The number that an answer brings for a name.
fn brought(record: &Record) -> Option<u32> {
    match record.kind {
        CREATED => Some(record.transaction),
        WRITTEN | FOUND => Some(record.entry),
        _ => None,
    }
}

impl<'a> Model<'a> {
    pub fn new(script: &'a Script) -> Model<'a> {
        let mut pane_of = [None; 17];
        for (place, pane) in script.panes.iter().enumerate() {
            pane_of[usize::from(pane.party)] = Some(place);
        }
        let frames = |pane: &Pane| pane.sent.iter().map(|sent| sent.frame.clone()).collect();
        Model {
            script,
            pane_of,
            frames: script.panes.iter().map(frames).collect(),
            tick: tick_frame(),
            area: vec![0; STEP_BYTES],
            got: Vec::new(),
            monitors: Monitors::default(),
        }
    }

    pub fn blank(&self) -> Situation {
        let names = self.script.panes.iter().map(|pane| pane.names.len()).max().unwrap_or(0);
        Situation::new(self.script.panes.len(), names, self.script.claims.len())
    }

    /// After the starting frames.
    pub fn beginning(&mut self) -> Situation {
        let mut space = Space::default();
        for asked in &self.script.start {
            space.step(&asked.frame);
        }
        let mut situation = self.blank();
        situation.words = space.words;
        for (at, pane) in self.script.panes.iter().enumerate() {
            if !pane.sent.is_empty() {
                self.arrive(&mut situation, at, 0);
            }
        }
        situation
    }

    /// The transaction that a line of a pane names, or 0; or the entry, if it names one.
    fn number(&self, situation: &Situation, pane: usize, line: usize) -> u32 {
        let sent = &self.script.panes[pane].sent[line];
        match sent.inside.map(|name| situation.pane(pane)[NAMES + name]) {
            None => sent.request.map_or(0, |request| request.transaction),
            Some(0) => NO_NUMBER,
            Some(number) => number,
        }
    }

    /// What the sender sends next.
    pub fn frame(&mut self, situation: &Situation, sender: usize) -> &[u8] {
        if sender == TICK {
            return &self.tick;
        }
        let line = situation.line(sender).unwrap_or(0);
        if self.script.panes[sender].sent[line].inside.is_some() {
            let number = self.number(situation, sender, line);
            self.frames[sender][line][AT_NUMBER].copy_from_slice(&number.to_le_bytes());
        }
        &self.frames[sender][line]
    }

    /// The pane comes to a line, which it sends next; or it listens there, and hears at once a bell that has come since
    /// it last listened.
    fn arrive(&mut self, situation: &mut Situation, pane: usize, line: usize) {
        let script = &self.script.panes[pane];
        let state = situation.pane_mut(pane);
        if !script.sent[line].awaits_bell {
            state[PLACE] = place(line, Doing::Sends);
        } else if std::mem::take(&mut state[RANG]) == 0 {
            state[PLACE] = place(line, Doing::Listens);
        } else {
            let record = Record { kind: RUNG, party: script.party, ..Record::default() };
            self.got.push(Got { pane, line: Some(line), record });
            self.react(situation, pane, line, script.reaction(&script.sent[line], RUNG));
        }
    }

    fn go_to(&mut self, situation: &mut Situation, pane: usize, line: usize) {
        if line < self.script.panes[pane].sent.len() {
            self.arrive(situation, pane, line);
        } else if self.script.panes[pane].rounds.is_some() {
            self.start_over(situation, pane);
        } else {
            situation.stop(pane);
        }
    }

    fn start_over(&mut self, situation: &mut Situation, pane: usize) {
        let state = situation.pane_mut(pane);
        match self.script.panes[pane].rounds {
            Some(rounds) if state[ROUND] + 1 >= rounds => situation.stop(pane),
            Some(_) => {
                state[ROUND] += 1;
                self.arrive(situation, pane, 0);
            }
            None => self.arrive(situation, pane, 0),
        }
    }

    fn react(&mut self, situation: &mut Situation, pane: usize, line: usize, action: Action) {
        match action {
            Action::Stop => situation.stop(pane),
            Action::StartOver => self.start_over(situation, pane),
            Action::GoOnAt(line) => self.go_to(situation, pane, line),
            Action::GoOn => self.go_to(situation, pane, line + 1),
        }
    }

    /// An exception that comes later than the pane's own frame.
    fn except(&mut self, situation: &mut Situation, pane: usize, line: usize, transaction: u32) {
        let script = &self.script.panes[pane];
        if situation.waits(pane) {
            if self.number(situation, pane, line) == transaction {
                self.react(situation, pane, line, script.reaction(&script.sent[line], EXCEPTION));
            }
            return;
        }
        // It comes between two frames: only what holds for the whole pane applies.
        let between = script.reactions[EVENTS.iter().position(|event| event.1 == EXCEPTION).unwrap_or(0)];
        // "Go on" leaves the pane where it is: nothing of its own was answered.
        if let Some(action) = between.filter(|&action| action != Action::GoOn) {
            self.react(situation, pane, line, action);
        }
    }

    /// A bell: the pane goes on if it listens, else it is kept for when it does.
    fn ring(&mut self, situation: &mut Situation, pane: usize, line: usize) {
        let script = &self.script.panes[pane];
        match situation.listens(pane) {
            true => self.react(situation, pane, line, script.reaction(&script.sent[line], RUNG)),
            // Of a pane that never listens nothing is kept, so that situations fold.
            false => situation.pane_mut(pane)[RANG] = u32::from(script.listens()),
        }
    }

    /// A pane gets a record: its own frame's, or a later one.
    fn deliver(&mut self, situation: &mut Situation, pane: usize, record: &Record, own: bool) {
        let Some(line) = situation.line(pane) else { return };
        match record.kind {
            EXCEPTION if !own => return self.except(situation, pane, line, record.transaction),
            RUNG => return self.ring(situation, pane, line),
            _ => {}
        }
        let script = &self.script.panes[pane];
        let sent = &script.sent[line];
        // Bytes may name another party, whose look-up then waits.
        if record.kind == WAITING && record.party == script.party {
            situation.pane_mut(pane)[PLACE] = place(line, Doing::Waits);
            return;
        }
        if let (Some(number), Some(name)) = (brought(record), sent.names) {
            situation.pane_mut(pane)[NAMES + name] = number;
        }
        self.react(situation, pane, line, script.reaction(sent, record.kind));
    }

    /// Carries out a step on `situation`, which `before` is as it was. Gives the claims that it concerns, a bit for each.
    pub fn step(&mut self, before: &Situation, sender: usize, situation: &mut Situation) -> u32 {
        let mut area = std::mem::take(&mut self.area);
        let returned = boundary::step(&mut situation.words, self.frame(before, sender), &mut area);
        situation.ticks += u32::from(sender == TICK);
        self.got.clear();
        let records = area.chunks_exact(RECORD_BYTES).take(Stepped::of(returned).records);
        for (at, record) in records.map(Record::read).enumerate() {
            let own = at == 0 && sender != TICK;
            let party = self.pane_of.get(usize::from(record.party)).copied().flatten();
            let pane = if own { Some(sender) } else { party };
            let Some(pane) = pane else {
                self.got.push(Got { pane: NOBODY, line: None, record });
                continue;
            };
            let answers = match record.kind {
                _ if own => true,
                EXCEPTION => true,
                RUNG => situation.listens(pane),
                // An answer to a look-up of the starting frames is none to a line of the pane.
                _ => situation.waits(pane),
            };
            self.got.push(Got { pane, line: situation.line(pane).filter(|_| answers), record });
            if answers || record.kind == RUNG {
                self.deliver(situation, pane, &record, own);
            }
        }
        self.area = area;
        self.monitors.observe(self.script, sender, &self.got, situation)
    }
}
