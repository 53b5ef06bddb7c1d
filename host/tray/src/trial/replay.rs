//! A trial's rounds, frame by frame, over the proved space: which frame each pane sends and what it is answered.

use super::{Counts, Pane, Setup, Start};
use crate::boundary::Space;
use crate::frame::{operation_named, show, tick_frame, Request};
use crate::oracle::Matcher;
use crate::record::{
    Record, ABORTED, COMMITTED, CREATED, EXCEPTION, FOUND, NOTHING, REFUSED, TICKED, WAITING, WRITTEN,
};
use crate::words::{tables, Fields, Template};
use std::collections::BTreeSet;
use std::fmt::Write;

/// "starting entries .. are written first by party 16"
const STARTER: u8 = 16;

/// What a pane does next, with its transaction.
#[derive(Clone, Copy, PartialEq, Eq, Debug)]
enum Stage {
    Creates,
    Takes(u32),
    Waits(u32),
    /// For so many ticks more.
    Holds(u32, u32),
    Commits(u32),
    Aborts(u32),
}

fn request(name: &str, party: u8, transaction: u32, duration: u32) -> Option<Request> {
    operation_named(name).map(|operation| Request { transaction, duration, ..Request::new(operation, party) })
}

fn kind_alone(kind: u32) -> Fields {
    [kind, 0, 0, 0]
}

impl Stage {
    /// What it sends, as a party; none while it waits or holds.
    fn sends(self, pane: &Pane, party: u8) -> Option<Request> {
        match self {
            Stage::Creates => request("create", party, 0, pane.lease),
            Stage::Takes(inside) => {
                let Template { mask, fields } = template(pane);
                request("take", party, inside, pane.timeout).map(|take| Request { mask, fields, ..take })
            }
            Stage::Holds(inside, 0) => {
                let write = request("write", party, inside, pane.written_lease);
                write.map(|write| Request { fields: kind_alone(pane.writes), ..write })
            }
            Stage::Waits(_) | Stage::Holds(..) => None,
            Stage::Commits(inside) => request("commit", party, inside, 0),
            Stage::Aborts(inside) => request("abort", party, inside, 0),
        }
    }

    /// What it does next after a record to it: "of two answers in a round the later decides".
    fn hears(self, pane: &Pane, record: &Record) -> Stage {
        let inside = record.transaction;
        match record.kind {
            CREATED => Stage::Takes(inside),
            WAITING => Stage::Waits(inside),
            FOUND => Stage::Holds(inside, pane.hold),
            WRITTEN => Stage::Commits(inside),
            NOTHING => Stage::Aborts(inside),
            COMMITTED | ABORTED | EXCEPTION => Stage::Creates,
            REFUSED => self.refused(),
            _ => self,
        }
    }

    /// "After .. a refused frame in a transaction, the pane aborts next; after .. a refused create .. it starts over"
    fn refused(self) -> Stage {
        match self {
            Stage::Creates => Stage::Creates,
            Stage::Takes(inside)
            | Stage::Waits(inside)
            | Stage::Holds(inside, _)
            | Stage::Commits(inside)
            | Stage::Aborts(inside) => Stage::Aborts(inside),
        }
    }

    /// "A hold counts whole ticks, without the tick that itself served the found"
    fn ticked(self) -> Stage {
        match self {
            Stage::Holds(inside, ticks) => Stage::Holds(inside, ticks.saturating_sub(1)),
            other => other,
        }
    }
}

/// "take one kind (mask 1)"
fn template(pane: &Pane) -> Template {
    Template { mask: 1, fields: kind_alone(pane.takes) }
}

/// A frame that was refused: its operation, and the number.
pub type Refused = (&'static str, u8);

/// What came to a pane.
#[derive(Clone, Default, PartialEq, Eq, Debug)]
pub struct Seen {
    pub counts: Counts,
    pub created: u32,
    pub refusals: Vec<Refused>,
    /// Rounds at whose end it waits.
    pub waited: u32,
    /// Exceptions that ended a wait.
    pub out_of_waits: u32,
    /// Nothings that came while an entry of its kind was stored: in the transaction of another pane.
    pub kept_by_others: u32,
    /// Entries that it has written and committed.
    pub committed: Vec<u32>,
    /// Written in its transaction.
    private: Vec<u32>,
}

/// A pane as it goes round.
struct Goer {
    pane: Pane,
    party: u8,
    stage: Stage,
    seen: Seen,
}

impl Goer {
    fn hear(&mut self, record: &Record) {
        let seen = &mut self.seen;
        match record.kind {
            CREATED => seen.created += 1,
            WRITTEN => seen.private.push(record.entry),
            COMMITTED => {
                seen.counts.commits += 1;
                seen.committed.append(&mut seen.private);
            }
            NOTHING => seen.counts.nothings += 1,
            EXCEPTION => {
                seen.counts.exceptions += 1;
                seen.out_of_waits += u32::from(matches!(self.stage, Stage::Waits(_)));
            }
            REFUSED => {
                let sent = self.stage.sends(&self.pane, self.party);
                seen.refusals.extend(sent.map(|sent| (sent.operation.name, record.refusal)));
            }
            _ => {}
        }
        if matches!(record.kind, ABORTED | EXCEPTION) {
            seen.private.clear();
        }
        self.stage = self.stage.hears(&self.pane, record);
    }
}

/// Who sent a frame; panes and starting entries are counted from 0.
#[derive(Clone, Copy, PartialEq, Eq, Debug)]
pub enum Sender {
    Start(usize),
    Pane(usize),
    Tick,
}

#[derive(Clone, PartialEq, Eq, Debug)]
pub struct Sent {
    /// Counted from 1; that of the starting entries is 0.
    pub round: u32,
    pub sender: Sender,
    pub frame: Vec<u8>,
}

/// What was sent in a trial, and what came to each pane.
pub struct Replay {
    pub sent: Vec<Sent>,
    pub panes: Vec<Seen>,
    /// The entries that somebody found, and those that are stored at the end.
    pub found: BTreeSet<u32>,
    pub stored: BTreeSet<u32>,
}

#[derive(Default)]
struct Course {
    space: Space,
    matcher: Matcher,
    goers: Vec<Goer>,
    sent: Vec<Sent>,
    found: BTreeSet<u32>,
}

impl Course {
    fn send(&mut self, round: u32, sender: Sender, frame: Vec<u8>) {
        self.space.step(&frame);
        let records: Vec<Record> = self.space.records().collect();
        for record in records.iter().filter(|record| record.kind != TICKED) {
            self.found.extend(Some(record.entry).filter(|_| record.kind == FOUND));
            let Some(goer) = self.goers.iter_mut().find(|goer| goer.party == record.party) else { continue };
            if record.kind == NOTHING {
                let tables = tables(&self.space.words);
                let matching = self.matcher.matching(&template(&goer.pane), &tables);
                goer.seen.kept_by_others += u32::from(!matching.is_empty());
            }
            goer.hear(record);
        }
        self.sent.push(Sent { round, sender, frame });
    }

    /// "Each round every pane not waiting or holding sends one frame, by number, then a tick follows."
    fn round(&mut self, round: u32) {
        let next = |goer: &Goer| goer.stage.sends(&goer.pane, goer.party);
        // Who is served in the middle of a round sends nothing more in it; no other frame changes what a pane sends.
        let requests: Vec<Option<Request>> = self.goers.iter().map(next).collect();
        for (place, request) in requests.into_iter().enumerate() {
            if let Some(request) = request {
                self.send(round, Sender::Pane(place), request.frame());
            }
        }
        for goer in &mut self.goers {
            goer.seen.waited += u32::from(matches!(goer.stage, Stage::Waits(_)));
            goer.stage = goer.stage.ticked();
        }
        self.send(round, Sender::Tick, tick_frame());
    }
}

impl Replay {
    pub fn of(setup: &Setup) -> Replay {
        let goer =
            |(pane, party): (&Pane, u8)| Goer { pane: *pane, party, stage: Stage::Creates, seen: Seen::default() };
        let mut course = Course { goers: setup.panes.iter().zip(1..).map(goer).collect(), ..Course::default() };
        for (place, Start { fields, lease }) in setup.starts.iter().enumerate() {
            let write = request("write", STARTER, 0, *lease).map(|write| Request { fields: *fields, ..write });
            course.send(0, Sender::Start(place), write.map(|write| write.frame()).unwrap_or_default());
        }
        (1..=setup.rounds).for_each(|round| course.round(round));
        let stored = tables(&course.space.words).entries.into_iter().map(|entry| entry.number).collect();
        let panes = course.goers.into_iter().map(|goer| goer.seen).collect();
        Replay { sent: course.sent, panes, found: course.found, stored }
    }

    /// The starting entries and the first rounds as the text of a tray.
    pub fn text(&self, head: &str, rounds: u32) -> String {
        let sent = self.sent.iter().take_while(|sent| sent.round <= rounds);
        let lines: Vec<(String, String)> = sent.map(|sent| (show(&sent.frame), sent.remark())).collect();
        let wide = lines.iter().map(|(frame, _)| frame.len()).max().unwrap_or(0);
        let mut text = format!("# {head}\n");
        for (frame, remark) in lines {
            let _ = writeln!(text, "{frame:<wide$}  # {remark}");
        }
        text
    }
}

impl Sent {
    fn remark(&self) -> String {
        match self.sender {
            Sender::Start(place) => format!("starting entry {}", place + 1),
            Sender::Pane(place) => format!("round {}, pane {}", self.round, place + 1),
            Sender::Tick => format!("round {} ends", self.round),
        }
    }
}
