//! How often each thing that can occur has occurred.

use super::blanks::Blanks;
use super::bounds::{situations, Tightness, Whole};
use super::hand_outs::{hand_outs, HandOut, FOUNDS};
use super::registrations::Registrations;
use super::renewals::Renewals;
use super::situation::Step;
use reference::answer::{Kind, Record};
use reference::frame::{look_up_kind, word, Refusal, LOOK_UPS, NONE};
use reference::space::{End, Entry, LookUp, Space, MOST_ENTRIES, MOST_TRANSACTIONS, MOST_WAITING};
use std::collections::BTreeMap;
use tray::record::KINDS;
use tray::tally::Tally;

/// Document 02, T-04: "14 is never given out again".
const NEVER_GIVEN: usize = 14;
const LAST_NUMBER: usize = 21;

const SITUATIONS: [&str; 204] = [
    "64 entries stored",
    "8 transactions live",
    "16 look-ups waiting",
    "25 records in a step",
    "found later",
    "nothing later",
    "found in the tick of the deadline",
    "look-up closed by an exception",
    "look-up withdrawn by an abort",
    "withdrawn, and others served in the step",
    "waits inside, commit of the same",
    "waits inside, abort of another of its own",
    "waits inside, abort of another party's",
    "waits outside, abort of none",
    "waits outside, abort of its own",
    "lease ended under a take hold",
    "lease ended under a read hold",
    "private entry's lease ended",
    "entry back after abort or exception",
    "take over the own read hold",
    "take of the own private entry",
    "IfExists look-up waits",
    "in vain after a take of the own private",
    "in vain after a commit",
    "in vain after an abort",
    "in vain after an abort out of a wait",
    "in vain after an exception",
    "in vain after a lease's end",
    "in vain, others served in the step",
    "in vain, no deadline",
    "in vain and by deadline in one tick",
    "IfExists, conflict left, by deadline",
    "entry with three read holds",
    "exception or abort, no look-up inside",
    "waiting at the end of a tray",
    "waiting at the end of a history",
    "written with blanks",
    "written with blanks, lease 0",
    "write refused: a blank is not 0",
    "write refused: a mask above 15",
    "write refused so, with lease 0",
    "0 asked of a blank, not found",
    "0 asked of a blank, waits on",
    "IfExists, 0 asked of another's blank",
    "committed with blanks, found in the step",
    "committed with blanks, found later",
    "put back with blanks",
    "put back with blanks, found again",
    "renewed, a later end",
    "renewed, an earlier end",
    "renewed, the same end",
    "renewed for good",
    "renewed, no longer for good",
    "renewed with lease 0",
    "renewed up to the last clock",
    "renewed while look-ups wait",
    "renewed again",
    "renewed, written in a transaction",
    "renewed after it was put back",
    "renewed, ended at its new end",
    "renewed, outlived an old end",
    "renewed, found later",
    "renewal of a party that waits",
    "renewal of a taken one",
    "renewal of an ended one",
    "renewal of an aborted one",
    "renewal of one removed by lease 0",
    "renewal of one never written",
    "renewal of none, too late",
    "renewal of another's",
    "renewal of another's, held or private",
    "renewal of a private one",
    "renewal of a read-held one",
    "renewal of a take-held one",
    "renewal under the own take hold",
    "renewal under the own read hold",
    "renewal of a held one, too late",
    "renewal too late",
    "renewal refused: length",
    "renewal refused: mask",
    "renewal refused: byte 3",
    "renewal refused: party",
    "notified for good",
    "notified up to the last clock",
    "notified while look-ups wait",
    "notified after one has ended",
    "notified like one that lives",
    "8 registrations live",
    "notify refused: length",
    "notify refused: a transaction",
    "notify refused: a mask above 23",
    "notify refused: a field not asked for",
    "notify refused: byte 3",
    "notify refused: party",
    "notify of a party that waits",
    "notify with lease 0",
    "notify with lease 0, 8 live",
    "notify too late",
    "notify too late, 8 live",
    "notify with 8 live",
    "notify with 8 live, numbers used up",
    "notify, numbers used up",
    "bell by a write",
    "bell by a commit",
    "bell with a count above 1",
    "bell with a total above its count",
    "bells of several registrations",
    "bells of 8 registrations",
    "several bells to one party",
    "bell to the party of the frame",
    "bell to a party that waits",
    "bell behind a found",
    "bell behind a nothing",
    "24 records in a step, 8 of them bells",
    "bell by a write, taken in the step",
    "bell by a commit, taken in the step",
    "bell for blanks",
    "bell of one for good",
    "bell before the tick that ends it",
    "silent: matches none",
    "silent: 0 asked of a blank",
    "silent: lease 0",
    "silent: written inside",
    "silent: put back by an abort",
    "silent: put back by an exception",
    "silent: aborted",
    "silent: renewed",
    "registration ended",
    "registrations ended together",
    "registration ended, a later one left",
    "registration ended, an earlier one left",
    "registration ended with a transaction",
    "silent: ended before",
    "silent: taken again before the commit",
    "silent: lease over before the commit",
    "arc, and nothing else asked",
    "arc, and other fields asked",
    "arc, nothing",
    "arc, waits",
    "arc, IfExists waits",
    "arc, IfExists: another's is outside",
    "arc, not found: just before its start",
    "arc, not found: just behind its end",
    "arc, not found: a blank, which is 0",
    "arc, not found: 720 or more",
    "arc, waits on: just before its start",
    "arc, waits on: just behind its end",
    "arc, waits on: a blank, which is 0",
    "arc, waits on: 720 or more",
    "arc, nothing later by deadline",
    "arc, nothing later in vain",
    "notified, an arc",
    "arc, bell: at its start",
    "arc, bell: at its end",
    "arc, bell: inside",
    "arc, bell: across 12:00, before it",
    "arc, bell: across 12:00, behind it",
    "arc, silent: just before its start",
    "arc, silent: just behind its end",
    "arc, silent: a blank, which is 0",
    "arc, silent: 720 or more",
    "look-up refused: bits 3 and 4",
    "notify refused: bits 3 and 4",
    "look-up refused: bit 4 and above",
    "notify refused: bit 4 and above",
    "look-up refused: arc, one not asked",
    "notify refused: arc, one not asked",
    "write refused: bit 4",
    "another refused: bit 4",
    "4, and the arc off the face",
    "5, and the arc off the face",
    "look-up with 21: the start",
    "look-up with 21: the length",
    "notify with 21: the start",
    "notify with 21: the length",
    "21: start 720",
    "21: length 720",
    "21, and the party waits",
    "21, and the transaction is not live",
    "21, and it is another party's",
    "21, and too late",
    "21, and lease 0",
    "21, and 8 registrations live",
    "no bounds: 15",
    "no bounds: 16",
    "bounds: write, no notify ahead",
    "bounds: write, 1 to 7 notifies ahead",
    "bounds: write, 8 or more notifies ahead",
    "bounds: commit, no notify ahead",
    "bounds: commit, 1 to 7 notifies ahead",
    "bounds: commit, 8 or more notifies ahead",
    "bounds: entries reached",
    "bounds: records reached",
    "bounds: both reached, and later records",
    "bounds: over 64 writes",
    "bounds: garbled write",
    "bounds: garbled look-up",
    "bounds: garbled create",
    "bounds: garbled commit",
    "bounds: garbled notify",
    "bounds: empty frame",
    "bounds: unknown operation",
    "bounds: a byte less is too small",
    "bounds: a byte less suffices",
];

/// The refusals' numbers.
fn given() -> impl Iterator<Item = usize> {
    (1..=LAST_NUMBER).filter(|&number| number != NEVER_GIVEN)
}

#[derive(Default)]
pub struct Coverage {
    pub trays: u64,
    pub histories: u64,
    pub frames: u64,
    kinds: [u64; 16],
    refusals: [u64; LAST_NUMBER + 1],
    situations: BTreeMap<&'static str, u64>,
    /// At once, and in service.
    founds: [[u64; 2]; FOUNDS.len()],
    /// Of the tray or history that is compared.
    blanks: Blanks,
    renewals: Renewals,
    registrations: Registrations,
    /// Of all trays and histories, and those waiting at their ends.
    pub sums: Tally,
    pub waiting: usize,
    /// Of all trays.
    pub tightness: Tightness,
}

impl Coverage {
    pub fn number(&mut self, number: u8) {
        self.refusals[usize::from(number)] += 1;
    }

    fn note(&mut self, situation: &'static str, times: usize) {
        debug_assert!(SITUATIONS.contains(&situation));
        *self.situations.entry(situation).or_default() += times as u64;
    }

    /// A tray or a history is over, with so many waiting.
    pub fn ended(&mut self, situation: &'static str, tally: Tally, waiting: usize) {
        self.note(situation, waiting);
        self.sums += tally;
        self.waiting += waiting;
        self.blanks = Blanks::default();
        self.renewals = Renewals::default();
        self.registrations = Registrations::default();
    }

    /// A tray has been refused, and has no bounds.
    pub fn unbounded(&mut self, number: u8) {
        self.note(if number == Refusal::TraySize as u8 { "no bounds: 15" } else { "no bounds: 16" }, 1);
    }

    /// A tray's run has kept within its bounds; whether it stops in an area of a byte less than these give.
    pub fn bounded(&mut self, frames: &[&[u8]], whole: &Whole, less_stops: bool) {
        self.tightness.add(whole);
        for (situation, times) in situations(frames, whole, less_stops) {
            self.note(situation, times);
        }
    }

    /// A frame has been compared.
    pub fn step(&mut self, before: &Space, frame: &[u8], records: &[Record], after: &Space) {
        self.frames += 1;
        for record in records {
            self.kinds[usize::from(record.kind)] += 1;
            self.refusals[usize::from(record.refusal)] += 1;
        }
        let Some(own) = records.first() else { return };
        self.escape(before, frame, own, records.len());
        let step = Step { before, frame, records, after };
        let blanks = self.blanks.step(&step);
        let renewals = self.renewals.step(&step);
        let registrations = self.registrations.step(&step);
        for (situation, times) in blanks.into_iter().chain(renewals).chain(registrations).chain(step.arcs()) {
            self.note(situation, times);
        }
        if own.is(Kind::Refused) {
            return;
        }
        self.note("64 entries stored", usize::from(after.entries.len() == MOST_ENTRIES));
        self.note("8 transactions live", usize::from(after.transactions.len() == MOST_TRANSACTIONS));
        self.note("16 look-ups waiting", usize::from(after.waiting.len() == MOST_WAITING));
        self.note("25 records in a step", usize::from(records.len() == 25));
        self.note("entry with three read holds", after.entries.iter().filter(|e| e.read_by.len() > 2).count());

        hand_outs(before, frame, records).iter().for_each(|found| self.found(found));

        let later = &records[1..];
        let count = |kind| later.iter().filter(|record| record.is(kind)).count();
        self.note("found later", count(Kind::Found));
        self.note("nothing later", count(Kind::Nothing));
        let back = |entry: &&Entry| {
            let now = after.entries.iter().find(|e| e.number == entry.number);
            entry.taken_by != NONE && now.is_some_and(|e| e.taken_by == NONE)
        };
        self.note("entry back after abort or exception", before.entries.iter().filter(back).count());
        self.ends(before, records);
        self.nothings(before, records, after);
        if records[0].is(Kind::Ticked) {
            self.tick(before, later, after);
        }
        if LOOK_UPS.contains(&frame[0]) {
            self.look_up(before, frame, records[0]);
        }
    }

    /// A party that waits ends a transaction, or tries to.
    fn escape(&mut self, before: &Space, frame: &[u8], own: &Record, records: usize) {
        let withdrawn = own.is(Kind::Aborted);
        if !withdrawn && own.refusal != Refusal::PartyWaits as u8 {
            return;
        }
        let Some(look_up) = before.waiting.iter().find(|look_up| look_up.party == frame[1]) else { return };
        let (operation, transaction) = (frame[0], if frame.len() == 8 { word(frame, 4) } else { return });
        let live = before.transactions.iter().find(|live| live.number == transaction);
        let own = live.map(|live| live.owner == frame[1]);
        let (inside, same) = (look_up.transaction != NONE, look_up.transaction == transaction);
        self.note("look-up withdrawn by an abort", usize::from(withdrawn));
        self.note("withdrawn, and others served in the step", usize::from(withdrawn && records > 1));
        self.note("waits inside, commit of the same", usize::from(inside && same && operation == 7));
        let aborts = |holds: bool| usize::from(operation == 8 && !withdrawn && holds);
        self.note("waits inside, abort of another of its own", aborts(inside && own == Some(true)));
        self.note("waits inside, abort of another party's", aborts(inside && own == Some(false)));
        self.note("waits outside, abort of none", aborts(!inside && same));
        self.note("waits outside, abort of its own", aborts(!inside && own == Some(true)));
    }

    /// The ends of transactions in which nobody waits.
    fn ends(&mut self, before: &Space, records: &[Record]) {
        let ends = records.iter().filter(|record| record.is(Kind::Exception) || record.is(Kind::Aborted));
        let waits =
            |look_up: &LookUp, end: &Record| look_up.party == end.party && look_up.transaction == end.transaction;
        let empty = ends.filter(|end| !before.waiting.iter().any(|look_up| waits(look_up, end)));
        self.note("exception or abort, no look-up inside", empty.count());
    }

    /// The nothings behind a frame's own record, by what has ended the wait.
    fn nothings(&mut self, before: &Space, records: &[Record], after: &Space) {
        let (own, later) = (records[0], &records[1..]);
        let given = |kind| later.iter().filter(move |record| record.is(kind));
        let closed = given(Kind::Nothing).filter_map(|r| before.waiting.iter().find(|w| w.party == r.party));
        let conflict = |look_up: &LookUp| after.entries.iter().any(|entry| entry.conflicts(look_up));
        let (existing, others): (Vec<&LookUp>, Vec<&LookUp>) = closed.partition(|look_up| look_up.kind.if_exists);
        let (left, vain): (Vec<&LookUp>, Vec<&LookUp>) = existing.into_iter().partition(|look_up| conflict(look_up));
        let escaped = before.waiting.iter().any(|look_up| look_up.party == own.party);
        let excepted = given(Kind::Exception).count() > 0;
        let cases = [
            ("in vain after a take of the own private", own.is(Kind::Found)),
            ("in vain after a commit", own.is(Kind::Committed)),
            ("in vain after an abort", own.is(Kind::Aborted) && !escaped),
            ("in vain after an abort out of a wait", own.is(Kind::Aborted) && escaped),
            ("in vain after an exception", excepted),
            ("in vain after a lease's end", own.is(Kind::Ticked) && !excepted),
            ("in vain, others served in the step", given(Kind::Found).count() > 0),
            ("in vain and by deadline in one tick", !(left.is_empty() && others.is_empty())),
        ];
        for (name, holds) in cases {
            self.note(name, if holds { vain.len() } else { 0 });
        }
        self.note("in vain, no deadline", vain.iter().filter(|look_up| look_up.deadline == End::Never).count());
        self.note("IfExists, conflict left, by deadline", left.len());
    }

    fn found(&mut self, found: &HandOut) {
        for (times, (_, _, holds)) in self.founds.iter_mut().zip(FOUNDS) {
            times[usize::from(found.served)] += u64::from(holds(found));
        }
    }

    fn tick(&mut self, before: &Space, later: &[Record], after: &Space) {
        let clock = after.clock;
        let served = later.iter().filter(|r| r.is(Kind::Found) || r.is(Kind::Nothing)).count();
        self.note("look-up closed by an exception", before.waiting.len() - after.waiting.len() - served);
        let at_deadline = before.waiting.iter().filter(|look_up| {
            look_up.deadline.reached(clock) && later.iter().any(|r| r.is(Kind::Found) && r.party == look_up.party)
        });
        self.note("found in the tick of the deadline", at_deadline.count());
        let ended = || before.entries.iter().filter(|entry| entry.end.reached(clock));
        self.note("lease ended under a take hold", ended().filter(|entry| entry.taken_by != NONE).count());
        self.note("lease ended under a read hold", ended().filter(|entry| !entry.read_by.is_empty()).count());
        self.note("private entry's lease ended", ended().filter(|entry| entry.private_to != NONE).count());
    }

    fn look_up(&mut self, before: &Space, frame: &[u8], own: Record) {
        let kind = look_up_kind(frame[0]);
        self.note("IfExists look-up waits", usize::from(kind.if_exists && own.is(Kind::Waiting)));
        if own.is(Kind::Found) && kind.takes && own.transaction != NONE {
            let Some(entry) = before.entries.iter().find(|e| e.number == own.entry) else { return };
            self.note("take over the own read hold", usize::from(entry.read_by.contains(&own.transaction)));
            self.note("take of the own private entry", usize::from(entry.private_to == own.transaction));
        }
    }

    /// What can occur and did not.
    pub fn missing(&self) -> Vec<String> {
        let kinds = KINDS.iter().filter(|kind| self.kinds[usize::from(kind.number)] == 0);
        let refusals = given().filter(|&number| self.refusals[number] == 0);
        let situations = SITUATIONS.iter().filter(|name| self.situations.get(**name).is_none_or(|&n| n == 0));
        let mut missing: Vec<String> = kinds.map(|kind| format!("record {}", kind.name)).collect();
        missing.extend(refusals.map(|number| format!("number {number}")));
        missing.extend(situations.map(|name| name.to_string()));
        for ([at_once, served], (name, in_service, _)) in self.founds.iter().zip(FOUNDS) {
            missing.extend((*at_once == 0).then(|| format!("found at once: {name}")));
            missing.extend((in_service && *served == 0).then(|| format!("found in service: {name}")));
        }
        missing
    }

    pub fn print(&self) {
        println!("records:");
        for kind in KINDS {
            println!("  {:>2} {:<10} {:>10}", kind.number, kind.name, self.kinds[usize::from(kind.number)]);
        }
        println!("numbers (1 also as the end of a tray's run; 15 and 16 of trays):");
        for number in given() {
            println!("  {number:>2} {:>10}", self.refusals[number]);
        }
        println!("situations:");
        for name in SITUATIONS {
            println!("  {name:<40} {:>10}", self.situations.get(name).copied().unwrap_or(0));
        }
        println!("founds:                                       at once in service");
        for ([at_once, served], (name, in_service, _)) in self.founds.iter().zip(FOUNDS) {
            let remark = if in_service { "" } else { "  cannot occur in service" };
            println!("  {name:<40} {at_once:>10} {served:>10}{remark}");
        }
    }
}
