//! Wrong bells (document 02, T-03): the comparison must find each, and print a text that shows it.

#[path = "common/shown.rs"]
mod shown;

use harness::compare::in_order;
use harness::subject::{Beginning, Subject};
use reference::answer::{Kind, Record, RECORD, STEP};
use reference::frame::{mark_of, word, Mark, NONE};
use reference::space::{End, Entry, Registration, Space};
use reference::tray::run;
use shown::shows;

/// What rings and should not; what does not and should; then how bells ring; then registrations.
const PUT_BACK_RUNG: u8 = 0;
const EXPIRY_RUNG: u8 = 1;
const LEASE_0_RUNG: u8 = 2;
const PRIVATE_RUNG: u8 = 3;
const TAKEN_AGAIN_RUNG: u8 = 4;
const BLANK_RUNG_AS_0: u8 = 5;
const TAKEN_IN_SERVICE_NOT_RUNG: u8 = 6;
const BELL_FOR_EACH_ENTRY: u8 = 7;
const TOTAL_STARTS_OVER: u8 = 8;
const TOTAL_WITHOUT_THE_STEP: u8 = 9;
const BELLS_BEFORE_OTHERS: u8 = 10;
const NEWEST_FIRST: u8 = 11;
const LEASE_OUTLIVED: u8 = 12;
const NUMBER_USED_AGAIN: u8 = 13;
const TRANSACTION_NOT_JUDGED: u8 = 14;
const FULL_JUDGED_FIRST: u8 = 15;

/// The reference with a fault.
#[derive(Clone, PartialEq)]
struct Wrong<const FAULT: u8> {
    space: Space,
    /// What transactions have written and taken again.
    taken_again: Vec<(u32, Mark)>,
}

/// A step of the reference.
struct Step<'a> {
    before: &'a Space,
    frame: &'a [u8],
    own: Record,
    /// The transactions that it ends with an exception.
    expired: Vec<u32>,
}

impl Step<'_> {
    fn is(&self, kind: Kind) -> bool {
        self.own.is(kind)
    }

    /// Of a write: what it writes, if it is inside or outside transactions and has a lease or none.
    fn written(&self, inside: bool, lease: bool) -> Vec<Mark> {
        let holds = self.is(Kind::Written) && (self.own.transaction != NONE) == inside;
        let written = holds && (word(self.frame, 8) != 0) == lease;
        written.then(|| mark_of(self.frame)).into_iter().collect()
    }

    /// Of a commit: the entries of its transaction.
    fn committed(&self) -> impl Iterator<Item = &Entry> {
        let own = |entry: &&Entry| self.is(Kind::Committed) && entry.private_to == self.own.transaction;
        self.before.entries.iter().filter(own)
    }

    /// Of an abort, or of a tick: the entries that it puts back.
    fn put_back(&self, by_tick: bool) -> Vec<Mark> {
        let aborted = |by: u32| self.is(Kind::Aborted) && by == self.own.transaction;
        let ended = |by: u32| if by_tick { self.expired.contains(&by) } else { aborted(by) };
        let next = self.before.clock + u32::from(by_tick);
        let back = |entry: &&Entry| ended(entry.taken_by) && !entry.end.reached(next);
        self.before.entries.iter().filter(back).map(|entry| entry.mark).collect()
    }

    /// What becomes public.
    fn public(&self) -> Vec<Mark> {
        self.written(false, true).into_iter().chain(self.committed().map(|entry| entry.mark)).collect()
    }
}

fn matching(registration: &Registration, marks: &[Mark]) -> u32 {
    marks.iter().filter(|mark| registration.template.matches(mark)).count() as u32
}

impl<const FAULT: u8> Wrong<FAULT> {
    /// What the fault does to the space before a sound step.
    fn before(&mut self, frame: &[u8]) {
        let accepted = self.space.clone().step(frame, &mut [0; STEP]).number == 0;
        let (tick, notify) = (frame.first() == Some(&9), frame.first() == Some(&10));
        let next = self.space.clock.saturating_add(1);
        let live = &mut self.space.registrations;
        match FAULT {
            LEASE_OUTLIVED if accepted && tick => {
                live.iter_mut().filter(|it| it.end == End::At(next)).for_each(|it| it.end = End::At(next + 1));
            }
            NUMBER_USED_AGAIN if accepted && notify => {
                self.space.next_registration = live.last().map_or(1, |it| it.number + 1);
            }
            _ => {}
        }
    }

    /// What rings though it should not.
    fn too_much(&self, step: &Step) -> Vec<Mark> {
        let committed = |(by, _): &&(u32, Mark)| step.is(Kind::Committed) && *by == step.own.transaction;
        match FAULT {
            PUT_BACK_RUNG => step.put_back(false),
            EXPIRY_RUNG => step.put_back(true),
            LEASE_0_RUNG => step.written(false, false),
            PRIVATE_RUNG => step.written(true, true),
            TAKEN_AGAIN_RUNG => self.taken_again.iter().filter(committed).map(|(_, mark)| *mark).collect(),
            _ => Vec::new(),
        }
    }

    /// How many more, or fewer, a registration counts.
    fn more(&self, step: &Step, registration: &Registration) -> i64 {
        let count = |marks: &[Mark]| i64::from(matching(registration, marks));
        let stored = |number: u32| self.space.entries.iter().any(|entry| entry.number == number);
        match FAULT {
            BLANK_RUNG_AS_0 => {
                let public = step.public();
                let values: Vec<Mark> = public.iter().map(|mark| Mark { blanks: 0, ..*mark }).collect();
                count(&values) - count(&public)
            }
            TAKEN_IN_SERVICE_NOT_RUNG if !stored(step.own.entry) => -count(&step.written(false, true)),
            _ => count(&self.too_much(step)),
        }
    }

    /// The bells, with what each registration counts more or fewer.
    fn recount(&mut self, step: &Step, bells: Vec<Record>) -> Vec<Record> {
        let mut counted = Vec::new();
        for place in 0..self.space.registrations.len() {
            let more = self.more(step, &self.space.registrations[place]);
            let registration = &mut self.space.registrations[place];
            let bell = bells.iter().find(|bell| bell.entry == registration.number);
            let count = i64::from(bell.map_or(0, |bell| bell.mark.fields[0])) + more;
            registration.total = registration.total.wrapping_add(more as u32);
            if count > 0 {
                if FAULT == TOTAL_STARTS_OVER {
                    registration.total = count as u32;
                }
                let mark = Mark { fields: [count as u32, registration.total, 0, 0], blanks: 0 };
                let rung = Record::new(Kind::Rung, registration.party, NONE);
                counted.push(Record { entry: registration.number, mark, ..rung });
            }
        }
        counted
    }

    /// The records as the fault writes them.
    fn altered(&mut self, step: &Step, mut records: Vec<Record>) -> Vec<Record> {
        let first = records.iter().position(|record| record.is(Kind::Rung)).unwrap_or(records.len());
        let bells = records.split_off(first);
        let mut bells = self.recount(step, bells);
        match FAULT {
            BELL_FOR_EACH_ENTRY => bells = bells.iter().flat_map(one_by_one).collect(),
            TOTAL_WITHOUT_THE_STEP => bells.iter_mut().for_each(|bell| bell.mark.fields[1] -= bell.mark.fields[0]),
            NEWEST_FIRST => bells.reverse(),
            _ => {}
        }
        let at = if FAULT == BELLS_BEFORE_OTHERS { 1 } else { records.len() };
        records.splice(at..at, bells);
        records
    }

    /// 17 before 9 and 10.
    fn judged(&self, frame: &[u8], number: u8) -> u8 {
        let full = frame.first() == Some(&10) && self.space.registrations.len() == 8;
        match number {
            9 | 10 if FAULT == FULL_JUDGED_FIRST && full => 17,
            number => number,
        }
    }

    fn follow(&mut self, step: &Step) {
        let taken = |entry: &&Entry| entry.number == step.own.entry && entry.private_to != NONE;
        let left = |number: u32| self.space.entries.iter().any(|entry| entry.number == number);
        if step.is(Kind::Found) && !left(step.own.entry) {
            let again = step.before.entries.iter().filter(taken).map(|entry| (entry.private_to, entry.mark));
            self.taken_again.extend(again);
        }
    }
}

/// A bell with a count of 1 for each entry that it counts.
fn one_by_one(bell: &Record) -> Vec<Record> {
    let [count, total, ..] = bell.mark.fields;
    let totals = (0..count).rev().map(|later| total - later);
    totals.map(|total| Record { mark: Mark { fields: [1, total, 0, 0], blanks: 0 }, ..*bell }).collect()
}

impl<const FAULT: u8> Subject for Wrong<FAULT> {
    const NAME: &'static str = "the wrong space";

    fn begin(at: Beginning) -> Self {
        Wrong { space: at.of_reference(), taken_again: Vec::new() }
    }

    fn step(&mut self, frame: &[u8], area: &mut [u8]) -> u64 {
        if area.len() < STEP {
            return 65536;
        }
        let mut frame = frame.to_vec();
        if FAULT == TRANSACTION_NOT_JUDGED && frame.len() == 28 && frame[0] == 10 {
            frame[4..8].fill(0);
        }
        let before = self.space.clone();
        self.before(&frame);
        let mut written = [0; STEP];
        let outcome = self.space.step(&frame, &mut written);
        let number = self.judged(&frame, outcome.number);
        let mut records: Vec<Record> = written.chunks_exact(RECORD).take(outcome.records).map(Record::read).collect();
        records[0].refusal = number;
        if number == 0 {
            let expired = records.iter().filter(|record| record.is(Kind::Exception)).map(|it| it.transaction).collect();
            let step = Step { before: &before, frame: &frame, own: records[0], expired };
            records = self.altered(&step, records);
            self.follow(&step);
        }
        for (record, to) in records.iter().zip(area.chunks_exact_mut(RECORD)) {
            record.write(to);
        }
        records.len() as u64 + 65536 * u64::from(number)
    }

    fn run_tray(tray: &[u8], area: &mut [u8]) -> u64 {
        run(tray, area).packed()
    }

    fn tables(&self) -> Option<Space> {
        Some(in_order(&self.space))
    }
}

/// "After each step in which stored entries become committed by a write or commit"; "Put-backs do not count."
#[test]
fn what_is_not_made_public_does_not_ring() {
    shows::<Wrong<PUT_BACK_RUNG>>();
    shows::<Wrong<EXPIRY_RUNG>>();
    shows::<Wrong<LEASE_0_RUNG>>();
    shows::<Wrong<PRIVATE_RUNG>>();
    shows::<Wrong<TAKEN_AGAIN_RUNG>>();
}

/// "each registration that matches some", as a look-up matches; and what service hands out was public.
#[test]
fn what_matches_rings() {
    shows::<Wrong<BLANK_RUNG_AS_0>>();
    shows::<Wrong<TAKEN_IN_SERVICE_NOT_RUNG>>();
}

/// "one record of kind 11 to its party, after all others, by number"; "count in this step in kind, total so far in
/// side".
#[test]
fn other_bells_are_shown() {
    shows::<Wrong<BELL_FOR_EACH_ENTRY>>();
    shows::<Wrong<TOTAL_STARTS_OVER>>();
    shows::<Wrong<TOTAL_WITHOUT_THE_STEP>>();
    shows::<Wrong<BELLS_BEFORE_OTHERS>>();
    shows::<Wrong<NEWEST_FIRST>>();
}

/// "they end on ticks when transactions do"; "counted from 1"; "outside any transaction (otherwise 4)"; "17 when eight
/// registrations live, after 12".
#[test]
fn wrong_registrations_are_shown() {
    shows::<Wrong<LEASE_OUTLIVED>>();
    shows::<Wrong<NUMBER_USED_AGAIN>>();
    shows::<Wrong<TRANSACTION_NOT_JUDGED>>();
    shows::<Wrong<FULL_JUDGED_FIRST>>();
}
