//! What a history is made of, for drawing: entries, transactions, waits, registrations and marks, each from a moment to
//! a moment.
//!
//! All of it is read off the tables before and after each frame and its records; nothing is decided here.

use crate::frame::Class;
use crate::history::{History, Step};
use crate::record::{
    Record, ABORTED, COMMITTED, CREATED, EXCEPTION, FOUND, NOTHING, NOTIFIED, REFUSED, RENEWED, RUNG, TICKED, WAITING,
    WRITTEN,
};
use crate::words::{End, Entry, LookUp, Registration, Tables, Values};

/// A frame, counted from 0, and a slot in it: slot 0 is the frame's own record, its exceptions and what expires; each
/// later found or nothing of the step is one slot further, and all its bells together are one behind these.
#[derive(Clone, Copy, PartialEq, Eq, PartialOrd, Ord, Hash, Debug)]
pub struct Moment {
    pub frame: usize,
    pub slot: usize,
}

#[derive(Clone, PartialEq, Eq, Hash, Debug)]
pub enum Hold {
    Committed,
    /// By these transactions.
    Read(Vec<u32>),
    Taken(u32),
    Private(u32),
}

#[derive(Clone, Copy, PartialEq, Eq, Hash, Debug)]
pub enum Gone {
    Taken,
    Expired,
    Removed,
}

#[derive(Clone, PartialEq, Eq, Debug)]
pub struct EntryLife {
    pub number: u32,
    pub values: Values,
    /// As it was written.
    pub lease: End,
    /// The lease from this moment on; one that removes the entry ends at once.
    pub renewals: Vec<(Moment, End)>,
    /// Each hold from this moment on; none of an entry with lease 0.
    pub segments: Vec<(Moment, Hold)>,
    pub begin: Moment,
    pub end: Option<(Moment, Gone)>,
}

impl EntryLife {
    pub fn is_stored(&self) -> bool {
        !self.segments.is_empty()
    }

    /// The lease that it had last.
    pub fn last_lease(&self) -> End {
        self.renewals.last().map_or(self.lease, |&(_, lease)| lease)
    }

    /// The lease that it had before a frame.
    pub fn lease_before(&self, frame: usize) -> End {
        let earlier = self.renewals.iter().rev().find(|(at, _)| at.frame < frame);
        earlier.map_or(self.lease, |&(_, lease)| lease)
    }

    /// When something of it changes next: its hold, its lease, or it ends.
    pub fn next_change(&self, at: Moment) -> Option<Moment> {
        let (holds, leases) =
            (self.segments.iter().map(|(from, _)| *from), self.renewals.iter().map(|(from, _)| *from));
        holds.chain(leases).chain(self.end.map(|(end, _)| end)).filter(|&moment| moment > at).min()
    }
}

#[derive(Clone, PartialEq, Eq, Debug)]
pub struct TransactionLife {
    pub number: u32,
    pub party: u8,
    pub lease: End,
    pub begin: Moment,
    /// And the record that ended it.
    pub end: Option<(Moment, u8)>,
}

#[derive(Clone, PartialEq, Eq, Debug)]
pub struct Wait {
    pub look_up: LookUp,
    pub begin: Moment,
    /// And the record that closed it.
    pub end: Option<(Moment, u8)>,
}

#[derive(Clone, PartialEq, Eq, Debug)]
pub struct RegistrationLife {
    /// As it was made.
    pub registration: Registration,
    pub begin: Moment,
    /// Its bells.
    pub bells: Vec<Moment>,
    /// The tick that ended it.
    pub end: Option<Moment>,
}

/// A record in its party's lane.
#[derive(Clone, PartialEq, Eq, Debug)]
pub struct Mark {
    pub at: Moment,
    /// The record's place in its step.
    pub place: usize,
    pub record: Record,
    /// The frame's own record.
    pub own: bool,
    /// What the look-up is that it answers, or the write.
    pub class: Option<Class>,
    /// The transaction on whose bar it stands, or 0.
    pub transaction: u32,
}

#[derive(Clone, Default, Debug)]
pub struct Lives {
    pub entries: Vec<EntryLife>,
    pub transactions: Vec<TransactionLife>,
    pub waits: Vec<Wait>,
    pub registrations: Vec<RegistrationLife>,
    pub marks: Vec<Mark>,
    /// Slots of each frame.
    pub slots: Vec<usize>,
}

/// The slot of each record of a step.
pub fn slots(step: &Step) -> Vec<usize> {
    let mut last = 0;
    let slot = |(place, record): (usize, &Record)| match record.kind {
        FOUND | NOTHING if place > 0 => {
            last += 1;
            last
        }
        RUNG => last + 1,
        _ => 0,
    };
    step.records.iter().enumerate().map(slot).collect()
}

fn hold(entry: &Entry) -> Hold {
    match entry {
        Entry { taken_by, .. } if *taken_by != 0 => Hold::Taken(*taken_by),
        Entry { private_to, .. } if *private_to != 0 => Hold::Private(*private_to),
        Entry { read_by, .. } if !read_by.is_empty() => Hold::Read(read_by.clone()),
        _ => Hold::Committed,
    }
}

fn takes(class: Option<Class>) -> bool {
    matches!(class, Some(Class::LookUp { takes: true, .. }))
}

/// The class of the look-up (or frame) that a record answers; a bell answers none.
fn class_of(history: &History, frame: usize, place: usize) -> Option<Class> {
    let step = &history.steps[frame];
    if place == 0 {
        return step.request().map(|request| request.operation.class);
    }
    if step.records[place].kind == RUNG {
        return None;
    }
    let look_up = history.before(frame).look_up(step.records[place].party)?;
    crate::frame::operation_of(look_up.operation).map(|operation| operation.class)
}

/// The entries after slot 0: those that a later slot hands out are brought back to what they were.
fn after_slot_0(history: &History, frame: usize) -> Vec<Entry> {
    let (step, before) = (&history.steps[frame], history.before(frame));
    let mut entries = step.after.entries.clone();
    let live = |number: &u32| step.after.transaction(*number).is_some();
    for record in step.records.iter().skip(1).filter(|record| record.kind == FOUND) {
        let known = before.entry(record.entry).cloned().or_else(|| written(step, before, record.entry));
        let Some(known) = known else { continue };
        let private_to = if live(&known.private_to) { known.private_to } else { 0 };
        let read_by = known.read_by.iter().copied().filter(live).collect();
        let was = Entry { private_to, taken_by: 0, read_by, ..known };
        match entries.iter_mut().find(|entry| entry.number == was.number) {
            Some(entry) => *entry = was,
            None => entries.push(was),
        }
    }
    entries.sort_by_key(|entry| entry.number);
    entries
}

/// The entry that a step writes, as it was when written.
fn written(step: &Step, before: &Tables, number: u32) -> Option<Entry> {
    let record = step.records.first().filter(|record| record.kind == WRITTEN && record.entry == number)?;
    let request = step.request()?;
    let end = End::of_lease(before.clock, request.duration);
    let (Values { fields, blanks }, writer) = (request.values(), record.party);
    Some(Entry {
        number,
        fields,
        blanks,
        writer,
        end,
        private_to: record.transaction,
        taken_by: 0,
        read_by: Vec::new(),
    })
}

/// A found of a later slot, carried over to the entries.
fn apply_found(entries: &mut Vec<Entry>, record: &Record, takes: bool) {
    let Some(place) = entries.iter().position(|entry| entry.number == record.entry) else { return };
    let entry = &mut entries[place];
    match (takes, record.transaction) {
        (true, transaction) if transaction == 0 || entry.private_to == transaction => {
            entries.remove(place);
        }
        (true, transaction) => {
            entry.taken_by = transaction;
            entry.read_by.retain(|&reader| reader != transaction);
        }
        (false, transaction) if transaction != 0 && entry.private_to == 0 => {
            entry.read_by.push(transaction);
            entry.read_by.sort_unstable();
            entry.read_by.dedup();
        }
        _ => {}
    }
}

/// The entries after each slot of a frame.
pub fn entries_by_slot(history: &History, frame: usize) -> Vec<Vec<Entry>> {
    let step = &history.steps[frame];
    let mut entries = after_slot_0(history, frame);
    let mut by_slot = vec![entries.clone()];
    for (place, slot) in slots(step).into_iter().enumerate() {
        // Bells share a slot.
        if slot == by_slot.len() {
            let record = &step.records[place];
            if record.kind == FOUND {
                apply_found(&mut entries, record, takes(class_of(history, frame, place)));
            }
            by_slot.push(entries.clone());
        }
    }
    by_slot
}

/// Why an entry is not there any more after slot 0 of a frame.
fn gone(history: &History, frame: usize, number: u32) -> Gone {
    let (step, before) = (&history.steps[frame], history.before(frame));
    let Some(entry) = before.entry(number) else { return Gone::Removed };
    let ends = |record: &Record, kind: u8, by: u32| record.kind == kind && by != 0 && record.transaction == by;
    let own = step.records.first();
    let taken =
        own.is_some_and(|own| (own.kind == FOUND && own.entry == number) || ends(own, COMMITTED, entry.taken_by));
    let ended = |record: &Record| ends(record, ABORTED, entry.private_to) || ends(record, EXCEPTION, entry.private_to);
    if taken {
        Gone::Taken
    } else if !step.records.iter().any(ended) && entry.end == End::At(step.after.clock) {
        Gone::Expired
    } else {
        Gone::Removed
    }
}

impl Lives {
    pub fn of(history: &History) -> Lives {
        let mut lives = Lives::default();
        for frame in 0..history.steps.len() {
            lives.slots.push(1 + slots(&history.steps[frame]).into_iter().max().unwrap_or(0));
            lives.write(history, frame);
            for (slot, entries) in entries_by_slot(history, frame).into_iter().enumerate() {
                lives.hold(history, Moment { frame, slot }, &entries);
            }
            lives.records(history, frame);
            lives.unregister(history, frame);
        }
        lives
    }

    fn write(&mut self, history: &History, frame: usize) {
        let step = &history.steps[frame];
        let own = step.records.first().filter(|record| record.kind == WRITTEN);
        let entry = own.and_then(|own| written(step, history.before(frame), own.entry));
        if let Some(entry) = entry {
            let (number, values, lease) = (entry.number, entry.values(), entry.end);
            let begin = Moment { frame, slot: 0 };
            self.entries.push(EntryLife {
                number,
                values,
                lease,
                renewals: vec![],
                segments: vec![],
                begin,
                end: None,
            });
        }
    }

    fn renew(&mut self, history: &History, at: Moment, record: &Record) {
        let Some(request) = history.steps[at.frame].request() else { return };
        let lease = End::of_lease(history.before(at.frame).clock, request.duration);
        if let Some(life) = self.entries.iter_mut().find(|life| life.number == record.entry) {
            life.renewals.push((at, lease));
        }
    }

    /// The entries after a slot: what is new, changed or gone.
    fn hold(&mut self, history: &History, at: Moment, entries: &[Entry]) {
        for life in self.entries.iter_mut().filter(|life| life.end.is_none()) {
            match entries.iter().find(|entry| entry.number == life.number) {
                Some(entry) => {
                    let hold = hold(entry);
                    if life.segments.last().is_none_or(|(_, last)| *last != hold) {
                        life.segments.push((at, hold));
                    }
                }
                None if life.is_stored() && at.slot > 0 => life.end = Some((at, Gone::Taken)),
                None if life.is_stored() => life.end = Some((at, gone(history, at.frame, life.number))),
                None => {}
            }
        }
    }

    fn records(&mut self, history: &History, frame: usize) {
        let step = &history.steps[frame];
        for (place, slot) in slots(step).into_iter().enumerate() {
            let record = step.records[place];
            let at = Moment { frame, slot };
            match record.kind {
                TICKED => continue,
                CREATED => self.create(step, at, &record),
                COMMITTED | ABORTED | EXCEPTION => self.end(at, &record),
                WAITING => self.wait(step, at, &record),
                RENEWED => self.renew(history, at, &record),
                NOTIFIED => self.register(step, at, &record),
                RUNG => self.ring(at, &record),
                FOUND | NOTHING if slot > 0 => self.close(at, &record),
                _ => {}
            }
            let own = place == 0;
            let named = step.request().filter(|_| own && record.kind == REFUSED).map(|request| request.transaction);
            let transaction = match named {
                Some(named) if history.before(frame).transaction(named).is_some_and(|t| t.owner == record.party) => {
                    named
                }
                _ => record.transaction,
            };
            let class = class_of(history, frame, place);
            self.marks.push(Mark { at, place, record, own, class, transaction });
        }
    }

    fn create(&mut self, step: &Step, at: Moment, record: &Record) {
        let lease = step.after.transaction(record.transaction).map_or(End::Never, |transaction| transaction.end);
        let (number, party) = (record.transaction, record.party);
        self.transactions.push(TransactionLife { number, party, lease, begin: at, end: None });
    }

    fn end(&mut self, at: Moment, record: &Record) {
        if let Some(life) = self.transactions.iter_mut().find(|life| life.number == record.transaction) {
            life.end = Some((at, record.kind));
        }
        let inside = |wait: &&mut Wait| wait.end.is_none() && wait.look_up.transaction == record.transaction;
        if let Some(wait) = self.waits.iter_mut().find(inside) {
            wait.end = Some((at, record.kind));
        }
    }

    fn wait(&mut self, step: &Step, at: Moment, record: &Record) {
        let served = step.request().map(|request| LookUp {
            party: record.party,
            operation: request.operation.number,
            template: request.template(),
            transaction: request.transaction,
            deadline: End::Never,
        });
        if let Some(look_up) = step.after.look_up(record.party).copied().or(served) {
            self.waits.push(Wait { look_up, begin: at, end: None });
        }
    }

    fn close(&mut self, at: Moment, record: &Record) {
        let open = |wait: &&mut Wait| wait.end.is_none() && wait.look_up.party == record.party;
        if let Some(wait) = self.waits.iter_mut().find(open) {
            wait.end = Some((at, record.kind));
        }
    }

    fn register(&mut self, step: &Step, at: Moment, record: &Record) {
        if let Some(&registration) = step.after.registration(record.entry) {
            self.registrations.push(RegistrationLife { registration, begin: at, bells: vec![], end: None });
        }
    }

    fn ring(&mut self, at: Moment, record: &Record) {
        let rings = |life: &&mut RegistrationLife| life.registration.number == record.entry;
        if let Some(life) = self.registrations.iter_mut().find(rings) {
            life.bells.push(at);
        }
    }

    /// Registrations end without a record.
    fn unregister(&mut self, history: &History, frame: usize) {
        let after = &history.steps[frame].after;
        for life in self.registrations.iter_mut().filter(|life| life.end.is_none()) {
            if after.registration(life.registration.number).is_none() {
                life.end = Some(Moment { frame, slot: 0 });
            }
        }
    }

    pub fn entry(&self, number: u32) -> Option<&EntryLife> {
        self.entries.iter().find(|life| life.number == number)
    }

    pub fn transaction(&self, number: u32) -> Option<&TransactionLife> {
        self.transactions.iter().find(|life| life.number == number)
    }
}
