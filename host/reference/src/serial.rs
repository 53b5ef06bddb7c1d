//! The serial run of document 01: it is fed the frames in order, each with the records its step wrote, and
//! nothing from the space.

use crate::answer::{Kind, Record};
use crate::frame::{look_up_kind, mark_of, word, Mark, LOOK_UPS, NONE};
use crate::space::{End, Space};
use std::collections::{BTreeMap, BTreeSet};

#[derive(Clone, Copy, PartialEq, Eq, Debug)]
pub struct Member {
    pub number: u32,
    pub mark: Mark,
    pub end: End,
}

#[derive(Clone, Copy, Debug)]
enum Operation {
    Add(Member),
    Need { number: u32, mark: Mark, takes: bool },
}

pub struct SerialRun {
    clock: u32,
    /// Document 02: "The plain set keeps blanks with its fields."
    set: BTreeMap<u32, (Mark, End)>,
    lists: BTreeMap<u32, Vec<Operation>>,
    /// For each party, whether its latest look-up frame that was not refused takes.
    takes: [bool; 17],
    taken: BTreeSet<u32>,
    failure: Option<String>,
}

impl SerialRun {
    /// `clock` is 0 for a run from the empty space.
    pub fn new(clock: u32) -> SerialRun {
        SerialRun {
            clock,
            set: BTreeMap::new(),
            lists: BTreeMap::new(),
            takes: [false; 17],
            taken: BTreeSet::new(),
            failure: None,
        }
    }

    pub fn feed(&mut self, frame: &[u8], records: impl Iterator<Item = Record>) {
        for (place, record) in records.enumerate() {
            let refused = record.is(Kind::Refused);
            if place == 0 && !refused && LOOK_UPS.contains(&frame[0]) {
                self.takes[usize::from(frame[1])] = look_up_kind(frame[0]).takes;
            }
            self.record(frame, record);
        }
    }

    fn record(&mut self, frame: &[u8], record: Record) {
        if record.is(Kind::Written) {
            let end = End::after(self.clock, word(frame, 8));
            let member = Member { number: record.entry, mark: mark_of(frame), end };
            self.operation(record.transaction, Operation::Add(member));
        } else if record.is(Kind::Found) {
            let takes = self.takes[usize::from(record.party)];
            self.operation(record.transaction, Operation::Need { number: record.entry, mark: record.mark, takes });
        } else if record.is(Kind::Committed) {
            for operation in self.lists.remove(&record.transaction).unwrap_or_default() {
                self.carry_out(operation);
            }
        } else if record.is(Kind::Aborted) || record.is(Kind::Exception) {
            self.lists.remove(&record.transaction);
        } else if record.is(Kind::Ticked) {
            self.clock += 1;
        } else if record.is(Kind::Renewed) {
            self.renew(record.entry, End::after(self.clock, word(frame, 8)));
        }
    }

    fn operation(&mut self, transaction: u32, operation: Operation) {
        if transaction == NONE {
            self.carry_out(operation);
        } else {
            self.lists.entry(transaction).or_default().push(operation);
        }
    }

    fn carry_out(&mut self, operation: Operation) {
        match operation {
            Operation::Add(Member { number, mark, end }) => {
                if self.set.insert(number, (mark, end)).is_some() {
                    self.fail(format!("entry {number} is added twice"));
                }
            }
            Operation::Need { number, mark, takes } => {
                if self.set.get(&number).map(|&(present, _)| present) != Some(mark) {
                    self.fail(format!("entry {number} with {mark:?} is missing"));
                } else if takes {
                    self.set.remove(&number);
                    if !self.taken.insert(number) {
                        self.fail(format!("entry {number} is taken twice"));
                    }
                }
            }
        }
    }

    /// Document 02: "In the serial run a renewal changes the entry's end at its place." With lease 0 that is the run's
    /// clock, and the entry is dropped at the end.
    fn renew(&mut self, number: u32, end: End) {
        match self.set.get_mut(&number) {
            Some(member) => member.1 = end,
            None => self.fail(format!("entry {number} is renewed and missing")),
        }
    }

    fn fail(&mut self, why: String) {
        self.failure.get_or_insert(why);
    }

    /// Whether the run succeeded, and what is left equals the committed entries.
    pub fn check(&self, committed: &[Member]) -> Result<(), String> {
        if let Some(why) = &self.failure {
            return Err(why.clone());
        }
        let left: Vec<Member> = self
            .set
            .iter()
            .map(|(&number, &(mark, end))| Member { number, mark, end })
            .filter(|member| !member.end.reached(self.clock))
            .collect();
        let most = left.len().max(committed.len());
        if let Some(place) = (0..most).find(|&i| left.get(i) != committed.get(i)) {
            return Err(format!("left: {:?}, committed: {:?}", left.get(place), committed.get(place)));
        }
        Ok(())
    }
}

/// The committed entries: those stored and private to no transaction, held or not, by number.
pub fn committed(space: &Space) -> Vec<Member> {
    let mut members: Vec<Member> = space
        .entries
        .iter()
        .filter(|entry| entry.private_to == NONE)
        .map(|entry| Member { number: entry.number, mark: entry.mark, end: entry.end })
        .collect();
    members.sort_by_key(|member| member.number);
    members
}
