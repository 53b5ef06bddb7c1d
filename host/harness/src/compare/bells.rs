//! The bells of a history (document 02, T-03), from frames and other answers alone: "The total is to equal the matching
//! entries made public in the history since the registration."

use reference::answer::{Kind, Record};
use reference::frame::{decode, look_up_kind, mark_of, word, Mark, Request, Template, LOOK_UPS, NONE};
use reference::space::End;
use std::collections::BTreeMap;

/// An entry that is private to a transaction.
#[derive(Clone)]
struct Private {
    number: u32,
    mark: Mark,
    end: End,
}

#[derive(Clone)]
struct Registration {
    number: u32,
    party: u8,
    template: Template,
    end: End,
    /// The matching entries made public since.
    total: u32,
}

#[derive(Clone)]
pub struct Bells {
    clock: u32,
    /// What each transaction has written and not taken again.
    private: BTreeMap<u32, Vec<Private>>,
    /// For each party, whether its latest look-up that was not refused takes.
    takes: [bool; 17],
    live: Vec<Registration>,
}

impl Bells {
    /// `clock` is 0 for a history from the empty space.
    pub fn new(clock: u32) -> Bells {
        Bells { clock, private: BTreeMap::new(), takes: [false; 17], live: Vec::new() }
    }

    /// A frame, with the records that it was answered. Tells if the bells among them are not those of the history, last
    /// and by number.
    pub fn feed(&mut self, frame: &[u8], records: &[Record]) -> Result<(), String> {
        let Some(own) = records.first() else { return Ok(()) };
        if !own.is(Kind::Refused) && LOOK_UPS.contains(&frame[0]) {
            self.takes[usize::from(frame[1])] = look_up_kind(frame[0]).takes;
        }
        let public: Vec<Mark> = records.iter().flat_map(|record| self.record(frame, record)).collect();
        let wanted = self.ring(&public);
        let first = records.iter().position(|record| record.is(Kind::Rung)).unwrap_or(records.len());
        match records[first..] == wanted {
            true => Ok(()),
            false => Err(format!("the history has other bells: {wanted:?}")),
        }
    }

    /// Follows a record; gives what it makes public.
    fn record(&mut self, frame: &[u8], record: &Record) -> Vec<Mark> {
        let transaction = record.transaction;
        if record.is(Kind::Written) && word(frame, 8) != 0 {
            let (mark, end) = (mark_of(frame), End::after(self.clock, word(frame, 8)));
            if transaction == NONE {
                return vec![mark];
            }
            self.private.entry(transaction).or_default().push(Private { number: record.entry, mark, end });
        } else if record.is(Kind::Found) && self.takes[usize::from(record.party)] {
            let own = self.private.get_mut(&transaction);
            own.into_iter().for_each(|own| own.retain(|entry| entry.number != record.entry));
        } else if record.is(Kind::Committed) {
            let own = self.private.remove(&transaction).unwrap_or_default();
            return own.into_iter().filter(|it| !it.end.reached(self.clock)).map(|it| it.mark).collect();
        } else if record.is(Kind::Aborted) || record.is(Kind::Exception) {
            self.private.remove(&transaction);
        } else if record.is(Kind::Ticked) {
            self.clock += 1;
            self.live.retain(|registration| !registration.end.reached(self.clock));
        } else if record.is(Kind::Notified) {
            self.register(frame, record.entry);
        }
        Vec::new()
    }

    fn register(&mut self, frame: &[u8], number: u32) {
        if let Ok(Request::Notify { party, lease, template }) = decode(frame) {
            let end = End::after(self.clock, lease);
            self.live.push(Registration { number, party, template, end, total: 0 });
        }
    }

    /// The records of those that match some.
    fn ring(&mut self, public: &[Mark]) -> Vec<Record> {
        let mut bells = Vec::new();
        for Registration { number, party, template, total, .. } in &mut self.live {
            let count = public.iter().filter(|mark| template.matches(mark)).count() as u32;
            if count != 0 {
                *total += count;
                let mark = Mark { fields: [count, *total, 0, 0], blanks: 0 };
                bells.push(Record { entry: *number, mark, ..Record::new(Kind::Rung, *party, NONE) });
            }
        }
        bells
    }
}
