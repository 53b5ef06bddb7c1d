//! What occurs with renewals (document 02, T-05).

use super::situation::{entry_in, Step, Times};
use reference::answer::Kind;
use reference::frame::{word, FOREVER, NONE};
use reference::space::{End, Entry};
use std::collections::{BTreeMap, BTreeSet};

/// What has become of the entries of a history.
#[derive(Default)]
pub struct Renewals {
    /// Renewed, and stored still, each with the ends that it had before.
    renewed: BTreeMap<u32, Vec<End>>,
    /// Written inside a transaction.
    inside: BTreeSet<u32>,
    put_back: BTreeSet<u32>,
    /// By what they are stored no more.
    taken: BTreeSet<u32>,
    ended: BTreeSet<u32>,
    aborted: BTreeSet<u32>,
    removed: BTreeSet<u32>,
}

fn held(entry: &Entry) -> bool {
    entry.private_to != NONE || entry.taken_by != NONE || !entry.read_by.is_empty()
}

impl Step<'_> {
    /// The entry that a renewal names.
    fn named(&self) -> Option<&Entry> {
        entry_in(self.before, word(self.frame, 4))
    }

    /// A frame of operation 11 that is refused for what its bytes are.
    fn ill_formed(&self) -> [Times; 4] {
        let (frame, number) = (self.frame, self.records[0].refusal);
        let of = |holds: bool| usize::from(holds);
        [
            ("renewal refused: length", of(number == 3)),
            ("renewal refused: mask", of(number == 4 && frame[2] != 0 && frame[3] == 0)),
            ("renewal refused: byte 3", of(number == 4 && frame[2] == 0)),
            ("renewal refused: party", of(number == 5)),
        ]
    }

    /// 19, 20 and 10 of a renewal, and what stands behind them in the order.
    fn barred(&self, entry: &Entry) -> Vec<Times> {
        let number = self.records[0].refusal;
        let of = |wanted: u8, holds: bool| usize::from(number == wanted && holds);
        let late = self.is_too_late();
        vec![
            ("renewal of another's", of(19, !held(entry))),
            ("renewal of another's, held or private", of(19, held(entry))),
            ("renewal of a private one", of(20, entry.private_to != NONE)),
            ("renewal of a read-held one", of(20, !entry.read_by.is_empty())),
            ("renewal of a take-held one", of(20, entry.taken_by != NONE)),
            ("renewal under the own take hold", of(20, self.is_own(entry.taken_by))),
            ("renewal under the own read hold", of(20, entry.read_by.iter().any(|&by| self.is_own(by)))),
            ("renewal of a held one, too late", of(20, late)),
            ("renewal too late", of(10, true)),
        ]
    }

    fn renewed(&self, entry: &Entry) -> Vec<Times> {
        let lease = word(self.frame, 8);
        let end = End::after(self.before.clock, lease);
        let compared = |wanted| matches!((entry.end, end), (End::At(old), End::At(new)) if new.cmp(&old) == wanted);
        let of = |holds: bool| usize::from(holds && lease != 0);
        vec![
            ("renewed, a later end", of(compared(std::cmp::Ordering::Greater))),
            ("renewed, an earlier end", of(compared(std::cmp::Ordering::Less))),
            ("renewed, the same end", of(compared(std::cmp::Ordering::Equal))),
            ("renewed for good", of(end == End::Never && entry.end != End::Never)),
            ("renewed, no longer for good", of(end != End::Never && entry.end == End::Never)),
            ("renewed with lease 0", usize::from(lease == 0)),
            ("renewed up to the last clock", of(end == End::At(FOREVER - 1))),
            ("renewed while look-ups wait", usize::from(!self.before.waiting.is_empty())),
        ]
    }

    /// The entries that have gone with this step, by number.
    fn gone(&self) -> impl Iterator<Item = &Entry> {
        self.before.entries.iter().filter(|entry| entry_in(self.after, entry.number).is_none())
    }
}

impl Renewals {
    /// A frame that wrote some record has been compared.
    pub fn step(&mut self, step: &Step) -> Vec<Times> {
        let refused = step.own(Kind::Refused);
        if step.frame.first() == Some(&11) && (refused || step.own(Kind::Renewed)) {
            return self.renewal(step);
        }
        if refused {
            return Vec::new();
        }
        let mut times =
            vec![("renewed, found later", step.founds().filter(|it| self.renewed.contains_key(it)).count())];
        if step.own(Kind::Ticked) {
            times.extend(self.tick(step));
        }
        self.follow(step);
        times
    }

    fn renewal(&mut self, step: &Step) -> Vec<Times> {
        let number = step.records[0].refusal;
        match number {
            6 => return vec![("renewal of a party that waits", 1)],
            2..=5 => return step.ill_formed().to_vec(),
            _ => {}
        }
        match step.named() {
            None => self.missing(step),
            Some(entry) if number != 0 => step.barred(entry),
            Some(entry) => {
                let mut times = step.renewed(entry);
                times.extend(self.again(entry.number));
                self.renewed.entry(entry.number).or_default().push(entry.end);
                if word(step.frame, 8) == 0 {
                    self.renewed.remove(&entry.number);
                    self.removed.insert(entry.number);
                }
                times
            }
        }
    }

    /// What the renewed entry has been through.
    fn again(&self, number: u32) -> [Times; 3] {
        [
            ("renewed again", usize::from(self.renewed.contains_key(&number))),
            ("renewed, written in a transaction", usize::from(self.inside.contains(&number))),
            ("renewed after it was put back", usize::from(self.put_back.contains(&number))),
        ]
    }

    /// 18, by what has become of the entry.
    fn missing(&self, step: &Step) -> Vec<Times> {
        let number = word(step.frame, 4);
        let of = |holds: bool| usize::from(holds);
        vec![
            ("renewal of a taken one", of(self.taken.contains(&number))),
            ("renewal of an ended one", of(self.ended.contains(&number))),
            ("renewal of an aborted one", of(self.aborted.contains(&number))),
            ("renewal of one removed by lease 0", of(self.removed.contains(&number))),
            ("renewal of one never written", of(number == 0 || number >= step.before.next_entry)),
            ("renewal of none, too late", of(step.is_too_late())),
        ]
    }

    /// A renewed entry ends when it was renewed to, and not before.
    fn tick(&self, step: &Step) -> [Times; 2] {
        let clock = step.after.clock;
        let at = |entry: &&Entry| entry.end == End::At(clock) && self.renewed.contains_key(&entry.number);
        let outlived =
            |entry: &&Entry| self.renewed.get(&entry.number).is_some_and(|ends| ends.contains(&End::At(clock)));
        [
            ("renewed, ended at its new end", step.gone().filter(at).count()),
            ("renewed, outlived an old end", step.after.entries.iter().filter(outlived).count()),
        ]
    }

    fn follow(&mut self, step: &Step) {
        let own = step.records[0];
        if own.is(Kind::Written) && own.transaction != NONE {
            self.inside.insert(own.entry);
        }
        let free = |entry: &&Entry| entry_in(step.after, entry.number).is_some_and(|now| now.taken_by == NONE);
        let back = step.before.entries.iter().filter(|entry| entry.taken_by != NONE).filter(free);
        self.put_back.extend(back.map(|entry| entry.number));
        for entry in step.gone() {
            let number = entry.number;
            self.renewed.remove(&number);
            let ended = own.is(Kind::Ticked) && entry.end.reached(step.after.clock);
            let taken = entry.private_to == NONE && !ended;
            let by = if ended {
                &mut self.ended
            } else if taken {
                &mut self.taken
            } else {
                &mut self.aborted
            };
            by.insert(number);
        }
    }
}
