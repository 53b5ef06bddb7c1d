//! What occurs with registrations and their bells (document 02, T-03).

use super::blanks::asks_0_of_a_blank;
use super::situation::{entry_in, of, Step, Times};
use reference::answer::{Kind, Record};
use reference::frame::{asks_arc, mark_of, word, Mark, FOREVER, NONE, PLACE};
use reference::space::{End, Entry, Registration, MOST_REGISTRATIONS};
use std::collections::BTreeSet;

/// What a history leaves no trace of in the space.
#[derive(Default)]
pub struct Registrations {
    ended: Vec<Registration>,
    /// By transaction: what it has written and taken again, and what of it has ended.
    taken_again: Vec<(u32, Mark)>,
    lapsed: Vec<(u32, Mark)>,
}

impl Step<'_> {
    fn later(&self, kind: Kind) -> impl Iterator<Item = &Record> {
        self.records[1..].iter().filter(move |record| record.is(kind))
    }

    pub fn bells(&self) -> Vec<&Record> {
        self.later(Kind::Rung).collect()
    }

    /// How many of these some live registration matches.
    fn heard<'a>(&self, marks: impl Iterator<Item = &'a Mark>) -> usize {
        let live = &self.after.registrations;
        marks.filter(|mark| live.iter().any(|registration| registration.template.matches(mark))).count()
    }

    /// What the step makes public: numbers and fields.
    pub fn public(&self) -> Vec<(u32, Mark)> {
        let own = self.records[0];
        if own.is(Kind::Written) && own.transaction == NONE && word(self.frame, 8) != 0 {
            return vec![(own.entry, mark_of(self.frame))];
        }
        let private = |entry: &&Entry| own.is(Kind::Committed) && entry.private_to == own.transaction;
        self.before.entries.iter().filter(private).map(|entry| (entry.number, entry.mark)).collect()
    }

    fn registered(&self, ended: bool) -> Vec<Times> {
        let lease = word(self.frame, 8);
        let live = &self.before.registrations;
        let new = self.after.registrations.last();
        let alike = |it: &&Registration| new.is_some_and(|new| it.party == new.party && it.template == new.template);
        vec![
            ("notified for good", of(lease == FOREVER)),
            ("notified up to the last clock", of(End::after(self.before.clock, lease) == End::At(FOREVER - 1))),
            ("notified while look-ups wait", of(!self.before.waiting.is_empty())),
            ("notified after one has ended", of(ended)),
            ("notified like one that lives", of(live.iter().any(|it| alike(&it)))),
            ("8 registrations live", of(live.len() + 1 == MOST_REGISTRATIONS)),
        ]
    }

    /// A frame of operation 10 that is refused.
    fn refused_notify(&self) -> Vec<Times> {
        let (frame, number) = (self.frame, self.records[0].refusal);
        let whole = frame.len() == 28;
        let (named, mask) = if whole { (word(frame, 4) != 0, frame[2]) } else { (false, 0) };
        let asked = |i: usize| mask >> i & 1 == 1 || i == PLACE && asks_arc(mask);
        let filled = whole && (0..4).any(|i| !asked(i) && word(frame, 12 + 4 * i) != 0);
        let above = mask > 23; // with bits 3 and 4, or higher ones
        let ill = |holds: bool, others: bool| of(number == 4 && holds && !others);
        let byte_3 = whole && frame[3] != 0;
        let full = self.before.registrations.len() == MOST_REGISTRATIONS;
        let used_up = self.before.next_registration == FOREVER;
        vec![
            ("notify refused: length", of(number == 3)),
            ("notify refused: a transaction", ill(named, byte_3 || above || filled)),
            ("notify refused: a mask above 23", ill(above, byte_3 || named || filled)),
            ("notify refused: a field not asked for", ill(filled, byte_3 || named || above)),
            ("notify refused: byte 3", ill(byte_3, named || above || filled)),
            ("notify refused: party", of(number == 5)),
            ("notify of a party that waits", of(number == 6)),
            ("notify with lease 0", of(number == 9 && !full)),
            ("notify with lease 0, 8 live", of(number == 9 && full)),
            ("notify too late", of(number == 10 && !full)),
            ("notify too late, 8 live", of(number == 10 && full)),
            ("notify with 8 live", of(number == 17 && !used_up)),
            ("notify with 8 live, numbers used up", of(number == 17 && used_up)),
            ("notify, numbers used up", of(number == 13)),
        ]
    }

    /// The bells, by what has rung them.
    fn rung(&self) -> Vec<Times> {
        let bells = self.bells();
        let parties: BTreeSet<u8> = bells.iter().map(|bell| bell.party).collect();
        let count = |holds: fn(&Record) -> bool| bells.iter().filter(|bell| holds(bell)).count();
        let any = |holds: bool| of(holds && !bells.is_empty());
        let waits = |party: u8| self.after.waiting.iter().any(|look_up| look_up.party == party);
        vec![
            ("bell by a write", of(self.own(Kind::Written)) * bells.len()),
            ("bell by a commit", of(self.own(Kind::Committed)) * bells.len()),
            ("bell with a count above 1", count(|bell| bell.mark.fields[0] > 1)),
            ("bell with a total above its count", count(|bell| bell.mark.fields[1] > bell.mark.fields[0])),
            ("bells of several registrations", of(bells.len() > 1)),
            ("bells of 8 registrations", of(bells.len() == MOST_REGISTRATIONS)),
            ("several bells to one party", of(parties.len() < bells.len())),
            ("bell to the party of the frame", of(parties.contains(&self.frame[1]))),
            ("bell to a party that waits", bells.iter().filter(|bell| waits(bell.party)).count()),
            ("bell behind a found", any(self.later(Kind::Found).next().is_some())),
            ("bell behind a nothing", any(self.later(Kind::Nothing).next().is_some())),
            ("24 records in a step, 8 of them bells", of(self.records.len() == 24 && bells.len() == 8)),
        ]
    }

    /// The same by the registrations and the entries.
    fn rung_for(&self, public: &[(u32, Mark)]) -> Vec<Times> {
        let rings = |it: &&Registration| self.bells().iter().any(|bell| bell.entry == it.number);
        let rung: Vec<&Registration> = self.before.registrations.iter().filter(rings).collect();
        let heard = |mark: &Mark| rung.iter().any(|it| it.template.matches(mark));
        let taken = |number: u32| self.later(Kind::Found).any(|found| found.entry == number);
        let gone = |number: u32| taken(number) && entry_in(self.after, number).is_none();
        let in_step = public.iter().filter(|(number, mark)| gone(*number) && heard(mark)).count();
        let clock = self.after.clock;
        vec![
            ("bell by a write, taken in the step", of(self.own(Kind::Written)) * in_step),
            ("bell by a commit, taken in the step", of(self.own(Kind::Committed)) * in_step),
            ("bell for blanks", public.iter().filter(|(_, mark)| mark.blanks != 0 && heard(mark)).count()),
            ("bell of one for good", rung.iter().filter(|it| it.end == End::Never).count()),
            ("bell before the tick that ends it", rung.iter().filter(|it| it.end.reached(clock + 1)).count()),
        ]
    }

    /// No bell where one might be expected: entries become public, and a live registration matches none of them.
    fn unmatched(&self, public: &[(u32, Mark)]) -> [Times; 2] {
        let live = self.before.registrations.iter();
        let silent = live.filter(|it| !self.bells().iter().any(|bell| bell.entry == it.number));
        let silent: Vec<&Registration> = silent.filter(|_| !public.is_empty()).collect();
        let by_blanks = |it: &&&Registration| public.iter().any(|(_, mark)| asks_0_of_a_blank(&it.template, mark));
        [
            ("silent: matches none", silent.len()),
            ("silent: 0 asked of a blank", silent.iter().filter(by_blanks).count()),
        ]
    }

    /// An entry is there or goes, and does not become public.
    fn not_made_public(&self) -> Vec<Times> {
        let (own, clock) = (self.records[0], self.after.clock);
        let aborted = |by: u32| {
            let ended = |end: &Record| end.transaction == by && (end.is(Kind::Aborted) || end.is(Kind::Exception));
            by != NONE && self.records.iter().any(ended)
        };
        let held = || self.before.entries.iter().filter(|entry| !entry.end.reached(clock));
        let back = held().filter(|entry| aborted(entry.taken_by)).map(|entry| &entry.mark);
        let dropped = held().filter(|entry| aborted(entry.private_to)).map(|entry| &entry.mark);
        let named = entry_in(self.after, own.entry).filter(|_| own.is(Kind::Renewed));
        let written = own.is(Kind::Written).then(|| mark_of(self.frame));
        let (back, written) = (self.heard(back), self.heard(written.iter()));
        let stored = own.is(Kind::Written) && word(self.frame, 8) != 0;
        vec![
            ("silent: lease 0", of(!stored && own.transaction == NONE) * written),
            ("silent: written inside", of(stored && own.transaction != NONE) * written),
            ("silent: put back by an abort", of(own.is(Kind::Aborted)) * back),
            ("silent: put back by an exception", of(own.is(Kind::Ticked)) * back),
            ("silent: aborted", self.heard(dropped)),
            ("silent: renewed", self.heard(named.map(|entry| &entry.mark).into_iter())),
        ]
    }

    fn tick(&self) -> Vec<Times> {
        let clock = self.after.clock;
        let ends = |it: &Registration| it.end.reached(clock);
        let live = &self.before.registrations;
        let ended = live.iter().filter(|it| ends(it)).count();
        let first_left = live.iter().position(|it| !ends(it));
        let last_ended = live.iter().rposition(ends);
        let exceptions = self.later(Kind::Exception).count();
        vec![
            ("registration ended", ended),
            ("registrations ended together", of(ended > 1)),
            ("registration ended, a later one left", of(last_ended.is_some() && first_left > Some(0))),
            ("registration ended, an earlier one left", of(first_left.is_some() && first_left < last_ended)),
            ("registration ended with a transaction", of(ended > 0 && exceptions > 0)),
        ]
    }
}

impl Registrations {
    /// A frame that wrote some record has been compared.
    pub fn step(&mut self, step: &Step) -> Vec<Times> {
        if step.own(Kind::Refused) {
            return if step.frame.first() == Some(&10) { step.refused_notify() } else { Vec::new() };
        }
        if step.own(Kind::Notified) {
            return step.registered(!self.ended.is_empty());
        }
        let public = step.public();
        let mut times = step.rung();
        times.extend(step.rung_for(&public));
        times.extend(step.unmatched(&public));
        times.extend(step.not_made_public());
        times.extend(self.forgotten(step, &public));
        if step.own(Kind::Ticked) {
            times.extend(step.tick());
        }
        self.follow(step);
        times
    }

    /// No bell for what is no more: a registration, or an entry of the transaction that commits.
    fn forgotten(&self, step: &Step, public: &[(u32, Mark)]) -> [Times; 3] {
        let transaction = if step.own(Kind::Committed) { step.records[0].transaction } else { NONE };
        let own = |list: &[(u32, Mark)]| {
            let marks: Vec<Mark> = list.iter().filter(|(by, _)| *by == transaction).map(|(_, mark)| *mark).collect();
            step.heard(marks.iter())
        };
        let heard = |it: &&Registration| public.iter().any(|(_, mark)| it.template.matches(mark));
        [
            ("silent: ended before", self.ended.iter().filter(heard).count()),
            ("silent: taken again before the commit", own(&self.taken_again)),
            ("silent: lease over before the commit", own(&self.lapsed)),
        ]
    }

    fn follow(&mut self, step: &Step) {
        let clock = step.after.clock;
        self.ended.extend(step.before.registrations.iter().filter(|it| it.end.reached(clock)).cloned());
        let ends = |record: &&Record| [Kind::Committed, Kind::Aborted, Kind::Exception].iter().any(|&it| record.is(it));
        let over: Vec<u32> = step.records.iter().filter(ends).map(|record| record.transaction).collect();
        for list in [&mut self.taken_again, &mut self.lapsed] {
            list.retain(|(by, _)| !over.contains(by));
        }
        let private = step.before.entries.iter().filter(|entry| entry.private_to != NONE);
        for entry in private.filter(|entry| !over.contains(&entry.private_to)) {
            if entry.end.reached(clock) {
                self.lapsed.push((entry.private_to, entry.mark));
            } else if entry_in(step.after, entry.number).is_none() {
                self.taken_again.push((entry.private_to, entry.mark));
            }
        }
    }
}
