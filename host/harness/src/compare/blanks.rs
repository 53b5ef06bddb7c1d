//! What occurs with blanks (document 02, T-08).

use super::hand_outs::look_up_of;
use super::situation::{Step, Times};
use reference::answer::Kind;
use reference::frame::{mark_of, word, Mark, Refusal, Template, NONE};
use reference::space::{Entry, LookUp};
use std::collections::BTreeSet;

/// The entries with blanks of a history, by what has become of them.
#[derive(Default)]
pub struct Blanks {
    committed: BTreeSet<u32>,
    put_back: BTreeSet<u32>,
}

/// The entry as it would be if its blanks were values: they are 0.
fn as_values(entry: &Entry) -> Entry {
    Entry { mark: Mark { blanks: 0, ..entry.mark }, ..entry.clone() }
}

/// Whether the template would match, did it not ask 0 of a blank. An arc asks no value.
pub fn asks_0_of_a_blank(template: &Template, mark: &Mark) -> bool {
    template.mask & mark.blanks != 0 && template.matches(&Mark { blanks: 0, ..*mark })
}

/// Whether the look-up passes over the entry for its blanks alone.
fn passes_over(look_up: &LookUp, entry: &Entry) -> bool {
    asks_0_of_a_blank(&look_up.template, &entry.mark) && as_values(entry).available(look_up)
}

impl Step<'_> {
    fn founds_among(&self, numbers: &BTreeSet<u32>) -> usize {
        self.founds().filter(|number| numbers.contains(number)).count()
    }

    /// The entries with blanks that were private to the transaction before the step.
    fn private(&self, transaction: u32) -> BTreeSet<u32> {
        let entries = self.before.entries.iter();
        entries.filter(|e| e.mark.blanks != 0 && e.private_to == transaction).map(|e| e.number).collect()
    }

    /// The entries with blanks whose take hold has gone: they are there without one, or handed out again already.
    fn put_back(&self) -> BTreeSet<u32> {
        let free = |number| self.after.entries.iter().any(|e| e.number == number && e.taken_by == NONE);
        let held = self.before.entries.iter().filter(|e| e.mark.blanks != 0 && e.taken_by != NONE);
        held.map(|e| e.number).filter(|&number| free(number) || self.founds().any(|it| it == number)).collect()
    }

    /// A write that 4 refuses for its mask or for a blank that is not 0, and nothing else.
    fn refused(&self) -> Vec<Times> {
        let frame = self.frame;
        let judged = frame.len() == 28 && frame[0] == 1 && frame[3] == 0;
        let holds = judged && self.records[0].refusal == Refusal::Form as u8;
        let filled = holds && (0..4).any(|i| frame[2] >> i & 1 == 1 && mark_of(frame).fields[i] != 0);
        let above = holds && frame[2] > 15;
        vec![
            ("write refused: a blank is not 0", usize::from(filled && !above)),
            ("write refused: a mask above 15", usize::from(above && !filled)),
            ("write refused so, with lease 0", usize::from(holds && word(frame, 8) == 0)),
        ]
    }

    fn written(&self) -> [Times; 2] {
        let holds = self.own(Kind::Written) && self.frame[2] != 0;
        let stored = holds && word(self.frame, 8) != 0;
        [("written with blanks", usize::from(stored)), ("written with blanks, lease 0", usize::from(holds && !stored))]
    }

    /// A look-up that finds nothing, though there is an entry that has 0 where it is blank.
    fn asked(&self) -> Vec<Times> {
        let Some(look_up) = look_up_of(self.frame) else { return Vec::new() };
        let stored = &self.before.entries;
        let passed = !self.own(Kind::Found) && stored.iter().any(|entry| passes_over(&look_up, entry));
        let asks_0 = |entry: &Entry| asks_0_of_a_blank(&look_up.template, &entry.mark);
        let conflicts = |entry: &Entry| asks_0(entry) && as_values(entry).conflicts(&look_up);
        let in_vain = look_up.kind.if_exists && self.own(Kind::Nothing) && word(self.frame, 8) != 0;
        vec![
            ("0 asked of a blank, not found", usize::from(passed)),
            ("IfExists, 0 asked of another's blank", usize::from(in_vain && stored.iter().any(conflicts))),
        ]
    }
}

impl Blanks {
    /// A frame that wrote some record has been compared.
    pub fn step(&mut self, step: &Step) -> Vec<Times> {
        if step.own(Kind::Refused) {
            return step.refused();
        }
        let mut times = vec![
            ("committed with blanks, found later", step.founds_among(&self.committed)),
            ("0 asked of a blank, waits on", step.waiting_on(passes_over)),
        ];
        times.extend(step.written());
        times.extend(step.asked());
        if step.own(Kind::Committed) {
            let public = step.private(step.records[0].transaction);
            times.push(("committed with blanks, found in the step", step.founds_among(&public)));
            self.committed.extend(public);
        }
        let back = step.put_back();
        times.push(("put back with blanks", back.len()));
        self.put_back.extend(back);
        times.push(("put back with blanks, found again", step.founds_among(&self.put_back)));
        times
    }
}
