//! `tray bounds`: what a tray's run needs at most, from the tray alone (document 02, T-10), and what it needs in fact.

use crate::boundary::{tray_bounds, TrayBounds};
use crate::frame::{operation_of, Class};
use crate::history::{run_in, Outcome, Step};
use crate::record::{EXCEPTION, RECORD_BYTES, RUNG, STEP_BYTES, WRITTEN};
use crate::run::stop_words;
use crate::text::Text;
use crate::words::MAX_REGISTRATIONS;
use std::fmt::Write;

/// The kinds of frames, and what comes besides a frame's own record.
const KINDS: [(&str, &str); 9] = [
    ("write", "bells"),
    ("look-up", "later answers"),
    ("create", "exceptions"),
    ("commit", "bells"),
    ("abort", ""),
    ("tick", ""),
    ("notify", ""),
    ("renew", ""),
    ("no operation", ""),
];

const LOOK_UP: usize = 1;
const CREATE: usize = 2;

/// The place in `KINDS`.
fn place_of(class: Option<Class>) -> usize {
    match class {
        Some(Class::Write) => 0,
        Some(Class::LookUp { .. }) => LOOK_UP,
        Some(Class::Create) => CREATE,
        Some(Class::Commit) => 3,
        Some(Class::Abort) => 4,
        Some(Class::Tick) => 5,
        Some(Class::Notify) => 6,
        Some(Class::Renew) => 7,
        None => 8,
    }
}

/// "Frames are told apart by byte 0 alone, garbled ones too; an empty one is none of these kinds."
fn class_of(frame: &[u8]) -> Option<Class> {
    frame.first().and_then(|&number| operation_of(number)).map(|operation| operation.class)
}

/// The records of a kind of frames besides their own: at most, and in fact.
#[derive(Clone, Copy, Default, PartialEq, Eq, Debug)]
pub struct Share {
    pub frames: usize,
    pub at_most: usize,
    pub came: usize,
}

/// A tray's bounds, and its run in an area of the size that they give.
pub struct Needs {
    pub bounds: TrayBounds,
    pub outcome: Outcome,
}

impl Needs {
    pub fn of(text: &Text, tray: &[u8]) -> Needs {
        let bounds = TrayBounds::of(tray_bounds(tray));
        Needs { bounds, outcome: run_in(text, tray, bounds.area()) }
    }

    fn steps(&self) -> &[Step] {
        &self.outcome.history.steps
    }

    /// Entries stored together, in fact: for a moment also one that is taken in the step of its write.
    pub fn entries(&self) -> usize {
        let stored = |(place, step): (usize, &Step)| {
            let written = step.records.first().is_some_and(|own| own.kind == WRITTEN);
            let stores = written && step.request().is_some_and(|request| request.duration != 0);
            let before = self.outcome.history.before(place).entries.len();
            step.after.entries.len().max(before + usize::from(stores))
        };
        self.steps().iter().enumerate().map(stored).max().unwrap_or(0)
    }

    /// The smallest area in which the run does every frame.
    pub fn area(&self) -> usize {
        let before_last = self.steps().split_last().map(|(_, before)| before);
        let records = |steps: &[Step]| steps.iter().map(|step| step.records.len()).sum::<usize>();
        before_last.map_or(0, |steps| RECORD_BYTES * records(steps) + STEP_BYTES)
    }

    /// By the kinds of frames, in the order of `KINDS`.
    pub fn shares(&self) -> Vec<Share> {
        let mut shares = vec![Share::default(); KINDS.len()];
        let mut notifies = 0;
        for step in self.steps() {
            let class = class_of(&step.asked.frame);
            let own = place_of(class);
            shares[own].frames += 1;
            shares[own].at_most += match class {
                Some(Class::Write | Class::Commit) => notifies.min(MAX_REGISTRATIONS),
                Some(Class::LookUp { .. } | Class::Create) => 1,
                _ => 0,
            };
            notifies += usize::from(class == Some(Class::Notify));
            for record in step.records.iter().skip(1) {
                let place = match record.kind {
                    RUNG => own,
                    EXCEPTION => CREATE,
                    _ => LOOK_UP, // found or nothing
                };
                shares[place].came += 1;
            }
        }
        shares
    }

    /// What the theorem excludes: if there is any, the archive is damaged, or the tool is wrong.
    pub fn faults(&self) -> Vec<String> {
        let (TrayBounds { entries, records, number }, done, stored) = (self.bounds, self.outcome.done, self.entries());
        let counted = self.outcome.frames + total(&self.shares()).at_most;
        let cases = [
            (done.number != number, format!("the bounds have number {number}, the run {}", done.number)),
            (stored > entries, format!("entries stored together: {stored}, and the bound is {entries}")),
            (done.records > records, format!("records: {}, and the bound is {records}", done.records)),
            (
                number == 0 && counted != records,
                "the shares of the frames do not add up to the bound of the records".to_string(),
            ),
        ];
        cases.into_iter().filter(|(holds, _)| *holds).map(|(_, fault)| fault).collect()
    }

    /// Both bounds and the area with what is needed in fact, then the shares; a tray that is refused has none.
    pub fn words(&self) -> String {
        if self.outcome.is_refused() {
            return stop_words(&self.outcome) + "it has no bounds\n";
        }
        let (bounds, done) = (self.bounds, self.outcome.done);
        let mut text = stop_words(&self.outcome);
        let _ = writeln!(text, "{:<26}{:>8}{:>10}", "", "at most", "in fact");
        for (name, at_most, in_fact) in [
            ("entries stored together", bounds.entries, self.entries()),
            ("records", bounds.records, done.records),
            ("bytes of answers area", bounds.area(), self.area()),
        ] {
            let _ = writeln!(text, "{name:<26}{at_most:>8}{in_fact:>10}");
        }
        text + "\n" + &table(&self.shares())
    }
}

fn total(shares: &[Share]) -> Share {
    let sum = |part: fn(&Share) -> usize| shares.iter().map(part).sum();
    Share { frames: sum(|it| it.frames), at_most: sum(|it| it.at_most), came: sum(|it| it.came) }
}

/// The kinds of frames that there are.
fn table(shares: &[Share]) -> String {
    let mut text =
        format!("{:<14}{:>6}  {:<27}{:>7}{:>10}\n", "", "frames", "records besides their own", "at most", "in fact");
    let mut line = |name: &str, besides: &str, Share { frames, at_most, came }: Share| {
        let _ = writeln!(text, "{name:<14}{frames:>6}  {besides:<27}{at_most:>7}{came:>10}");
    };
    for ((name, besides), share) in KINDS.iter().zip(shares).filter(|(_, share)| share.frames > 0) {
        line(name, besides, *share);
    }
    line("all", "", total(shares));
    text
}
