//! Waiting times over many sittings (document 02, T-14). Every figure is the library's (`boundary`); from frames and
//! answers they are counted once more, to see that they agree. `parse` reads sittings, `tell` words the report.

pub mod parse;
pub mod tell;

use crate::boundary::{add_sitting, empty_report, REPORT};
use crate::bytes::frames_of;
use crate::history::History;
use crate::record::{FOUND, WAITING};
use crate::tally::{fates, Fate};
use crate::text::Asked;

pub const MOST_SITTINGS: usize = 64;
pub const PARTIES: usize = 16;
/// The number of a tray beyond the most.
pub const TOO_MANY: u8 = 25;

/// The words of a report: trays handed in, refused ones, then the figures of each party.
const HANDED_IN: usize = 0;
const REFUSED: usize = 1;
const FIGURES_AT: usize = 2;
const FIGURES: usize = 5;

type Words = [u32; REPORT];

/// The tray of a sitting, and what it is called.
#[derive(Clone, PartialEq, Eq, Debug)]
pub struct Sitting {
    pub name: String,
    pub tray: Vec<u8>,
}

/// "look-ups not refused, founds, the longest wait (0 if none), .. ticks waited in all and count of waits"
#[derive(Clone, Copy, Default, PartialEq, Eq, Debug)]
pub struct Figures {
    pub look_ups: u32,
    pub founds: u32,
    pub longest: u32,
    pub ticks: u32,
    pub waits: u32,
}

impl Figures {
    /// Of a party, counted from 0.
    fn read(words: &Words, party: usize) -> Figures {
        let at = FIGURES_AT + FIGURES * party;
        let [look_ups, founds, longest, ticks, waits] = std::array::from_fn(|figure| words[at + figure]);
        Figures { look_ups, founds, longest, ticks, waits }
    }

    fn add_wait(&mut self, ticks: u32) {
        self.longest = self.longest.max(ticks);
        self.ticks += ticks;
        self.waits += 1;
    }

    /// The mean wait in tenths of a tick, a half rounded up; none without a wait.
    pub fn mean_in_tenths(&self) -> Option<u64> {
        let (ticks, waits) = (u64::from(self.ticks), u64::from(self.waits));
        (20 * ticks + waits).checked_div(2 * waits)
    }
}

/// What the library makes of sittings.
#[derive(Clone, PartialEq, Eq, Debug)]
pub struct Report {
    pub words: Words,
    /// What it says to each sitting: 0, or the number of a refusal.
    pub numbers: Vec<u8>,
    /// The words of each sitting handed in alone.
    alone: Vec<Words>,
}

/// The words once more, with another tray handed in, and the number of its refusal.
fn handed_in(mut words: Words, tray: &[u8]) -> (Words, u8) {
    let returned = add_sitting(&mut words, tray);
    (words, u8::try_from(returned / 65536).unwrap_or(u8::MAX))
}

impl Report {
    pub fn of(sittings: &[Sitting]) -> Report {
        let mut none = [0; REPORT];
        empty_report(&mut none);
        let mut report = Report { words: none, numbers: Vec::new(), alone: Vec::new() };
        for Sitting { tray, .. } in sittings {
            let (words, number) = handed_in(report.words, tray);
            report.words = words;
            report.numbers.push(number);
            report.alone.push(handed_in(none, tray).0);
        }
        report
    }

    /// Of each party, by number.
    pub fn figures(&self) -> [Figures; PARTIES] {
        std::array::from_fn(|party| Figures::read(&self.words, party))
    }

    /// The first sitting in which a party, counted from 0, has its longest wait; none if it has no wait.
    pub fn longest_in(&self, party: usize) -> Option<usize> {
        let longest = Figures::read(&self.words, party).longest;
        let has = |words: &Words| {
            let figures = Figures::read(words, party);
            figures.waits > 0 && figures.longest == longest
        };
        self.alone.iter().zip(&self.numbers).position(|(words, number)| *number == 0 && has(words))
    }

    /// Whether the first two words are those of the trays, and 25 comes from the 65th on.
    fn counts_trays(&self) -> bool {
        let (most, beyond) = self.numbers.split_at(self.numbers.len().min(MOST_SITTINGS));
        let refused = most.iter().filter(|number| **number != 0).count();
        [self.words[HANDED_IN], self.words[REFUSED]] == [most.len() as u32, refused as u32]
            && !most.contains(&TOO_MANY)
            && beyond.iter().all(|number| *number == TOO_MANY)
    }

    /// What the theorem excludes: if there is any, the archive is damaged, or the tool is wrong.
    pub fn faults(&self, sittings: &[Sitting]) -> Vec<String> {
        let mut counted = [Figures::default(); PARTIES];
        for (Sitting { tray, .. }, _) in sittings.iter().zip(&self.numbers).filter(|(_, number)| **number == 0) {
            let frames = frames_of(tray).into_iter().map(|frame| Asked::of(frame.to_vec()));
            count(&History::of(frames), &mut counted);
        }
        let mut faults = Vec::new();
        if !self.counts_trays() {
            faults.push("the trays are not counted as they were handed in".to_string());
        }
        let parties = (1..).zip(self.figures().into_iter().zip(counted));
        let wrong = parties.filter(|(_, (figures, counted))| figures != counted);
        faults.extend(wrong.map(|(party, _)| format!("the figures of party {party} are not those of its frames")));
        faults
    }
}

/// "It runs from the look-up to its closing answer, or to the end of the tray, and is the difference of the two clocks
/// after those frames."
fn wait(history: &History, fate: &Fate) -> Option<u32> {
    let clock = |frame: usize| history.steps[frame].after.clock;
    let waits = history.steps[fate.frame].records.first().is_some_and(|own| own.kind == WAITING);
    let last = fate.closed.map_or(history.steps.len() - 1, |(frame, _)| frame);
    waits.then(|| clock(last).saturating_sub(clock(fate.frame)))
}

/// Adds what a history has of each party, told by frames and answers.
fn count(history: &History, figures: &mut [Figures; PARTIES]) {
    for fate in fates(&history.log()) {
        let Some(of) = figures.get_mut(usize::from(fate.party).wrapping_sub(1)) else { continue };
        of.look_ups += 1;
        of.founds += u32::from(fate.closed_as() == Some(FOUND));
        if let Some(ticks) = wait(history, &fate) {
            of.add_wait(ticks);
        }
    }
}
