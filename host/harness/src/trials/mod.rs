//! Trial panes (document 02, T-13) and the reference, given the same setups; what is returned, and every word of the
//! counts and about them, is compared.

mod coverage;
mod setups;

pub use coverage::Coverage;

use crate::random::Random;
use reference::frame::FOREVER;
use reference::trial::{setup, Pane, Setup, Starting, COUNTS};
use setups::any_setup;
use std::fmt;

/// What runs trials and is compared with the reference.
pub trait Runner {
    const NAME: &'static str;

    /// 0 and the counts in front of `counts`, or 65,536 × number.
    fn trial(setup: &[u32], counts: &mut [u32]) -> u64;
}

/// The proved one.
pub struct Proved;

impl Runner for Proved {
    const NAME: &'static str = "the space";

    fn trial(setup: &[u32], counts: &mut [u32]) -> u64 {
        tray::boundary::trial(setup, counts)
    }
}

struct Reference;

impl Runner for Reference {
    const NAME: &'static str = "the reference";

    fn trial(setup: &[u32], counts: &mut [u32]) -> u64 {
        reference::trial::trial(setup, counts)
    }
}

/// Before the counts and behind them, where nothing may be written.
const GUARD: usize = 4;

/// What stands at a place, from the first guard on, before the call: no count, and not all alike.
fn untouched(place: usize) -> u32 {
    0xa5a5_0000 + place as u32
}

/// The words handed in, and how many words there are for the counts.
#[derive(Clone, PartialEq, Eq, Debug)]
pub struct Case {
    pub words: Vec<u32>,
    pub room: usize,
}

/// What is returned, and the counts with the words about them.
#[derive(Clone, PartialEq, Eq, Debug)]
pub struct Answer {
    pub returned: u64,
    pub words: Vec<u32>,
}

/// Each number that is simpler than this one: less, down to 0.
fn simpler(number: u32) -> impl Iterator<Item = u32> {
    let mut less = vec![0, 1, number / 2, number.saturating_sub(1)];
    less.retain(|&other| other < number);
    less.dedup();
    less.into_iter()
}

impl Case {
    fn answer<R: Runner>(&self) -> Answer {
        let mut words: Vec<u32> = (0..GUARD + self.room + GUARD).map(untouched).collect();
        let returned = R::trial(&self.words, &mut words[GUARD..GUARD + self.room]);
        Answer { returned, words }
    }

    pub fn differs<R: Runner>(&self) -> bool {
        self.answer::<R>() != self.answer::<Reference>()
    }

    /// Each case with one pane or starting entry fewer (of words that are no setup: one word), with one number simpler,
    /// or with less room behind the counts.
    pub fn shorter(&self) -> Vec<Case> {
        let setup = setup(&self.words);
        let mut lists = match &setup {
            Some(setup) => fewer(setup).iter().map(words_of).collect(),
            None => vec![self.words[..self.words.len().saturating_sub(1)].to_vec()],
        };
        // a setup keeps the words that say how many panes and starting entries there are
        for place in (0..self.words.len()).filter(|place| setup.is_none() || ![1, 2].contains(place)) {
            lists.extend(simpler(self.words[place]).map(|number| {
                let mut words = self.words.clone();
                words[place] = number;
                words
            }));
        }
        let mut cases: Vec<Case> = lists.into_iter().map(|words| Case { words, room: self.room }).collect();
        if setup.is_some_and(|setup| COUNTS * setup.panes.len() < self.room) {
            cases.push(Case { words: self.words.clone(), room: self.room - 1 });
        }
        cases.retain(|case| case != self);
        cases
    }

    /// With as little as is needed to differ: one thing after the other is made less, while it still does.
    fn shortened<R: Runner>(mut self) -> Case {
        while let Some(shorter) = self.shorter().into_iter().find(Case::differs::<R>) {
            self = shorter;
        }
        self
    }
}

/// Each setup with one pane fewer, then each with one starting entry fewer.
fn fewer(setup: &Setup) -> Vec<Setup> {
    let without_pane = |place| {
        let mut fewer = setup.clone();
        fewer.panes.remove(place);
        fewer
    };
    let without_starting = |place| {
        let mut fewer = setup.clone();
        fewer.starting.remove(place);
        fewer
    };
    let panes = (0..setup.panes.len()).map(without_pane);
    panes.chain((0..setup.starting.len()).map(without_starting)).collect()
}

/// The words of a setup.
pub fn words_of(setup: &Setup) -> Vec<u32> {
    let mut words = vec![setup.rounds, setup.panes.len() as u32, setup.starting.len() as u32];
    for &Pane { lease, timeout, takes, written_lease, writes, hold } in &setup.panes {
        words.extend([lease, timeout, takes, written_lease, writes, hold]);
    }
    for Starting { fields, lease } in &setup.starting {
        words.extend(fields.iter().chain([lease]));
    }
    words
}

/// A lease or a timeout as the tool reads it.
fn duration(number: u32) -> String {
    if number == FOREVER {
        "forever".to_string()
    } else {
        number.to_string()
    }
}

/// The setup's lines, as `tray trial` reads them.
fn lines(setup: &Setup) -> Vec<String> {
    let mut lines = vec![format!("rounds {}", setup.rounds)];
    lines.extend(setup.starting.iter().map(|Starting { fields: [kind, side, image, place], lease }| {
        format!("start kind {kind} side {side} image {image} place {place} lease {}", duration(*lease))
    }));
    lines.extend(setup.panes.iter().map(|&Pane { lease, timeout, takes, written_lease, writes, hold }| {
        let [lease, timeout, written_lease] = [lease, timeout, written_lease].map(duration);
        format!("pane lease {lease} takes {takes} timeout {timeout} writes {writes} lease {written_lease} hold {hold}")
    }));
    lines
}

/// Where a runner and the reference differ.
#[derive(Clone, PartialEq, Eq, Debug)]
pub struct Discrepancy {
    pub case: Case,
    pub name: &'static str,
    pub ours: Answer,
    pub theirs: Answer,
}

impl Case {
    /// The name of a word, by its place from the first guard on.
    fn name_of(&self, place: usize) -> String {
        let panes = setup(&self.words).map_or(0, |setup| setup.panes.len());
        match place.checked_sub(GUARD) {
            None => format!("word {} before the counts", GUARD - place),
            Some(word) if word >= self.room => format!("word {} behind the counts", word - self.room + 1),
            Some(word) if word >= COUNTS * panes => format!("word {word} of the counts"),
            Some(word) => {
                let kind = ["commits", "exceptions", "nothings"][word % COUNTS];
                format!("pane {}'s {kind}", word / COUNTS + 1)
            }
        }
    }
}

/// The setup as a text for `tray trial`, if it is one; what differs stands in the comments.
impl fmt::Display for Discrepancy {
    fn fmt(&self, f: &mut fmt::Formatter) -> fmt::Result {
        let Discrepancy { case, name, ours, theirs } = self;
        let differ = |f: &mut fmt::Formatter, what: &str, ours: String, theirs: String| {
            writeln!(f, "# {what}: {name} {ours}, {} {theirs}", Reference::NAME)
        };
        writeln!(f, "# words {:?}, {} words for the counts", case.words, case.room)?;
        differ(f, "returned", ours.returned.to_string(), theirs.returned.to_string())?;
        for (place, (&ours, &theirs)) in ours.words.iter().zip(&theirs.words).enumerate() {
            let shown = |word: u32| if word == untouched(place) { "untouched".to_string() } else { word.to_string() };
            if ours != theirs {
                differ(f, &case.name_of(place), shown(ours), shown(theirs))?;
            }
        }
        let lines = setup(&case.words).map_or(Vec::new(), |setup| lines(&setup));
        lines.iter().try_for_each(|line| writeln!(f, "{line}"))
    }
}

/// The setup of this seed.
pub fn case(seed: u64) -> Case {
    any_setup(&mut Random::new(seed))
}

pub fn compare<R: Runner>(seed: u64, coverage: &mut Coverage) -> Result<(), Discrepancy> {
    let case = case(seed);
    let theirs = case.answer::<Reference>();
    coverage.count(&case);
    if case.answer::<R>() == theirs {
        return Ok(());
    }
    let case = case.shortened::<R>();
    let (ours, theirs) = (case.answer::<R>(), case.answer::<Reference>());
    Err(Discrepancy { case, name: R::NAME, ours, theirs })
}
