//! Waiting times over many sittings (document 02, T-14), by the proved space and by the reference, over the same trays;
//! after each call what it returned, and every word of the report and about it, is compared.

mod any_words;
mod coverage;
mod discrepancy;
mod lists;

pub use any_words::keeps;
pub use coverage::Coverage;
pub use discrepancy::Discrepancy;

use crate::random::Random;
use any_words::any_report;
use lists::{any_list, any_tray};
use reference::sittings::{Report, FIGURES, FIGURES_AT, REPORT};
use std::array::from_fn;

/// What makes reports and is compared with the reference.
pub trait Reporter: Default {
    const NAME: &'static str;

    /// Before the first tray.
    fn empty(&mut self, report: &mut Report);

    /// A tray is handed in: 0, or 65,536 × number.
    fn add(&mut self, report: &mut Report, tray: &[u8]) -> u64;
}

/// The proved one.
#[derive(Default)]
pub struct Proved;

impl Reporter for Proved {
    const NAME: &'static str = "the space";

    fn empty(&mut self, report: &mut Report) {
        tray::boundary::empty_report(report);
    }

    fn add(&mut self, report: &mut Report, tray: &[u8]) -> u64 {
        tray::boundary::add_sitting(report, tray)
    }
}

#[derive(Default)]
struct Reference;

impl Reporter for Reference {
    const NAME: &'static str = "the reference";

    fn empty(&mut self, report: &mut Report) {
        reference::sittings::empty(report);
    }

    fn add(&mut self, report: &mut Report, tray: &[u8]) -> u64 {
        reference::sittings::add(report, tray)
    }
}

/// Before the report and behind it, where nothing may be written.
const GUARD: usize = 4;

/// A report with the words about it.
#[derive(Clone, Copy, PartialEq, Eq)]
struct Kept([u32; GUARD + REPORT + GUARD]);

impl Kept {
    /// Words of no report, and not all alike.
    fn new() -> Kept {
        Kept(from_fn(|place| 0xa5a5_0000 + place as u32))
    }

    fn report(&mut self) -> &mut Report {
        self.0[GUARD..GUARD + REPORT].as_mut_array().expect("as many words as a report has")
    }
}

/// What a call returned, and the report then.
#[derive(PartialEq, Eq)]
struct Answer {
    returned: u64,
    kept: Kept,
}

/// Behind each call: the first makes the report empty, the others hand in the trays.
fn answers<'a, R: Reporter + 'a>(trays: &'a [Vec<u8>]) -> impl Iterator<Item = Answer> + 'a {
    let (mut reporter, mut kept) = (R::default(), Kept::new());
    (0..=trays.len()).map(move |call| {
        let returned = match call.checked_sub(1) {
            None => {
                reporter.empty(kept.report());
                0
            }
            Some(place) => reporter.add(kept.report(), &trays[place]),
        };
        Answer { returned, kept }
    })
}

/// The name of a word, by its place from the first guard on.
fn name_of(place: usize) -> String {
    let figures = ["look-ups", "founds", "longest wait", "ticks waited", "count of waits"];
    match place.checked_sub(GUARD) {
        None => format!("word {} before the report", GUARD - place),
        Some(0) => "trays handed in".to_string(),
        Some(1) => "refused trays".to_string(),
        Some(word) if word >= REPORT => format!("word {} behind the report", word - REPORT + 1),
        Some(word) => {
            let (party, figure) = ((word - FIGURES_AT) / FIGURES + 1, (word - FIGURES_AT) % FIGURES);
            format!("party {party}'s {}", figures[figure])
        }
    }
}

/// Whether the reports over these trays are the reference's; what differs first, if not.
pub fn same<R: Reporter>(trays: &[Vec<u8>]) -> Result<(), String> {
    let both = answers::<R>(trays).zip(answers::<Reference>(trays));
    let Some((call, (ours, theirs))) = both.enumerate().find(|(_, (ours, theirs))| ours != theirs) else {
        return Ok(());
    };
    let mut why = match call {
        0 => "the empty report differs".to_string(),
        _ => format!("the report differs behind tray {call}"),
    };
    let mut differ = |what: &str, ours: u64, theirs: u64| {
        if ours != theirs {
            why += &format!("\n{what}: {} {ours}, {} {theirs}", R::NAME, Reference::NAME);
        }
    };
    differ("returned", ours.returned, theirs.returned);
    for (place, (ours, theirs)) in ours.kept.0.into_iter().zip(theirs.kept.0).enumerate() {
        differ(&name_of(place), ours.into(), theirs.into());
    }
    Err(why)
}

/// The trays of this seed.
pub fn trays(seed: u64) -> Vec<Vec<u8>> {
    any_list(&mut Random::new(seed))
}

/// The reports over the trays of this seed; then one with any words, to which a tray is handed in.
pub fn compare<R: Reporter>(seed: u64, coverage: &mut Coverage) -> Result<(), Discrepancy> {
    let trays = trays(seed);
    coverage.count(&trays);
    if same::<R>(&trays).is_err() {
        return Err(Discrepancy::of_trays::<R>(&trays));
    }
    let mut random = Random::new(!seed);
    let (report, tray) = (any_report(&mut random), any_tray(&mut random, 30));
    coverage.on_any_words(&report, &tray);
    match keeps::<R>(&report, &tray) {
        Ok(()) => Ok(()),
        Err(_) => Err(Discrepancy::on_any_words::<R>(&report, &tray)),
    }
}
