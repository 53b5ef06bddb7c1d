//! The bounds of trays (document 02, T-10): a space gives the reference's, and every run keeps within them.

use super::buffer::Buffer;
use super::situation::{of, Times};
use crate::random::Random;
use crate::subject::Subject;
use reference::answer::{Kind, RECORD, STEP};
use reference::bounds::{bounds, packed, Bounds};
use reference::frame::{decode, word, Refusal, LOOK_UPS};
use reference::space::{MOST_ENTRIES, MOST_REGISTRATIONS};
use reference::tray::{judge, run_watched, Done};
use tray::boundary::{self, TrayBounds};

/// The run of a tray that is not refused, to its last frame, by the reference.
pub struct Whole {
    pub bounds: Bounds,
    /// Stored together at most.
    pub entries: usize,
    pub done: Done,
    answers: Vec<u8>,
}

impl Whole {
    /// In an area that is never too small. A written entry is stored for a moment even if it is taken in its own step.
    fn of(tray: &[u8], bounds: Bounds) -> Whole {
        let frames = judge(tray).unwrap_or_default();
        let mut answers = vec![0; STEP * frames.len()];
        let (mut stored, mut entries) = (0, 0);
        let done = run_watched(tray, &mut answers, |place, written, after| {
            let stores = written[0] == Kind::Written as u8 && word(&tray[frames[place].clone()], 8) != 0;
            entries = entries.max(stored + usize::from(stores)).max(after.entries.len());
            stored = after.entries.len();
        });
        answers.truncate(RECORD * done.records);
        Whole { bounds, entries, done, answers }
    }

    /// "Every tray that passes 15 and 16 must keep within both when run": what it needs, if it does not.
    fn outside(&self, bounds: TrayBounds) -> Option<String> {
        let (entries, records) = (self.entries, self.done.records);
        let needs = || format!("{entries} entries are stored together and {records} records written");
        let kept = entries <= bounds.entries && records <= bounds.records;
        (!kept).then(|| format!("the run does not keep within the bounds: {}", needs()))
    }
}

/// Whether the space's bounds of the tray are the reference's, and the run keeps within them. Gives the run; none of a
/// tray that is refused.
pub fn compare_bounds<S: Subject>(tray: &[u8]) -> Result<Option<Whole>, String> {
    let wanted = bounds(tray);
    let given = S::tray_bounds(tray).unwrap_or(packed(wanted));
    let (ours, theirs) = (TrayBounds::of(given), TrayBounds::of(packed(wanted)));
    let whole = wanted.ok().filter(|_| ours.number == 0).map(|wanted| Whole::of(tray, wanted));
    let outside = whole.as_ref().and_then(|whole| whole.outside(ours));
    let differ = (given != packed(wanted)).then(|| "the bounds differ".to_string());
    match outside.or(differ) {
        Some(why) => Err(format!("{why}\n  {}: {ours:?}\n  the reference: {theirs:?}", S::NAME)),
        None => Ok(whole),
    }
}

/// Runs the tray in an area of just the size that the bounds give: every frame must be done. Gives whether an area of a
/// byte less is too small.
pub fn run_in_area<S: Subject>(tray: &[u8], whole: &Whole) -> Result<bool, String> {
    let mut theirs = Buffer::new(&mut Random::new(0), whole.bounds.area());
    let mut ours = theirs.clone();
    theirs.area()[..whole.answers.len()].copy_from_slice(&whole.answers);
    let (returned, wanted) = (S::run_tray(tray, ours.area()), whole.done.packed());
    if returned != wanted || ours != theirs {
        let returns = format!("{} returned {returned:#x}, the whole run is {wanted:#x}", S::NAME);
        return Err(format!("a run in the area that its bounds give differs\n{returns}"));
    }
    let area = ours.area();
    let less = area.len() - 1;
    Ok(boundary::Done::of(S::run_tray(tray, &mut area[..less])).number == Refusal::AreaTooSmall as u8)
}

/// What occurs with the bounds of a tray that is not refused.
pub fn situations(frames: &[&[u8]], whole: &Whole, less_stops: bool) -> Vec<Times> {
    let Whole { bounds, entries, done, .. } = whole;
    let is = |frame: &[u8], kind: u8| frame.first() == Some(&kind);
    let count = |holds: &dyn Fn(&[u8]) -> bool| frames.iter().filter(|frame| holds(frame)).count();
    let garbled = |kind: u8| count(&|frame| is(frame, kind) && decode(frame).is_err());
    let look_up = |frame: &[u8]| frame.first().is_some_and(|kind| LOOK_UPS.contains(kind));
    let (mut times, mut notifies) = (Vec::new(), 0);
    for frame in frames {
        times.extend(ahead(frame, notifies).map(|name| (name, 1)));
        notifies += of(is(frame, 10));
    }
    let (with_entries, with_records) = (*entries == bounds.entries, done.records == bounds.records);
    times.extend([
        ("bounds: entries reached", of(with_entries && *entries > 0)),
        ("bounds: records reached", of(with_records && done.frames > 0)),
        ("bounds: both reached, and later records", of(with_entries && with_records && done.records > done.frames)),
        ("bounds: over 64 writes", of(count(&|frame| is(frame, 1)) > MOST_ENTRIES)),
        ("bounds: garbled write", garbled(1)),
        ("bounds: garbled look-up", count(&|frame| look_up(frame) && decode(frame).is_err())),
        ("bounds: garbled create", garbled(6)),
        ("bounds: garbled commit", garbled(7)),
        ("bounds: garbled notify", garbled(10)),
        ("bounds: empty frame", count(&|frame| frame.is_empty())),
        ("bounds: unknown operation", count(&|frame| frame.first().is_some_and(|kind| !(1..=11).contains(kind)))),
        ("bounds: a byte less is too small", of(less_stops)),
        ("bounds: a byte less suffices", of(!less_stops)),
    ]);
    times
}

/// A write or a commit, by the notify frames ahead of it.
fn ahead(frame: &[u8], notifies: usize) -> Option<&'static str> {
    let few = notifies > 0 && notifies < MOST_REGISTRATIONS;
    match (frame.first()?, notifies) {
        (1, 0) => Some("bounds: write, no notify ahead"),
        (1, _) if few => Some("bounds: write, 1 to 7 notifies ahead"),
        (1, _) => Some("bounds: write, 8 or more notifies ahead"),
        (7, 0) => Some("bounds: commit, no notify ahead"),
        (7, _) if few => Some("bounds: commit, 1 to 7 notifies ahead"),
        (7, _) => Some("bounds: commit, 8 or more notifies ahead"),
        _ => None,
    }
}

/// How near the runs of trays come to a bound, where that is not 0.
#[derive(Default)]
struct Nearness {
    trays: usize,
    /// Of what was needed to the bound.
    ratios: f64,
    best: f64,
    reached: usize,
}

impl Nearness {
    fn add(&mut self, needed: usize, bound: usize) {
        if bound == 0 {
            return;
        }
        let ratio = needed as f64 / bound as f64;
        self.trays += 1;
        self.ratios += ratio;
        self.best = self.best.max(ratio);
        self.reached += of(needed == bound);
    }

    fn words(&self) -> String {
        let Nearness { trays, ratios, best, reached } = self;
        format!("{:.3} on average, {best:.3} at best, reached {reached} times", ratios / (*trays).max(1) as f64)
    }
}

/// Of all trays: both bounds, and what the records are besides a frame's own, which always comes.
#[derive(Default)]
pub struct Tightness {
    trays: usize,
    entries: Nearness,
    records: Nearness,
    besides: Nearness,
}

impl Tightness {
    pub fn add(&mut self, whole: &Whole) {
        let Whole { bounds, entries, done, .. } = whole;
        self.trays += 1;
        self.entries.add(*entries, bounds.entries);
        self.records.add(done.records, bounds.records);
        self.besides.add(done.records - done.frames, bounds.records - done.frames);
    }

    /// "bounds kept in 374 trays; entries to their bound: 0.575 on average, .."
    pub fn words(&self) -> String {
        let Tightness { trays, entries, records, besides } = self;
        let (entries, records, besides) = (entries.words(), records.words(), besides.words());
        let both = format!("entries to their bound: {entries}; records: {records}");
        format!("bounds kept in {trays} trays; {both}; records besides the frames' own: {besides}")
    }
}
