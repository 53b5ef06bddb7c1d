//! A space and the reference, side by side, frame by frame.

use super::bells::Bells;
use super::buffer::{both, Buffer};
use super::tally::Sums;
use crate::random::Random;
use crate::subject::{Beginning, Subject};
use reference::answer::{Record, STEP};
use reference::serial::{committed, SerialRun};
use reference::space::{Outcome, Space};

/// Both, after the same frames, with the serial run, the sums and the bells of these.
pub struct Pair<S> {
    subject: S,
    pub space: Space,
    run: SerialRun,
    pub sums: Sums,
    bells: Bells,
}

impl<S: Subject> Pair<S> {
    pub fn begin(at: Beginning) -> Result<Pair<S>, String> {
        let (subject, space, run) = (S::begin(at), at.of_reference(), SerialRun::new(at.clock));
        let pair = Pair { subject, space, run, sums: Sums::default(), bells: Bells::new(at.clock) };
        match pair.difference() {
            Some(why) => Err(format!("before the first frame: {why}")),
            None => Ok(pair),
        }
    }

    /// One step by both, everything compared; gives the records and the number.
    pub fn step(&mut self, frame: &[u8], area: Buffer) -> Result<(Vec<Record>, u8), String> {
        let (mut ours, mut theirs) = (area.clone(), area);
        let before = self.subject.clone();
        let returned = self.subject.step(frame, ours.area());
        let Outcome { records, number } = self.space.step(frame, theirs.area());
        let wanted = records as u64 + 65536 * u64::from(number);
        let written = ours.records(0..records);

        let why = if returned != wanted {
            Some("the returned numbers differ".to_string())
        } else if ours != theirs {
            Some("the answers areas differ".to_string())
        } else if number != 0 && self.subject != before {
            Some("a refused frame changed the space".to_string())
        } else {
            self.difference().or_else(|| self.unexplained(frame, &written))
        };
        if let Some(why) = why {
            let returns = format!("{} returned {returned:#x}, the reference {wanted:#x}", S::NAME);
            let count = (returned % 65536) as usize;
            let answers = both::<S>(frame, &ours.lines(0..count), &theirs.lines(0..records));
            return Err(format!("{why}\n{returns}\n{answers}"));
        }
        self.run.feed(frame, written.iter().copied());
        Ok((written, number))
    }

    /// Whether the serial run of the frames so far succeeds, and leaves the committed entries.
    pub fn finish(&self) -> Result<(), String> {
        self.run.check(&committed(&self.space)).map_err(|why| format!("the serial run: {why}"))
    }

    /// The sums, if they do not add up after this frame with those that wait by the space's own count; by the
    /// reference's, if it shows none. Else the bells, if the history has others.
    fn unexplained(&mut self, frame: &[u8], written: &[Record]) -> Option<String> {
        self.sums.feed(frame, written);
        let bells = self.bells.feed(frame, written);
        let waiting = self.subject.waiting().unwrap_or(self.space.waiting.len());
        self.sums.check(waiting).and(bells).err()
    }

    /// The first thing in which the tables differ, if the space shows its own.
    fn difference(&self) -> Option<String> {
        let ours = self.subject.tables()?;
        let theirs = in_order(&self.space);
        let counters = |space: &Space| [space.clock, space.next_entry, space.next_transaction, space.next_registration];
        differ_in::<S, _>("clock or next numbers", &counters(&ours), &counters(&theirs))
            .or_else(|| differ_in::<S, _>("entries", &ours.entries, &theirs.entries))
            .or_else(|| differ_in::<S, _>("transactions", &ours.transactions, &theirs.transactions))
            .or_else(|| differ_in::<S, _>("waiting look-ups", &ours.waiting, &theirs.waiting))
            .or_else(|| differ_in::<S, _>("registrations", &ours.registrations, &theirs.registrations))
    }
}

/// The first thing in which two lists differ.
fn differ_in<S: Subject, T: PartialEq + std::fmt::Debug>(what: &str, ours: &[T], theirs: &[T]) -> Option<String> {
    let place = (0..ours.len().max(theirs.len())).find(|&i| ours.get(i) != theirs.get(i))?;
    let (ours, theirs) = (ours.get(place), theirs.get(place));
    Some(format!("the tables differ in {what}\n  {}: {ours:?}\n  the reference: {theirs:?}", S::NAME))
}

/// The reference's space, with read holds by number.
pub fn in_order(space: &Space) -> Space {
    let mut space = space.clone();
    for entry in &mut space.entries {
        entry.read_by.sort_unstable();
    }
    space
}

/// Leads both through these frames, each with an answers area of 700 bytes; what differs first.
pub fn replay<S: Subject>(at: Beginning, frames: &[Vec<u8>]) -> Result<(), String> {
    replay_to::<S>(at, frames, STEP)
}

/// The same, but the last frame gets an answers area of this length.
pub fn replay_to<S: Subject>(at: Beginning, frames: &[Vec<u8>], length: usize) -> Result<(), String> {
    let mut random = Random::new(0);
    let mut pair = Pair::<S>::begin(at)?;
    for (place, frame) in frames.iter().enumerate() {
        let last = place + 1 == frames.len();
        let area = Buffer::new(&mut random, if last { length } else { STEP });
        pair.step(frame, area).map_err(|why| format!("frame {}: {why}", place + 1))?;
    }
    pair.finish()
}
