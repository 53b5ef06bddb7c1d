//! Trays, run by a space and by the reference.

use super::bounds::{compare_bounds, run_in_area};
use super::buffer::{both, Buffer};
use super::coverage::Coverage;
use super::discrepancy::Discrepancy;
use super::pair::replay;
use super::tally::Sums;
use crate::generate::Generator;
use crate::subject::{Beginning, Subject};
use reference::answer::{Record, RECORD};
use reference::space::Space;
use reference::tray::{judge, run_watched};
use std::ops::Range;

/// A frame as the reference has run it: the places of its records, and how many look-ups wait after it.
struct Ran {
    records: Range<usize>,
    waiting: usize,
}

/// One tray, run by both; then its frames, one by one, so that the tables are compared behind each.
pub fn by_tray<S: Subject>(generator: &mut Generator, coverage: &mut Coverage) -> Result<(), Discrepancy> {
    let tray = generator.tray();
    let frames = judge(&tray).unwrap_or_default();
    let length = generator.area_length(frames.len());
    let mut theirs = Buffer::new(&mut generator.random, length);
    let mut ours = theirs.clone();

    let returned = S::run_tray(&tray, ours.area());
    let mut ran: Vec<Ran> = Vec::new();
    let mut before = Space::new();
    let done = run_watched(&tray, theirs.area(), |place, written, after| {
        let written: Vec<Record> = written.chunks_exact(RECORD).map(Record::read).collect();
        coverage.step(&before, &tray[frames[place].clone()], &written, after);
        before = after.clone();
        let first = ran.last().map_or(0, |ran| ran.records.end);
        ran.push(Ran { records: first..first + written.len(), waiting: after.waiting.len() });
    });
    coverage.trays += 1;
    coverage.number(done.number);

    if returned != done.packed() || ours != theirs {
        let returns = format!("{} returned {returned:#x}, the reference {:#x}", S::NAME, done.packed());
        let answers = first_difference::<S>(&ours, &theirs, &tray, &frames, &ran);
        let why = format!("a tray's run differs\n{returns}\n{answers}");
        return Err(Discrepancy::of_tray::<S>(&tray, length, why));
    }
    let sums = sums(&ours, &tray, &frames, &ran).map_err(|why| Discrepancy::of_tray::<S>(&tray, length, why))?;
    coverage.ended("waiting at the end of a tray", sums.tally, before.waiting.len());
    in_bounds::<S>(&tray, &frames, done.number, coverage)?;
    let frames: Vec<Vec<u8>> = frames[..done.frames].iter().map(|frame| tray[frame.clone()].to_vec()).collect();
    replay::<S>(Beginning::EMPTY, &frames).map_err(|why| Discrepancy::of_tray::<S>(&tray, length, why))
}

/// The tray's bounds, compared and kept; `number` is that of a run.
fn in_bounds<S: Subject>(
    tray: &[u8],
    frames: &[Range<usize>],
    number: u8,
    coverage: &mut Coverage,
) -> Result<(), Discrepancy> {
    let whole = compare_bounds::<S>(tray).map_err(|why| Discrepancy::of_bounds::<S>(tray, why))?;
    let Some(whole) = whole else {
        coverage.unbounded(number);
        return Ok(());
    };
    let less_stops =
        run_in_area::<S>(tray, &whole).map_err(|why| Discrepancy::of_tray::<S>(tray, whole.bounds.area(), why))?;
    let frames: Vec<&[u8]> = frames.iter().map(|frame| &tray[frame.clone()]).collect();
    coverage.bounded(&frames, &whole, less_stops);
    Ok(())
}

/// The sums of a tray's run, from its frames and the space's answers. They must add up after every frame with those
/// that wait in the reference: a tray's run leaves no words to count them in.
fn sums(ours: &Buffer, tray: &[u8], frames: &[Range<usize>], ran: &[Ran]) -> Result<Sums, String> {
    let mut sums = Sums::default();
    for (place, Ran { records, waiting }) in ran.iter().enumerate() {
        sums.feed(&tray[frames[place].clone()], &ours.records(records.clone()));
        sums.check(*waiting).map_err(|why| format!("frame {} of the tray: {why}", place + 1))?;
    }
    Ok(sums)
}

/// The frame in whose records two answers areas first differ, with both answers.
fn first_difference<S: Subject>(
    ours: &Buffer,
    theirs: &Buffer,
    tray: &[u8],
    frames: &[Range<usize>],
    ran: &[Ran],
) -> String {
    let Some(at) = ours.bytes.iter().zip(&theirs.bytes).position(|(a, b)| a != b) else {
        return "the answers areas are equal".to_string();
    };
    let record = at.saturating_sub(ours.area.start) / RECORD;
    match ran.iter().position(|ran| ran.records.contains(&record)) {
        Some(place) => {
            let range = ran[place].records.clone();
            let frame = &tray[frames[place].clone()];
            let answers = both::<S>(frame, &ours.lines(range.clone()), &theirs.lines(range));
            format!("frame {} of the tray: {answers}", place + 1)
        }
        None => format!("byte {at} of the buffer differs, outside all records"),
    }
}
