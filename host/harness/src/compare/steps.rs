//! Histories, frame by frame, on a space of the host's own.

use super::buffer::{both, Buffer};
use super::coverage::Coverage;
use super::discrepancy::Discrepancy;
use super::pair::Pair;
use crate::generate::Generator;
use crate::random::Random;
use crate::subject::{Beginning, Proved, Subject};
use reference::answer::{RECORD, STEP};
use reference::frame::{FOREVER, LAST_CLOCK};
use reference::space::Space;
use tray::boundary;
use tray::words::{Words, WORDS};

/// One history, frame by frame.
pub fn by_frames<S: Subject>(generator: &mut Generator, coverage: &mut Coverage) -> Result<(), Discrepancy> {
    let at = beginning(&mut generator.random);
    let mut frames: Vec<Vec<u8>> = Vec::new();
    let mut pair = Pair::<S>::begin(at).map_err(|why| Discrepancy::of_frames::<S>(at, &[], STEP, why))?;
    for _ in 0..generator.random.pick(&[20, 100, 400, 1000]) {
        let frame = generator.frame(&pair.space);
        let length = step_area(&mut generator.random);
        let area = Buffer::new(&mut generator.random, length);
        let before = pair.space.clone();
        frames.push(frame);
        let frame = &frames[frames.len() - 1];
        let (answered, number) =
            pair.step(frame, area).map_err(|why| Discrepancy::of_frames::<S>(at, &frames, length, why))?;
        coverage.step(&before, frame, &answered, &pair.space);
        if answered.is_empty() {
            coverage.number(number);
            frames.pop(); // refused with 1: a text has no areas, and without the frame the history is the same
        }
    }
    coverage.histories += 1;
    coverage.ended("waiting at the end of a history", pair.sums.tally, pair.space.waiting.len());
    pair.finish().map_err(|why| Discrepancy::of_frames::<S>(at, &frames, STEP, why))
}

/// A length for the answers area of a step.
fn step_area(random: &mut Random) -> usize {
    match random.below(40) {
        0 => random.below(STEP),
        1 => STEP - 1,
        2 => random.pick(&[STEP + 1, STEP + 27, STEP + 28, 3 * STEP]),
        _ => STEP,
    }
}

/// Mostly the empty space; else the clock or the numbers are near their ends.
fn beginning(random: &mut Random) -> Beginning {
    let mut at = Beginning::EMPTY;
    if random.percent(10) {
        at.clock = LAST_CLOCK - random.below(60) as u32;
    }
    if random.percent(10) {
        at.next_entry = FOREVER - random.below(40) as u32;
        at.next_transaction = FOREVER - random.below(12) as u32;
    }
    if random.percent(20) {
        let left = random.pick(&[0, 1, 3, 8, 8, 8, 8, 8]); // eight may live then, or fewer
        at.next_registration = FOREVER - left;
    }
    at
}

/// On words that frames did not make, a step of the proved space still ends safely: it keeps to its area and to 25
/// records.
pub fn on_any_words(seed: u64) -> Result<(), String> {
    let mut generator = Generator::new(seed);
    let guide = Space::new();
    for _ in 0..20 {
        let mut words = any_words(&mut generator.random);
        let frame = generator.frame(&guide);
        let before = Buffer::new(&mut generator.random, STEP);
        let mut after = before.clone();
        let returned = boundary::step(&mut words, &frame, after.area());
        let count = (returned % 65536) as usize;
        let end = after.area.start + RECORD * count.min(25);
        if count > 25
            || after.bytes[..after.area.start] != before.bytes[..before.area.start]
            || after.bytes[end..] != before.bytes[end..]
        {
            let answers = both::<Proved>(&frame, &after.lines(0..count), "");
            return Err(format!("a step on any words returned {returned:#x}\n{answers}"));
        }
    }
    Ok(())
}

fn any_words(random: &mut Random) -> Words {
    let (small, zero) = (random.below(100), random.below(100));
    let mut words = [0; WORDS];
    for word in &mut words {
        let any = random.number() as u32;
        *word = match random.below(100) {
            draw if draw < small => any % 20,
            draw if draw < zero => 0,
            _ => random.pick(&[any, any, FOREVER, LAST_CLOCK]),
        };
    }
    words
}
