//! Reports with words that no call made: a call ends there too, and writes nothing beside the report; what it returns
//! is right, and so is which words stay.

use super::{name_of, Kept, Reporter, GUARD};
use crate::random::Random;
use reference::frame::{Refusal, FOREVER};
use reference::sittings::{Report, FIGURES_AT, HANDED_IN, MOST_TRAYS, REPORT};
use reference::tray::judge;

/// Any words; the first is often about 64.
pub fn any_report(random: &mut Random) -> Report {
    let small = random.below(100);
    let mut report = [0; REPORT];
    for word in &mut report {
        let any = random.number() as u32;
        *word = if random.percent(small) { any % 20 } else { random.pick(&[any, FOREVER, FOREVER - any % 9]) };
    }
    if random.percent(80) {
        report[HANDED_IN] = random.pick(&[0, 1, 62, 63, 63, 63, 64, 64, 65, 256 + 63, 65536, FOREVER]);
    }
    report
}

/// "25 when more than 64 trays are handed in", and then no word changes; else the number that the tray has, and of a
/// refused one only the first two words change.
pub fn keeps<R: Reporter>(report: &Report, tray: &[u8]) -> Result<(), String> {
    let mut kept = Kept::new();
    *kept.report() = *report;
    let before = kept;
    let returned = R::default().add(kept.report(), tray);

    let (number, changing) = match judge(tray) {
        _ if report[HANDED_IN] >= MOST_TRAYS => (Refusal::Sittings as u64, 0),
        Err(refusal) => (refusal as u64, FIGURES_AT),
        Ok(_) => (0, REPORT),
    };
    if returned != 65536 * number {
        return Err(format!("{} returned {returned}, and {} is right", R::NAME, 65536 * number));
    }
    let changes = |&place: &usize| kept.0[place] != before.0[place];
    let mut staying = (0..GUARD).chain(GUARD + changing..kept.0.len());
    match staying.find(changes) {
        None => Ok(()),
        Some(place) => Err(format!("{} changes {} to {}", R::NAME, name_of(place), kept.0[place])),
    }
}
