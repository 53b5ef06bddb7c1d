//! A wrong space that the comparison finds.

use harness::compare::{compare, compare_bounds, replay, Coverage, Discrepancy};
use harness::subject::{Beginning, Subject};
use reference::tray::judge;
use std::any::type_name;
use tray::text::parse;

/// The first discrepancy, of those that a text alone shows or of the others.
pub fn found<S: Subject>(by_text: bool) -> Discrepancy {
    let mut coverage = Coverage::default();
    let mut all = (1..2000).filter_map(|seed| compare::<S>(seed, &mut coverage).err());
    let found = all.find(|discrepancy| discrepancy.besides.is_empty() == by_text);
    found.unwrap_or_else(|| panic!("{} is not found", type_name::<S>()))
}

pub fn tray_of(discrepancy: &Discrepancy) -> Vec<u8> {
    let text = parse(&discrepancy.to_string()).expect("what is printed is a text");
    text.tray().expect("what is printed can be run")
}

pub fn frames_of(discrepancy: &Discrepancy) -> Vec<Vec<u8>> {
    let tray = tray_of(discrepancy);
    judge(&tray).expect("a sound tray").into_iter().map(|frame| tray[frame].to_vec()).collect()
}

/// Whether something differs frame by frame, or in the bounds of the tray.
fn differs<S: Subject>(frames: &[Vec<u8>]) -> bool {
    let bounds = || compare_bounds::<S>(&tray::bytes::tray_of(frames));
    replay::<S>(Beginning::EMPTY, frames).is_err() || bounds().is_err()
}

/// The printed text alone shows the fault, and each of its frames is needed.
pub fn shows<S: Subject>() {
    let discrepancy = found::<S>(true);
    let frames = frames_of(&discrepancy);
    assert!(differs::<S>(&frames), "{}:\n{discrepancy}", type_name::<S>());
    println!("{discrepancy}");
    for left_out in 0..frames.len() {
        let mut fewer = frames.clone();
        fewer.remove(left_out);
        assert!(!differs::<S>(&fewer), "{}:\n{discrepancy}", type_name::<S>());
    }
}
