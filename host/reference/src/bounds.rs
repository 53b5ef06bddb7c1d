//! How big an area a tray wants (document 02, T-10): "From the tray alone, without running it, give two bounds".

use crate::answer::{RECORD, STEP};
use crate::frame::{Refusal, LOOK_UPS};
use crate::space::{MOST_ENTRIES, MOST_REGISTRATIONS};
use crate::tray::judge;

#[derive(Clone, Copy, PartialEq, Eq, Debug)]
pub struct Bounds {
    pub entries: usize,
    pub records: usize,
}

impl Bounds {
    /// "Frames are told apart by byte 0 alone, garbled ones too; an empty one is none of these kinds", but a frame.
    pub fn of<'a>(frames: impl Iterator<Item = &'a [u8]>) -> Bounds {
        let kinds: Vec<Option<u8>> = frames.map(|frame| frame.first().copied()).collect();
        let places = |is: fn(u8) -> bool| -> Vec<usize> {
            (0..kinds.len()).filter(|&place| kinds[place].is_some_and(is)).collect()
        };
        let writes = places(|kind| kind == 1).len();
        let look_ups = places(|kind| LOOK_UPS.contains(&kind)).len();
        let creates = places(|kind| kind == 6).len();
        let notifies = places(|kind| kind == 10);
        let ahead = |place: usize| notifies.partition_point(|&notify| notify < place);
        let bells = places(|kind| kind == 1 || kind == 7).into_iter().map(|place| ahead(place).min(MOST_REGISTRATIONS));
        Bounds { entries: writes.min(MOST_ENTRIES), records: kinds.len() + look_ups + creates + bells.sum::<usize>() }
    }

    /// The bytes in which a run does every frame. It stops "before a frame for which under 700 bytes are left"; before
    /// the last frame at least one record is still to come.
    pub fn area(&self) -> usize {
        RECORD * self.records + STEP - RECORD
    }
}

/// "A tray that 15 or 16 refuses gives that number and no bounds."
pub fn bounds(tray: &[u8]) -> Result<Bounds, Refusal> {
    let frames = judge(tray)?;
    Ok(Bounds::of(frames.into_iter().map(|frame| &tray[frame])))
}

/// As the host gets it: entries + 65,536 × records + 4,294,967,296 × number.
pub fn packed(result: Result<Bounds, Refusal>) -> u64 {
    match result {
        Ok(Bounds { entries, records }) => entries as u64 + 65536 * records as u64,
        Err(refusal) => 4294967296 * refusal as u64,
    }
}
