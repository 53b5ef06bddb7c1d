//! Trays of frames.

use crate::answer::{RECORD, STEP};
use crate::frame::{word, Refusal};
use crate::space::Space;
use std::ops::Range;

pub const LONGEST_TRAY: usize = 65536;
pub const MOST_FRAMES: u32 = 2000;

/// Where each frame stands in the tray, or refusal 15 or 16.
pub fn judge(tray: &[u8]) -> Result<Vec<Range<usize>>, Refusal> {
    if tray.len() < 4 || tray.len() > LONGEST_TRAY {
        return Err(Refusal::TraySize);
    }
    let count = word(tray, 0);
    if count > MOST_FRAMES {
        return Err(Refusal::TraySize);
    }
    let pairs_end = 4 + 8 * count as usize;
    if tray.len() < pairs_end {
        return Err(Refusal::TraySize);
    }
    let mut frames = Vec::with_capacity(count as usize);
    let mut previous_end = pairs_end as u64;
    for pair in tray[4..pairs_end].chunks_exact(8) {
        let start = u64::from(word(pair, 0));
        let end = start + u64::from(word(pair, 4));
        if start < previous_end || end > tray.len() as u64 {
            return Err(Refusal::TrayPair);
        }
        frames.push(start as usize..end as usize);
        previous_end = end;
    }
    Ok(frames)
}

/// Frames done, records written, and the number.
#[derive(Clone, Copy, PartialEq, Eq, Debug)]
pub struct Done {
    pub frames: usize,
    pub records: usize,
    pub number: u8,
}

impl Done {
    /// As the host gets it.
    pub fn packed(&self) -> u64 {
        self.frames as u64 + 65536 * self.records as u64 + 4294967296 * u64::from(self.number)
    }
}

/// Runs a tray from an empty space. `after` is called behind each frame with its place, the bytes of the records it
/// wrote, and the space.
pub fn run_watched(tray: &[u8], area: &mut [u8], mut after: impl FnMut(usize, &[u8], &Space)) -> Done {
    let frames = match judge(tray) {
        Ok(frames) => frames,
        Err(refusal) => return Done { frames: 0, records: 0, number: refusal as u8 },
    };
    let mut space = Space::new();
    let mut records = 0;
    for (place, frame) in frames.iter().enumerate() {
        let rest = &mut area[RECORD * records..];
        if rest.len() < STEP {
            return Done { frames: place, records, number: Refusal::AreaTooSmall as u8 };
        }
        let written = space.step(&tray[frame.clone()], rest).records;
        after(place, &rest[..RECORD * written], &space);
        records += written;
    }
    Done { frames: frames.len(), records, number: 0 }
}

pub fn run(tray: &[u8], area: &mut [u8]) -> Done {
    run_watched(tray, area, |_, _, _| {})
}
