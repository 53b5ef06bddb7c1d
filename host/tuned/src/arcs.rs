//! Arcs of the clock face, which both layouts have. They are rare: a template without one does not come here.

use crate::frame::{long, word, Long};

const PLACES: u32 = 720;

/// The bits of a mask.
const PLACE: u8 = 8;
const ARC: u8 = 16;

/// Whether a frame of 28 bytes asks for an arc.
pub fn asks_arc(frame: &[u8; 28]) -> bool {
    frame[0] != 1 && frame[2] & (PLACE | ARC) == ARC
}

/// A look-up's or notify's frame that asks for one, judged as if it did not: then 21.
pub fn long_arc(frame: &[u8; 28]) -> Result<Long, u8> {
    let mut plain = *frame;
    plain[2] &= !ARC;
    plain[24..].fill(0);
    let mut long = long(&plain)?;
    let arc = word(frame, 24);
    if arc % 65536 >= PLACES || arc >> 16 >= PLACES {
        return Err(21);
    }
    (long.fields[3], long.is_arc) = (arc, true);
    Ok(long)
}

/// Whether a place, which may be blank, lies in the arc.
#[cold]
#[inline(never)]
pub fn lies(arc: u32, blanks: u8, place: u32) -> bool {
    let (start, length) = (arc % 65536, arc >> 16);
    let behind = place.wrapping_sub(start); // of a place that is below the start, 720 are missing
    blanks & PLACE == 0 && place < PLACES && behind.min(behind.wrapping_add(PLACES)) <= length
}
