//! Trays of frames.

use crate::answer::{RECORD, STEP};
use crate::frame::word;
use crate::Space;

const LONGEST_TRAY: usize = 65536;
const MOST_FRAMES: usize = 2000;

/// Offset and length of the frame with this place.
#[inline(always)]
fn pair(tray: &[u8], place: usize) -> (usize, usize) {
    let at = 4 + 8 * place;
    let pair: &[u8; 8] = tray[at..at + 8].try_into().expect("eight bytes");
    (word(pair, 0) as usize, word(pair, 4) as usize)
}

/// The count of frames, or refusal 15 or 16.
fn judge(tray: &[u8]) -> Result<usize, u64> {
    if tray.len() > LONGEST_TRAY {
        return Err(15);
    }
    let count = word(tray.first_chunk::<4>().ok_or(15u64)?, 0) as usize;
    if count > MOST_FRAMES || tray.len() < 4 + 8 * count {
        return Err(15);
    }
    let mut end = 4 + 8 * count;
    for place in 0..count {
        let (offset, length) = pair(tray, place);
        if offset < end || offset + length > tray.len() {
            return Err(16);
        }
        end = offset + length;
    }
    Ok(count)
}

/// Each layout's `run_tray`. A layout calls it itself: so it is compiled in this crate, where what is called once is
/// inlined.
pub fn run<S: Space>(tray: &[u8], answers: &mut [u8]) -> u64 {
    let count = match judge(tray) {
        Ok(count) => count,
        Err(number) => return number << 32,
    };
    let mut space = S::beginning(0, [1; 3]);
    let mut records = 0;
    for place in 0..count {
        let rest = &mut answers[RECORD * records..];
        if rest.len() < STEP {
            return place as u64 + ((records as u64) << 16) + (1 << 32);
        }
        let (offset, length) = pair(tray, place);
        records += (space.step(&tray[offset..offset + length], rest) % 65536) as usize;
    }
    count as u64 + ((records as u64) << 16)
}
