//! Positions on the clock face (document 02, T-09): the converter, the mirror, and arcs.

use crate::frame::{Mark, Refusal, PLACE};

/// "0 to 719, with 12:00 as 0"
pub const PLACES: u32 = 720;

/// The place of this hour and minute.
pub fn place_of_time(hour: u32, minute: u32) -> Result<u32, Refusal> {
    match (hour, minute) {
        (12, 0..=59) => Ok(minute),
        (1..=11, 0..=59) => Ok(60 * hour + minute),
        _ => Err(Refusal::Place),
    }
}

/// Hour and minute of this place.
pub fn time_of_place(place: u32) -> Result<(u32, u32), Refusal> {
    let minute = on_the_face(place)? % 60;
    match place / 60 {
        0 => Ok((12, minute)),
        hour => Ok((hour, minute)),
    }
}

/// "its mirror is (720 - p) modulo 720"
pub fn mirrored_place(place: u32) -> Result<u32, Refusal> {
    Ok((PLACES - on_the_face(place)?) % PLACES)
}

/// "21 when a start, a length or a position to convert or mirror exceeds 719"
fn on_the_face(number: u32) -> Result<u32, Refusal> {
    match number {
        0..PLACES => Ok(number),
        _ => Err(Refusal::Place),
    }
}

/// As the host gets it: the number, or 65,536 × that of the refusal.
pub fn packed(result: Result<u32, Refusal>) -> u64 {
    result.map_or_else(|refusal| 65536 * refusal as u64, u64::from)
}

/// Hour and minute in one number.
pub fn packed_time((hour, minute): (u32, u32)) -> u32 {
    256 * hour + minute
}

#[derive(Clone, Copy, PartialEq, Eq, Debug)]
pub struct Arc {
    pub start: u32,
    pub length: u32,
}

impl Arc {
    /// "low 16 bits start, high 16 bits length"
    pub fn of(place: u32) -> Arc {
        Arc { start: place & 0xffff, length: place >> 16 }
    }

    /// 21
    pub fn judge(self) -> Result<(), Refusal> {
        on_the_face(self.start)?;
        on_the_face(self.length)?;
        Ok(())
    }

    /// "It matches p from 0 to 719 exactly if (p - start) modulo 720 is at most the length", and no larger place.
    pub fn has(self, place: u32) -> bool {
        let behind = (i64::from(place) - i64::from(self.start)).rem_euclid(i64::from(PLACES));
        place < PLACES && behind <= i64::from(self.length)
    }

    /// "blanks and larger places never match". Not inlined, so that a search without arcs stays fast.
    #[cold]
    #[inline(never)]
    pub fn matches(self, entry: &Mark) -> bool {
        entry.blanks >> PLACE & 1 == 0 && self.has(entry.fields[PLACE])
    }
}
