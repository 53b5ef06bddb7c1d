//! Frames decoded.

use crate::arcs::{asks_arc, long_arc};

pub const FOREVER: u32 = u32::MAX;
pub const LAST_CLOCK: u32 = FOREVER - 1;

/// kind, side, image, place
pub type Fields = [u32; 4];

/// A frame of 28 bytes.
#[derive(Clone, Copy)]
pub struct Long {
    pub party: u8,
    /// The fields that a template asks for, or a write's blanks.
    pub mask: u8,
    pub transaction: u32,
    /// Lease or timeout.
    pub duration: u32,
    pub fields: Fields,
    /// The place of a template is an arc, and the mask does not ask for it.
    pub is_arc: bool,
}

pub enum Request {
    Write(Long),
    LookUp { operation: u8, long: Long },
    Create { party: u8, lease: u32 },
    End { commits: bool, party: u8, transaction: u32 },
    Tick,
}

#[inline(always)]
pub fn word<const N: usize>(bytes: &[u8; N], at: usize) -> u32 {
    u32::from_le_bytes([bytes[at], bytes[at + 1], bytes[at + 2], bytes[at + 3]])
}

/// For each field, all ones if its bit is 1: a template asks for it.
#[inline(always)]
pub fn asked(mask: u8) -> Fields {
    let mask = u32::from(mask); // a word, so that the compiler does all four at once
    std::array::from_fn(|i| 0u32.wrapping_sub(mask >> i & 1))
}

#[inline(always)]
fn party_fits(party: u8) -> bool {
    (1..=16).contains(&party)
}

/// A write's, look-up's or notify's frame; refusals 4 and 5.
#[inline(always)]
pub fn long(frame: &[u8; 28]) -> Result<Long, u8> {
    let long = Long {
        party: frame[1],
        mask: frame[2],
        transaction: word(frame, 4),
        duration: word(frame, 8),
        fields: [word(frame, 12), word(frame, 16), word(frame, 20), word(frame, 24)],
        is_arc: false,
    };
    let zero = asked(if frame[0] == 1 { long.mask } else { !long.mask }); // the fields that must be 0
    let not_zero = (0..4).fold(0, |bits, i| bits | long.fields[i] & zero[i]);
    if long.mask > 15 || not_zero != 0 || frame[3] != 0 {
        return Err(4);
    }
    if !party_fits(long.party) {
        return Err(5);
    }
    Ok(long)
}

/// A create's, commit's, abort's or renewal's bytes 1 to 3; refusals 4 and 5.
#[inline(always)]
fn short<const N: usize>(frame: &[u8; N]) -> Result<u8, u8> {
    let names_one = frame[0] == 6 && word(frame, 4) != 0;
    if frame[2] != 0 || frame[3] != 0 || names_one {
        return Err(4);
    }
    if !party_fits(frame[1]) {
        return Err(5);
    }
    Ok(frame[1])
}

pub fn is_notify(frame: &[u8]) -> bool {
    frame.first() == Some(&10)
}

/// Of a frame that is one; refusals 3 to 5 and 21.
pub fn decode_notify(frame: &[u8]) -> Result<Long, u8> {
    let frame = <&[u8; 28]>::try_from(frame).map_err(|_| 3)?;
    if word(frame, 4) != 0 {
        return Err(4);
    }
    if asks_arc(frame) {
        return long_arc(frame);
    }
    long(frame)
}

/// Of a look-up that asks for an arc, which `decode` refuses with 4; refusals 4, 5 and 21.
pub fn decode_arc(frame: &[u8]) -> Result<Long, u8> {
    match frame.try_into() {
        Ok(frame) if asks_arc(frame) => long_arc(frame),
        _ => Err(4),
    }
}

pub struct Renewal {
    pub party: u8,
    pub entry: u32,
    pub lease: u32,
}

#[inline(always)]
pub fn is_renewal(frame: &[u8]) -> bool {
    frame.first() == Some(&11)
}

/// Of a frame that is one; refusals 3 to 5.
pub fn decode_renewal(frame: &[u8]) -> Result<Renewal, u8> {
    let frame = <&[u8; 12]>::try_from(frame).map_err(|_| 3)?;
    Ok(Renewal { party: short(frame)?, entry: word(frame, 4), lease: word(frame, 8) })
}

/// Refusals 2 to 5, in document 01's order. Notifies and renewals, which are rare, get 2 here, arcs get 4, and all of
/// these are decoded apart: so no other frame is slower for them.
#[inline(always)]
pub fn decode(frame: &[u8]) -> Result<Request, u8> {
    let Some(&operation) = frame.first() else { return Err(2) };
    match operation {
        1..=5 => {
            let long = long(<&[u8; 28]>::try_from(frame).map_err(|_| 3)?)?;
            Ok(if operation == 1 { Request::Write(long) } else { Request::LookUp { operation, long } })
        }
        6 => {
            let frame = <&[u8; 12]>::try_from(frame).map_err(|_| 3)?;
            Ok(Request::Create { party: short(frame)?, lease: word(frame, 8) })
        }
        7 | 8 => {
            let frame = <&[u8; 8]>::try_from(frame).map_err(|_| 3)?;
            Ok(Request::End { commits: operation == 7, party: short(frame)?, transaction: word(frame, 4) })
        }
        9 => match <&[u8; 4]>::try_from(frame).map_err(|_| 3)? {
            [_, 0, 0, 0] => Ok(Request::Tick),
            [_, _, 0, 0] => Err(5),
            _ => Err(4),
        },
        _ => Err(2),
    }
}
