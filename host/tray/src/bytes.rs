//! A tray's bytes: its count, its pairs, its frames and what stands between them. Nothing here judges a tray.

use crate::frame::show;
use std::fmt::Write;

const COUNT_BYTES: usize = 4;
const PAIR_BYTES: usize = 8;

/// The word at this place, if the bytes go so far.
pub fn word(bytes: &[u8], at: usize) -> Option<u32> {
    Some(u32::from_le_bytes(bytes.get(at..at.checked_add(4)?)?.try_into().ok()?))
}

pub fn put_word(bytes: &mut [u8], at: usize, word: u32) -> Option<()> {
    bytes.get_mut(at..at.checked_add(4)?)?.copy_from_slice(&word.to_le_bytes());
    Some(())
}

/// A piece of what stands behind a tray's pairs.
pub enum Piece<'a> {
    Frame(&'a [u8]),
    /// So many bytes that belong to no frame.
    Gap(usize),
}

/// The tray with these pieces behind its pairs.
pub fn build<'a>(pieces: impl Iterator<Item = Piece<'a>> + Clone) -> Vec<u8> {
    let frames = pieces.clone().filter(|piece| matches!(piece, Piece::Frame(_))).count();
    let mut tray = (frames as u32).to_le_bytes().to_vec();
    let pairs_end = COUNT_BYTES + PAIR_BYTES * frames;
    let mut body = Vec::new();
    for piece in pieces {
        match piece {
            Piece::Gap(bytes) => body.resize(body.len() + bytes, 0xaa),
            Piece::Frame(frame) => {
                tray.extend(((pairs_end + body.len()) as u32).to_le_bytes());
                tray.extend((frame.len() as u32).to_le_bytes());
                body.extend(frame);
            }
        }
    }
    tray.extend(body);
    tray
}

/// The tray with these frames, one behind the other.
pub fn tray_of(frames: &[Vec<u8>]) -> Vec<u8> {
    build(frames.iter().map(|frame| Piece::Frame(frame)))
}

/// Changes what the pair with this place, counted from 1, says; none if the tray has no such pair.
pub fn put_pair(tray: &mut [u8], place: usize, offset: u32, length: u32) -> Option<()> {
    let at = place.checked_sub(1)?.checked_mul(PAIR_BYTES)?.checked_add(COUNT_BYTES)?;
    put_word(tray, at.checked_add(4)?, length)?;
    put_word(tray, at, offset)
}

/// Offset and length of each pair that the count tells of, as far as the tray goes.
fn pairs(tray: &[u8]) -> impl Iterator<Item = (usize, usize)> + '_ {
    let count = word(tray, 0).unwrap_or(0) as usize;
    let pairs = tray.get(COUNT_BYTES..).unwrap_or(&[]).chunks_exact(PAIR_BYTES).take(count);
    pairs.filter_map(|pair| Some((word(pair, 0)? as usize, word(pair, 4)? as usize)))
}

/// The frames of a tray that is not refused: what its pairs say.
pub fn frames_of(tray: &[u8]) -> Vec<&[u8]> {
    pairs(tray).map(|(offset, length)| tray.get(offset..offset.saturating_add(length)).unwrap_or(&[])).collect()
}

/// Frames as a text.
pub fn show_all<'a>(frames: impl IntoIterator<Item = &'a [u8]>) -> String {
    frames.into_iter().map(|frame| show(frame) + "\n").collect()
}

/// A text that stands for a tray with the same count, pairs, frames and length; other bytes may differ.
pub fn show_tray(tray: &[u8]) -> String {
    show_pieces(tray).unwrap_or_else(|| show_pairs(tray))
}

/// Frames and gaps, if all frames stand one behind the other behind the pairs.
fn show_pieces(tray: &[u8]) -> Option<String> {
    let mut text = String::new();
    let gap = |bytes| match bytes {
        0 => String::new(),
        bytes => format!("gap {bytes}\n"),
    };
    let count = word(tray, 0)? as usize;
    let mut end = COUNT_BYTES.checked_add(count.checked_mul(PAIR_BYTES)?)?;
    for (offset, length) in pairs(tray) {
        text += &gap(offset.checked_sub(end)?);
        end = offset.checked_add(length)?;
        let _ = writeln!(text, "{}", show(tray.get(offset..end)?));
    }
    text += &gap(tray.len().checked_sub(end)?);
    Some(text)
}

/// Length, count and pairs alone: no frame of such a tray is run.
fn show_pairs(tray: &[u8]) -> String {
    let mut text = format!("size {}\n", tray.len());
    if let Some(count) = word(tray, 0) {
        let _ = writeln!(text, "count {count}");
    }
    for (place, (offset, length)) in pairs(tray).enumerate() {
        let _ = writeln!(text, "pair {} offset {offset} length {length}", place + 1);
    }
    text
}
