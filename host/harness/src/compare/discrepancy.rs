//! A discrepancy, as a text that can be run.

use super::bounds::compare_bounds;
use super::pair::replay_to;
use crate::subject::{Beginning, Subject};
use reference::answer::STEP;
use reference::tray::judge;
use std::fmt;
use tray::bytes::{show_all, show_tray, tray_of};

/// What differs, and the history that shows it.
#[derive(Clone, PartialEq, Eq, Debug)]
pub struct Discrepancy {
    pub why: String,
    /// What the text does not say; empty if the text alone shows the discrepancy.
    pub besides: String,
    pub text: String,
}

impl Discrepancy {
    /// Of a history, whose last frame got an answers area of this length.
    pub fn of_frames<S: Subject>(at: Beginning, frames: &[Vec<u8>], length: usize, why: String) -> Discrepancy {
        for begin in [Beginning::EMPTY, at] {
            if let Some((why, fewer)) = shortened(frames, |fewer| replay_to::<S>(begin, fewer, STEP)) {
                return Discrepancy { why, besides: before(begin), text: shown(&fewer) };
            }
        }
        let fewer = shortened(frames, |fewer| replay_to::<S>(at, fewer, length));
        let (why, fewer) = fewer.unwrap_or((why, frames.to_vec()));
        let besides = format!("{}the last frame gets an answers area of {length} bytes", before(at));
        Discrepancy { why, besides, text: shown(&fewer) }
    }

    /// Of a tray, run with an answers area of this length.
    pub fn of_tray<S: Subject>(tray: &[u8], length: usize, why: String) -> Discrepancy {
        let shorter = shortened(&frames_of(tray), |fewer| replay_to::<S>(Beginning::EMPTY, fewer, STEP));
        if let Some((why, fewer)) = shorter {
            return Discrepancy { why, besides: String::new(), text: shown(&fewer) };
        }
        let besides = format!("run as a whole tray, with an answers area of {length} bytes");
        Discrepancy { why, besides, text: show_tray(tray) }
    }

    /// Of a tray's bounds.
    pub fn of_bounds<S: Subject>(tray: &[u8], why: String) -> Discrepancy {
        let shorter = shortened(&frames_of(tray), |fewer| compare_bounds::<S>(&tray_of(fewer)).map(drop));
        let (why, text) = shorter.map_or((why, show_tray(tray)), |(why, fewer)| (why, shown(&fewer)));
        Discrepancy { why, besides: String::new(), text }
    }
}

/// The frames of a tray; none of one that is refused.
fn frames_of(tray: &[u8]) -> Vec<Vec<u8>> {
    judge(tray).unwrap_or_default().into_iter().map(|frame| tray[frame].to_vec()).collect()
}

fn shown(frames: &[Vec<u8>]) -> String {
    show_all(frames.iter().map(Vec::as_slice))
}

fn before(at: Beginning) -> String {
    let Beginning { clock, next_entry, next_transaction, next_registration } = at;
    if at == Beginning::EMPTY {
        return String::new();
    }
    let next = format!("entry {next_entry}, transaction {next_transaction}, registration {next_registration}");
    format!("the history begins at clock {clock}; next are {next}; ")
}

/// Fewer frames, or whatever they are, each of them needed, that show a discrepancy, and what it is; none if these show
/// none.
pub fn shortened<T: Clone>(all: &[T], compare: impl Fn(&[T]) -> Result<(), String>) -> Option<(String, Vec<T>)> {
    let mut why = compare(all).err()?;
    let mut all = all.to_vec();
    let mut chunk = all.len();
    while chunk > 0 {
        let before = all.len();
        let mut begin = 0;
        while begin < all.len() {
            let mut fewer = all.clone();
            fewer.drain(begin..all.len().min(begin + chunk));
            match compare(&fewer) {
                Err(shorter) => (why, all) = (shorter, fewer),
                Ok(()) => begin += chunk,
            }
        }
        if chunk > 1 || all.len() == before {
            chunk /= 2;
        }
    }
    Some((why, all))
}

/// The whole is a text: what is no frame stands behind `#`.
impl fmt::Display for Discrepancy {
    fn fmt(&self, f: &mut fmt::Formatter) -> fmt::Result {
        let besides = match self.besides.as_str() {
            "" => String::new(),
            besides => format!("\nThis text does not say: {}", besides.trim_end_matches("; ")),
        };
        for line in format!("{}{besides}", self.why.trim_end()).lines() {
            writeln!(f, "# {line}")?;
        }
        write!(f, "{}", self.text)
    }
}
