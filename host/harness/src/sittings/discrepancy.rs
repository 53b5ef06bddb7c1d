//! A discrepancy of reports, as texts of the trays.

use super::{keeps, same, Reporter};
use crate::compare::shortened;
use reference::frame::Refusal;
use reference::sittings::{Report, REPORT};
use reference::tray::judge;
use std::fmt;
use tray::bytes::{show_tray, tray_of};

/// What differs, and the trays that show it.
#[derive(Clone, PartialEq, Eq, Debug)]
pub struct Discrepancy {
    pub why: String,
    /// Words of a report that no call made, to which the tray is handed in.
    pub report: Option<Box<Report>>,
    pub trays: Vec<Vec<u8>>,
}

/// The frames of a tray, or the refusal.
fn frames_of(tray: &[u8]) -> Result<Vec<Vec<u8>>, Refusal> {
    Ok(judge(tray)?.into_iter().map(|frame| tray[frame].to_vec()).collect())
}

/// A tray that is refused alike: without bytes, or with a pair that begins too early.
fn plainest(refusal: Refusal) -> Vec<u8> {
    match refusal {
        Refusal::TraySize => Vec::new(),
        _ => [1u32, 0, 0].map(u32::to_le_bytes).concat(),
    }
}

/// A tray with fewer frames, each of them needed, or one that is refused alike; none if only the tray itself differs.
fn shorter(tray: &[u8], compare: impl Fn(&[u8]) -> Result<(), String>) -> Option<(String, Vec<u8>)> {
    match frames_of(tray) {
        Ok(frames) => shortened(&frames, |fewer| compare(&tray_of(fewer))).map(|(why, fewer)| (why, tray_of(&fewer))),
        Err(refusal) => compare(&plainest(refusal)).err().map(|why| (why, plainest(refusal))),
    }
}

impl Discrepancy {
    /// Of trays whose reports differ: fewer frames in each, and fewer trays, until nothing can be left out.
    pub fn of_trays<R: Reporter>(trays: &[Vec<u8>]) -> Discrepancy {
        let mut trays = trays.to_vec();
        loop {
            let before = trays.clone();
            for place in 0..trays.len() {
                let with = |tray: &[u8]| [&trays[..place], &[tray.to_vec()], &trays[place + 1..]].concat();
                if let Some((_, tray)) = shorter(&trays[place], |tray| same::<R>(&with(tray))) {
                    trays[place] = tray;
                }
            }
            let (why, fewer) = shortened(&trays, same::<R>).expect("trays whose reports differ");
            if fewer == before {
                return Discrepancy { why, report: None, trays: fewer };
            }
            trays = fewer;
        }
    }

    /// Of a report with any words: a simpler tray, and 0 for each word that does not matter.
    pub fn on_any_words<R: Reporter>(report: &Report, tray: &[u8]) -> Discrepancy {
        let (mut report, mut tray) = (*report, tray.to_vec());
        if let Some((_, simpler)) = shorter(&tray, |tray| keeps::<R>(&report, tray)) {
            tray = simpler;
        }
        for place in 0..REPORT {
            let mut fewer = report;
            fewer[place] = 0;
            if keeps::<R>(&fewer, &tray).is_err() {
                report = fewer;
            }
        }
        let why = keeps::<R>(&report, &tray).expect_err("a promise that is not kept");
        Discrepancy { why, report: Some(Box::new(report)), trays: vec![tray] }
    }
}

/// A text for `tray sittings`: a sitting for each tray. What differs stands in the comments before all.
impl fmt::Display for Discrepancy {
    fn fmt(&self, f: &mut fmt::Formatter) -> fmt::Result {
        self.why.lines().try_for_each(|line| writeln!(f, "# {line}"))?;
        if let Some(report) = &self.report {
            writeln!(f, "# the report has these words before: {report:?}")?;
        }
        for (tray, place) in self.trays.iter().zip(1..) {
            let refused = |refusal| format!(", refused with {}", refusal as u8);
            let refused = judge(tray).err().map_or(String::new(), refused);
            write!(f, "sitting {place} of {}{refused}\n{}", self.trays.len(), show_tray(tray))?;
        }
        Ok(())
    }
}
