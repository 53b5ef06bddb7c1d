//! Random trays, run by the reference.

use harness::generate::Generator;
use reference::answer::{Record, RECORD};
use reference::space::Space;
use reference::tray::{judge, run_watched};

/// A frame, the bytes of its records, and the space before and after it.
pub struct Step {
    pub frame: Vec<u8>,
    pub bytes: Vec<u8>,
    pub before: Space,
    pub after: Space,
}

impl Step {
    pub fn records(&self) -> Vec<Record> {
        self.bytes.chunks_exact(RECORD).map(Record::read).collect()
    }
}

/// The steps of a random tray; none if it is refused.
pub fn steps(seed: u64) -> Vec<Step> {
    let tray = Generator::new(seed).tray();
    let Ok(frames) = judge(&tray) else { return Vec::new() };
    let mut steps: Vec<Step> = Vec::new();
    run_watched(&tray, &mut vec![0; 300_000], |place, bytes, after| {
        let before = steps.last().map_or(Space::new(), |step| step.after.clone());
        let frame = tray[frames[place].clone()].to_vec();
        steps.push(Step { frame, bytes: bytes.to_vec(), before, after: after.clone() });
    });
    steps
}
