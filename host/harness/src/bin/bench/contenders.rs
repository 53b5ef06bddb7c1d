//! What is measured, and on what.

use crate::loads::Load;
use tray::boundary;
use tray::bytes::tray_of;
use tuned::Space;

const AREA: usize = 4 * 65536;

/// Runs a tray, as `space_run_tray` does.
pub type Run = fn(&[u8], &mut [u8]) -> u64;

pub struct Contender {
    pub name: &'static str,
    pub run: Run,
}

pub const CONTENDERS: [Contender; 4] = [
    Contender { name: "here", run: boundary::run_tray },
    Contender { name: "plain", run: plain },
    Contender { name: "rows", run: tuned::rows::Space::run_tray },
    Contender { name: "columns", run: tuned::columns::Space::run_tray },
];

/// A number for each.
pub type Each<T> = [T; CONTENDERS.len()];

pub const HERE: usize = 0;
pub const PLAIN: usize = 1;
pub const TUNED: [usize; 2] = [2, 3];

/// The yardstick: the tuned peer with the lower number.
pub fn better(numbers: &Each<f64>) -> usize {
    let [a, b] = TUNED;
    if numbers[a] <= numbers[b] {
        a
    } else {
        b
    }
}

fn plain(tray: &[u8], area: &mut [u8]) -> u64 {
    reference::tray::run(tray, area).packed()
}

/// An answers area for any of the trays.
pub fn area() -> Vec<u8> {
    vec![0; AREA]
}

pub struct Trays {
    /// Fills the tables; what it costs is taken off.
    pub setup: Vec<u8>,
    pub whole: Vec<u8>,
    pub frames: f64,
}

impl Trays {
    pub fn of(load: &Load) -> Trays {
        let whole = [&load.setup[..], &load.frames[..]].concat();
        Trays { setup: tray_of(&load.setup), whole: tray_of(&whole), frames: load.frames.len() as f64 }
    }

    /// All do the same, to the last frame.
    pub fn check(&self, name: &str) {
        let mut areas = CONTENDERS.map(|_| area());
        let returned: Vec<u64> =
            CONTENDERS.iter().zip(&mut areas).map(|(contender, area)| (contender.run)(&self.whole, area)).collect();
        let count = u64::from(u32::from_le_bytes([self.whole[0], self.whole[1], self.whole[2], self.whole[3]]));
        assert!(returned.iter().all(|&it| it == returned[0]), "{name}: what is returned");
        assert!(returned[0] >> 32 == 0 && returned[0] % 65536 == count, "{name}: all frames are done");
        assert!(areas.iter().all(|area| *area == areas[0]), "{name}: the answers");
    }
}
