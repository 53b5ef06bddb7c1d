//! The proved functions, called as a C host calls them (host/space.h).

use crate::record::{Record, RECORD_BYTES, STEP_BYTES};
use crate::words::{Words, WORDS};

extern "C" {
    fn space_empty(space: *mut u32);
    fn space_step(space: *mut u32, frame: *const u8, frame_len: usize, answers: *mut u8, answers_len: usize) -> u64;
    fn space_run_tray(tray: *const u8, tray_len: usize, answers: *mut u8, answers_len: usize) -> u64;
    fn space_tray_bounds(tray: *const u8, tray_len: usize) -> u64;
    fn place_of_time(hour: u32, minute: u32) -> u64;
    fn time_of_place(place: u32) -> u64;
    fn mirrored_place(place: u32) -> u64;
    fn space_find_order(actions: *const u32, actions_len: usize, order: *mut u8, order_len: usize) -> u64;
    fn space_trial(setup: *const u32, setup_len: usize, counts: *mut u32, counts_len: usize) -> u64;
    fn sittings_empty(report: *mut u32);
    fn sittings_add(report: *mut u32, tray: *const u8, tray_len: usize) -> u64;
}

/// The program's answers area.
pub const PROGRAM_AREA: usize = 65536;

pub fn empty(words: &mut Words) {
    unsafe { space_empty(words.as_mut_ptr()) }
}

/// Records + 65,536 × number.
pub fn step(words: &mut Words, frame: &[u8], area: &mut [u8]) -> u64 {
    unsafe { space_step(words.as_mut_ptr(), frame.as_ptr(), frame.len(), area.as_mut_ptr(), area.len()) }
}

/// Frames + 65,536 × records + 4,294,967,296 × number.
pub fn run_tray(tray: &[u8], area: &mut [u8]) -> u64 {
    unsafe { space_run_tray(tray.as_ptr(), tray.len(), area.as_mut_ptr(), area.len()) }
}

/// Entries + 65,536 × records + 4,294,967,296 × number.
pub fn tray_bounds(tray: &[u8]) -> u64 {
    unsafe { space_tray_bounds(tray.as_ptr(), tray.len()) }
}

/// The place, or 65,536 × number.
pub fn place_of(hour: u32, minute: u32) -> u64 {
    unsafe { place_of_time(hour, minute) }
}

/// 256 × hour + minute, or 65,536 × number.
pub fn time_of(place: u32) -> u64 {
    unsafe { time_of_place(place) }
}

/// The place, or 65,536 × number.
pub fn mirror_of(place: u32) -> u64 {
    unsafe { mirrored_place(place) }
}

/// 1 and the positions in front of `order`, 0 where no order succeeds, or 65,536 × number.
pub fn find_order(words: &[u32], order: &mut [u8]) -> u64 {
    unsafe { space_find_order(words.as_ptr(), words.len(), order.as_mut_ptr(), order.len()) }
}

/// 0 and commits, exceptions and nothings of each pane in front of `counts`, or 65,536 × number.
pub fn trial(setup: &[u32], counts: &mut [u32]) -> u64 {
    unsafe { space_trial(setup.as_ptr(), setup.len(), counts.as_mut_ptr(), counts.len()) }
}

/// Trays handed in, refused ones, then five words for each party.
pub const REPORT: usize = 82;

pub fn empty_report(report: &mut [u32; REPORT]) {
    unsafe { sittings_empty(report.as_mut_ptr()) }
}

/// 0, or 65,536 × number.
pub fn add_sitting(report: &mut [u32; REPORT], tray: &[u8]) -> u64 {
    unsafe { sittings_add(report.as_mut_ptr(), tray.as_ptr(), tray.len()) }
}

/// The parts of what `run_tray` returns.
#[derive(Clone, Copy, PartialEq, Eq, Debug)]
pub struct Done {
    pub frames: usize,
    pub records: usize,
    pub number: u8,
}

impl Done {
    pub fn of(returned: u64) -> Done {
        Done {
            frames: (returned % 65536) as usize,
            records: (returned / 65536 % 65536) as usize,
            number: (returned >> 32) as u8,
        }
    }
}

/// The parts of what `tray_bounds` returns.
#[derive(Clone, Copy, PartialEq, Eq, Debug)]
pub struct TrayBounds {
    pub entries: usize,
    pub records: usize,
    pub number: u8,
}

impl TrayBounds {
    pub fn of(returned: u64) -> TrayBounds {
        let Done { frames: entries, records, number } = Done::of(returned);
        TrayBounds { entries, records, number }
    }

    /// The bytes in which the run does every frame: before the last one a record at least is still to come, and 700
    /// bytes are to be left.
    pub fn area(&self) -> usize {
        RECORD_BYTES * self.records + STEP_BYTES - RECORD_BYTES
    }
}

/// The parts of what `step` returns.
#[derive(Clone, Copy, PartialEq, Eq, Debug)]
pub struct Stepped {
    pub records: usize,
    pub number: u8,
}

impl Stepped {
    pub fn of(returned: u64) -> Stepped {
        Stepped { records: (returned % 65536) as usize, number: (returned / 65536) as u8 }
    }
}

/// A space with an answers area of its own: frame after frame, from the empty space.
#[derive(Clone)]
pub struct Space {
    pub words: Words,
    area: [u8; STEP_BYTES],
    written: usize,
}

impl Default for Space {
    fn default() -> Space {
        let mut space = Space { words: [0; WORDS], area: [0; STEP_BYTES], written: 0 };
        empty(&mut space.words);
        space
    }
}

impl Space {
    /// Carries out a frame; `records` then gives what it wrote. The area is never too small, so number 1 cannot come.
    pub fn step(&mut self, frame: &[u8]) -> u8 {
        let Stepped { records, number } = Stepped::of(step(&mut self.words, frame, &mut self.area));
        self.written = records;
        number
    }

    pub fn records(&self) -> impl Iterator<Item = Record> + '_ {
        self.area.chunks_exact(RECORD_BYTES).take(self.written).map(Record::read)
    }
}
