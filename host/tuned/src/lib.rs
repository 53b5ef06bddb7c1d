//! Documents 01 and 02 in plain safe Rust, written for speed, in two layouts: peers to measure the proved space by.
//! No heap.
//!
//! - `frame`: frames decoded, refusals 2 to 5 and 21
//! - `arcs`: arcs of the clock face
//! - `answer`: answer records
//! - `rows`, `columns`: spaces, who holds what, what each frame does, refusals 1, 6 to 13 and 17 to 20
//! - `common`: what both have
//! - `bells`: registrations
//! - `tray`: trays, refusals 15 and 16
//! - `order`: an order that accounts for transactions (T-12), refusal 22
//!
//! Of several available entries the one with the lowest number is handed out (document 02).
#![forbid(unsafe_code)]

mod answer;
mod arcs;
mod bells;
pub mod columns;
mod common;
mod frame;
pub mod order;
pub mod rows;
mod tray;

/// A space, whatever the layout of its entries.
pub trait Space: Clone + PartialEq {
    const NAME: &'static str;

    /// With 0 and [1, 1, 1] the empty space; else one like it, at this clock and with these next numbers of entries,
    /// transactions and registrations.
    fn beginning(clock: u32, next: [u32; 3]) -> Self;

    /// Carries out a frame: records + 65,536 × number.
    fn step(&mut self, frame: &[u8], answers: &mut [u8]) -> u64;

    /// Runs a tray from an empty space: frames + 65,536 × records + 4,294,967,296 × number.
    fn run_tray(tray: &[u8], answers: &mut [u8]) -> u64;
}
