//! Frames made.

use reference::clock_face::Arc;
use reference::frame::{Fields, NONE};
use tray::frame::{operation_of, Request};

pub use tray::frame::tick_frame;

fn request(operation: u8, party: u8) -> Request {
    Request::new(operation_of(operation).expect("an operation's number"), party)
}

/// A frame of operations 1 to 5.
pub fn long_frame(operation: u8, party: u8, mask: u8, transaction: u32, duration: u32, fields: Fields) -> Vec<u8> {
    Request { mask, transaction, duration, fields, ..request(operation, party) }.frame()
}

/// An arc, in the place of a template's place.
pub fn arc_word(arc: Arc) -> u32 {
    arc.start | arc.length << 16
}

pub fn create_frame(party: u8, lease: u32) -> Vec<u8> {
    Request { duration: lease, ..request(6, party) }.frame()
}

/// Outside any transaction.
pub fn notify_frame(party: u8, mask: u8, lease: u32, fields: Fields) -> Vec<u8> {
    let head = [[10, party, mask, 0], NONE.to_le_bytes(), lease.to_le_bytes()];
    [head.concat(), fields.map(u32::to_le_bytes).concat()].concat()
}

/// Names an entry where other frames name a transaction.
pub fn renew_frame(party: u8, entry: u32, lease: u32) -> Vec<u8> {
    [[11, party, 0, 0], entry.to_le_bytes(), lease.to_le_bytes()].concat()
}

/// Commit (7) or abort (8).
pub fn ending_frame(operation: u8, party: u8, transaction: u32) -> Vec<u8> {
    Request { transaction, ..request(operation, party) }.frame()
}
