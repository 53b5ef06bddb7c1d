//! Document 01, with what document 02 has changed in it, in ordinary Rust: written from the documents and from nothing
//! else of this repository. Of document 02 it has T-01, abort out of a wait; T-02, the oldest mark first; T-03, bells;
//! T-04, no number 14; T-05, renewals; T-07, no point in waiting on; T-08, blanks; T-09, the clock face; T-10, how big
//! an area a tray wants.
//!
//! - `frame`: entries, templates, frame layout, refusals 2 to 5 and 21
//! - `clock_face`: the converter and arcs
//! - `answer`: answer records
//! - `space`: who holds what, what each frame does, refusals 1, 6 to 13 and 17 to 20
//! - `tray`: trays, refusals 15 and 16
//! - `bounds`: how many entries and records a tray's run has at most
//! - `serial`: the serial run
//! - `order`: an order that accounts for transactions (T-12), refusal 22
//! - `trial`: trial panes (T-13), refusals 23 and 24
//! - `sittings`: waiting times over many sittings (T-14), refusal 25
#![forbid(unsafe_code)]

pub mod answer;
pub mod bounds;
pub mod clock_face;
pub mod frame;
pub mod order;
pub mod serial;
pub mod sittings;
pub mod space;
pub mod tray;
pub mod trial;
