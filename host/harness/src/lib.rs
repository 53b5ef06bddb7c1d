//! What the proved space is compared and timed with, and by. The proved functions, texts and trays are host/tray's.
//!
//! - `frames`: frames made
//! - `random`, `generate`: seeded random frames and trays that make deep histories
//! - `view`: the words of the proved space in the reference's types
//! - `subject`, `compare`: a space that is compared with the reference, and the comparison
//! - `orders`, `trials`, `sittings`: the same for the search for an order, for trial panes, and for waiting times; `seeds`:
//!   what their programs share

pub mod compare;
pub mod frames;
pub mod generate;
pub mod orders;
pub mod random;
pub mod seeds;
pub mod sittings;
pub mod subject;
pub mod trials;
pub mod view;
