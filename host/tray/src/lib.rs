//! Histories of the shared space in words and drawings, and every interleaving of panes.
//!
//! Every answer comes from the proved archive (`boundary`); here are only texts, words and drawings of what it gives.

pub mod big;
pub mod boundary;
pub mod bytes;
pub mod claim;
pub mod draw;
pub mod explore;
pub mod face;
pub mod frame;
pub mod history;
pub mod line;
pub mod needs;
pub mod oracle;
pub mod order;
pub mod panes;
pub mod prose;
pub mod record;
pub mod run;
pub mod sittings;
pub mod tally;
pub mod tell;
pub mod text;
pub mod trial;
pub mod typed;
pub mod waiting;
pub mod words;
