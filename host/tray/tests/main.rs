//! The tool's own tests, in one program.

mod arcs;
mod bars;
mod bells;
mod blanks;
mod bounds;
mod common;
mod draw;
mod explore;
mod layout;
mod order;
mod renewals;
mod run;
mod sittings;
mod trial;
mod typed;
mod waiting;
mod xml;
