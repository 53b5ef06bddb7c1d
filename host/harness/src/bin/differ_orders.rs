//! Compares a search for an order with the reference: `differ_orders [EXPORTS] [SEED] [space|tuned]`. A discrepancy is
//! printed as a text for `tray order`, shortened; what differs stands in its comments.

use harness::orders::{compare, Proved, Search, Tuned};
use harness::seeds::Program;
use std::process::ExitCode;

const PROGRAM: Program =
    Program { name: "differ_orders", things: "exports", usual: 200_000, enough: 50_000, subjects: &["space", "tuned"] };

fn main() -> ExitCode {
    PROGRAM.main(|asked| match asked.subject {
        "tuned" => PROGRAM.compare(asked, Tuned::NAME, compare::<Tuned>),
        _ => PROGRAM.compare(asked, Proved::NAME, compare::<Proved>),
    })
}
