//! Compares reports of waiting times with the reference: `differ_sittings [LISTS] [SEED] [space]`. A discrepancy is
//! printed as a text for `tray sittings`, shortened. What differs stands in the comments before.

use harness::seeds::Program;
use harness::sittings::{compare, Proved, Reporter};
use std::process::ExitCode;

const PROGRAM: Program =
    Program { name: "differ_sittings", things: "lists", usual: 20_000, enough: 5_000, subjects: &["space"] };

fn main() -> ExitCode {
    PROGRAM.main(|asked| PROGRAM.compare(asked, Proved::NAME, compare::<Proved>))
}
