//! Compares trial panes with the reference: `differ_trials [SETUPS] [SEED] [space]`. A discrepancy is printed as a text
//! for `tray trial`, shortened; what differs stands in its comments.

use harness::seeds::Program;
use harness::trials::{compare, Proved, Runner};
use std::process::ExitCode;

const PROGRAM: Program =
    Program { name: "differ_trials", things: "setups", usual: 50_000, enough: 20_000, subjects: &["space"] };

fn main() -> ExitCode {
    PROGRAM.main(|asked| PROGRAM.compare(asked, Proved::NAME, compare::<Proved>))
}
