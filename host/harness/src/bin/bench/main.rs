//! Measures the proved space and its peers on the same trays:
//!
//! - `bench [--markdown] [RUNS] [PROGRAM..]`: times, of so many runs of each of these programs, or of this one
//! - `bench count [--markdown]`: instructions, by valgrind
//! - `bench order [--markdown] [RUNS] [PROGRAM..]`: times of the search for an order
//!
//! The programs are this one with its code elsewhere in memory; host/bench.sh builds them. A run of one is `bench run`,
//! or `bench run-order`.

mod contenders;
mod count;
mod loads;
mod orders;
mod placement;
mod table;
mod times;

use std::path::PathBuf;
use std::process::ExitCode;
use table::Form;

const RUNS: usize = 7;

fn usage() -> ExitCode {
    eprintln!("usage: bench [order] [--markdown] [RUNS] [PROGRAM..]\n       bench count [--markdown]");
    ExitCode::from(2)
}

fn counts(form: Form) -> ExitCode {
    match count::print(form) {
        Ok(()) => ExitCode::SUCCESS,
        Err(why) => {
            eprintln!("bench: {why}");
            ExitCode::FAILURE
        }
    }
}

/// `[RUNS] [PROGRAM..]`
fn timed(words: &[&str], form: Form, print: fn(Form, usize, &[PathBuf])) -> ExitCode {
    let runs = words.first().map_or(Some(RUNS), |runs| runs.parse().ok());
    let Some(runs @ 1..) = runs else { return usage() };
    let mut programs: Vec<PathBuf> = words.iter().skip(1).map(PathBuf::from).collect();
    if programs.is_empty() {
        programs.push(std::env::current_exe().expect("this program has a path"));
    }
    print(form, runs, &programs);
    ExitCode::SUCCESS
}

fn main() -> ExitCode {
    let mut words: Vec<String> = std::env::args().skip(1).collect();
    let all = words.len();
    words.retain(|word| word != "--markdown");
    let form = if words.len() < all { Form::Markdown } else { Form::Text };
    let words: Vec<&str> = words.iter().map(String::as_str).collect();
    match words[..] {
        ["run"] => times::run(),
        ["run-order"] => orders::run(),
        ["counted", contender] => count::run(contender),
        ["count"] => return counts(form),
        ["count", ..] => return usage(),
        ["order", ref rest @ ..] => return timed(rest, form, orders::print),
        ref rest => return timed(rest, form, times::print),
    }
    ExitCode::SUCCESS
}
