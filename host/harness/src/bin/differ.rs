//! Compares a space with the reference: `differ [FRAMES] [SEED] [space|rows|columns]`.
//!
//! History number k has seed SEED + k, so `differ 1 S` repeats the history of seed S alone. A discrepancy is printed as
//! a text that can be run, shortened to the frames that are needed; what differs stands in its comments.

use harness::compare::{compare, on_any_words, Coverage};
use harness::subject::{Proved, Subject, Tuned};
use std::process::ExitCode;
use std::time::{Duration, Instant};

/// With fewer frames than this, what did not occur is only printed.
const ENOUGH: u64 = 200_000;

/// So many frames from this seed on; gives the seed behind the last, or the report of a discrepancy.
fn run<S: Subject>(wanted: u64, first: u64, coverage: &mut Coverage) -> Result<u64, String> {
    let begin = Instant::now();
    let mut told = begin;
    let mut seed = first;
    while coverage.frames < wanted {
        let found = compare::<S>(seed, coverage);
        found.map_err(|it| format!("# DISCREPANCY of {} with the reference, seed {seed}\n{it}", S::NAME))?;
        seed += 1;
        if told.elapsed() > Duration::from_secs(5) {
            told = Instant::now();
            eprintln!("{} of {wanted} frames, seed {seed}, {} s", coverage.frames, begin.elapsed().as_secs());
        }
    }
    Ok(seed)
}

/// The proved space, on words that frames did not make as well.
fn run_proved(wanted: u64, first: u64, coverage: &mut Coverage) -> Result<u64, String> {
    let end = run::<Proved>(wanted, first, coverage)?;
    for seed in (first..end).step_by(20) {
        on_any_words(seed).map_err(|why| format!("DISCREPANCY, seed {seed}: {why}"))?;
    }
    Ok(end)
}

fn summary(coverage: &Coverage, first: u64, end: u64, begin: Instant) -> ExitCode {
    coverage.print();
    let Coverage { frames, trays, histories, sums, waiting, tightness, .. } = coverage;
    println!("{}", sums.words(*waiting));
    println!("{}", tightness.words());
    println!("{frames} frames compared, in {trays} trays and {histories} histories frame by frame: no discrepancy");
    println!("seeds {first} to {}, {:.1} s", end - 1, begin.elapsed().as_secs_f64());
    let missing = coverage.missing();
    if missing.is_empty() {
        return ExitCode::SUCCESS;
    }
    println!("did not occur: {}", missing.join(", "));
    if *frames < ENOUGH {
        ExitCode::SUCCESS
    } else {
        ExitCode::FAILURE
    }
}

fn number(text: Option<&String>, otherwise: u64) -> Option<u64> {
    text.map_or(Some(otherwise), |text| text.replace([',', '_'], "").parse().ok())
}

fn main() -> ExitCode {
    let arguments: Vec<String> = std::env::args().skip(1).collect();
    let subject = arguments.get(2).map_or("space", String::as_str);
    let numbers = (number(arguments.first(), 1_000_000), number(arguments.get(1), 1));
    let ((Some(wanted), Some(first)), "space" | "rows" | "columns", 0..=3) = (numbers, subject, arguments.len()) else {
        eprintln!("usage: differ [FRAMES] [SEED] [space|rows|columns]");
        return ExitCode::from(2);
    };
    let begin = Instant::now();
    let mut coverage = Coverage::default();
    let ran = match subject {
        "rows" => run::<Tuned<tuned::rows::Space>>(wanted, first, &mut coverage),
        "columns" => run::<Tuned<tuned::columns::Space>>(wanted, first, &mut coverage),
        _ => run_proved(wanted, first, &mut coverage),
    };
    match ran {
        Ok(end) => summary(&coverage, first, end, begin),
        Err(report) => {
            println!("{report}");
            ExitCode::FAILURE
        }
    }
}
