//! `tray run`: a history in words, frame by frame, and its expectations.

use crate::boundary::Done;
use crate::history::{History, Outcome, Step};
use crate::oracle::Matcher;
use crate::prose::{record_words, refusal_words, state_lines, told, why_record};
use crate::record::{Record, NOTHING, RECORD_BYTES};
use crate::waiting::Account;
use std::fmt::Write;

/// An expectation that was not met.
pub struct Failure {
    pub line: usize,
    pub why: String,
}

/// What the program prints for an answers area and what was returned with it.
pub fn raw(area: &[u8], done: Done) -> String {
    let Done { frames, records, number } = done;
    let lines = area.chunks_exact(RECORD_BYTES).take(records).map(Record::read);
    let mut text: String = lines.map(|record| record.line() + "\n").collect();
    let _ = writeln!(text, "done {frames} {records} {number}");
    text
}

fn came(step: &Step) -> String {
    let records: Vec<String> = step.records.iter().map(|record| record_words(record, step.after.clock)).collect();
    records.join("; ")
}

/// The expectations of a history that were not met.
pub fn failures(history: &History) -> Vec<Failure> {
    let failure = |(place, step): (usize, &Step)| {
        let fail = |line: usize, text: &str| Failure {
            line,
            why: format!("expected {text} of frame {}, came: {}", place + 1, came(step)),
        };
        let unmet = step.unmet().into_iter();
        unmet.map(|expectation| fail(expectation.line, &expectation.text)).collect::<Vec<_>>()
    };
    history.steps.iter().enumerate().flat_map(failure).collect()
}

/// A frame and its records, as `tray run` and `tray try` show them.
pub fn step_words(history: &History, place: usize, states: bool, matcher: &mut Matcher) -> String {
    let step = &history.steps[place];
    let mut text = format!("{:>4}  clock {:<3} {}\n", place + 1, history.before(place).clock, step.asked.text);
    for (at, record) in step.records.iter().enumerate() {
        let _ = writeln!(text, "        {}", told(history, place, at));
        // A look-up that waits has its reasons in the tables.
        if states && record.kind == NOTHING {
            for reason in why_record(history, place, at, matcher) {
                let _ = writeln!(text, "          {reason}");
            }
        }
    }
    for expectation in step.unmet() {
        let _ = writeln!(text, "        NOT AS EXPECTED (line {}): {}", expectation.line, expectation.text);
    }
    if states {
        for line in state_lines(&step.after, matcher) {
            let _ = writeln!(text, "      | {line}");
        }
    }
    text
}

/// Why not all frames were done, as a line; empty if all were.
pub fn stop_words(outcome: &Outcome) -> String {
    match outcome.done.number {
        0 => String::new(),
        1 => format!(
            "stopped with 1 before frame {} of {}: under 700 bytes of the answers area were left\n",
            outcome.done.frames + 1,
            outcome.frames
        ),
        number => format!("the tray is {}\n", refusal_words(number)),
    }
}

/// The history's sums stand behind every history; a tray that is refused has none.
fn ending(outcome: &Outcome) -> String {
    let Done { frames, records, number } = outcome.done;
    let sums = || Account::of(&outcome.history).equation();
    match number {
        0 => format!("{frames} frames, {records} records\n{}\n", sums()),
        1 => format!("{}{}\n", stop_words(outcome), sums()),
        _ => stop_words(outcome),
    }
}

/// The history in words.
pub fn words(outcome: &Outcome, states: bool) -> String {
    let mut matcher = Matcher::default();
    let history = &outcome.history;
    let steps = (0..history.steps.len()).map(|place| step_words(history, place, states, &mut matcher));
    steps.collect::<String>() + &ending(outcome)
}
