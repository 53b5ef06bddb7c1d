//! A trial in words: the table of its counts, and a line for each pane.

use super::advice::View;
use super::{Asked, Counts, Range, Setup, Slot, Trial, MOST_PANES, MOST_ROUNDS, MOST_STARTS};
use crate::prose::refusal_words;
use std::fmt::Write;

/// The setups of a text, one after the other, each with the number of the range; a single one with 0.
pub fn setups(asked: &Asked) -> Vec<(u32, Setup)> {
    match asked.range {
        None => vec![(0, asked.setup.clone())],
        Some(Range { slot, first, last }) => {
            (first..=last).map(|number| (number, asked.setup.with(slot, number))).collect()
        }
    }
}

/// As the C call wants it.
pub fn words_line(setup: &Setup) -> String {
    setup.words().iter().map(u32::to_string).collect::<Vec<String>>().join(" ") + "\n"
}

/// How wide the column of a range is.
const COLUMN: usize = 10;

/// Commits per 100 rounds, "16.7".
fn rate(commits: u32, rounds: u32) -> String {
    match rounds {
        0 => "-".to_string(),
        rounds => format!("{:.1}", 100.0 * f64::from(commits) / f64::from(rounds)),
    }
}

const HEAD: &str = "commits  exceptions  nothings  per 100 rounds";

fn cells(counts: &Counts, rounds: u32) -> String {
    let Counts { commits, exceptions, nothings } = counts;
    format!("{commits:>7}{exceptions:>12}{nothings:>10}{:>16}", rate(*commits, rounds))
}

/// A trial: a row and a line for each pane.
pub fn one(trial: &Trial) -> String {
    let rounds = trial.setup.rounds;
    let mut text = format!("{rounds} rounds\n\npane  {HEAD}\n");
    for (place, counts) in trial.counts.iter().enumerate() {
        let _ = writeln!(text, "{:>4}  {}", place + 1, cells(counts, rounds));
    }
    text.push('\n');
    for place in 0..trial.counts.len() {
        text += &View { trial, place }.line();
    }
    text
}

/// A sweep's trial: the number of the range, and what became of it.
pub type Row = (u32, Result<Trial, u64>);

/// A sweep: a row for each number of the range, and for each pane which numbers are what case.
pub fn sweep(asked: &Asked, range: &Range, rows: &[Row]) -> String {
    let Range { slot, first, last } = *range;
    let panes = asked.setup.panes.len();
    let rounds = match slot {
        Slot::Rounds => String::new(),
        _ => format!(", {} rounds", asked.setup.rounds),
    };
    let mut text = format!("{} from {first} to {last}{rounds}\n\n", slot.words());
    if panes > 1 {
        let names: String =
            (1..=panes).map(|pane| format!("  {:<width$}", format!("pane {pane}"), width = HEAD.len())).collect();
        let _ = writeln!(text, "{:COLUMN$}{}", "", names.trim_end());
    }
    let _ = writeln!(text, "{:>COLUMN$}{}", slot.name(), format!("  {HEAD}").repeat(panes));
    for (number, tried) in rows {
        let cells: String = match tried {
            Ok(trial) => trial.counts.iter().map(|of| format!("  {}", cells(of, trial.setup.rounds))).collect(),
            Err(refusal) => format!("  refused {refusal}"),
        };
        let _ = writeln!(text, "{number:>COLUMN$}{cells}");
    }
    text.push('\n');
    (0..panes).for_each(|place| text += &cases(slot.name(), rows, place));
    text
}

/// Of a sweep: the pane's best numbers, and which case it is with which.
fn cases(name: &str, rows: &[Row], place: usize) -> String {
    let tried = rows.iter().filter_map(|(number, tried)| tried.as_ref().ok().map(|trial| (*number, trial)));
    // Rounds differ in a sweep over them: fractions are compared.
    let rate = |trial: &Trial| (u64::from(trial.counts[place].commits), u64::from(trial.setup.rounds.max(1)));
    let above = |(a, b): (u64, u64), (c, d): (u64, u64)| a * d > c * b;
    let best =
        tried.clone().map(|(_, trial)| rate(trial)).fold((0, 1), |best, it| if above(it, best) { it } else { best });
    let is_best = |trial: &Trial| best.0 > 0 && !above(best, rate(trial));
    let good = runs(tried.clone().filter(|(_, trial)| is_best(trial)).map(|(number, _)| (number, "")));
    let head = match &good[..] {
        [] => "no commits".to_string(),
        some => {
            let numbers: Vec<String> = some.iter().map(|(numbers, _)| numbers.clone()).collect();
            format!("most commits per 100 rounds with {name} {}", numbers.join(", "))
        }
    };
    let mut text = format!("pane {}: {head}\n", place + 1);
    let case = |trial| View { trial, place }.told().map_or("", |(case, _)| case.name);
    for (numbers, case) in runs(tried.map(|(number, trial)| (number, case(trial)))) {
        let _ = writeln!(text, "  {name} {numbers}: {case}");
    }
    text
}

/// Numbers that follow each other with the same name, together: "0 to 9".
fn runs(numbers: impl Iterator<Item = (u32, &'static str)>) -> Vec<(String, &'static str)> {
    let mut runs: Vec<(u32, u32, &'static str)> = Vec::new();
    for (number, name) in numbers {
        match runs.last_mut() {
            Some((_, last, same)) if *same == name && *last + 1 == number => *last = number,
            _ => runs.push((number, number, name)),
        }
    }
    let words = |(first, last, name): (u32, u32, &'static str)| match first == last {
        true => (first.to_string(), name),
        false => (format!("{first} to {last}"), name),
    };
    runs.into_iter().map(words).collect()
}

/// Why a setup is refused: 23 and 24 in document 02's words, with what it has.
pub fn refused(setup: &Setup, number: u64) -> String {
    let (panes, starts, rounds) = (setup.panes.len(), setup.starts.len(), setup.rounds);
    let reasons = [
        (number == 23 && panes == 0, "no pane: 1 at least".to_string()),
        (number == 23 && panes > MOST_PANES, format!("{panes} panes: {MOST_PANES} at most")),
        (number == 23 && starts > MOST_STARTS, format!("{starts} starting entries: {MOST_STARTS} at most")),
        (number == 24, format!("{rounds} rounds: {MOST_ROUNDS} at most")),
    ];
    let reasons = reasons.into_iter().filter(|(holds, _)| *holds).map(|(_, reason)| format!("  {reason}\n"));
    format!("{}\n{}", refusal_words(u8::try_from(number).unwrap_or(u8::MAX)), reasons.collect::<String>())
}
