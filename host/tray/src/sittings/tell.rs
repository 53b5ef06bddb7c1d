//! A report in words: a row for each party, the trays that are not in it, and what its figures do not say.

use super::{Figures, Report, Sitting, TOO_MANY};
use crate::prose::refusal_words;
use std::fmt::Write;

const UNSAID: &str =
    "The figures do not say how a wait ended, nor how long one that its sitting's end cut short would have lasted.";

/// As a C host has them.
pub fn words_line(report: &Report) -> String {
    report.words.map(|word| word.to_string()).join(" ") + "\n"
}

/// "3.5"; "-" without a wait
fn mean(figures: &Figures) -> String {
    figures.mean_in_tenths().map_or("-".to_string(), |tenths| format!("{}.{}", tenths / 10, tenths % 10))
}

const HEAD: &str = "party  look-ups  founds  did not wait  waits  ticks in all  mean wait  longest wait  in sitting";

/// The parties that have looked up.
fn table(report: &Report, sittings: &[Sitting]) -> String {
    let asked = report.figures().into_iter().enumerate().filter(|(_, figures)| figures.look_ups > 0);
    let mut text = String::new();
    for (party, figures) in asked {
        let Figures { look_ups, founds, longest, ticks, waits } = figures;
        let (mean, at_once) = (mean(&figures), look_ups.saturating_sub(waits));
        let place = report.longest_in(party).map_or("-", |place| &sittings[place].name);
        let _ = write!(text, "{:>5}{look_ups:>10}{founds:>8}{at_once:>14}{waits:>7}", party + 1);
        let _ = writeln!(text, "{ticks:>14}{mean:>11}{longest:>14}  {place}");
    }
    match text.is_empty() {
        true => "nobody has looked up\n".to_string(),
        false => format!("{HEAD}\n{text}"),
    }
}

/// "3 sittings"; "2 of 3 sittings are in the figures"; "1 of 3 sittings is in the figures"
fn how_many(report: &Report) -> String {
    let count = report.numbers.len();
    let sittings = if count == 1 { "sitting" } else { "sittings" };
    match report.numbers.iter().filter(|number| **number == 0).count() {
        all if all == count => format!("{count} {sittings}\n"),
        some => {
            let are = if some == 1 || count == 1 { "is" } else { "are" };
            format!("{some} of {count} {sittings} {are} in the figures\n")
        }
    }
}

/// Which trays are not in the figures, and why.
fn left_out(report: &Report, sittings: &[Sitting]) -> String {
    let mut text = String::new();
    let beyond = report.numbers.iter().position(|&number| number == TOO_MANY).unwrap_or(sittings.len());
    for (place, &number) in report.numbers[..beyond].iter().enumerate().filter(|(_, number)| **number != 0) {
        let _ = writeln!(text, "sitting {} ({}) is {}", place + 1, sittings[place].name, refusal_words(number));
    }
    let (first, last, why) = (beyond + 1, sittings.len(), refusal_words(TOO_MANY));
    let _ = match &sittings[beyond..] {
        [] => Ok(()),
        [one] => writeln!(text, "sitting {first} ({}) is {why}", one.name),
        [one, ..] => writeln!(text, "sittings {first} to {last} (from {} on) are {why}", one.name),
    };
    text
}

/// How many sittings, those that are not in the figures, the table, and what it does not say.
pub fn words(report: &Report, sittings: &[Sitting]) -> String {
    let (count, left_out, table) = (how_many(report), left_out(report, sittings), table(report, sittings));
    format!("{count}{left_out}\n{table}\n{UNSAID}\n")
}
