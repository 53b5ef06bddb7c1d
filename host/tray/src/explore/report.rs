//! The report of an exploration, in words.

use super::analysis::{cut_words, frames, Analysis, Finding};
use crate::big::grouped;
use crate::claim::Verdict;
use crate::history::History;
use crate::oracle::Matcher;
use crate::panes::Script;
use crate::run::step_words;
use std::fmt::Write;

pub fn verdict_word(verdict: Verdict) -> &'static str {
    match verdict {
        Verdict::Kept => "kept",
        Verdict::Refuted => "refuted",
        Verdict::Open => "open",
    }
}

pub fn histories_words(analysis: &Analysis) -> String {
    match (&analysis.histories, analysis.explored.cut) {
        (Some(histories), _) => histories.to_string(),
        (None, Some(_)) => "not counted".to_string(),
        (None, None) => "without end".to_string(),
    }
}

/// The shortest refuting history, with the frames that came before the panes.
pub fn shortest(script: &Script, finding: &Finding) -> Option<History> {
    finding.shortest.as_ref().map(|senders| History::of(frames(script, senders)))
}

/// "882,180 of 28,828,800 histories refute it (3.1 %)"
fn refuting_words(analysis: &Analysis, finding: &Finding) -> String {
    match (&finding.refuting, &analysis.histories) {
        (Some(refuting), Some(all)) => {
            format!("{refuting} of {all} histories refute it ({:.1} %)", refuting.percent_of(all))
        }
        _ => "how many histories refute it was not counted".to_string(),
    }
}

/// Highest use of memory by the whole program, in MB, where the system tells.
pub fn peak_memory() -> Option<u64> {
    let status = std::fs::read_to_string("/proc/self/status").ok()?;
    let line = status.lines().find(|line| line.starts_with("VmHWM:"))?;
    line.split_whitespace().nth(1)?.parse::<u64>().ok().map(|kb| kb / 1024)
}

fn sizes(text: &mut String, analysis: &Analysis) {
    let store = &analysis.explored.store;
    let number = |n: usize| grouped(&n.to_string());
    let _ = writeln!(text, "{} situations, {} steps between them", number(store.len()), number(store.edges.len()));
    let _ = writeln!(text, "histories: {}", histories_words(analysis));
    if let Some(cut) = analysis.explored.cut {
        let left = number(store.len() - store.looked_at());
        let _ = writeln!(text, "{}; {left} situations are left", cut_words(cut));
    }
}

fn claim_words(text: &mut String, script: &Script, analysis: &Analysis, place: usize) {
    let (claim, finding) = (&script.claims[place], &analysis.findings[place]);
    let _ = writeln!(text, "\n{}: {}", verdict_word(finding.verdict).to_uppercase(), claim.text);
    if !claim.remark.is_empty() {
        let _ = writeln!(text, "  {}", claim.remark);
    }
    match finding.verdict {
        Verdict::Kept | Verdict::Open => {
            let _ = writeln!(text, "  {}", finding.why);
        }
        Verdict::Refuted => {
            let which = if finding.why.is_empty() { "the shortest" } else { &format!("{}; one of them", finding.why) };
            let _ = writeln!(text, "  {}; {which}:", refuting_words(analysis, finding));
            let history = shortest(script, finding).unwrap_or_default();
            let mut matcher = Matcher::default();
            for place in 0..history.steps.len() {
                text.push_str(&step_words(&history, place, false, &mut matcher));
            }
        }
    }
}

pub fn words(script: &Script, analysis: &Analysis) -> String {
    let mut text = String::new();
    if !script.title.is_empty() {
        let _ = writeln!(text, "{}\n", script.title);
    }
    sizes(&mut text, analysis);
    for place in 0..script.claims.len() {
        claim_words(&mut text, script, analysis, place);
    }
    text
}

/// What did not come as the script expects: line and what came instead.
pub fn failures(script: &Script, analysis: &Analysis) -> Vec<(usize, String)> {
    let start = crate::run::failures(&History::of(script.start.clone()));
    let mut failures: Vec<(usize, String)> = start.into_iter().map(|failure| (failure.line, failure.why)).collect();
    for (claim, finding) in script.claims.iter().zip(&analysis.findings) {
        let Some(expected) = &claim.expected else { continue };
        let frames = finding.shortest.as_ref().map(|way| script.start.len() + way.len());
        if expected.verdict != finding.verdict || expected.frames.is_some_and(|wanted| Some(wanted) != frames) {
            let came = match frames {
                Some(frames) => format!("{} in {frames} frames", verdict_word(finding.verdict)),
                None => verdict_word(finding.verdict).to_string(),
            };
            failures.push((expected.line, format!("expected {}, came: {came}", expected_words(expected))));
        }
    }
    for size in &script.sizes {
        let came = match size.what.as_str() {
            "situations" => analysis.explored.store.len().to_string(),
            "steps" => analysis.explored.store.edges.len().to_string(),
            _ => histories_words(analysis).replace(',', ""),
        };
        if came != size.number {
            failures.push((size.line, format!("expected {} {}, came: {came}", size.number, size.what)));
        }
    }
    failures
}

fn expected_words(expected: &crate::claim::Expected) -> String {
    match expected.frames {
        Some(frames) => format!("{} in {frames} frames", verdict_word(expected.verdict)),
        None => verdict_word(expected.verdict).to_string(),
    }
}
