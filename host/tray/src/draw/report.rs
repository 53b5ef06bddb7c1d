//! The report of an exploration as one printed page: verdicts, the shortest refuting histories drawn, what each request
//! can be answered, the claims under narrower scopes, the programs.

use super::metrics::NARROW;
use super::page::html;
use super::svg::{escape, n};
use super::{rows_html, Pointed, Style};
use crate::big::{grouped, Natural};
use crate::claim::{Claim, Form, Verdict};
use crate::explore::analysis::{analyse, cut_words, Analysis, Finding};
use crate::explore::report::{histories_words, shortest, verdict_word};
use crate::explore::shares::{needed, shares, Answer, Needed, Share, Shares};
use crate::explore::store::TICK;
use crate::explore::Bounds;
use crate::oracle::Matcher;
use crate::panes::{Pane, Script};
use crate::words::Tables;
use std::collections::BTreeMap;

const REPORT_CSS: &str = include_str!("report.css");
const BAR: f64 = 600.0;
/// Beyond this the claims are not looked at again under narrower scopes.
const MOST_SITUATIONS: usize = 2_000_000;

const PATTERNS: &str = "<svg xmlns=\"http://www.w3.org/2000/svg\" width=\"0\" height=\"0\" style=\"position:absolute\" aria-hidden=\"true\"><defs>\
<pattern id=\"rhatch\" width=\"6\" height=\"6\" patternUnits=\"userSpaceOnUse\" patternTransform=\"rotate(45)\"><rect width=\"6\" height=\"6\" fill=\"#fff\"/><rect width=\"2.6\" height=\"6\" fill=\"#1d2429\"/></pattern>\
<pattern id=\"rdots\" width=\"4\" height=\"4\" patternUnits=\"userSpaceOnUse\"><rect width=\"4\" height=\"4\" fill=\"#fff\"/><circle cx=\"2\" cy=\"2\" r=\"1\" fill=\"#1d2429\"/></pattern></defs></svg>\n";

fn fill(answer: Answer) -> &'static str {
    match answer {
        Answer::Done(_) => "#37474f",
        Answer::WaitsThenFound => "#8699a3",
        Answer::StillWaits | Answer::StillListens => "url(#rdots)",
        Answer::WaitsThenNothing | Answer::WaitsThenException => "#dbe2e6",
        Answer::NothingStored => "#fff",
        Answer::NothingThoughStored => "url(#rhatch)",
        Answer::Refused(_) => "#000",
    }
}

fn figure(number: &str, what: &str) -> String {
    format!("<div><b>{}</b><span>{}</span></div>", escape(number), escape(what))
}

fn figures(script: &Script, analysis: &Analysis) -> String {
    let store = &analysis.explored.store;
    let mut all = vec![
        figure(&grouped(&store.len().to_string()), "situations, each different"),
        figure(&grouped(&store.edges.len().to_string()), "steps between them"),
        figure(&histories_words(analysis), "histories"),
    ];
    if let ([finding], Some(histories)) = (&analysis.findings[..], &analysis.histories) {
        if let Some(refuting) = &finding.refuting {
            let share = refuting.percent_of(histories);
            all.push(figure(&refuting.to_string(), &format!("of them refute ({share:.1} %)")));
        }
    }
    let refuted = analysis.findings.iter().filter(|finding| finding.verdict == Verdict::Refuted).count();
    if script.claims.len() > 1 {
        all.push(figure(&format!("{refuted} of {}", script.claims.len()), "claims refuted"));
    }
    format!("<div class=\"figs\">{}</div>\n", all.concat())
}

fn verdict_box(claim: &Claim, finding: &Finding, analysis: &Analysis) -> String {
    let sign = match finding.verdict {
        Verdict::Kept => "&#10003;",
        Verdict::Refuted => "&#10007;",
        Verdict::Open => "?",
    };
    let count = match (&finding.refuting, &analysis.histories) {
        (Some(refuting), Some(all)) if finding.verdict == Verdict::Refuted => {
            format!("by {refuting} of {all} histories ({:.1} %)", refuting.percent_of(all))
        }
        _ => finding.why.clone(),
    };
    let remark = if claim.remark.is_empty() { String::new() } else { format!(" \u{b7} {}", claim.remark) };
    format!(
        "<div class=\"claim {verdict}\"><div class=\"verdict\">{sign} {verdict}</div><p>&#8220;{}&#8221;<small>{}{}</small></p></div>\n",
        escape(&claim.text),
        escape(&count),
        escape(&remark),
        verdict = verdict_word(finding.verdict)
    )
}

fn line_words(script: &Script, (pane, line): (usize, usize)) -> String {
    let Pane { name, sent, .. } = &script.panes[pane];
    let operation = sent[line].request.map_or("bytes", |request| request.operation.name);
    format!("{name}'s {operation}")
}

fn needed_words(script: &Script, needed: &Needed) -> String {
    let list = |lines: &[(usize, usize)]| -> String {
        let words: Vec<String> = lines.iter().map(|&line| line_words(script, line)).collect();
        escape(&words.join(", "))
    };
    let mut words = String::new();
    let ticks = match needed.ticks {
        0 => "no tick".to_string(),
        1 => "one tick".to_string(),
        ticks => format!("{ticks} ticks"),
    };
    let all = if needed.lines.is_empty() { ticks } else { format!("{}, {ticks}", list(&needed.lines)) };
    words += &format!("<b>Needed in every refuting history:</b> {all}. ");
    if !needed.not_needed.is_empty() {
        words += &format!("<b>Not needed:</b> {}.", list(&needed.not_needed));
    }
    format!("<p class=\"note\">{words}</p>\n")
}

/// The entries that a claim counts, in these tables.
fn counted(claim: &Claim, tables: &Tables) -> usize {
    let Form::Count { committed, template, .. } = &claim.form else { return 0 };
    let matching = Matcher::default().matching(template, tables);
    matching.iter().filter(|entry| !committed || entry.private_to == 0).count()
}

fn claim_part(script: &Script, analysis: &Analysis, place: usize) -> String {
    let (claim, finding) = (&script.claims[place], &analysis.findings[place]);
    let mut part = verdict_box(claim, finding, analysis);
    let Some(mut history) = shortest(script, finding).filter(|history| !history.steps.is_empty()) else { return part };
    history.title = format!("History that refutes claim {}", place + 1);
    let last = history.steps.len() - 1;
    let failing = claim.failing(&script.panes, counted(claim, &history.steps[last].after));
    let pointed = Pointed { frame: last, caption: format!("the claim fails here: {failing}") };
    let which = if finding.why.is_empty() { "The shortest" } else { "A" };
    part += &format!("<h2>{which} history that refutes it: {} frames</h2>\n", history.steps.len());
    let names: Vec<(u8, String)> = script.panes.iter().map(|pane| (pane.party, pane.name.clone())).collect();
    let prefix = format!("c{place}");
    let style = Style { prefix: &prefix, links: false, names: &names, pointed: Some(&pointed) };
    let drawing = rows_html(&history, NARROW, &style);
    part += &format!("<div class=\"draw\">{drawing}</div>\n");
    if let Some(needed) = needed(script, analysis, place) {
        part += &needed_words(script, &needed);
    }
    part
}

fn chip(answer: Answer) -> String {
    format!("<svg xmlns=\"http://www.w3.org/2000/svg\" class=\"chip\" width=\"13\" height=\"13\" viewBox=\"0 0 13 13\" aria-hidden=\"true\"><rect x=\"1\" y=\"1\" width=\"11\" height=\"11\" fill=\"{}\" stroke=\"#1d2429\"/></svg>", fill(answer))
}

fn answers_row(pane: &Pane, line: usize, answers: &BTreeMap<Answer, Share>) -> String {
    let mut whole = Natural::default();
    answers.values().for_each(|share| whole.add(&share.times));
    let (mut x, mut bar, mut list) = (1.0, String::new(), String::new());
    for (&answer, share) in answers {
        let percent = share.times.percent_of(&whole);
        let wide = BAR * percent / 100.0;
        let words = escape(&answer.words());
        bar += &format!(
            "<g><title>{words}: {} times, {percent:.1} %</title><rect x=\"{}\" y=\"2\" width=\"{}\" height=\"16\" fill=\"{}\" stroke=\"#1d2429\"/></g>",
            share.times,
            n(x),
            n(wide),
            fill(answer)
        );
        list += &format!(
            "<li>{} {words} <b>{percent:.1} %</b> <span class=\"fr\">{} frames</span></li>",
            chip(answer),
            share.frames
        );
        x += wide;
    }
    format!(
        "<tr><td><b>{}</b><br/><code>{}</code></td><td><svg xmlns=\"http://www.w3.org/2000/svg\" class=\"bar\" width=\"602\" height=\"20\" viewBox=\"0 0 602 20\" aria-hidden=\"true\">{bar}</svg><ul class=\"ans\">{list}</ul></td></tr>\n",
        escape(&pane.name),
        escape(&pane.sent[line].text)
    )
}

fn answers_part(script: &Script, shares: &Shares) -> String {
    let (mut rows, mut always) = (String::new(), Vec::new());
    for (&(pane, line), answers) in shares {
        let of = &script.panes[pane];
        match answers.len() {
            1 => {
                let only = answers.keys().next().map_or(String::new(), |answer| answer.words());
                always.push(format!(
                    "{} <code>{}</code> ({})",
                    escape(&of.name),
                    escape(&of.sent[line].text),
                    escape(&only)
                ));
            }
            _ => rows += &answers_row(of, line, answers),
        }
    }
    let same = match always.is_empty() {
        true => String::new(),
        false => format!(" Always the same answer: {}.", always.join("; ")),
    };
    format!(
        "<h2>Where things can differ: what each request can be answered</h2>\n<table><colgroup><col style=\"width:27%\"/><col/></colgroup><tbody>{rows}</tbody></table>\n<p class=\"note\">Percentages count histories, not likelihood; a request that is sent several times counts each time. &#8220;4 frames&#8221;: length of the shortest example.{same}</p>\n"
    )
}

/// The panes that a claim is about: those of its shortest history, or those that it names.
fn involved(script: &Script, claim: &Claim, finding: &Finding) -> Vec<usize> {
    let mut panes: Vec<usize> = finding.shortest.iter().flatten().copied().filter(|&sender| sender != TICK).collect();
    panes.extend(claim.panes());
    panes.sort_unstable();
    panes.dedup();
    panes.retain(|&pane| pane < script.panes.len());
    panes
}

fn scope_row(name: &str, analysis: &Analysis, this: bool) -> String {
    let store = &analysis.explored.store;
    let finding = &analysis.findings[0];
    let refuting = finding.refuting.as_ref().map_or("?".to_string(), Natural::to_string);
    format!(
        "<tr{}><td>{}</td><td class=\"n\">{}</td><td class=\"n\">{}</td><td class=\"n\">{}</td><td class=\"n\">{refuting}</td><td>{}</td></tr>\n",
        if this { " class=\"this\"" } else { "" },
        escape(name),
        grouped(&store.len().to_string()),
        grouped(&store.edges.len().to_string()),
        histories_words(analysis),
        verdict_word(finding.verdict)
    )
}

/// What the bounds leave beside an exploration; an eighth of the memory at least.
fn left(bounds: Bounds, analysis: &Analysis) -> Bounds {
    let memory = bounds.memory.saturating_sub(analysis.explored.store.memory());
    Bounds { memory: memory.max(bounds.memory / 8), ..bounds }
}

/// The same claim with the panes concerned alone, and without ticks.
fn scopes_part(script: &Script, analysis: &Analysis, place: usize, bounds: Bounds) -> String {
    let all: Vec<usize> = (0..script.panes.len()).collect();
    let concerned = involved(script, &script.claims[place], &analysis.findings[place]);
    let mut scopes: Vec<(Vec<usize>, u32)> = Vec::new();
    for panes in [concerned, all.clone()].into_iter().filter(|panes| !panes.is_empty()) {
        for ticks in [0, script.ticks] {
            if !scopes.contains(&(panes.clone(), ticks)) {
                scopes.push((panes.clone(), ticks));
            }
        }
    }
    let mut rows = String::new();
    for (panes, ticks) in &scopes {
        let mut narrowed = script.narrowed(panes, *ticks);
        let claim = script.claims[place].narrowed(panes);
        let Some(claim) = claim else { continue };
        narrowed.claims = vec![claim];
        let names: Vec<&str> = panes.iter().map(|&pane| script.panes[pane].name.as_str()).collect();
        let who = if *panes == all { "all".to_string() } else { names.join(", ") };
        let when = if *ticks == 0 { "no ticks".to_string() } else { format!("{ticks} ticks") };
        let this = *panes == all && *ticks == script.ticks;
        rows += &scope_row(&format!("{who}; {when}"), &analyse(&narrowed, bounds), this);
    }
    format!(
        "<h2>&#8220;{}&#8221;, looked at more narrowly</h2>\n<table class=\"scopes\"><thead><tr><th>looked at</th><th>situations</th><th>steps</th><th>histories</th><th>refute</th><th></th></tr></thead><tbody>{rows}</tbody></table>\n",
        escape(&script.claims[place].text)
    )
}

fn program_row(pane: &Pane) -> String {
    let lines: Vec<String> = pane
        .sent
        .iter()
        .map(|sent| match &sent.label {
            Some(label) => format!("{label}: {}", sent.text),
            None => sent.text.clone(),
        })
        .collect();
    let rounds = pane.rounds.map_or(String::new(), |rounds| format!(", {rounds} rounds"));
    format!(
        "<tr><td>{}, party {}{rounds}</td><td><code>{}</code></td></tr>\n",
        escape(&pane.name),
        pane.party,
        escape(&lines.join("; "))
    )
}

fn programs_part(script: &Script, analysis: &Analysis) -> String {
    let mut rows = String::new();
    if !script.start.is_empty() {
        let start: Vec<&str> = script.start.iter().map(|asked| asked.text.as_str()).collect();
        rows += &format!("<tr><td>at the start</td><td><code>{}</code></td></tr>\n", escape(&start.join("; ")));
    }
    rows += &script.panes.iter().map(program_row).collect::<String>();
    let ticks = match script.ticks {
        0 => "none".to_string(),
        ticks => format!("{ticks}, anywhere between the frames"),
    };
    rows += &format!("<tr><td>ticks</td><td>{ticks}</td></tr>\n");
    let cut = analysis.explored.cut.map_or(String::new(), |cut| format!(" {}.", cut_words(cut)));
    format!(
        "<h2>What was explored</h2>\n<table class=\"programs\"><tbody>{rows}</tbody></table>\n<p class=\"note\">Every order of these frames and ticks.{} Not covered: other leases and timeouts, other programs, more ticks.</p>\n",
        escape(&cut)
    )
}

fn lead(text: &str) -> String {
    match text {
        "" => String::new(),
        text => format!("<p class=\"lead\">{}</p>\n", escape(text)),
    }
}

/// The whole page.
pub fn report(script: &Script, analysis: &Analysis, bounds: Bounds) -> String {
    let title = if script.title.is_empty() { "Report: all interleavings" } else { &script.title };
    let panes = script.panes.len();
    let mut body = format!(
        "{PATTERNS}<p class=\"src\">All interleavings &#183; {panes} panes, {} ticks</p>\n<h1>{}</h1>\n{}{}",
        script.ticks,
        escape(title),
        lead(&script.lead),
        figures(script, analysis)
    );
    for place in 0..script.claims.len() {
        body += &claim_part(script, analysis, place);
    }
    if let Some(shares) = shares(script, analysis) {
        body += &answers_part(script, &shares);
    }
    let mut scopes = String::new();
    if analysis.explored.store.len() <= MOST_SITUATIONS {
        // A claim that is kept by all is kept by fewer.
        let refuted = |place: &usize| analysis.findings[*place].verdict == Verdict::Refuted;
        for place in (0..script.claims.len()).filter(refuted) {
            scopes += &scopes_part(script, analysis, place, left(bounds, analysis));
        }
    }
    body += &format!("<div class=\"two\"><div>{scopes}</div><div>{}</div></div>\n", programs_part(script, analysis));
    html(title, REPORT_CSS, &body)
}
