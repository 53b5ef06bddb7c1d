//! The page of a history: title, drawing, legend, and a table with a row for each frame. It needs no script.

use super::legend::legend;
use super::metrics::{NARROW, WIDE};
use super::svg::escape;
use super::{rows_html, Style, CSS};
use crate::frame::{plain_fields, template_text};
use crate::history::History;
use crate::oracle::Matcher;
use crate::prose::{holds_words, lease_words, look_up_words, told, why_record};
use crate::waiting::Account;
use crate::words::{Entry, Registration, Tables};

pub const PAGE_CSS: &str = include_str!("page.css");

/// A whole page around its body.
pub fn html(title: &str, more_css: &str, body: &str) -> String {
    format!(
        "<!DOCTYPE html>\n<html xmlns=\"http://www.w3.org/1999/xhtml\" lang=\"en\"><head><meta charset=\"utf-8\"/><meta name=\"viewport\" content=\"width=device-width,initial-scale=1\"/>\n<title>{}</title><style>\n{PAGE_CSS}{CSS}{more_css}</style></head><body>\n{body}</body></html>\n",
        escape(title)
    )
}

/// A line of the tables: what it is of, how that is held in short, and all about it.
#[derive(Clone, PartialEq, Eq)]
struct Row {
    /// "E", "T", "party " or "R"
    of: &'static str,
    number: u32,
    short: String,
    full: String,
}

impl Row {
    fn name(&self) -> String {
        format!("{}{}", self.of, self.number)
    }
}

/// "E1-E4, E6": three or more in a row are named by the first and the last.
fn names(rows: &[&Row]) -> String {
    let runs = rows.chunk_by(|one, other| one.number + 1 == other.number);
    let names = runs.map(|run| match run {
        [first, _, .., last] => format!("{}-{}", first.name(), last.name()),
        _ => run.iter().map(|row| row.name()).collect::<Vec<_>>().join(", "),
    });
    names.collect::<Vec<_>>().join(", ")
}

/// The rows in short words, those that are held alike together: "E1-E4, E6 committed".
fn in_short<'a>(rows: impl Iterator<Item = &'a Row>) -> Vec<String> {
    let rows: Vec<&Row> = rows.collect();
    let alike = rows.chunk_by(|one, other| one.of == other.of && one.short == other.short);
    alike.map(|rows| escape(format!("{} {}", names(rows), rows[0].short).trim_end())).collect()
}

fn entry_row(entry: &Entry, tables: &Tables) -> Row {
    let holds = holds_words(entry, tables);
    let fields = plain_fields(&entry.values());
    let full = format!("of party {}, {fields}, {holds}, {}", entry.writer, lease_words(entry.end));
    Row { of: "E", number: entry.number, short: holds, full }
}

fn registration_row(registration: &Registration) -> Row {
    let Registration { number, party, template, end, total } = registration;
    let full = format!("of party {party}, {}, {}, {total} so far", template_text(template), lease_words(*end));
    Row { of: "R", number: *number, short: String::new(), full }
}

fn state_rows(tables: &Tables) -> Vec<Row> {
    let mut rows: Vec<Row> = tables.entries.iter().map(|entry| entry_row(entry, tables)).collect();
    rows.extend(tables.transactions.iter().map(|transaction| Row {
        of: "T",
        number: transaction.number,
        short: String::new(),
        full: format!("of party {}, {}", transaction.owner, lease_words(transaction.end)),
    }));
    rows.extend(tables.look_ups.iter().map(|look_up| Row {
        of: "party ",
        number: u32::from(look_up.party),
        short: "waiting".to_string(),
        full: look_up_words(look_up).replacen(&format!("party {} ", look_up.party), "", 1),
    }));
    rows.extend(tables.registrations.iter().map(registration_row));
    rows
}

/// New or changed lines in full, gone ones struck, the rest in one line.
fn state_cell(before: &Tables, after: &Tables) -> String {
    let (old, new) = (state_rows(before), state_rows(after));
    let mut cell = String::new();
    for row in new.iter().filter(|row| !old.contains(row)) {
        cell += &format!("<li class=\"new\"><b>{}</b> {}</li>", row.name(), escape(&row.full));
    }
    let gone = in_short(old.iter().filter(|row| !new.iter().any(|other| other.name() == row.name())));
    if !gone.is_empty() {
        let struck: Vec<String> = gone.iter().map(|words| format!("<s>{words}</s>")).collect();
        cell += &format!("<li class=\"gone\">{}</li>", struck.join(", "));
    }
    let same = in_short(new.iter().filter(|row| old.contains(row)));
    match (same.is_empty(), new.is_empty()) {
        (false, _) => cell += &format!("<li class=\"same\">{}</li>", same.join("; ")),
        (true, true) => cell += "<li class=\"same\">empty</li>",
        _ => {}
    }
    format!("<ul>{cell}</ul>")
}

fn answers_cell(history: &History, frame: usize, matcher: &mut Matcher) -> String {
    let step = &history.steps[frame];
    let mut cell = String::new();
    for place in 0..step.records.len() {
        let reasons = why_record(history, frame, place, matcher);
        let reason = match reasons.is_empty() {
            true => String::new(),
            false => format!(" <span class=\"rem\">{}</span>", escape(&reasons.join("; "))),
        };
        cell += &format!("<li>{}{reason}</li>", escape(&told(history, frame, place)));
    }
    format!("<ul>{cell}</ul>")
}

fn table_row(history: &History, frame: usize, matcher: &mut Matcher) -> String {
    let step = &history.steps[frame];
    let tick = if step.is_tick() { " class=\"tick\"" } else { "" };
    let remark = match step.asked.remark.as_str() {
        "" => String::new(),
        remark => format!("<span class=\"rem\">{}</span>", escape(remark)),
    };
    format!(
        "<tr id=\"f{number}\"{tick}><td class=\"n\"><a href=\"#drawing\">{number}</a></td><td class=\"c\">{}</td><td><code>{}</code>{remark}</td><td class=\"a\">{}</td><td>{}</td></tr>\n",
        step.after.clock,
        escape(&step.asked.text),
        answers_cell(history, frame, matcher),
        state_cell(history.before(frame), &step.after),
        number = frame + 1
    )
}

fn table(history: &History) -> String {
    let mut matcher = Matcher::default();
    let rows: String = (0..history.steps.len()).map(|frame| table_row(history, frame, &mut matcher)).collect();
    format!(
        "<h2>The history in words, and what the space holds after each frame</h2>\n<p class=\"src\">&#9656; new or changed &#160; &#215; gone &#160; = as before. The numbers above the drawing lead here.</p>\n<table><colgroup><col style=\"width:3.2em\"/><col style=\"width:3.2em\"/><col style=\"width:33%\"/><col style=\"width:24%\"/><col/></colgroup><thead><tr><th>frame</th><th>clock</th><th>request</th><th>answers</th><th>the space afterwards</th></tr></thead><tbody>\n{rows}</tbody></table>\n<p class=\"src\">{}</p>\n",
        Account::of(history).equation()
    )
}

/// Both widths; the page shows the one that fits.
pub fn drawing(history: &History) -> String {
    let style = |prefix| Style { prefix, links: true, names: &[], pointed: None };
    format!(
        "<div id=\"drawing\"></div><div class=\"draw narrow\">{}</div>\n<div class=\"draw wide\">{}</div>\n",
        rows_html(history, NARROW, &style("n")),
        rows_html(history, WIDE, &style("w"))
    )
}

/// The page of a history; `source` is the file's name.
pub fn page(history: &History, source: &str) -> String {
    let title = if history.title.is_empty() { source } else { &history.title };
    let body = format!(
        "<p class=\"src\">{}</p>\n<h1>{}</h1>\n<p class=\"lead\">{}</p>\n{}{}{}",
        escape(source),
        escape(title),
        escape(&history.lead),
        drawing(history),
        legend(),
        table(history)
    );
    html(title, "", &body)
}
