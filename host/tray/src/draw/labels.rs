//! What stands above and below a mark: the request; the record's word, and one reason or effect.

use super::lives::{entries_by_slot, EntryLife, Gone, Hold, Lives, Mark, Moment};
use super::metrics::width;
use crate::frame::{
    duration_text, end_text, plain_fields, short_fields, template_slots, template_text, Class, Part, Request,
};
use crate::history::History;
use crate::oracle::{Matcher, Sought, Standing};
use crate::prose::{bars_renewal, lease_words, withdraws};
use crate::record::{
    kind_of, refusal_label, Record, ABORTED, COMMITTED, CREATED, EXCEPTION, FOUND, NOTHING, NOTIFIED, REFUSED, RENEWED,
    RUNG, WAITING, WRITTEN,
};
use crate::words::{End, Tables, Template, Values};

/// A template longer than this is shown by slots; in fields longer than this a short sign stands for a blank.
const LONG: f64 = 104.0;
/// The same for a template that asks for an arc: there is room for one field beside it.
const LONG_WITH_ARC: f64 = 150.0;

/// The lines of a mark's labels; below, the first is bold.
#[derive(Clone, Default, PartialEq, Debug)]
pub struct Labels {
    pub above: Vec<String>,
    pub below: Vec<String>,
    /// Matching entries that are not available: lines go up to them.
    pub barred: Vec<u32>,
}

fn template_label(template: &Template) -> String {
    let text = template_text(template);
    let long = if template.arc().is_some() { LONG_WITH_ARC } else { LONG };
    match width(&text) > long {
        true => template_slots(template),
        false => text,
    }
}

fn fields_label(values: &Values) -> String {
    let text = plain_fields(values);
    match width(&text) > LONG {
        true => short_fields(values),
        false => text,
    }
}

/// The request: operation, then its template, fields, lease or transaction.
fn request_label(request: &Request, mark: &Mark, clock: u32) -> Vec<String> {
    let name = request.operation.name;
    let lease = || match request.duration {
        0 if request.renews() => "lease 0".to_string(),
        lease => lease_words(End::of_lease(clock, lease)),
    };
    let second = |part: &Part| match part {
        Part::Fields => Some(fields_label(&request.values())),
        Part::Template => Some(template_label(&request.template())),
        Part::Lease => Some(lease()),
        Part::Transaction => Some(format!("T{}", request.transaction)),
        Part::Timeout | Part::Inside | Part::Entry => None,
    };
    // The timeout is shown only where it decides.
    let first = match mark.record.kind {
        NOTHING => format!("{name}, timeout {}", duration_text(request.duration)),
        _ if request.renews() => format!("{name} E{}", request.entry),
        _ => name.to_string(),
    };
    std::iter::once(first).chain(request.operation.parts.iter().find_map(second)).collect()
}

fn hold_label(standing: &Standing) -> Option<String> {
    let all = |numbers: &[u32]| numbers.iter().map(|number| format!("T{number}")).collect::<Vec<_>>().join(" ");
    match standing {
        Standing::Available => None,
        Standing::Private(number) => Some(format!("private to T{number}")),
        Standing::Taken(number) => Some(format!("take hold T{number}")),
        Standing::OwnTake(_) => Some("own take hold".to_string()),
        Standing::Read(numbers) => Some(format!("read hold {}", all(numbers))),
    }
}

/// The match that ended last before this moment: what became of it.
fn former(lives: &Lives, sought: &Sought, at: Moment, matcher: &mut Matcher) -> String {
    let mut last: Option<(Moment, String)> = None;
    for life in lives.entries.iter().filter(|life| life.begin <= at) {
        if !matcher.matches(&sought.template, &life.values) {
            continue;
        }
        let told = match life.end {
            Some((end, gone)) if end <= at => Some((end, gone_words(life.number, gone))),
            None if !life.is_stored() => Some((life.begin, format!("E{} had lease 0", life.number))),
            _ => None,
        };
        if told.is_some() && told.as_ref().map(|told| told.0) >= last.as_ref().map(|last| last.0) {
            last = told;
        }
    }
    last.map_or("no such entry".to_string(), |(_, words)| words)
}

fn gone_words(number: u32, gone: Gone) -> String {
    match gone {
        Gone::Taken => format!("E{number} was taken"),
        Gone::Expired => format!("E{number} has expired"),
        Gone::Removed => format!("E{number} was removed"),
    }
}

/// Why nothing or waiting, and the entries that are barred.
fn reason(history: &History, lives: &Lives, mark: &Mark, matcher: &mut Matcher) -> (String, Vec<u32>) {
    let Some(sought) = history.sought(mark.at.frame, mark.place) else { return (String::new(), Vec::new()) };
    let tables = &history.steps[mark.at.frame].after;
    let standings = sought.standings(tables, matcher);
    let barred: Vec<u32> = standings.iter().map(|(entry, _)| entry.number).collect();
    let first = standings.iter().find_map(|(entry, standing)| Some((entry.number, hold_label(standing)?)));
    let Some((number, label)) = first else { return (former(lives, &sought, mark.at, matcher), Vec::new()) };
    let more = if barred.len() > 1 { format!(" +{}", barred.len() - 1) } else { String::new() };
    (format!("E{number}: {label}{more}"), barred)
}

/// The entry's hold just before a moment.
fn held_before(life: &EntryLife, at: Moment) -> Option<&Hold> {
    if life.end.is_some_and(|(end, _)| end < at) {
        return None;
    }
    life.segments.iter().rev().find(|(from, _)| *from < at).map(|(_, hold)| hold)
}

/// What the end of a transaction does to one entry.
fn effect(life: &EntryLife, transaction: u32, commits: bool, at: Moment) -> Option<String> {
    let number = life.number;
    if let Some(hold) = held_before(life, at) {
        return match hold {
            Hold::Private(by) if *by == transaction && commits => Some(format!("E{number} visible to all")),
            Hold::Private(by) if *by == transaction => Some(format!("E{number} removed")),
            Hold::Taken(by) if *by == transaction && commits => Some(format!("E{number} gone")),
            Hold::Taken(by) if *by == transaction => match life.end {
                // It goes in the very tick that ends the transaction.
                Some((end, Gone::Expired)) if end == at => Some(format!("E{number} expires too")),
                _ => Some(format!("E{number} put back")),
            },
            _ => None,
        };
    }
    let (_, last) = life.segments.last()?;
    let (end, gone) = life.end?;
    let was_its = matches!(last, Hold::Private(by) | Hold::Taken(by) if *by == transaction);
    (was_its && gone == Gone::Expired && end < at).then(|| format!("E{number} had expired"))
}

fn effects(history: &History, lives: &Lives, mark: &Mark) -> String {
    let (transaction, commits) = (mark.record.transaction, mark.record.kind == COMMITTED);
    let withdrawn = withdraws(&mark.record, history.before(mark.at.frame)).then(|| "look-up withdrawn".to_string());
    let others = lives.entries.iter().filter_map(|life| effect(life, transaction, commits, mark.at));
    let all: Vec<String> = withdrawn.into_iter().chain(others).collect();
    match all.len() {
        0..=2 => all.join(", "),
        more => format!("{}, {} +{}", all[0], all[1], more - 2),
    }
}

/// The entries at a look-up's turn: those before its own frame, or in service those that the slot before it left.
fn at_turn(history: &History, at: Moment) -> Tables {
    match at.slot {
        0 => history.before(at.frame).clone(),
        slot => {
            let entries = entries_by_slot(history, at.frame).swap_remove(slot - 1);
            Tables { entries, ..history.steps[at.frame].after.clone() }
        }
    }
}

/// Of how many available entries a look-up has found the oldest.
fn oldest_of(history: &History, mark: &Mark, matcher: &mut Matcher) -> String {
    let Some(sought) = history.sought(mark.at.frame, mark.place) else { return String::new() };
    let tables = at_turn(history, mark.at);
    let standings = sought.standings(&tables, matcher);
    match standings.iter().filter(|(_, standing)| *standing == Standing::Available).count() {
        0 | 1 => String::new(),
        several => format!("oldest of {several}"),
    }
}

fn word(mark: &Mark, history: &History) -> String {
    let record = &mark.record;
    let name = kind_of(record.kind).map_or("", |kind| kind.name);
    match record.kind {
        WRITTEN | FOUND | RENEWED => format!("{name} E{}", record.entry),
        CREATED => format!("{name} T{}", record.transaction),
        NOTIFIED => format!("{name} R{}", record.entry),
        RUNG => format!("{name}: {} new", record.bell().0),
        REFUSED => format!("{name} {}", record.refusal),
        WAITING => {
            let look_up = history.steps[mark.at.frame].after.look_up(record.party);
            look_up.map_or(name.to_string(), |look_up| format!("{name} {}", end_text(look_up.deadline)))
        }
        _ => name.to_string(),
    }
}

/// Why a frame is refused; of an entry that cannot be renewed, who holds it.
fn refused(before: &Tables, request: Option<&Request>, record: &Record) -> String {
    let (transaction, entry) = request.map_or((0, 0), |request| (request.transaction, request.entry));
    let held = before.entry(entry).filter(|_| record.refusal == 20).and_then(|entry| hold_label(&bars_renewal(entry)));
    match held {
        Some(held) => format!("E{entry}: {held}"),
        None => refusal_label(record.refusal, transaction, entry),
    }
}

pub fn labels(history: &History, lives: &Lives, mark: &Mark, matcher: &mut Matcher) -> Labels {
    let request = history.steps[mark.at.frame].request();
    let above = match (&request, mark.own) {
        (_, false) => Vec::new(),
        (Some(request), _) => request_label(request, mark, history.before(mark.at.frame).clock),
        (None, _) => vec![format!("frame of {} bytes", history.steps[mark.at.frame].asked.frame.len())],
    };
    let (second, barred) = match mark.record.kind {
        NOTHING | WAITING => reason(history, lives, mark, matcher),
        COMMITTED | ABORTED | EXCEPTION => (effects(history, lives, mark), Vec::new()),
        REFUSED => (refused(history.before(mark.at.frame), request.as_ref(), &mark.record), Vec::new()),
        RENEWED if history.steps[mark.at.frame].after.entry(mark.record.entry).is_none() => {
            (format!("E{} removed", mark.record.entry), Vec::new())
        }
        NOTIFIED => {
            let registration = history.steps[mark.at.frame].after.registration(mark.record.entry);
            (registration.map_or(String::new(), |registration| lease_words(registration.end)), Vec::new())
        }
        RUNG => (format!("{} so far", mark.record.bell().1), Vec::new()),
        FOUND => (oldest_of(history, mark, matcher), Vec::new()),
        _ => (String::new(), Vec::new()),
    };
    let below = [word(mark, history), second].into_iter().filter(|line| !line.is_empty()).collect();
    Labels { above, below, barred }
}

/// Whether a class looks up, and takes, and only if exists.
pub fn look_up(class: Option<Class>) -> Option<(bool, bool)> {
    match class {
        Some(Class::LookUp { takes, if_exists }) => Some((takes, if_exists)),
        _ => None,
    }
}
