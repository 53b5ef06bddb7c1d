//! Records, refusals and tables in words.

use crate::face::time_text;
use crate::frame::{duration_text, end_text, named_fields, operation_of, plain_fields, template_text};
use crate::history::History;
use crate::oracle::{standing, Matcher, Sought, Standing};
use crate::record::{
    kind_of, refusal_meaning, Record, Tells, ABORTED, COMMITTED, FOUND, NOTHING, NOTIFIED, REFUSED, RENEWED, RUNG,
    WAITING, WRITTEN,
};
use crate::words::{End, Entry, Fields, LookUp, Registration, Tables, Transaction, Values, PLACE};

fn inside(record: &Record) -> String {
    match record.transaction {
        0 => String::new(),
        transaction => format!(", in transaction {transaction}"),
    }
}

/// "refused 7: the transaction is not live"
pub fn refusal_words(number: u8) -> String {
    match refusal_meaning(number) {
        Some(meaning) => format!("refused {number}: {meaning}"),
        None => format!("refused {number}"),
    }
}

/// A record in words, without the party.
pub fn record_deed(record: &Record, clock: u32) -> String {
    let Some(kind) = kind_of(record.kind) else { return format!("record {}", record.line()) };
    let Record { transaction, entry, .. } = record;
    let name = kind.name;
    match kind.tells {
        Tells::Entry => format!("{name} entry {entry}{}", inside(record)),
        Tells::EntryAndFields => format!("{name} entry {entry}, {}{}", named_fields(&record.values()), inside(record)),
        Tells::Inside => format!("{name}{}", inside(record)),
        Tells::Transaction => format!("{name} transaction {transaction}"),
        Tells::Expired => format!("{name}: transaction {transaction} has expired"),
        Tells::Clock => format!("{name}: the clock is {clock}"),
        Tells::Registration => format!("{name} registration {entry}"),
        Tells::Bell => {
            let (new, so_far) = record.bell();
            format!("{name}: {new} new, {so_far} so far, by registration {entry}")
        }
        Tells::Refusal => refusal_words(record.refusal),
    }
}

/// "party 3: found entry 1, kind 7, side 1, image 40, place 9, in transaction 2"
pub fn record_words(record: &Record, clock: u32) -> String {
    match record.party {
        0 => record_deed(record, clock),
        party => format!("party {party}: {}", record_deed(record, clock)),
    }
}

/// A record of a frame, by its place, in words, with what the tables tell besides: whether an abort withdraws a
/// look-up, why a wait ends with nothing, when a renewed entry or a registration ends, why an entry cannot be renewed,
/// what a bell rings for, which time the place found by an arc is.
pub fn told(history: &History, place: usize, record: usize) -> String {
    let (before, clock) = (history.before(place), history.steps[place].after.clock);
    let time = found_at(history, place, record);
    let record = &history.steps[place].records[record];
    let words = record_words(record, clock) + &time;
    let waited = before.look_up(record.party).filter(|_| record.kind == NOTHING);
    match waited.map(|look_up| look_up.deadline) {
        Some(End::At(deadline)) if deadline <= clock => words + "; its deadline is reached",
        Some(_) => words + "; no conflicting entry is left",
        None if withdraws(record, before) => words + "; its look-up is withdrawn",
        None => words + &renewal_words(history, place, record) + &registration_words(history, place, record),
    }
}

/// The time of a place that matches what is sought, where that is an arc: "at 2:30" behind these words.
fn at_time(sought: &Sought, fields: &Fields, behind: &str) -> String {
    let time = sought.template.arc().and_then(|_| time_text(fields[PLACE]));
    time.map_or(String::new(), |time| format!("{behind}at {time}"))
}

fn found_at(history: &History, place: usize, at: usize) -> String {
    let record = &history.steps[place].records[at];
    let sought = history.sought(place, at).filter(|_| record.kind == FOUND);
    sought.map_or(String::new(), |sought| at_time(&sought, &record.fields, "; "))
}

/// How a transaction's holds, or that it is private, bar an entry's renewal.
pub fn bars_renewal(entry: &Entry) -> Standing {
    standing(entry, 0, true)
}

/// What the tables tell of a renewal: "; it ends at clock 9", "; party 1 wrote it", "; read by transaction 1 of party 2".
fn renewal_words(history: &History, place: usize, record: &Record) -> String {
    let (before, after) = (history.before(place), &history.steps[place].after);
    let named = history.steps[place].request().filter(|request| request.renews());
    let stood = named.and_then(|request| before.entry(request.entry));
    match (record.kind, record.refusal, stood) {
        (RENEWED, ..) => match after.entry(record.entry) {
            Some(entry) => format!("; it {}", ends(entry.end)),
            None => "; it is removed".to_string(),
        },
        (REFUSED, 19, Some(entry)) => format!("; party {} wrote it", entry.writer),
        (REFUSED, 20, Some(entry)) => format!("; {}", standing_words(&bars_renewal(entry), before)),
        _ => String::new(),
    }
}

/// The entries that a frame makes public: the one that a write outside transactions stores, with what its request says;
/// those that a commit's transaction had written and not taken again.
pub fn made_public(history: &History, place: usize) -> Vec<(u32, Values)> {
    let (step, before) = (&history.steps[place], history.before(place));
    let (Some(own), Some(request)) = (step.records.first(), step.request()) else { return Vec::new() };
    match own.kind {
        WRITTEN if own.transaction == 0 && request.duration != 0 => vec![(own.entry, request.values())],
        COMMITTED => {
            let published = |entry: &&Entry| entry.private_to == own.transaction && entry.taken_by == 0;
            before.entries.iter().filter(published).map(|entry| (entry.number, entry.values())).collect()
        }
        _ => Vec::new(),
    }
}

/// What the tables tell of a registration or its bell: "; it ends at clock 9", "; for entries 3, 4".
fn registration_words(history: &History, place: usize, record: &Record) -> String {
    let registration = history.steps[place].after.registration(record.entry);
    match (record.kind, registration) {
        (NOTIFIED, Some(registration)) => format!("; it {}", ends(registration.end)),
        (RUNG, Some(registration)) => {
            let mut matcher = Matcher::default();
            let public = made_public(history, place).into_iter();
            let heard = public.filter(|(_, values)| matcher.matches(&registration.template, values));
            let numbers: Vec<String> = heard.map(|(number, _)| number.to_string()).collect();
            let entries = if numbers.len() == 1 { "entry" } else { "entries" };
            format!("; for {entries} {}", numbers.join(", "))
        }
        _ => String::new(),
    }
}

/// Whether an abort withdraws the look-up of its party: that waits inside the transaction.
pub fn withdraws(record: &Record, before: &Tables) -> bool {
    let waits = before.look_up(record.party);
    record.kind == ABORTED && waits.is_some_and(|look_up| look_up.transaction == record.transaction)
}

fn ends(end: End) -> String {
    match end {
        End::At(clock) => format!("ends at clock {clock}"),
        End::Never => "never ends".to_string(),
    }
}

/// "transaction 2 of party 1"
fn transaction_name(number: u32, tables: &Tables) -> String {
    match tables.transaction(number) {
        Some(transaction) => format!("transaction {number} of party {}", transaction.owner),
        None => format!("transaction {number}"),
    }
}

fn all_names(numbers: &[u32], tables: &Tables) -> String {
    let names: Vec<String> = numbers.iter().map(|&number| transaction_name(number, tables)).collect();
    names.join(" and ")
}

/// Who can see the entry: "committed", "private to ..", "taken by ..", "read by ..".
pub fn holds_words(entry: &Entry, tables: &Tables) -> String {
    let mut words = match entry.private_to {
        0 => "committed".to_string(),
        number => format!("private to {}", transaction_name(number, tables)),
    };
    if entry.taken_by != 0 {
        words += &format!(", taken by {}", transaction_name(entry.taken_by, tables));
    }
    if !entry.read_by.is_empty() {
        words += &format!(", read by {}", all_names(&entry.read_by, tables));
    }
    words
}

pub fn entry_words(entry: &Entry, tables: &Tables) -> String {
    let Entry { number, writer, end, .. } = entry;
    let (fields, holds) = (plain_fields(&entry.values()), holds_words(entry, tables));
    format!("entry {number} of party {writer}: {fields}, {holds}, {}", ends(*end))
}

pub fn transaction_words(transaction: &Transaction) -> String {
    format!("transaction {} of party {}: {}", transaction.number, transaction.owner, ends(transaction.end))
}

pub fn look_up_words(look_up: &LookUp) -> String {
    let operation = operation_of(look_up.operation).map_or("look-up", |operation| operation.name);
    let template = template_text(&look_up.template);
    let inside = match look_up.transaction {
        0 => String::new(),
        transaction => format!(" in transaction {transaction}"),
    };
    let until = match look_up.deadline {
        End::At(clock) => format!("until clock {clock}"),
        End::Never => duration_text(crate::words::FOREVER),
    };
    format!("party {} waits {until}: {operation} {template}{inside}", look_up.party)
}

/// "registration 1 of party 5: kind 7, ends at clock 9, 3 so far"
pub fn registration_line(registration: &Registration) -> String {
    let Registration { number, party, template, end, total } = registration;
    format!("registration {number} of party {party}: {}, {}, {total} so far", template_text(template), ends(*end))
}

pub fn standing_words(standing: &Standing, tables: &Tables) -> String {
    match standing {
        Standing::Available => "available".to_string(),
        Standing::Private(number) => format!("private to {}", transaction_name(*number, tables)),
        Standing::Taken(number) => format!("taken by {}", transaction_name(*number, tables)),
        Standing::OwnTake(number) => format!("taken by its own transaction {number}"),
        Standing::Read(numbers) => format!("read by {}", all_names(numbers, tables)),
    }
}

/// Why a look-up has no answer: each matching entry and how it stands, or that none matches.
pub fn why(sought: &Sought, tables: &Tables, matcher: &mut Matcher) -> Vec<String> {
    let standings = sought.standings(tables, matcher);
    if standings.is_empty() {
        return vec!["no stored entry matches".to_string()];
    }
    let line = |(entry, standing): &(&Entry, Standing)| {
        let (fields, time) = (plain_fields(&entry.values()), at_time(sought, &entry.fields, ", "));
        format!("entry {} ({fields}{time}): {}", entry.number, standing_words(standing, tables))
    };
    standings.iter().map(line).collect()
}

/// Why the record of a frame is nothing or waiting; no lines for any other.
pub fn why_record(history: &History, place: usize, record: usize, matcher: &mut Matcher) -> Vec<String> {
    let step = &history.steps[place];
    match step.records[record].kind {
        NOTHING | WAITING => {
            let sought = history.sought(place, record);
            sought.map(|sought| why(&sought, &step.after, matcher)).unwrap_or_default()
        }
        _ => Vec::new(),
    }
}

/// Why a waiting look-up waits.
pub fn why_waits(look_up: &LookUp, tables: &Tables, matcher: &mut Matcher) -> Vec<String> {
    Sought::of_look_up(look_up).map(|sought| why(&sought, tables, matcher)).unwrap_or_default()
}

/// The tables, a line for each row; under a waiting look-up, why it waits.
pub fn state_lines(tables: &Tables, matcher: &mut Matcher) -> Vec<String> {
    let mut lines: Vec<String> = tables.entries.iter().map(|entry| entry_words(entry, tables)).collect();
    lines.extend(tables.transactions.iter().map(transaction_words));
    for look_up in &tables.look_ups {
        lines.push(look_up_words(look_up));
        let reasons = why_waits(look_up, tables, matcher);
        lines.extend(reasons.into_iter().map(|reason| format!("  {reason}")));
    }
    lines.extend(tables.registrations.iter().map(registration_line));
    if lines.is_empty() {
        lines.push("nothing stored, live or waiting".to_string());
    }
    lines
}

/// "lease to clock 5"
pub fn lease_words(end: End) -> String {
    format!("lease {}", end_text(end))
}
