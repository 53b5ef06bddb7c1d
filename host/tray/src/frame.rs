//! Operations as a table, and frames made of requests and shown as text. Nothing here judges a frame.

use crate::bytes::word;
use crate::face::{arc_slot, arc_text};
use crate::words::{End, Fields, Template, Values, FOREVER, MASK_ARC, PLACE};

/// Document 01's frame layout, in bytes.
/// Of a transaction, or of the entry that is renewed.
const AT_NUMBER: usize = 4;
const AT_DURATION: usize = 8;
const AT_FIELDS: usize = 12;
const LONGEST: usize = 28;

pub const FIELD_NAMES: [&str; 4] = ["kind", "side", "image", "place"];
/// In a text and in words, in place of a field's number.
pub const BLANK: &str = "blank";
/// The same in the names of a drawing's bars.
const SHORT_BLANK: &str = "_";

/// What stands behind an operation's name in a text, in this order.
#[derive(Clone, Copy, PartialEq, Eq, Debug)]
pub enum Part {
    /// Four numbers, or `blank` in place of any.
    Fields,
    /// `any`, or fields by name, and `arc A to B` for the place.
    Template,
    /// `lease D`
    Lease,
    /// `timeout D`
    Timeout,
    /// `in T`, or nothing.
    Inside,
    /// A transaction's number.
    Transaction,
    /// An entry's number.
    Entry,
}

/// How an operation is drawn and worded.
#[derive(Clone, Copy, PartialEq, Eq, Debug)]
pub enum Class {
    Write,
    LookUp { takes: bool, if_exists: bool },
    Create,
    Commit,
    Abort,
    Tick,
    Notify,
    Renew,
}

/// A new operation is a row.
#[derive(PartialEq, Eq, Debug)]
pub struct Operation {
    pub number: u8,
    pub name: &'static str,
    pub length: usize,
    pub class: Class,
    pub parts: &'static [Part],
}

const fn row(number: u8, name: &'static str, length: usize, class: Class, parts: &'static [Part]) -> Operation {
    Operation { number, name, length, class, parts }
}

const fn look_up(takes: bool, if_exists: bool) -> Class {
    Class::LookUp { takes, if_exists }
}

const LOOKS: &[Part] = &[Part::Template, Part::Timeout, Part::Inside];
const ENDS: &[Part] = &[Part::Transaction];

pub static OPERATIONS: [Operation; 11] = [
    row(1, "write", 28, Class::Write, &[Part::Fields, Part::Lease, Part::Inside]),
    row(2, "read", 28, look_up(false, false), LOOKS),
    row(3, "take", 28, look_up(true, false), LOOKS),
    row(4, "readIfExists", 28, look_up(false, true), LOOKS),
    row(5, "takeIfExists", 28, look_up(true, true), LOOKS),
    row(6, "create", 12, Class::Create, &[Part::Lease]),
    row(7, "commit", 8, Class::Commit, ENDS),
    row(8, "abort", 8, Class::Abort, ENDS),
    row(9, "tick", 4, Class::Tick, &[]),
    row(10, "notify", 28, Class::Notify, &[Part::Template, Part::Lease]),
    row(11, "renew", 12, Class::Renew, &[Part::Entry, Part::Lease]),
];

pub fn operation_of(number: u8) -> Option<&'static Operation> {
    OPERATIONS.iter().find(|operation| operation.number == number)
}

pub fn operation_named(name: &str) -> Option<&'static Operation> {
    OPERATIONS.iter().find(|operation| operation.name == name)
}

/// What a frame asks for, before it is bytes.
#[derive(Clone, Copy, PartialEq, Eq, Debug)]
pub struct Request {
    pub operation: &'static Operation,
    pub party: u8,
    /// Of a template, or the blanks of a write.
    pub mask: u8,
    pub transaction: u32,
    /// The entry that is renewed.
    pub entry: u32,
    /// Lease or timeout.
    pub duration: u32,
    pub fields: Fields,
}

impl Request {
    pub fn new(operation: &'static Operation, party: u8) -> Request {
        Request { operation, party, mask: 0, transaction: 0, entry: 0, duration: 0, fields: [0; 4] }
    }

    pub fn frame(&self) -> Vec<u8> {
        let mut frame = vec![0; LONGEST];
        frame[..3].copy_from_slice(&[self.operation.number, self.party, self.mask]);
        let number = if self.renews() { self.entry } else { self.transaction };
        frame[AT_NUMBER..AT_DURATION].copy_from_slice(&number.to_le_bytes());
        frame[AT_DURATION..AT_FIELDS].copy_from_slice(&self.duration.to_le_bytes());
        for (bytes, field) in frame[AT_FIELDS..].chunks_exact_mut(4).zip(self.fields) {
            bytes.copy_from_slice(&field.to_le_bytes());
        }
        frame.truncate(self.operation.length);
        frame
    }

    /// The request that gives this frame, if there is one.
    pub fn of(frame: &[u8]) -> Option<Request> {
        let operation = operation_of(*frame.first()?)?;
        if frame.len() != operation.length {
            return None;
        }
        let word = |at| word(frame, at).unwrap_or_default();
        let (entry, transaction) = match operation.class {
            Class::Renew => (word(AT_NUMBER), 0),
            _ => (0, word(AT_NUMBER)),
        };
        let request = Request {
            operation,
            party: frame[1],
            mask: frame[2],
            transaction,
            entry,
            duration: word(AT_DURATION),
            fields: std::array::from_fn(|i| word(AT_FIELDS + 4 * i)),
        };
        (request.frame() == frame).then_some(request)
    }

    pub fn template(&self) -> Template {
        Template { mask: self.mask, fields: self.fields }
    }

    /// What a write writes.
    pub fn values(&self) -> Values {
        Values { fields: self.fields, blanks: self.mask }
    }

    pub fn looks_up(&self) -> bool {
        matches!(self.operation.class, Class::LookUp { .. })
    }

    pub fn renews(&self) -> bool {
        self.operation.class == Class::Renew
    }

    fn part(&self, part: Part) -> String {
        match part {
            Part::Fields => format!(" {}", plain_fields(&self.values())),
            Part::Template => format!(" {}", template_text(&self.template())),
            Part::Lease => format!(" lease {}", duration_text(self.duration)),
            Part::Timeout => format!(" timeout {}", duration_text(self.duration)),
            Part::Inside if self.transaction == 0 => String::new(),
            Part::Inside => format!(" in {}", self.transaction),
            Part::Transaction => format!(" {}", self.transaction),
            Part::Entry => format!(" {}", self.entry),
        }
    }

    /// Whether its text leaves something out: of a template's fields those outside the mask are not said, of a write's
    /// those that are blank, of a tick no party.
    fn has_unsaid(&self) -> bool {
        let has = |part: Part| self.operation.parts.contains(&part);
        let (template, fields) = (has(Part::Template), has(Part::Fields));
        let arc = template && self.template().arc().is_some();
        let bit = |i: usize| self.mask >> i & 1 == 1;
        let hidden = |i: usize| if bit(i) { fields } else { template && !(arc && i == PLACE) };
        let field = (0..FIELD_NAMES.len()).any(|i| hidden(i) && self.fields[i] != 0);
        let party = self.operation.class == Class::Tick && self.party != 0;
        let transaction = self.transaction != 0 && !has(Part::Inside) && !has(Part::Transaction);
        let bits = if arc { self.mask & !MASK_ARC } else { self.mask };
        let mask = bits > 15 || (bits != 0 && !template && !fields);
        field || party || transaction || mask
    }

    /// As text, without the party.
    pub fn words(&self) -> String {
        let parts: String = self.operation.parts.iter().map(|&part| self.part(part)).collect();
        format!("{}{parts}", self.operation.name)
    }

    /// As a line of text.
    pub fn text(&self) -> String {
        match self.operation.class {
            Class::Tick => self.words(),
            _ => format!("party {} {}", self.party, self.words()),
        }
    }
}

pub fn duration_text(duration: u32) -> String {
    match duration {
        FOREVER => "forever".to_string(),
        ticks => ticks.to_string(),
    }
}

/// "to clock 5", "forever"
pub fn end_text(end: End) -> String {
    match end {
        End::At(clock) => format!("to clock {clock}"),
        End::Never => "forever".to_string(),
    }
}

/// Each field, or this word for a blank.
fn slots(values: &Values, blank: &str) -> [String; FIELD_NAMES.len()] {
    std::array::from_fn(|i| match values.fields[i] {
        0 if values.is_blank(i) => blank.to_string(),
        // In a write alone, which is then refused.
        field if values.is_blank(i) => format!("{blank}({field})"),
        field => field.to_string(),
    })
}

/// "7 1 40 9", "7 1 40 blank"
pub fn plain_fields(values: &Values) -> String {
    slots(values, BLANK).join(" ")
}

/// "7 1 40 9", "7 1 40 _": no longer than numbers are.
pub fn short_fields(values: &Values) -> String {
    slots(values, SHORT_BLANK).join(" ")
}

/// "kind 7, side 1, image 40, place 9", "kind 7, side 1, image 40, place blank"
pub fn named_fields(values: &Values) -> String {
    let slots = slots(values, BLANK);
    let named: Vec<String> = FIELD_NAMES.iter().zip(slots).map(|(name, slot)| format!("{name} {slot}")).collect();
    named.join(", ")
}

/// "kind 7 side 1", "kind 7 arc 11:00 to 1:00", "any"
pub fn template_text(template: &Template) -> String {
    let wanted = (0..FIELD_NAMES.len()).filter(|i| template.mask >> i & 1 == 1);
    let fields = wanted.map(|i| format!("{} {}", FIELD_NAMES[i], template.fields[i]));
    let named: Vec<String> = fields.chain(template.arc().map(arc_text)).collect();
    if named.is_empty() {
        return "any".to_string();
    }
    named.join(" ")
}

/// "7 2 40 *", "7 2 * 11:00-1:00": short, a place for each field.
pub fn template_slots(template: &Template) -> String {
    let slot = |i: usize| match (template.mask >> i & 1, template.arc().filter(|_| i == PLACE)) {
        (1, _) => template.fields[i].to_string(),
        (_, Some(arc)) => arc_slot(arc),
        _ => "*".to_string(),
    };
    (0..FIELD_NAMES.len()).map(slot).collect::<Vec<_>>().join(" ")
}

pub fn tick_frame() -> Vec<u8> {
    operation_named("tick").map(|tick| Request::new(tick, 0).frame()).unwrap_or_default()
}

/// A frame as a line of text that assembles to the same bytes: byte by byte if there is no other.
pub fn show(frame: &[u8]) -> String {
    match Request::of(frame) {
        Some(request) if !request.has_unsaid() => request.text(),
        _ => frame.iter().fold("bytes".to_string(), |line, byte| format!("{line} {byte:02x}")),
    }
}
