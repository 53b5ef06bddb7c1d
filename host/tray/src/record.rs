//! Answer records, their kinds and the refusals, as tables: a new kind or number is a row.

use crate::bytes::word;
use crate::words::{Fields, Values};

pub const RECORD_BYTES: usize = 28;
/// A step writes at most 25 records.
pub const STEP_BYTES: usize = 25 * RECORD_BYTES;

pub const WRITTEN: u8 = 1;
pub const FOUND: u8 = 2;
pub const NOTHING: u8 = 3;
pub const WAITING: u8 = 4;
pub const CREATED: u8 = 5;
pub const COMMITTED: u8 = 6;
pub const ABORTED: u8 = 7;
pub const EXCEPTION: u8 = 8;
pub const TICKED: u8 = 9;
pub const NOTIFIED: u8 = 10;
pub const RUNG: u8 = 11;
pub const RENEWED: u8 = 12;
pub const REFUSED: u8 = 15;

/// What a record's words tell besides its name.
#[derive(Clone, Copy, PartialEq, Eq, Debug)]
pub enum Tells {
    Entry,
    EntryAndFields,
    Inside,
    Transaction,
    Expired,
    Clock,
    /// In the entry place.
    Registration,
    /// A registration in the entry place, the entries of this step in kind, those so far in side.
    Bell,
    Refusal,
}

/// A kind of record: its number, its name, what it tells.
pub struct Kind {
    pub number: u8,
    pub name: &'static str,
    pub tells: Tells,
}

const fn kind(number: u8, name: &'static str, tells: Tells) -> Kind {
    Kind { number, name, tells }
}

pub const KINDS: [Kind; 13] = [
    kind(WRITTEN, "written", Tells::Entry),
    kind(FOUND, "found", Tells::EntryAndFields),
    kind(NOTHING, "nothing", Tells::Inside),
    kind(WAITING, "waiting", Tells::Inside),
    kind(CREATED, "created", Tells::Transaction),
    kind(COMMITTED, "committed", Tells::Transaction),
    kind(ABORTED, "aborted", Tells::Transaction),
    kind(EXCEPTION, "exception", Tells::Expired),
    kind(TICKED, "ticked", Tells::Clock),
    kind(NOTIFIED, "notified", Tells::Registration),
    kind(RUNG, "rung", Tells::Bell),
    kind(RENEWED, "renewed", Tells::Entry),
    kind(REFUSED, "refused", Tells::Refusal),
];

pub fn kind_of(number: u8) -> Option<&'static Kind> {
    KINDS.iter().find(|kind| kind.number == number)
}

pub fn kind_named(name: &str) -> Option<&'static Kind> {
    KINDS.iter().find(|kind| kind.name == name)
}

/// A refusal: its number, a label for it (`T` and `E` stand for the transaction or entry named), and the documents' words
/// in short.
struct Refusal {
    number: u8,
    label: &'static str,
    meaning: &'static str,
}

const fn refusal(number: u8, label: &'static str, meaning: &'static str) -> Refusal {
    Refusal { number, label, meaning }
}

const REFUSALS: [Refusal; 24] = [
    refusal(1, "area too small", "the answers area has under 700 bytes"),
    refusal(2, "no such operation", "the frame is empty or its operation is not 1-11"),
    refusal(3, "wrong length", "the frame's length is not the operation's"),
    refusal(
        4,
        "wrong form",
        "the frame's form is wrong: byte 3, mask, a field outside the mask, a blank that is not 0, or a create or \
         notify that names a transaction",
    ),
    refusal(5, "no such party", "the party is not 1-16, or not 0 for tick"),
    refusal(6, "look-up still waits", "the party has a waiting look-up that the frame does not withdraw"),
    refusal(7, "T is not live", "the transaction is not live"),
    refusal(8, "T is another's", "the transaction is another party's"),
    refusal(9, "lease 0", "create or notify with lease 0"),
    refusal(10, "beyond the last clock", "the lease, the timeout or the tick goes beyond the last clock"),
    refusal(11, "64 entries stored", "64 entries are stored"),
    refusal(12, "8 transactions live", "8 transactions are live"),
    refusal(13, "numbers used up", "the numbers are used up"),
    // 14 is never given out (document 02).
    refusal(
        15,
        "bad tray",
        "the tray is under 4 or over 65,536 bytes, has over 2,000 frames, or is too short for its pairs",
    ),
    refusal(
        16,
        "bad pair",
        "a pair begins before the pairs' end or before the previous pair's end, or runs past the tray",
    ),
    refusal(17, "8 registrations live", "8 registrations are live"),
    refusal(18, "E is not stored", "no stored entry has that number"),
    refusal(19, "E is another's", "another party wrote the entry"),
    refusal(20, "E is private or held", "the entry is private or held"),
    refusal(21, "off the clock face", "the arc's start or length is above 719"),
    refusal(22, "no such export", "the export has too many transactions or actions, or writes a number twice"),
    refusal(23, "no such trial", "the trial has no pane or more than 4, or more than 8 starting entries"),
    refusal(24, "too many rounds", "the trial has more than 1,000 rounds"),
    refusal(25, "too many trays", "64 trays were handed in already"),
];

fn refusal_of(number: u8) -> Option<&'static Refusal> {
    REFUSALS.iter().find(|refusal| refusal.number == number)
}

pub fn refusal_meaning(number: u8) -> Option<&'static str> {
    refusal_of(number).map(|refusal| refusal.meaning)
}

/// "T3 is not live", "E2 is not stored": with the transaction or the entry that the frame names.
pub fn refusal_label(number: u8, transaction: u32, entry: u32) -> String {
    let label = refusal_of(number).map_or("", |refusal| refusal.label);
    match label.split_once(' ') {
        Some(("T", rest)) => format!("T{transaction} {rest}"),
        Some(("E", rest)) => format!("E{entry} {rest}"),
        _ => label.to_string(),
    }
}

#[derive(Clone, Copy, Default, PartialEq, Eq, Debug)]
pub struct Record {
    pub kind: u8,
    pub party: u8,
    pub refusal: u8,
    pub transaction: u32,
    pub entry: u32,
    pub fields: Fields,
    /// Of the entry's fields, in a found one; 0 in every other.
    pub blanks: u8,
}

impl Record {
    /// Of 28 bytes.
    pub fn read(bytes: &[u8]) -> Record {
        let word = |at| word(bytes, at).unwrap_or_default();
        Record {
            kind: bytes[0],
            party: bytes[1],
            refusal: bytes[2],
            transaction: word(4),
            entry: word(8),
            fields: std::array::from_fn(|i| word(12 + 4 * i)),
            blanks: bytes[3],
        }
    }

    pub fn values(&self) -> Values {
        Values { fields: self.fields, blanks: self.blanks }
    }

    /// Of a bell: the entries that this step made public and it rings for, and those of its registration so far.
    pub fn bell(&self) -> (u32, u32) {
        (self.fields[0], self.fields[1])
    }

    /// As the program prints it: without the blanks.
    pub fn line(&self) -> String {
        let Record { kind, party, refusal, transaction, entry, fields: [f0, f1, f2, f3], .. } = self;
        format!("{kind} {party} {refusal} {transaction} {entry} {f0} {f1} {f2} {f3}")
    }
}
