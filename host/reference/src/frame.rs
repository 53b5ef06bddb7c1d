//! Entries, templates, the frame layout, and the refusals that a frame's bytes alone decide.

use crate::clock_face::Arc;

pub const FOREVER: u32 = 4294967295;
/// The clock never passes this.
pub const LAST_CLOCK: u32 = FOREVER - 1;

/// Transaction 0 means none.
pub const NONE: u32 = 0;

/// kind, side, image, place
pub type Fields = [u32; 4];

/// What an entry has: its fields, and which of them are blank, by the mask's bits.
#[derive(Clone, Copy, PartialEq, Eq, Debug)]
pub struct Mark {
    pub fields: Fields,
    pub blanks: u8,
}

impl Mark {
    /// Of every record but a found and a rung.
    pub const NONE: Mark = Mark { fields: [0; 4], blanks: 0 };
}

/// Whether the bit of this field, counted from 0, is 1.
#[inline]
fn bit(mask: u8, field: usize) -> bool {
    mask >> field & 1 == 1
}

/// Document 01's table of refusals, with those of document 02.
#[derive(Clone, Copy, PartialEq, Eq, Debug)]
pub enum Refusal {
    AreaTooSmall = 1,
    Operation = 2,
    Length = 3,
    Form = 4,
    Party = 5,
    PartyWaits = 6,
    NotLive = 7,
    AnothersTransaction = 8,
    WithoutLease = 9,
    TooLate = 10,
    EntriesFull = 11,
    TransactionsFull = 12,
    NumbersUsedUp = 13,
    // 14 is never given out (document 02).
    TraySize = 15,
    TrayPair = 16,
    RegistrationsFull = 17,
    NoEntry = 18,
    AnothersEntry = 19,
    EntryHeld = 20,
    Place = 21,
    Export = 22,
    Setup = 23,
    Rounds = 24,
    Sittings = 25,
}

/// Where the place stands among the fields.
pub const PLACE: usize = 3;

/// Document 02: "mask bit 4 without bit 3 makes the place an arc".
#[inline]
pub fn asks_arc(mask: u8) -> bool {
    bit(mask, 4) && !bit(mask, PLACE)
}

#[derive(Clone, Copy, PartialEq, Eq, Debug)]
pub struct Template {
    pub mask: u8,
    /// Whether the field's mask bit is 1.
    wanted: [bool; 4],
    pub fields: Fields,
}

impl Template {
    pub fn new(mask: u8, fields: Fields) -> Template {
        Template { mask, wanted: std::array::from_fn(|i| bit(mask, i)), fields }
    }

    #[inline]
    pub fn arc(&self) -> Option<Arc> {
        asks_arc(self.mask).then(|| Arc::of(self.fields[PLACE]))
    }

    /// Every field whose bit is 1 is equal, and none of these is blank (document 02: "a template field that has a value
    /// never matches a blank"). `&` and `|` make no branches, so that a search over all entries is fast. Then the arc.
    pub fn matches(&self, entry: &Mark) -> bool {
        let agrees = |i: usize| (entry.fields[i] == self.fields[i]) | !self.wanted[i];
        let equal = (entry.blanks & self.mask == 0) & agrees(0) & agrees(1) & agrees(2) & agrees(3);
        equal && self.arc().is_none_or(|arc| arc.matches(entry))
    }
}

#[derive(Clone, Copy, PartialEq, Eq, Debug)]
pub struct LookUpKind {
    pub takes: bool,
    pub if_exists: bool,
}

#[derive(Clone, Copy, PartialEq, Eq, Debug)]
pub enum Request {
    Write { party: u8, transaction: u32, lease: u32, mark: Mark },
    LookUp { party: u8, transaction: u32, timeout: u32, kind: LookUpKind, template: Template },
    Create { party: u8, lease: u32 },
    Commit { party: u8, transaction: u32 },
    Abort { party: u8, transaction: u32 },
    Tick,
    Notify { party: u8, lease: u32, template: Template },
    Renew { party: u8, entry: u32, lease: u32 },
}

pub const LOOK_UPS: std::ops::RangeInclusive<u8> = 2..=5;

pub fn look_up_kind(operation: u8) -> LookUpKind {
    LookUpKind { takes: operation == 3 || operation == 5, if_exists: operation >= 4 }
}

/// The length of a frame of this operation; none if the operation is not 1-11.
fn length_of(operation: u8) -> Option<usize> {
    match operation {
        1..=5 | 10 => Some(28),
        6 | 11 => Some(12),
        7 | 8 => Some(8),
        9 => Some(4),
        _ => None,
    }
}

#[inline]
pub fn word(bytes: &[u8], at: usize) -> u32 {
    u32::from_le_bytes(bytes[at..at + 4].try_into().unwrap())
}

/// The four fields of a frame of 28 bytes.
#[inline]
fn fields_of(frame: &[u8]) -> Fields {
    [word(frame, 12), word(frame, 16), word(frame, 20), word(frame, 24)]
}

/// What a write's frame has: "the mask byte now tells blank fields".
#[inline]
pub fn mark_of(frame: &[u8]) -> Mark {
    Mark { fields: fields_of(frame), blanks: frame[2] }
}

/// Refusals 2 to 5, in document 01's order, then 21 ("after 5").
#[inline]
pub fn decode(frame: &[u8]) -> Result<Request, Refusal> {
    let Some(&operation) = frame.first() else { return Err(Refusal::Operation) };
    let Some(length) = length_of(operation) else { return Err(Refusal::Operation) };
    if frame.len() != length {
        return Err(Refusal::Length);
    }

    let (party, mask) = (frame[1], frame[2]);
    let transaction = if length >= 8 { word(frame, 4) } else { NONE }; // a renewal's entry number
    let duration = if length >= 12 { word(frame, 8) } else { 0 };
    let fields = if length == 28 { fields_of(frame) } else { [0; 4] };

    let (is_write, is_notify) = (operation == 1, operation == 10);
    let has_template = LOOK_UPS.contains(&operation) || is_notify;
    // document 02: "Number 4 lets bit 4 and its arc through, but not with bit 3": such a template asks for the place
    let has_arc = has_template && asks_arc(mask);
    let asked = if has_arc { mask - 16 + 8 } else { mask };
    let ill_formed = frame[3] != 0
        || asked > 15
        || mask != 0 && !is_write && !has_template
        || has_template && (0..4).any(|i| !bit(asked, i) && fields[i] != 0)
        || is_write && (0..4).any(|i| bit(mask, i) && fields[i] != 0)
        || (operation == 6 || is_notify) && transaction != NONE;
    if ill_formed {
        return Err(Refusal::Form);
    }

    let party_fits = if operation == 9 { party == 0 } else { (1..=16).contains(&party) };
    if !party_fits {
        return Err(Refusal::Party);
    }
    if has_arc {
        Arc::of(fields[PLACE]).judge()?;
    }

    Ok(match operation {
        1 => Request::Write { party, transaction, lease: duration, mark: Mark { fields, blanks: mask } },
        2..=5 => {
            let (kind, template) = (look_up_kind(operation), Template::new(mask, fields));
            Request::LookUp { party, transaction, timeout: duration, kind, template }
        }
        6 => Request::Create { party, lease: duration },
        7 => Request::Commit { party, transaction },
        8 => Request::Abort { party, transaction },
        9 => Request::Tick,
        10 => Request::Notify { party, lease: duration, template: Template::new(mask, fields) },
        _ => Request::Renew { party, entry: transaction, lease: duration },
    })
}
