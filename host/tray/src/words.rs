//! The words of a space, read only, by the layout that host/space.h documents under the same names (there with SPACE_
//! before them). Every number is computed from named ones.

pub const FOREVER: u32 = 4294967295;

// The clock, the next numbers, and how many rows of each table are in use.
pub const WORD_CLOCK: usize = 0;
pub const WORD_NEXT_ENTRY: usize = 1;
pub const WORD_NEXT_TRANSACTION: usize = 2;
pub const WORD_ENTRY_COUNT: usize = 3;
pub const WORD_TRANSACTION_COUNT: usize = 4;
pub const WORD_WAITING_COUNT: usize = 5;
pub const WORD_NEXT_REGISTRATION: usize = 6;
pub const WORD_REGISTRATION_COUNT: usize = 7;

// Entries, by number.
pub const MAX_ENTRIES: usize = 64;
pub const ENTRIES_AT: usize = 8;
pub const ENTRY_NUMBER: usize = 0;
pub const ENTRY_FIELDS: usize = 1;
pub const ENTRY_END: usize = 5;
pub const ENTRY_PRIVATE_TO: usize = 6;
pub const ENTRY_TAKEN_BY: usize = 7;
/// Readers + BLANKS_UNIT * blanks + WRITER_UNIT * writer.
pub const ENTRY_READERS: usize = 8;
pub const ENTRY_WORDS: usize = 9;
/// In the word at ENTRY_READERS.
pub const BLANKS_UNIT: u32 = 256;
pub const WRITER_UNIT: u32 = 65536;

// Live transactions, by number.
pub const MAX_TRANSACTIONS: usize = 8;
pub const TRANSACTIONS_AT: usize = ENTRIES_AT + ENTRY_WORDS * MAX_ENTRIES;
pub const TRANSACTION_NUMBER: usize = 0;
pub const TRANSACTION_OWNER: usize = 1;
pub const TRANSACTION_END: usize = 2;
pub const TRANSACTION_SLOT: usize = 3;
pub const TRANSACTION_WORDS: usize = 4;

// Waiting look-ups, in order of arrival.
pub const MAX_WAITING: usize = 16;
pub const WAITING_AT: usize = TRANSACTIONS_AT + TRANSACTION_WORDS * MAX_TRANSACTIONS;
pub const WAITING_PARTY: usize = 0;
pub const WAITING_OPERATION: usize = 1;
pub const WAITING_MASK: usize = 2;
pub const WAITING_FIELDS: usize = 3;
pub const WAITING_TRANSACTION: usize = 7;
pub const WAITING_DEADLINE: usize = 8;
pub const WAITING_WORDS: usize = 9;

// Live registrations, by number.
pub const MAX_REGISTRATIONS: usize = 8;
pub const REGISTRATIONS_AT: usize = WAITING_AT + WAITING_WORDS * MAX_WAITING;
pub const REGISTRATION_NUMBER: usize = 0;
pub const REGISTRATION_PARTY: usize = 1;
pub const REGISTRATION_MASK: usize = 2;
pub const REGISTRATION_FIELDS: usize = 3;
pub const REGISTRATION_END: usize = 7;
pub const REGISTRATION_TOTAL: usize = 8;
pub const REGISTRATION_WORDS: usize = 9;

/// The words before the tables.
pub const HEAD_WORDS: usize = ENTRIES_AT;
pub const WORDS: usize = REGISTRATIONS_AT + REGISTRATION_WORDS * MAX_REGISTRATIONS;
pub type Words = [u32; WORDS];

/// A table: where its count stands, where it begins, the words of a row, the rows at most.
#[derive(Clone, Copy, PartialEq, Eq, Debug)]
pub struct Table {
    pub count: usize,
    pub begin: usize,
    pub width: usize,
    pub most: usize,
}

pub const ENTRIES: Table = Table { count: WORD_ENTRY_COUNT, begin: ENTRIES_AT, width: ENTRY_WORDS, most: MAX_ENTRIES };
pub const TRANSACTIONS: Table =
    Table { count: WORD_TRANSACTION_COUNT, begin: TRANSACTIONS_AT, width: TRANSACTION_WORDS, most: MAX_TRANSACTIONS };
pub const LOOK_UPS: Table =
    Table { count: WORD_WAITING_COUNT, begin: WAITING_AT, width: WAITING_WORDS, most: MAX_WAITING };
pub const REGISTRATIONS: Table = Table {
    count: WORD_REGISTRATION_COUNT,
    begin: REGISTRATIONS_AT,
    width: REGISTRATION_WORDS,
    most: MAX_REGISTRATIONS,
};
pub const TABLES: [Table; 4] = [ENTRIES, TRANSACTIONS, LOOK_UPS, REGISTRATIONS];

impl Table {
    /// The words of the rows in use.
    pub fn used(self, words: &Words) -> std::ops::Range<usize> {
        let rows = (words[self.count] as usize).min(self.most);
        self.begin..self.begin + self.width * rows
    }

    /// The rows in use.
    pub fn rows(self, words: &Words) -> impl Iterator<Item = &[u32]> {
        words[self.used(words)].chunks_exact(self.width)
    }
}

/// kind, side, image, place
pub type Fields = [u32; 4];
pub const PLACE: usize = 3;

// Bits of a template's mask: its place is a value, or an arc.
pub const MASK_PLACE: u8 = 1 << PLACE;
pub const MASK_ARC: u8 = 16;
/// An arc's field is its start + LENGTH_UNIT * its length.
pub const LENGTH_UNIT: u32 = 65536;
/// Of the clock face.
pub const PLACES: u32 = 720;

/// An entry's fields, and a bit of 1 for each that is blank: bit 0 for kind, up to bit 3 for place.
#[derive(Clone, Copy, Default, PartialEq, Eq, Hash, Debug)]
pub struct Values {
    /// 0 where it is blank.
    pub fields: Fields,
    pub blanks: u8,
}

impl Values {
    pub fn is_blank(&self, field: usize) -> bool {
        self.blanks >> field & 1 == 1
    }
}

/// The end of a lease, or a deadline.
#[derive(Clone, Copy, PartialEq, Eq, PartialOrd, Ord, Hash, Debug)]
pub enum End {
    At(u32),
    Never,
}

impl End {
    pub fn of(word: u32) -> End {
        match word {
            FOREVER => End::Never,
            clock => End::At(clock),
        }
    }

    /// Of a lease that is given at this clock.
    pub fn of_lease(clock: u32, lease: u32) -> End {
        match End::of(lease) {
            End::At(ticks) => End::At(clock.saturating_add(ticks)),
            End::Never => End::Never,
        }
    }
}

#[derive(Clone, Copy, PartialEq, Eq, Hash, Debug)]
pub struct Template {
    pub mask: u8,
    /// In the last the place, or the arc.
    pub fields: Fields,
}

impl Template {
    /// The arc that it asks for, if it does.
    pub fn arc(&self) -> Option<Arc> {
        (self.mask & (MASK_PLACE | MASK_ARC) == MASK_ARC).then(|| Arc::of(self.fields[PLACE]))
    }
}

/// A part of the clock face: the places from `start` on, `length` more, past the last to the first.
#[derive(Clone, Copy, PartialEq, Eq, Debug)]
pub struct Arc {
    pub start: u32,
    pub length: u32,
}

impl Arc {
    /// As a template's field has it.
    pub fn of(field: u32) -> Arc {
        Arc { start: field % LENGTH_UNIT, length: field / LENGTH_UNIT }
    }

    pub fn field(self) -> u32 {
        self.start + LENGTH_UNIT * self.length
    }

    /// From one place of the face on to another.
    pub fn between(start: u32, end: u32) -> Arc {
        Arc { start, length: (PLACES + end - start) % PLACES }
    }

    /// "start 660, length 120"
    pub fn words(self) -> String {
        format!("start {}, length {}", self.start, self.length)
    }

    /// The last place, if it is one of the face.
    pub fn end(self) -> Option<u32> {
        (self.start < PLACES && self.length < PLACES).then(|| (self.start + self.length) % PLACES)
    }
}

#[derive(Clone, PartialEq, Eq, Debug)]
pub struct Entry {
    pub number: u32,
    pub fields: Fields,
    /// As in `Values`.
    pub blanks: u8,
    /// The party that wrote it.
    pub writer: u8,
    pub end: End,
    /// The transaction, or 0: committed.
    pub private_to: u32,
    /// The transaction whose take hold it has, or 0.
    pub taken_by: u32,
    /// The transactions whose read holds it has, by number.
    pub read_by: Vec<u32>,
}

#[derive(Clone, Copy, PartialEq, Eq, Debug)]
pub struct Transaction {
    pub number: u32,
    pub owner: u8,
    pub end: End,
}

#[derive(Clone, Copy, PartialEq, Eq, Debug)]
pub struct LookUp {
    pub party: u8,
    pub operation: u8,
    pub template: Template,
    /// The transaction, or 0.
    pub transaction: u32,
    pub deadline: End,
}

/// Who is told of which entries made public.
#[derive(Clone, Copy, PartialEq, Eq, Debug)]
pub struct Registration {
    pub number: u32,
    pub party: u8,
    pub template: Template,
    pub end: End,
    /// Matching entries made public since it was made.
    pub total: u32,
}

/// What the words of a space say.
#[derive(Clone, PartialEq, Eq, Debug)]
pub struct Tables {
    pub clock: u32,
    pub next_entry: u32,
    pub next_transaction: u32,
    pub next_registration: u32,
    pub entries: Vec<Entry>,
    pub transactions: Vec<Transaction>,
    pub look_ups: Vec<LookUp>,
    pub registrations: Vec<Registration>,
}

fn fields(row: &[u32], at: usize) -> Fields {
    std::array::from_fn(|i| row[at + i])
}

/// The transactions with a read hold on the entry in a row, a bit for each, at its slot.
pub fn entry_readers(row: &[u32]) -> u32 {
    row[ENTRY_READERS] % BLANKS_UNIT
}

/// What the entry in a row holds.
pub fn entry_values(row: &[u32]) -> Values {
    Values { fields: fields(row, ENTRY_FIELDS), blanks: (row[ENTRY_READERS] / BLANKS_UNIT) as u8 }
}

/// The party that wrote the entry in a row.
pub fn entry_writer(row: &[u32]) -> u8 {
    (row[ENTRY_READERS] / WRITER_UNIT) as u8
}

fn entry(row: &[u32], slots: &[(u32, u32)]) -> Entry {
    let read_by = slots.iter().filter(|(_, slot)| entry_readers(row) >> slot & 1 == 1);
    let Values { fields, blanks } = entry_values(row);
    Entry {
        number: row[ENTRY_NUMBER],
        fields,
        blanks,
        writer: entry_writer(row),
        end: End::of(row[ENTRY_END]),
        private_to: row[ENTRY_PRIVATE_TO],
        taken_by: row[ENTRY_TAKEN_BY],
        read_by: read_by.map(|&(number, _)| number).collect(),
    }
}

fn transaction(row: &[u32]) -> Transaction {
    Transaction {
        number: row[TRANSACTION_NUMBER],
        owner: row[TRANSACTION_OWNER] as u8,
        end: End::of(row[TRANSACTION_END]),
    }
}

fn look_up(row: &[u32]) -> LookUp {
    LookUp {
        party: row[WAITING_PARTY] as u8,
        operation: row[WAITING_OPERATION] as u8,
        template: Template { mask: row[WAITING_MASK] as u8, fields: fields(row, WAITING_FIELDS) },
        transaction: row[WAITING_TRANSACTION],
        deadline: End::of(row[WAITING_DEADLINE]),
    }
}

fn registration(row: &[u32]) -> Registration {
    Registration {
        number: row[REGISTRATION_NUMBER],
        party: row[REGISTRATION_PARTY] as u8,
        template: Template { mask: row[REGISTRATION_MASK] as u8, fields: fields(row, REGISTRATION_FIELDS) },
        end: End::of(row[REGISTRATION_END]),
        total: row[REGISTRATION_TOTAL],
    }
}

/// The tables that the words are. A read hold is a bit, at its transaction's slot.
pub fn tables(words: &Words) -> Tables {
    let slot = |row: &[u32]| (row[TRANSACTION_NUMBER], row[TRANSACTION_SLOT] % MAX_TRANSACTIONS as u32);
    let slots: Vec<(u32, u32)> = TRANSACTIONS.rows(words).map(slot).collect();
    Tables {
        clock: words[WORD_CLOCK],
        next_entry: words[WORD_NEXT_ENTRY],
        next_transaction: words[WORD_NEXT_TRANSACTION],
        next_registration: words[WORD_NEXT_REGISTRATION],
        entries: ENTRIES.rows(words).map(|row| entry(row, &slots)).collect(),
        transactions: TRANSACTIONS.rows(words).map(transaction).collect(),
        look_ups: LOOK_UPS.rows(words).map(look_up).collect(),
        registrations: REGISTRATIONS.rows(words).map(registration).collect(),
    }
}

impl Entry {
    pub fn values(&self) -> Values {
        Values { fields: self.fields, blanks: self.blanks }
    }
}

impl Tables {
    pub fn entry(&self, number: u32) -> Option<&Entry> {
        self.entries.iter().find(|entry| entry.number == number)
    }

    pub fn transaction(&self, number: u32) -> Option<&Transaction> {
        self.transactions.iter().find(|transaction| transaction.number == number)
    }

    pub fn look_up(&self, party: u8) -> Option<&LookUp> {
        self.look_ups.iter().find(|look_up| look_up.party == party)
    }

    pub fn registration(&self, number: u32) -> Option<&Registration> {
        self.registrations.iter().find(|registration| registration.number == number)
    }
}
