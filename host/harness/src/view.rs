//! The tables that the words of the proved space are, in the reference's own types.

use reference::frame::{look_up_kind, Mark, Template, NONE};
use reference::space::{End, Entry, LookUp, Registration, Space, Transaction};
use tray::words::{self, Words, ENTRIES, ENTRY_READERS, MAX_TRANSACTIONS, TRANSACTIONS, TRANSACTION_SLOT};

fn end(end: words::End) -> End {
    match end {
        words::End::At(clock) => End::At(clock),
        words::End::Never => End::Never,
    }
}

/// The transactions with a read hold, by number; 0 stands for the bits that no live transaction has.
fn holders(words: &Words, read_by: Vec<u32>, bits: u32) -> Vec<u32> {
    let bit = |row: &[u32]| 1 << (row[TRANSACTION_SLOT] % MAX_TRANSACTIONS as u32);
    let live = TRANSACTIONS.rows(words).fold(0, |bits, row| bits | bit(row));
    match bits & !live {
        0 => read_by,
        _ => std::iter::once(NONE).chain(read_by).collect(),
    }
}

/// The word at ENTRY_READERS is readers + 256 × blanks + 65,536 × writer.
fn entry(words: &Words, entry: words::Entry, row: &[u32]) -> Entry {
    let [readers, blanks, writer, more] = row[ENTRY_READERS].to_le_bytes();
    Entry {
        number: entry.number,
        writer: if more == 0 { writer } else { u8::MAX }, // more than three bytes stays wrong
        mark: Mark { fields: entry.fields, blanks },
        end: end(entry.end),
        private_to: entry.private_to,
        taken_by: entry.taken_by,
        read_by: holders(words, entry.read_by, u32::from(readers)),
    }
}

fn look_up(look_up: words::LookUp) -> LookUp {
    LookUp {
        party: look_up.party,
        transaction: look_up.transaction,
        kind: look_up_kind(look_up.operation),
        template: Template::new(look_up.template.mask, look_up.template.fields),
        deadline: end(look_up.deadline),
    }
}

fn registration(registration: words::Registration) -> Registration {
    Registration {
        number: registration.number,
        party: registration.party,
        template: Template::new(registration.template.mask, registration.template.fields),
        end: end(registration.end),
        total: registration.total,
        count: 0,
    }
}

/// The tables that the words are.
pub fn view(words: &Words) -> Space {
    let tables = words::tables(words);
    let transaction = |t: words::Transaction| Transaction { number: t.number, owner: t.owner, end: end(t.end) };
    Space {
        clock: tables.clock,
        next_entry: tables.next_entry,
        next_transaction: tables.next_transaction,
        next_registration: tables.next_registration,
        entries: tables.entries.into_iter().zip(ENTRIES.rows(words)).map(|(e, row)| entry(words, e, row)).collect(),
        transactions: tables.transactions.into_iter().map(transaction).collect(),
        waiting: tables.look_ups.into_iter().map(look_up).collect(),
        registrations: tables.registrations.into_iter().map(registration).collect(),
    }
}
