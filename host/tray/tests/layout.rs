//! The layout of the words: host/space.h and `words` say the same, and the tables read so are those that frames made.

use std::collections::HashMap;
use tray::boundary::Space;
use tray::history::History;
use tray::text::parse;
use tray::words::{self, tables, End};

/// The `#define`s of the header whose value is a sum of products of numbers and names.
fn header() -> HashMap<String, usize> {
    let text = std::fs::read_to_string("../space.h").unwrap().replace("\\\n", " ");
    let mut known: HashMap<String, usize> = HashMap::new();
    for line in text.lines() {
        let Some(rest) = line.strip_prefix("#define SPACE_") else { continue };
        let Some((name, value)) = rest.split("/*").next().unwrap().trim().split_once(' ') else { continue };
        let value = value.trim().trim_matches(['(', ')']).trim_end_matches('u');
        let factor = |text: &str| match text.trim().strip_prefix("SPACE_") {
            Some(name) => known[name],
            None => text.trim().parse().unwrap(),
        };
        let product = |term: &str| term.split('*').map(factor).product::<usize>();
        let value = value.split('+').map(product).sum();
        known.insert(name.to_string(), value);
    }
    known
}

macro_rules! same {
    ($header:expr, $($name:ident)*) => {
        $(assert_eq!($header.get(stringify!($name)), Some(&(words::$name as usize)), stringify!($name));)*
    };
}

#[test]
fn the_header_says_the_same() {
    let header = header();
    same!(header, WORD_CLOCK WORD_NEXT_ENTRY WORD_NEXT_TRANSACTION WORD_ENTRY_COUNT WORD_TRANSACTION_COUNT WORD_WAITING_COUNT);
    same!(header, WORD_NEXT_REGISTRATION WORD_REGISTRATION_COUNT);
    same!(header, FOREVER WORDS MAX_ENTRIES MAX_TRANSACTIONS MAX_WAITING MAX_REGISTRATIONS);
    same!(header, ENTRIES_AT ENTRY_NUMBER ENTRY_FIELDS ENTRY_END ENTRY_PRIVATE_TO ENTRY_TAKEN_BY ENTRY_READERS);
    same!(header, ENTRY_WORDS TRANSACTIONS_AT TRANSACTION_NUMBER TRANSACTION_OWNER TRANSACTION_END TRANSACTION_SLOT);
    same!(header, TRANSACTION_WORDS WAITING_AT WAITING_PARTY WAITING_OPERATION WAITING_MASK WAITING_FIELDS);
    same!(header, WAITING_TRANSACTION WAITING_DEADLINE WAITING_WORDS BLANKS_UNIT WRITER_UNIT);
    same!(header, REGISTRATIONS_AT REGISTRATION_NUMBER REGISTRATION_PARTY REGISTRATION_MASK REGISTRATION_FIELDS);
    same!(header, REGISTRATION_END REGISTRATION_TOTAL REGISTRATION_WORDS);
    same!(header, PLACES MASK_PLACE MASK_ARC);
    assert_eq!(words::WORDS, 832);
    assert_eq!(header["RECORD_BYTES"], tray::record::RECORD_BYTES);
    assert_eq!(header["STEP_BYTES"], tray::record::STEP_BYTES);
}

#[test]
fn the_empty_space() {
    let empty = tables(&Space::default().words);
    assert_eq!((empty.clock, empty.next_entry, empty.next_transaction, empty.next_registration), (0, 1, 1, 1));
    assert!(empty.entries.is_empty() && empty.transactions.is_empty());
    assert!(empty.look_ups.is_empty() && empty.registrations.is_empty());
}

#[test]
fn every_word_of_a_row() {
    let text = "party 1 write 7 1 40 9 lease 5\nparty 2 create lease 3\nparty 3 create lease forever\n\
                party 3 read any timeout 0 in 2\nparty 2 read any timeout 0 in 1\nparty 4 write 8 2 41 10 lease forever\n\
                party 3 take kind 8 timeout 0 in 2\nparty 3 write 9 0 0 0 lease 2 in 2\n\
                party 6 notify kind 8 image 42 lease 4\n\
                party 5 takeIfExists kind 8 side 2 image 41 place 10 timeout 7\ntick\n\
                party 16 notify side 1 place 9 lease forever\n\
                party 3 take kind 1 timeout forever in 2\nparty 4 write 8 blank 42 blank lease forever\n\
                party 2 read image 42 timeout 0 in 1\n";
    let history = History::of(parse(text).unwrap().frames().cloned());
    let state = &history.steps.last().unwrap().after;
    assert_eq!((state.clock, state.next_entry, state.next_transaction, state.next_registration), (1, 5, 3, 3));
    let rows: Vec<_> = state.entries.iter().map(|e| (e.number, e.fields, e.end, e.private_to, e.taken_by)).collect();
    assert_eq!(rows[0], (1, [7, 1, 40, 9], End::At(5), 0, 0));
    assert_eq!(rows[1], (2, [8, 2, 41, 10], End::Never, 0, 2));
    assert_eq!(rows[2], (3, [9, 0, 0, 0], End::At(2), 2, 0));
    assert_eq!(rows[3], (4, [8, 0, 42, 0], End::Never, 0, 0));
    assert_eq!(state.entries[0].read_by, [1, 2]);
    // Read holds, blanks and the writer share a word.
    let shared: Vec<_> = state.entries.iter().map(|e| (e.blanks, e.read_by.len(), e.writer)).collect();
    assert_eq!(shared, [(0, 2, 1), (0, 0, 4), (0, 0, 3), (0b1010, 1, 4)]);
    let live: Vec<_> = state.transactions.iter().map(|t| (t.number, t.owner, t.end)).collect();
    assert_eq!(live, [(1, 2, End::At(3)), (2, 3, End::Never)]);
    let waits: Vec<_> = state.look_ups.iter().map(|l| (l.party, l.operation, l.transaction, l.deadline)).collect();
    assert_eq!(waits, [(5, 5, 0, End::At(7)), (3, 3, 2, End::Never)]);
    assert_eq!((state.look_ups[0].template.mask, state.look_ups[0].template.fields), (15, [8, 2, 41, 10]));
    assert_eq!((state.look_ups[1].template.mask, state.look_ups[1].template.fields), (1, [1, 0, 0, 0]));
    let listening: Vec<_> = state.registrations.iter().map(|r| (r.number, r.party, r.end, r.total)).collect();
    assert_eq!(listening, [(1, 6, End::At(4), 1), (2, 16, End::Never, 0)]);
    let templates: Vec<_> = state.registrations.iter().map(|r| (r.template.mask, r.template.fields)).collect();
    assert_eq!(templates, [(0b0101, [8, 0, 42, 0]), (0b1010, [0, 1, 0, 9])]);
}
