//! The search for an order (document 02, T-12) and the reference, given the same exports; what is returned, and every
//! byte of the order and about it, is compared.

mod coverage;
mod exports;

pub use coverage::Coverage;

use crate::random::Random;
use exports::export;
use reference::order::{judge, transactions, Action, Transaction};
use std::fmt;
use tray::order as text;

/// A search that is compared with the reference.
pub trait Search {
    const NAME: &'static str;

    /// 1 and the positions in front of `order`, 0, or 65,536 × number.
    fn find_order(words: &[u32], order: &mut [u8]) -> u64;
}

/// The proved one.
pub struct Proved;

impl Search for Proved {
    const NAME: &'static str = "the space";

    fn find_order(words: &[u32], order: &mut [u8]) -> u64 {
        tray::boundary::find_order(words, order)
    }
}

/// The tuned one.
pub struct Tuned;

impl Search for Tuned {
    const NAME: &'static str = "tuned";

    fn find_order(words: &[u32], order: &mut [u8]) -> u64 {
        tuned::order::find_order(words, order)
    }
}

struct Reference;

impl Search for Reference {
    const NAME: &'static str = "the reference";

    fn find_order(words: &[u32], order: &mut [u8]) -> u64 {
        reference::order::find_order(words, order)
    }
}

/// Before the order and behind it, where nothing may be written.
const GUARD: usize = 8;

/// The words handed in, and how many bytes there are for the order.
#[derive(Clone, PartialEq, Eq, Debug)]
pub struct Case {
    pub words: Vec<u32>,
    pub room: usize,
}

/// What is returned, and the order's bytes with those about it.
#[derive(Clone, PartialEq, Eq, Debug)]
pub struct Answer {
    pub returned: u64,
    pub bytes: Vec<u8>,
}

impl Case {
    /// The search's answer. The bytes before it are neither positions nor all alike.
    fn answer<S: Search>(&self) -> Answer {
        let mut bytes: Vec<u8> = (0..GUARD + self.room + GUARD).map(|at| 0xa0 + (at % 29) as u8).collect();
        let returned = S::find_order(&self.words, &mut bytes[GUARD..GUARD + self.room]);
        Answer { returned, bytes }
    }

    pub fn differs<S: Search>(&self) -> bool {
        self.answer::<S>() != self.answer::<Reference>()
    }

    /// Each case with one transaction or one action fewer; none if the words are no list.
    pub fn shorter(&self) -> Vec<Case> {
        let transactions = transactions(&self.words).unwrap_or_default();
        let mut lists = Vec::new();
        for (position, actions) in transactions.iter().enumerate() {
            let fewer = [&transactions[..position], &transactions[position + 1..]].concat();
            lists.push(fewer);
            lists.extend((0..actions.len()).map(|place| {
                let mut fewer = transactions.clone();
                fewer[position].remove(place);
                fewer
            }));
        }
        lists.iter().map(|list| Case { words: words_of(list), room: self.room }).collect()
    }

    /// With as little as is needed to differ: transactions and actions are left out one by one, while it still does.
    fn shortened<S: Search>(self) -> Case {
        self.shorter().into_iter().find(Case::differs::<S>).map_or(self, Case::shortened::<S>)
    }
}

/// The words of a list.
pub fn words_of(transactions: &[Transaction]) -> Vec<u32> {
    text::Export { transactions: transactions.iter().map(as_text).collect() }.words()
}

/// A transaction as the tool has it.
fn as_text(actions: &Transaction) -> text::Transaction {
    let action = |&action: &Action| match action {
        Action::Write(number) => text::Action { kind: text::Kind::Write, number },
        Action::Read(number) => text::Action { kind: text::Kind::Read, number },
        Action::Take(number) => text::Action { kind: text::Kind::Take, number },
    };
    actions.iter().map(action).collect()
}

/// Where a search and the reference differ.
#[derive(Clone, PartialEq, Eq, Debug)]
pub struct Discrepancy {
    pub case: Case,
    pub name: &'static str,
    pub ours: Answer,
    pub theirs: Answer,
}

/// The export as a text for `tray order`, if it is one; what differs stands in the comments.
impl fmt::Display for Discrepancy {
    fn fmt(&self, f: &mut fmt::Formatter) -> fmt::Result {
        let Discrepancy { case: Case { words, room }, name, ours, theirs } = self;
        writeln!(f, "# words {words:?}, {room} bytes for the order")?;
        for (name, answer) in [(*name, ours), (Reference::NAME, theirs)] {
            let (before, rest) = answer.bytes.split_at(GUARD);
            let (order, behind) = rest.split_at(*room);
            writeln!(f, "# {name}: {}, order {order:?}, before it {before:?}, behind it {behind:?}", answer.returned)?;
        }
        let lines = transactions(words).unwrap_or_default();
        lines.iter().try_for_each(|actions| writeln!(f, "{}", text::line_of(&as_text(actions))))
    }
}

/// An export as the program reads it; the words of some are cut.
pub fn export_bytes(seed: u64) -> Vec<u8> {
    let mut random = Random::new(seed);
    let mut bytes: Vec<u8> = export(&mut random).words.into_iter().flat_map(u32::to_le_bytes).collect();
    bytes.truncate(bytes.len() - if random.percent(10) { random.below(4).min(bytes.len()) } else { 0 });
    bytes
}

/// The export of this seed.
pub fn compare<S: Search>(seed: u64, coverage: &mut Coverage) -> Result<(), Discrepancy> {
    let case = export(&mut Random::new(seed));
    let theirs = case.answer::<Reference>();
    coverage.count(&case, &theirs, judge(&case.words).ok().as_deref());
    if case.answer::<S>() == theirs {
        return Ok(());
    }
    let case = case.shortened::<S>();
    let (ours, theirs) = (case.answer::<S>(), case.answer::<Reference>());
    Err(Discrepancy { case, name: S::NAME, ours, theirs })
}
