//! Questions about entries and templates, put to the proved space itself: the rule of matching stands nowhere else.

use crate::boundary::Space;
use crate::frame::{operation_named, Request};
use crate::record::FOUND;
use crate::words::{Entry, LookUp, Tables, Template, Values, FOREVER};
use std::collections::HashMap;

/// Whether an entry with these values matches: written into an empty space and looked up there.
fn ask(template: &Template, values: &Values) -> bool {
    let (Some(write), Some(read)) = (operation_named("write"), operation_named("read")) else { return false };
    let mut space = Space::default();
    let Values { fields, blanks } = *values;
    space.step(&Request { mask: blanks, fields, duration: FOREVER, ..Request::new(write, 1) }.frame());
    space.step(&Request { mask: template.mask, fields: template.fields, ..Request::new(read, 2) }.frame());
    let answer = space.records().next();
    answer.is_some_and(|record| record.kind == FOUND)
}

/// Remembers what was asked before.
#[derive(Clone, Default)]
pub struct Matcher {
    known: HashMap<(Template, Values), bool>,
}

impl Matcher {
    pub fn matches(&mut self, template: &Template, values: &Values) -> bool {
        *self.known.entry((*template, *values)).or_insert_with(|| ask(template, values))
    }

    pub fn matching<'a>(&mut self, template: &Template, tables: &'a Tables) -> Vec<&'a Entry> {
        tables.entries.iter().filter(|entry| self.matches(template, &entry.values())).collect()
    }
}

/// How a matching entry stands to a look-up, read off its row.
#[derive(Clone, PartialEq, Eq, Debug)]
pub enum Standing {
    Available,
    /// To another transaction.
    Private(u32),
    Taken(u32),
    /// Taken by the look-up's own transaction.
    OwnTake(u32),
    /// By other transactions; only a take minds.
    Read(Vec<u32>),
}

/// How the entry stands to a look-up in the transaction (0: none) that takes or reads.
pub fn standing(entry: &Entry, transaction: u32, takes: bool) -> Standing {
    let others: Vec<u32> = entry.read_by.iter().copied().filter(|&reader| reader != transaction).collect();
    if entry.taken_by != 0 && entry.taken_by == transaction {
        Standing::OwnTake(transaction)
    } else if entry.taken_by != 0 {
        Standing::Taken(entry.taken_by)
    } else if entry.private_to != 0 && entry.private_to != transaction {
        Standing::Private(entry.private_to)
    } else if takes && !others.is_empty() {
        Standing::Read(others)
    } else {
        Standing::Available
    }
}

/// A look-up, waiting or not, with what stands in its way.
#[derive(Clone, Debug)]
pub struct Sought {
    pub template: Template,
    pub transaction: u32,
    pub takes: bool,
}

impl Sought {
    pub fn of_request(request: &Request) -> Option<Sought> {
        let crate::frame::Class::LookUp { takes, .. } = request.operation.class else { return None };
        Some(Sought { template: request.template(), transaction: request.transaction, takes })
    }

    pub fn of_look_up(look_up: &LookUp) -> Option<Sought> {
        let operation = crate::frame::operation_of(look_up.operation)?;
        let crate::frame::Class::LookUp { takes, .. } = operation.class else { return None };
        Some(Sought { template: look_up.template, transaction: look_up.transaction, takes })
    }

    /// Each matching entry, and how it stands.
    pub fn standings<'a>(&self, tables: &'a Tables, matcher: &mut Matcher) -> Vec<(&'a Entry, Standing)> {
        let matching = matcher.matching(&self.template, tables).into_iter();
        matching.map(|entry| (entry, standing(entry, self.transaction, self.takes))).collect()
    }
}
