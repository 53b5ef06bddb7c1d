//! What each claim makes of a step. A claim's memory is part of the situation, so that situations fold rightly.

use super::model::Got;
use super::situation::Situation;
use super::store::TICK;
use crate::claim::{Form, Scope, Sharing};
use crate::frame::Class;
use crate::oracle::{Matcher, Sought, Standing};
use crate::panes::Script;
use crate::record::{ABORTED, COMMITTED, EXCEPTION, FOUND, NOTHING};
use crate::words::{
    entry_readers, entry_values, tables, Template, Words, ENTRIES, ENTRY_END, ENTRY_NUMBER, ENTRY_PRIVATE_TO,
    ENTRY_TAKEN_BY, TRANSACTIONS, TRANSACTION_NUMBER, TRANSACTION_OWNER, TRANSACTION_SLOT, WORD_CLOCK,
};

fn entry_row(words: &Words, number: u32) -> Option<&[u32]> {
    ENTRIES.rows(words).find(|row| row[ENTRY_NUMBER] == number)
}

/// The parties whose transactions hold the entry, a bit for each.
fn holders(words: &Words, entry: &[u32]) -> u32 {
    let holds = |row: &&[u32]| {
        entry[ENTRY_TAKEN_BY] == row[TRANSACTION_NUMBER]
            || entry_readers(entry) >> (row[TRANSACTION_SLOT] % 32) & 1 == 1
    };
    TRANSACTIONS.rows(words).filter(holds).fold(0, |mask, row| mask | 1 << (row[TRANSACTION_OWNER] % 32))
}

#[derive(Default)]
pub struct Monitors {
    pub matcher: Matcher,
}

fn remember(memory: &mut Vec<u32>, value: u32) {
    if let Err(place) = memory.binary_search(&value) {
        memory.insert(place, value);
    }
}

impl Monitors {
    pub fn count(&mut self, words: &Words, committed: bool, template: &Template) -> usize {
        let counted = ENTRIES.rows(words).filter(|row| !committed || row[ENTRY_PRIVATE_TO] == 0);
        counted.filter(|row| self.matcher.matches(template, &entry_values(row))).count()
    }

    /// Whether what is claimed where nothing more can happen, or of every situation, fails here.
    pub fn fails_here(&mut self, form: &Form, scopes: &[Scope], situation: &Situation) -> bool {
        match form {
            Form::Count { scope, quantity, committed, template } if scopes.contains(scope) => {
                (*scope != Scope::Stopped || situation.all_stopped())
                    && !quantity.holds(self.count(&situation.words, *committed, template))
            }
            _ => false,
        }
    }

    /// The claims that a step concerns: for `Always` that it gives what is wanted, for all others that it refutes.
    pub fn observe(&mut self, script: &Script, sender: usize, got: &[Got], situation: &mut Situation) -> u32 {
        let mut concerned = 0;
        for (place, claim) in script.claims.iter().enumerate() {
            let mut memory = std::mem::take(&mut situation.memory[place]);
            let concerns = self.concerns(script, &claim.form, sender, got, situation, &mut memory);
            situation.memory[place] = memory;
            concerned |= u32::from(concerns) << place;
        }
        concerned
    }

    fn concerns(
        &mut self,
        script: &Script,
        form: &Form,
        sender: usize,
        got: &[Got],
        situation: &Situation,
        memory: &mut Vec<u32>,
    ) -> bool {
        match form {
            Form::Never { pane, kind, number, at } | Form::Always { pane, kind, number, at } => {
                let gets = |got: &Got| {
                    got.pane == *pane
                        && got.record.kind == *kind
                        && number.is_none_or(|number| number == u32::from(got.record.refusal))
                        && (at.is_none() || got.line == *at)
                };
                got.iter().any(gets)
            }
            Form::Count { .. } => self.fails_here(form, &[Scope::Always, Scope::Stopped], situation),
            Form::NotBoth { panes, sharing: Sharing::Hold } => {
                let both = panes.iter().fold(0, |mask, &pane| mask | 1 << script.panes[pane].party);
                ENTRIES.rows(&situation.words).any(|row| holders(&situation.words, row) & both == both)
            }
            Form::NotBoth { panes, sharing } => share(script, panes, *sharing, got, memory),
            Form::NoEndlessWait { .. } => false,
            Form::Turns { panes, at } => turns(panes, at, got, memory),
            Form::Ticks { pane, most, from, to } => ticks(*pane, *most, [*from, *to], sender, got, memory),
            Form::PutBack { pane, unless_ended } => put_back(script, *pane, *unless_ended, got, situation, memory),
            Form::NothingOnlyIf { pane, available } => self.nothing(script, *pane, *available, got, situation),
        }
    }

    fn nothing(&mut self, script: &Script, pane: usize, available: bool, got: &[Got], situation: &Situation) -> bool {
        let nothings = got.iter().filter(|got| got.pane == pane && got.record.kind == NOTHING);
        for got in nothings {
            let Some(line) = got.line else { continue };
            let request = script.panes[pane].sent[line].request;
            let Some(sought) = request.as_ref().and_then(Sought::of_request) else { continue };
            let sought = Sought { transaction: got.record.transaction, ..sought };
            let tables = tables(&situation.words);
            let standings = sought.standings(&tables, &mut self.matcher);
            if standings.iter().any(|(_, standing)| !available || *standing == Standing::Available) {
                return true;
            }
        }
        false
    }
}

fn takes(script: &Script, got: &Got) -> bool {
    let request = got.line.and_then(|line| script.panes[got.pane].sent[line].request);
    request.is_some_and(|request| matches!(request.operation.class, Class::LookUp { takes: true, .. }))
}

/// Memory: twice the entries that either pane has found, plus which of the two.
fn share(script: &Script, panes: &[usize; 2], sharing: Sharing, got: &[Got], memory: &mut Vec<u32>) -> bool {
    let mut both = false;
    for got in got.iter().filter(|got| got.record.kind == FOUND) {
        let Some(which) = panes.iter().position(|&pane| pane == got.pane) else { continue };
        if sharing == Sharing::Take && !takes(script, got) {
            continue;
        }
        let mark = got.record.entry << 1;
        remember(memory, mark | which as u32);
        both |= memory.binary_search(&(mark | (1 - which as u32))).is_ok();
    }
    both
}

/// Memory: which of the two was last, if one was.
fn turns(panes: &[usize; 2], at: &[usize; 2], got: &[Got], memory: &mut Vec<u32>) -> bool {
    let mut again = false;
    for got in got.iter().filter(|got| got.succeeds()) {
        let which = (0..2).find(|&which| got.pane == panes[which] && got.line == Some(at[which]));
        let Some(which) = which else { continue };
        again |= memory.first() == Some(&(which as u32));
        *memory = vec![which as u32];
    }
    again
}

/// Memory: the ticks since the first line was answered, while the second or an exception has not come.
fn ticks(pane: usize, most: u32, [from, to]: [usize; 2], sender: usize, got: &[Got], memory: &mut Vec<u32>) -> bool {
    if sender == TICK {
        memory.iter_mut().for_each(|ticks| *ticks = ticks.saturating_add(1).min(most.saturating_add(1)));
    }
    for got in got.iter().filter(|got| got.pane == pane) {
        if got.record.kind == EXCEPTION || (got.line == Some(to) && got.succeeds()) {
            memory.clear();
        } else if got.line == Some(from) && got.succeeds() {
            *memory = vec![0];
        }
    }
    memory.first().is_some_and(|&ticks| ticks > most)
}

/// Memory: transaction, entry and end of what the pane has taken inside transactions that still live.
fn put_back(
    script: &Script,
    pane: usize,
    unless_ended: bool,
    got: &[Got],
    situation: &Situation,
    memory: &mut Vec<u32>,
) -> bool {
    let mut lost = false;
    for mine in got.iter().filter(|got| got.pane == pane) {
        let transaction = mine.record.transaction;
        match mine.record.kind {
            FOUND if transaction != 0 && takes(script, mine) => {
                let row = entry_row(&situation.words, mine.record.entry);
                if let Some(row) = row.filter(|row| row[ENTRY_TAKEN_BY] == transaction) {
                    memory.extend([transaction, row[ENTRY_NUMBER], row[ENTRY_END]]);
                }
            }
            ABORTED | COMMITTED | EXCEPTION => {
                let there = |entry: u32| {
                    entry_row(&situation.words, entry).is_some()
                        || got.iter().any(|other| other.record.kind == FOUND && other.record.entry == entry)
                };
                let missing = |row: &[u32]| {
                    row[0] == transaction && !there(row[1]) && !(unless_ended && row[2] <= situation.words[WORD_CLOCK])
                };
                lost |= mine.record.kind == ABORTED && memory.chunks_exact(3).any(missing);
                let kept = memory.chunks_exact(3).filter(|row| row[0] != transaction).flatten().copied();
                *memory = kept.collect();
            }
            _ => {}
        }
    }
    lost
}
