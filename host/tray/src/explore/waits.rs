//! Whether a waiting pane can still be answered, where time goes on after the last tick that the script allows.

use super::model::Model;
use super::situation::Situation;
use super::store::{Edge, Store, TICK};
use super::Explored;
use crate::panes::Script;
use crate::tell::{tell, Progress};
use crate::words::{
    Table, Words, ENTRIES, ENTRY_END, FOREVER, LOOK_UPS, REGISTRATIONS, REGISTRATION_END, TRANSACTIONS,
    TRANSACTION_END, TRANSACTION_NUMBER, WAITING_DEADLINE, WAITING_PARTY, WAITING_TRANSACTION, WORD_CLOCK,
};

/// How many situations are looked at beyond the last tick: for one end of a history, and for all together.
const BEYOND_AN_END: usize = 100_000;
const BEYOND_ALL: usize = 20_000_000;

/// Whether anything finite lies ahead, so that further ticks can change something.
fn time_matters(words: &Words) -> bool {
    let ahead =
        |table: Table, at: usize| table.rows(words).any(|row| row[at] != FOREVER && row[at] > words[WORD_CLOCK]);
    ahead(ENTRIES, ENTRY_END)
        || ahead(TRANSACTIONS, TRANSACTION_END)
        || ahead(LOOK_UPS, WAITING_DEADLINE)
        || ahead(REGISTRATIONS, REGISTRATION_END)
}

/// Whether the party's look-up is closed by time alone: by its deadline, or its transaction's lease.
fn closes_in_time(words: &Words, party: u8) -> bool {
    let look_up = LOOK_UPS.rows(words).find(|row| row[WAITING_PARTY] == u32::from(party));
    let Some(look_up) = look_up else { return true };
    let inside = TRANSACTIONS.rows(words).find(|live| live[TRANSACTION_NUMBER] == look_up[WAITING_TRANSACTION]);
    look_up[WAITING_DEADLINE] != FOREVER || inside.is_some_and(|live| live[TRANSACTION_END] != FOREVER)
}

/// Answers to "can this waiting pane still be answered, if time goes on?".
#[derive(Clone, Copy, PartialEq, Eq)]
enum Hope {
    Answered,
    Never,
    Unknown,
}

/// Looks beyond the last tick, from situations in which nothing more can happen within the bound.
struct Beyond<'a> {
    model: Model<'a>,
    /// Situations that may still be looked at.
    left: usize,
}

impl Beyond<'_> {
    fn hope(&mut self, situation: &Situation, pane: usize) -> Hope {
        if closes_in_time(&situation.words, self.model.script.panes[pane].party) {
            return Hope::Answered;
        }
        if !time_matters(&situation.words) {
            return Hope::Never;
        }
        self.search(situation, pane)
    }

    fn search(&mut self, beginning: &Situation, pane: usize) -> Hope {
        let mut store = Store::default();
        let (mut here, mut next) = (beginning.clone(), beginning.clone());
        let mut bytes = Vec::new();
        beginning.encode(&mut bytes);
        store.insert(&bytes, (0, 0), 0);
        let mut place = 0;
        while place < store.len() {
            if place > BEYOND_AN_END || self.left == 0 {
                return Hope::Unknown;
            }
            self.left -= 1;
            here.decode(store.bytes(place));
            let panes = (0..self.model.script.panes.len()).filter(|&pane| here.can_send(pane));
            let senders: Vec<usize> = panes.chain(time_matters(&here.words).then_some(TICK)).collect();
            for sender in senders {
                next.copy_from(&here);
                self.model.step(&here, sender, &mut next);
                if !next.waits(pane) {
                    return Hope::Answered;
                }
                next.encode(&mut bytes);
                store.insert(&bytes, (place as u32, sender as u8), 0);
            }
            place += 1;
        }
        Hope::Never
    }
}

/// A bit for each pane.
pub struct Hopes {
    /// For each situation the waiting panes that can still be answered, or of which that is not known.
    pub of: Vec<u16>,
    /// The panes of which it is not known somewhere.
    pub unknown: u16,
}

impl Hopes {
    /// Where nothing more can happen within the bound on ticks.
    fn at_the_ends(&mut self, script: &Script, explored: &Explored) {
        let mut beyond = Beyond { model: Model::new(script), left: BEYOND_ALL };
        let mut situation = beyond.model.blank();
        let mut progress = Progress::default();
        for (done, &(end, _)) in explored.ends.iter().enumerate() {
            if progress.is_due() {
                tell(&format!("after the last tick: {done} of {} ends looked at", explored.ends.len()));
            }
            situation.decode(explored.store.bytes(end as usize));
            for pane in (0..script.panes.len()).filter(|&pane| situation.waits(pane)) {
                let hope = beyond.hope(&situation, pane);
                self.unknown |= u16::from(hope == Hope::Unknown) << pane;
                self.of[end as usize] |= u16::from(hope != Hope::Never) << pane;
            }
        }
    }

    /// Where the panes can go round for ever after the last tick, they never come to an end: whether time would answer a
    /// waiting pane is then told for each situation without ticks left, as far as it can be told at once.
    fn going_round(&mut self, script: &Script, explored: &Explored) {
        let mut situation = Model::new(script).blank();
        for (place, hope) in self.of.iter_mut().enumerate() {
            situation.decode(explored.store.bytes(place));
            let waits = |&pane: &usize| situation.ticks >= script.ticks && situation.waits(pane);
            for pane in (0..script.panes.len()).filter(waits) {
                let closes = closes_in_time(&situation.words, script.panes[pane].party);
                let matters = time_matters(&situation.words);
                self.unknown |= u16::from(matters && !closes) << pane;
                *hope |= u16::from(closes || matters) << pane;
            }
        }
    }

    /// Backwards over the steps, until nothing changes: once, unless the panes can go round.
    fn spread(&mut self, store: &Store) {
        loop {
            let mut changed = false;
            for place in (0..store.looked_at()).rev() {
                let waiting = store.waiting[place];
                let through = |edge: &Edge| {
                    let to = edge.to as usize;
                    waiting & !store.waiting[to] | waiting & store.waiting[to] & self.of[to]
                };
                let hope = store.steps(place).iter().fold(self.of[place], |hope, edge| hope | through(edge));
                changed |= hope != self.of[place];
                self.of[place] = hope;
            }
            if !changed {
                return;
            }
        }
    }
}

pub fn hopes(script: &Script, explored: &Explored, goes_round: bool) -> Hopes {
    let mut hopes = Hopes { of: vec![0; explored.store.len()], unknown: 0 };
    hopes.at_the_ends(script, explored);
    if goes_round {
        hopes.going_round(script, explored);
    }
    hopes.spread(&explored.store);
    hopes
}
