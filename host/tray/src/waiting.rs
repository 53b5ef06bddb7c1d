//! `tray waiting`: who waits after a history, with the frame that asked and what stands in the way; and the equation by
//! which the history explains the list (document 02, T-11).

use crate::history::{History, Outcome};
use crate::oracle::{Matcher, Sought, Standing};
use crate::prose::why_waits;
use crate::run::stop_words;
use crate::tally::{fates, Fate, Tally};
use crate::words::{End, LookUp, Tables};
use std::fmt::Write;

/// The look-ups of a history: what became of each by frames and answers, and the tables after the last frame, in which
/// those that still wait are counted.
pub struct Account<'a> {
    history: &'a History,
    pub fates: Vec<Fate>,
    pub tally: Tally,
}

impl<'a> Account<'a> {
    pub fn of(history: &'a History) -> Account<'a> {
        let log = history.log();
        Account { history, fates: fates(&log), tally: Tally::of(&log) }
    }

    fn tables(&self) -> &Tables {
        self.history.last()
    }

    /// "look-ups not refused: 7 = 3 found + .."
    pub fn equation(&self) -> String {
        self.tally.words(self.tables().look_ups.len())
    }

    /// The open look-up of the history that this waiting one is.
    fn open(&self, look_up: &LookUp) -> Option<&Fate> {
        let asks = |fate: &&Fate| (fate.party, fate.transaction) == (look_up.party, look_up.transaction);
        self.fates.iter().filter(|fate| fate.closed.is_none()).find(asks)
    }

    /// What the theorem excludes: if there is any, the archive is damaged, or the tool is wrong.
    pub fn faults(&self) -> Vec<String> {
        let (tables, mut matcher) = (self.tables(), Matcher::default());
        let mut faults = Vec::new();
        if !self.tally.balances(tables.look_ups.len()) {
            faults.push("the look-ups do not add up".to_string());
        }
        for look_up in &tables.look_ups {
            if self.open(look_up).is_none() {
                faults.push(format!("party {} waits, and no frame of the history asked for it", look_up.party));
            }
            let standings = Sought::of_look_up(look_up).map(|sought| sought.standings(tables, &mut matcher));
            let mut standings = standings.unwrap_or_default().into_iter();
            if let Some((entry, _)) = standings.find(|(_, standing)| *standing == Standing::Available) {
                faults.push(format!("party {} waits, and entry {} is available to it", look_up.party, entry.number));
            }
        }
        faults
    }

    /// "party 3 waits since clock 1, deadline clock 6, in transaction 2; frame 12: .."
    fn line(&self, look_up: &LookUp) -> String {
        let deadline = match look_up.deadline {
            End::At(clock) => format!("deadline clock {clock}"),
            End::Never => "no deadline".to_string(),
        };
        let inside = match look_up.transaction {
            0 => String::new(),
            transaction => format!(", in transaction {transaction}"),
        };
        let (since, asked) = match self.open(look_up) {
            Some(&Fate { frame, .. }) => (
                format!(" since clock {}", self.history.before(frame).clock),
                format!("frame {}: {}", frame + 1, self.history.steps[frame].asked.text),
            ),
            None => (String::new(), "NO FRAME ASKED".to_string()),
        };
        format!("party {} waits{since}, {deadline}{inside}; {asked}", look_up.party)
    }

    /// The waiting look-ups, in order of arrival.
    fn list(&self) -> String {
        let (tables, mut matcher, mut text) = (self.tables(), Matcher::default(), String::new());
        for (place, look_up) in tables.look_ups.iter().enumerate() {
            let _ = writeln!(text, "{:>4}  {}", place + 1, self.line(look_up));
            let reasons = why_waits(look_up, tables, &mut matcher);
            text.extend(reasons.into_iter().map(|reason| format!("        {reason}\n")));
        }
        text
    }
}

fn how_many(waiting: usize) -> String {
    match waiting {
        0 => "nobody waits".to_string(),
        1 => "1 look-up waits".to_string(),
        waiting => format!("{waiting} look-ups wait"),
    }
}

/// The waiting list after the frames of the history; a tray that is refused has none.
pub fn words(outcome: &Outcome) -> String {
    let stopped = stop_words(outcome);
    if outcome.is_refused() {
        return stopped;
    }
    let account = Account::of(&outcome.history);
    let (tables, frames) = (account.tables(), outcome.history.steps.len());
    format!(
        "{stopped}after {frames} of {} frames, at clock {}: {}\n{}{}\n",
        outcome.frames,
        tables.clock,
        how_many(tables.look_ups.len()),
        account.list(),
        account.equation()
    )
}
