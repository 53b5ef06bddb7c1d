//! What a designer can change: a line for each pane, from a small table of cases. Each case tells what the trial shows,
//! and where a number would help, what the library counts with that number.

use super::{Counts, Pane, Setup, Slot, Start, Trial, LONGEST, MOST_STARTS};
use crate::frame::duration_text;
use crate::words::FOREVER;

/// A setup with another number in it, and that number in words: "a transaction lease of 11".
#[derive(Clone, PartialEq, Eq, Debug)]
pub struct Change {
    pub setup: Setup,
    pub words: String,
}

/// What is told of a pane: why, and what to change.
#[derive(Clone, PartialEq, Eq, Debug)]
pub struct Told {
    pub why: String,
    pub change: Option<Change>,
}

/// A case: its name in a sweep, and what it tells of a pane, if the pane is one.
pub struct Case {
    pub name: &'static str,
    pub tells: fn(&View) -> Option<Told>,
}

/// The first that a pane is stands in its line. Together they are all that can be: a pane to which none of the first
/// eight applies is only kept up by waits, or by nothing.
pub const CASES: [Case; 10] = [
    Case { name: "the rounds are too few for a round trip", tells: too_few_rounds },
    Case { name: "its create is refused", tells: create_refused },
    Case { name: "a frame goes beyond the last clock", tells: beyond_the_clock },
    Case { name: "its transaction lease is too short for its hold", tells: lease_too_short },
    Case { name: "nobody writes what it takes", tells: nobody_writes },
    Case { name: "what it writes ends before it is found", tells: written_ends },
    Case { name: "its transactions end while it waits or holds", tells: transactions_end },
    Case { name: "it finds nothing", tells: finds_nothing },
    Case { name: "it commits as fast as its hold allows", tells: fast },
    Case { name: "it waits for what it takes", tells: waits },
];

/// A pane of a trial.
pub struct View<'a> {
    pub trial: &'a Trial,
    pub place: usize,
}

impl View<'_> {
    fn pane(&self) -> &Pane {
        &self.trial.setup.panes[self.place]
    }

    fn counts(&self) -> Counts {
        self.trial.counts[self.place]
    }

    fn seen(&self) -> &super::replay::Seen {
        &self.trial.replay.panes[self.place]
    }

    fn others(&self) -> impl Iterator<Item = (usize, &Pane)> {
        self.trial.setup.panes.iter().enumerate().filter(|(place, _)| *place != self.place)
    }

    fn change(&self, slot: Slot, number: u32, what: &str) -> Change {
        let words = match number {
            FOREVER => format!("{what} forever"),
            number => format!("{what} of {number}"),
        };
        Change { setup: self.trial.setup.with(slot, number), words }
    }

    /// A starting entry more of the kind that it takes; none where there are as many as may be.
    fn one_more_start(&self) -> Option<Change> {
        let mut setup = self.trial.setup.clone();
        setup.starts.push(Start { fields: [self.pane().takes, 0, 0, 0], lease: FOREVER });
        let words = format!("one more starting entry of kind {}, lease forever", self.pane().takes);
        (setup.starts.len() <= MOST_STARTS).then_some(Change { setup, words })
    }

    /// "; pane 2 takes kind 7, too": who competes.
    fn rivals(&self) -> String {
        let rivals = self.others().filter(|(_, pane)| pane.takes == self.pane().takes);
        let rivals: Vec<usize> = rivals.map(|(place, _)| place).collect();
        match rivals.len() {
            0 => String::new(),
            1 => format!("; {} takes kind {}, too", panes(&rivals), self.pane().takes),
            _ => format!("; {} take kind {}, too", panes(&rivals), self.pane().takes),
        }
    }

    /// The case that the pane is, and what is told.
    pub fn told(&self) -> Option<(&'static Case, Told)> {
        CASES.iter().find_map(|case| (case.tells)(self).map(|told| (case, told)))
    }

    /// What the trial shows; and on a line below, what the library counts after the change.
    pub fn line(&self) -> String {
        let Some((_, Told { why, change })) = self.told() else { return String::new() };
        let effect = change.map_or(String::new(), |Change { setup, words }| match setup.tried() {
            Ok(after) => format!("  with {words}: {}\n", self.effect(&after)),
            Err(_) => String::new(),
        });
        format!("pane {} {why}\n{effect}", self.place + 1)
    }

    fn effect(&self, after: &[Counts]) -> String {
        let before = &self.trial.counts;
        let commits = match (before[self.place].commits, after[self.place].commits) {
            (0, 0) => "still no commits".to_string(),
            (before, 1) => format!("1 commit in place of {before}"),
            (before, after) => format!("{after} commits in place of {before}"),
        };
        let exceptions = match (before[self.place].exceptions, after[self.place].exceptions) {
            (1.., 0) => ", no exceptions",
            _ => "",
        };
        let all = |counts: &[Counts]| counts.iter().map(|of| of.commits).sum::<u32>();
        match after.len() {
            1 => format!("{commits}{exceptions}"),
            _ => format!("{commits}{exceptions}; all panes {} in place of {}", all(after), all(before)),
        }
    }
}

/// "pane 2", "panes 1, 2 and 4": counted from 0, in words from 1.
fn panes(places: &[usize]) -> String {
    let names: Vec<String> = places.iter().map(|place| (place + 1).to_string()).collect();
    match names.split_last() {
        Some((last, rest)) if !rest.is_empty() => format!("panes {} and {last}", rest.join(", ")),
        _ => format!("pane {}", names.concat()),
    }
}

/// "once", "3 times"
fn times(number: u32) -> String {
    match number {
        1 => "once".to_string(),
        number => format!("{number} times"),
    }
}

/// A round trip without a wait, part by part.
fn way(pane: &Pane) -> String {
    match pane.hold {
        0 | 1 => "create, take, write, commit".to_string(),
        hold => format!("create, take, a hold of {}, commit", duration_text(hold)),
    }
}

/// Every round trip takes as many rounds at least: within fewer nobody commits.
fn too_few_rounds(view: &View) -> Option<Told> {
    let (pane, rounds) = (view.pane(), view.trial.setup.rounds);
    let trip = pane.trip();
    let why = match pane.hold {
        FOREVER => "never writes: its hold is forever".to_string(),
        _ => format!("cannot commit in {rounds} rounds: a round trip takes {trip} at least ({})", way(pane)),
    };
    (trip > u64::from(rounds)).then_some(Told { why, change: None })
}

/// "create with lease 0": 9
fn create_refused(view: &View) -> Option<Told> {
    let least = view.pane().least_lease();
    let why = format!("never begins: a transaction lease of 0 is refused with 9, and its hold wants {least} or more");
    let change = Some(view.change(Slot::Lease(view.place), least, "a transaction lease"));
    (view.pane().lease == 0).then_some(Told { why, change })
}

/// "clock + lease or timeout, FOREVER excepted, above 4294967294": 10. Of the frame that was refused first.
fn beyond_the_clock(view: &View) -> Option<Told> {
    let &(operation, number) = view.seen().refusals.first()?;
    let refused = view.seen().refusals.iter().filter(|refused| **refused == (operation, number)).count();
    let (slot, what) = match operation {
        "create" => (Slot::Lease(view.place), "a transaction lease"),
        "take" => (Slot::Timeout(view.place), "a timeout"),
        _ => (Slot::WrittenLease(view.place), "a lease of what it writes"),
    };
    let refused = times(u32::try_from(refused).unwrap_or(u32::MAX));
    let why = format!(
        "goes beyond the last clock: its {operation} was refused {refused} with {number}; {LONGEST} or less never is"
    );
    Some(Told { why, change: Some(view.change(slot, FOREVER, what)) })
}

/// The transaction ends before the round of the commit, whatever is found and when.
fn lease_too_short(view: &View) -> Option<Told> {
    let (pane, least) = (view.pane(), view.pane().least_lease());
    let wants = match pane.hold {
        0 | 1 => "its way from create to commit".to_string(),
        hold => format!("its hold of {hold}"),
    };
    let why = format!("never commits: {wants} wants a transaction lease of {least} or more, it has {}", pane.lease);
    let change = Some(view.change(Slot::Lease(view.place), least, "a transaction lease"));
    (pane.lease < least).then_some(Told { why, change })
}

/// What it writes itself comes after what it takes.
fn nobody_writes(view: &View) -> Option<Told> {
    let kind = view.pane().takes;
    let starts = view.trial.setup.starts.iter().any(|start| start.fields[0] == kind);
    let writes = view.others().any(|(_, pane)| pane.writes == kind);
    let why = format!("never finds: no starting entry is of kind {kind}, and no other pane writes it");
    (!starts && !writes).then_some(Told { why, change: view.one_more_start() })
}

/// Somebody takes the kind that it writes, and yet nobody found an entry of it, and none is left.
fn written_ends(view: &View) -> Option<Told> {
    let (pane, replay, committed) = (view.pane(), &view.trial.replay, &view.seen().committed);
    let takers = view.others().filter(|(_, other)| other.takes == pane.writes);
    let takers: Vec<usize> = takers.map(|(place, _)| place).collect();
    let ended = committed.iter().all(|entry| !replay.found.contains(entry) && !replay.stored.contains(entry));
    let why = format!(
        "writes in vain: all that it committed ended by its lease of {} before anyone found it; kind {} is for {}",
        pane.written_lease,
        pane.writes,
        panes(&takers)
    );
    let change = view.change(Slot::WrittenLease(view.place), FOREVER, "a lease of what it writes");
    (!committed.is_empty() && ended && !takers.is_empty()).then_some(Told { why, change: Some(change) })
}

/// An exception comes only where the lease has no room for the longest wait and the hold.
fn transactions_end(view: &View) -> Option<Told> {
    let (pane, Counts { exceptions, .. }, seen) = (view.pane(), view.counts(), view.seen());
    let safe = pane.safe_lease();
    let waits = match seen.out_of_waits {
        0 => "none while it waited".to_string(),
        all if all == exceptions => "each while it waited".to_string(),
        some => format!("{some} while it waited"),
    };
    let wants = match pane.timeout {
        FOREVER => "a wait without an end wants one forever".to_string(),
        timeout => format!("a wait of {timeout} and a hold of {} want {} or more", pane.hold, duration_text(safe)),
    };
    let (lease, created) = (pane.lease, seen.created);
    let why = format!("lost {exceptions} of {created} transactions to their lease of {lease}, {waits}: {wants}");
    let change = Some(view.change(Slot::Lease(view.place), safe, "a transaction lease"));
    (exceptions > 0).then_some(Told { why, change })
}

/// Where nothing came, an entry of its kind was in another pane's transaction, or none was stored.
fn finds_nothing(view: &View) -> Option<Told> {
    let (kind, Counts { nothings, .. }, kept) = (view.pane().takes, view.counts(), view.seen().kept_by_others);
    let there = match (kept, nothings - kept) {
        (0, _) => format!("no entry of kind {kind} was stored"),
        (_, 0) => format!("another pane had kind {kind} in its transaction"),
        (kept, none) => {
            let (kept, none) = (times(kept), times(none));
            format!("{kept} another pane had kind {kind} in its transaction, {none} none was stored")
        }
    };
    let why = format!("found nothing {}: {there}{}", times(nothings), view.rivals());
    let patient = view.trial.setup.with(Slot::Timeout(view.place), FOREVER).with(Slot::Lease(view.place), FOREVER);
    let change = Change { setup: patient, words: "timeout and transaction lease forever".to_string() };
    (nothings > 0).then_some(Told { why, change: Some(change) })
}

/// As many commits as the rounds have room for.
fn fast(view: &View) -> Option<Told> {
    let (pane, rounds) = (view.pane(), u64::from(view.trial.setup.rounds));
    let trip = pane.trip();
    let why = format!("commits as fast as its hold allows: no round trip takes under {trip} rounds ({})", way(pane));
    (u64::from(view.counts().commits) == rounds / trip).then_some(Told { why, change: None })
}

/// Nothing else is left that could have cost it rounds.
fn waits(view: &View) -> Option<Told> {
    let (pane, rounds, waited) = (view.pane(), view.trial.setup.rounds, view.seen().waited);
    let why = format!("waited {waited} of {rounds} rounds for kind {}{}", pane.takes, view.rivals());
    (waited > 0).then_some(Told { why, change: view.one_more_start() })
}
