//! How often each thing that can occur in trials has occurred, told from the frames that the reference's panes sent and
//! their records.

use super::Case;
use crate::seeds::{self, Situations};
use reference::answer::{Kind, Record};
use reference::frame::{word, Refusal, FOREVER, LAST_CLOCK};
use reference::trial::{judge, run, setup, Pane, Setup, Starting, Step, Trial};
use reference::trial::{COUNTS, MOST_PANES, MOST_ROUNDS, MOST_STARTING};
use std::collections::BTreeMap;

/// Of the refusals, a pane's frames meet 9 and 10 alone; another is not listed and ends the run. For no pane sends
/// while it waits; its transaction is live, since it hears of the end; there are 4 transactions at most, and 12
/// entries: a pane takes one for each that it writes, so 8 at most are committed, and 4 private.
#[rustfmt::skip]
const SITUATIONS: [&str; 87] = [
    "counted", "refused with 23", "refused with 24",
    "1 pane", "2 panes", "3 panes", "4 panes",
    "0 rounds", "1 round", "1000 rounds",
    "no starting entry", "8 starting entries",
    "counts as long as needed", "counts longer",
    "a pane with commits, exceptions and nothings", "a pane with none of these in 20 rounds",
    "transactions FOREVER", "timeout FOREVER", "written FOREVER", "starting entry FOREVER",
    "hold beyond the rounds", "kind 0 taken", "kind 4294967295 taken", "side, image or place not 0",
    "starting entry of lease 0", "starting entry that ends", "starting entry that ends untaken",
    "create", "create refused with 9", "create refused with 10", "create to the last clock",
    "take refused with 10", "wait to the last clock", "write refused with 10", "write to the last clock",
    "found at once", "found by another's commit, before its turn", "found by another's commit, after its turn",
    "found by another's abort, before its turn", "found by another's abort, after its turn", "found by a tick",
    "waiting and found in one round", "waiting and found in one round, by its tick", "found again, after a put-back",
    "two founds in one tick", "two wait for one kind, one is served",
    "takes a starting entry", "takes what another wrote", "takes what it wrote itself",
    "taken entry ends in the hold",
    "hold 0, found at once", "hold 1, found at once", "hold 2, found at once", "longer hold, found at once",
    "hold 0, found by a frame", "hold 1, found by a frame", "hold 2, found by a frame", "longer hold, found by a frame",
    "hold 0, found by a tick", "hold 1, found by a tick", "hold 2, found by a tick", "longer hold, found by a tick",
    "nothing at once", "nothing after a wait", "nothing and exception in one round",
    "waiting and nothing in one round",
    "created and exception in one round",
    "exception in a wait", "exception in the tick of the deadline",
    "found and exception in one round", "exception in a hold",
    "exception before the commit", "exception before the abort", "two exceptions in one tick",
    "commit", "commit of a written lease 0", "commit of what has ended since its write", "abort after nothing",
    "abort after a refused frame",
    "23: under 3 words", "23: 0 panes", "23: 5 panes or more", "23: 9 starting entries or more",
    "23: words too few", "23: words left over", "23: counts too short", "23: rounds above 1000 too",
];

pub struct Coverage {
    situations: Situations,
}

impl Default for Coverage {
    fn default() -> Coverage {
        Coverage { situations: Situations::of(&SITUATIONS) }
    }
}

impl seeds::Coverage for Coverage {
    fn situations(&self) -> &Situations {
        &self.situations
    }
}

/// How a pane's take was answered found.
#[derive(Clone, Copy, PartialEq)]
enum By {
    Itself,
    Frame,
    Tick,
}

/// What a pane is about.
#[derive(Clone, Copy, PartialEq)]
enum At {
    Start,
    Created,
    Waiting { until: u64 },
    Found { by: By, entry: u32 },
    Written { end: u64 },
    Nothing,
    Refused,
}

/// A pane as its frames and records show it, and since which round it is about that.
#[derive(Clone, Copy)]
struct Watched {
    at: At,
    since: u32,
}

/// An entry: who wrote it, when it ends, and whether it was taken.
struct Known {
    writer: u8,
    end: u64,
    taken: bool,
}

/// A clock; FOREVER is no clock, so it is beyond all.
fn end_of(clock: u64, duration: u32) -> u64 {
    if duration == FOREVER {
        u64::MAX
    } else {
        clock + u64::from(duration)
    }
}

/// A walk along a trial's steps.
struct Walk<'a> {
    coverage: &'a mut Coverage,
    setup: &'a Setup,
    panes: Vec<Watched>,
    entries: BTreeMap<u32, Known>,
    /// Before the step.
    clock: u64,
}

impl Walk<'_> {
    fn note(&mut self, situation: &str, holds: bool) {
        self.coverage.note(situation, holds);
    }

    fn step(&mut self, step: &Step) {
        let (operation, sender) = (step.frame[0], step.frame[1]);
        for (place, record) in step.records.iter().enumerate() {
            if record.is(Kind::Written) {
                let end = end_of(self.clock, word(&step.frame, 8));
                self.entries.insert(record.entry, Known { writer: sender, end, taken: false });
            }
            if (1..=self.setup.panes.len()).contains(&usize::from(record.party)) {
                match place {
                    0 => self.own(step, record),
                    _ => self.later(step, record),
                }
            }
        }
        if operation == 9 {
            let several = |kind| step.records.iter().filter(|record| record.is(kind)).count() > 1;
            self.note("two exceptions in one tick", several(Kind::Exception));
            self.note("two founds in one tick", several(Kind::Found));
            self.clock += 1;
        }
    }

    /// The frame's own record, to the pane that sent it.
    fn own(&mut self, step: &Step, record: &Record) {
        let place = usize::from(record.party) - 1;
        let (pane, was) = (self.setup.panes[place], self.panes[place].at);
        if record.is(Kind::Refused) {
            self.refused(step.frame[0], record.refusal);
        } else if step.frame.len() >= 12 {
            self.lasting_to_the_last_clock(step.frame[0], record, word(&step.frame, 8));
        }
        let at = match (step.frame[0], record.is(Kind::Refused)) {
            (6, true) => At::Start,
            (_, true) => At::Refused,
            (6, _) => self.created(),
            (1, _) => self.written(&pane, was),
            (3, _) => self.looked_up(record, &pane),
            (7, _) => self.committed(&pane, was),
            _ => self.aborted(was),
        };
        self.panes[place] = Watched { at, since: step.round };
    }

    fn refused(&mut self, operation: u8, number: u8) {
        let name = match operation {
            6 => "create",
            3 => "take",
            1 => "write",
            _ => "ending",
        };
        self.note(&format!("{name} refused with {number}"), true);
    }

    fn lasting_to_the_last_clock(&mut self, operation: u8, record: &Record, duration: u32) {
        let last = self.clock > 0 && end_of(self.clock, duration) == u64::from(LAST_CLOCK);
        match operation {
            6 => self.note("create to the last clock", last),
            1 => self.note("write to the last clock", last),
            _ => self.note("wait to the last clock", last && record.is(Kind::Waiting)),
        }
    }

    fn created(&mut self) -> At {
        self.note("create", true);
        At::Created
    }

    fn looked_up(&mut self, record: &Record, pane: &Pane) -> At {
        if record.is(Kind::Waiting) {
            return At::Waiting { until: end_of(self.clock, pane.timeout) };
        }
        if record.is(Kind::Nothing) {
            self.note("nothing at once", true);
            return At::Nothing;
        }
        self.note("found at once", true);
        self.found(record, By::Itself)
    }

    fn found(&mut self, record: &Record, by: By) -> At {
        let known = self.entries.get_mut(&record.entry).expect("what is found was written");
        let (writer, again) = (known.writer, known.taken);
        known.taken = true;
        self.note("found again, after a put-back", again);
        self.note("takes a starting entry", writer == 16);
        self.note("takes what it wrote itself", writer == record.party);
        self.note("takes what another wrote", writer != 16 && writer != record.party);
        At::Found { by, entry: record.entry }
    }

    fn written(&mut self, pane: &Pane, was: At) -> At {
        if let At::Found { by, entry } = was {
            let held = match pane.hold {
                0..=2 => format!("hold {}", pane.hold),
                _ => "longer hold".to_string(),
            };
            let found = match by {
                By::Itself => "at once",
                By::Frame => "by a frame",
                By::Tick => "by a tick",
            };
            self.note(&format!("{held}, found {found}"), true);
            self.note("taken entry ends in the hold", self.entries[&entry].end <= self.clock);
        }
        At::Written { end: end_of(self.clock, pane.written_lease) }
    }

    fn committed(&mut self, pane: &Pane, was: At) -> At {
        let ended = matches!(was, At::Written { end } if end <= self.clock);
        self.note("commit", true);
        self.note("commit of a written lease 0", pane.written_lease == 0);
        self.note("commit of what has ended since its write", pane.written_lease != 0 && ended);
        At::Start
    }

    fn aborted(&mut self, was: At) -> At {
        self.note("abort after nothing", was == At::Nothing);
        self.note("abort after a refused frame", was == At::Refused);
        At::Start
    }

    /// A record to a pane in the step of another's frame, or of a tick.
    fn later(&mut self, step: &Step, record: &Record) {
        let place = usize::from(record.party) - 1;
        let Watched { at: was, since } = self.panes[place];
        let now = since == step.round;
        let at = if record.is(Kind::Found) {
            self.served(step, record, now)
        } else if record.is(Kind::Nothing) {
            self.note("nothing after a wait", true);
            self.note("waiting and nothing in one round", now);
            At::Nothing
        } else {
            self.excepted(was, now);
            At::Start
        };
        self.panes[place] = Watched { at, since: step.round };
    }

    fn served(&mut self, step: &Step, record: &Record, now: bool) -> At {
        let (operation, sender) = (step.frame[0], step.frame[1]);
        let turn = if sender < record.party { "before" } else { "after" };
        match operation {
            7 => self.note(&format!("found by another's commit, {turn} its turn"), true),
            8 => self.note(&format!("found by another's abort, {turn} its turn"), true),
            _ => self.note("found by a tick", true),
        }
        self.note("waiting and found in one round", now && operation != 9);
        self.note("waiting and found in one round, by its tick", now && operation == 9);
        let kind = |party: u8| self.setup.panes[usize::from(party) - 1].takes;
        let left = (1..).zip(&self.panes).any(|(party, pane)| {
            let waits = matches!(pane.at, At::Waiting { .. });
            party != record.party && waits && kind(party) == kind(record.party)
        });
        self.note("two wait for one kind, one is served", left);
        self.found(record, if operation == 9 { By::Tick } else { By::Frame })
    }

    /// In a tick, which has made the clock one more.
    fn excepted(&mut self, was: At, now: bool) {
        let clock = self.clock + 1;
        match was {
            At::Created => self.note("created and exception in one round", now),
            At::Waiting { until } => {
                self.note("exception in a wait", true);
                self.note("exception in the tick of the deadline", until == clock);
            }
            At::Found { .. } => {
                self.note("found and exception in one round", now);
                self.note("exception in a hold", !now);
            }
            At::Written { .. } => self.note("exception before the commit", true),
            At::Nothing | At::Refused => {
                self.note("exception before the abort", true);
                self.note("nothing and exception in one round", now && was == At::Nothing);
            }
            At::Start => panic!("an exception to a pane without a transaction"),
        }
    }
}

impl Coverage {
    fn note(&mut self, situation: &str, holds: bool) {
        self.situations.note(situation, holds);
    }

    pub fn count(&mut self, case: &Case) {
        match judge(&case.words, case.room) {
            Ok(setup) => self.counted(case, &setup),
            Err(Refusal::Rounds) => self.note("refused with 24", true),
            Err(_) => self.not_a_setup(case),
        }
    }

    fn counted(&mut self, case: &Case, setup: &Setup) {
        self.note("counted", true);
        self.numbers(case, setup);
        setup.panes.iter().for_each(|pane| self.pane(setup, pane));
        let trial = run(setup);
        self.walk(setup, &trial);
        for party in (1..).take(setup.panes.len()) {
            let counts = trial.counts(party);
            self.note("a pane with commits, exceptions and nothings", !counts.contains(&0));
            self.note("a pane with none of these in 20 rounds", setup.rounds >= 20 && counts == [0; COUNTS]);
        }
    }

    fn numbers(&mut self, case: &Case, setup: &Setup) {
        let panes = setup.panes.len();
        self.note(&format!("{panes} {}", if panes == 1 { "pane" } else { "panes" }), true);
        self.note("0 rounds", setup.rounds == 0);
        self.note("1 round", setup.rounds == 1);
        self.note("1000 rounds", setup.rounds == MOST_ROUNDS);
        self.note("no starting entry", setup.starting.is_empty());
        self.note("8 starting entries", setup.starting.len() == MOST_STARTING);
        self.note("counts as long as needed", case.room == COUNTS * panes);
        self.note("counts longer", case.room > COUNTS * panes);
    }

    fn pane(&mut self, setup: &Setup, pane: &Pane) {
        self.note("transactions FOREVER", pane.lease == FOREVER);
        self.note("timeout FOREVER", pane.timeout == FOREVER);
        self.note("written FOREVER", pane.written_lease == FOREVER);
        self.note("hold beyond the rounds", pane.hold > setup.rounds);
        self.note("kind 0 taken", pane.takes == 0);
        self.note("kind 4294967295 taken", pane.takes == FOREVER);
    }

    fn walk(&mut self, setup: &Setup, trial: &Trial) {
        let panes = vec![Watched { at: At::Start, since: 0 }; setup.panes.len()];
        let mut walk = Walk { coverage: self, setup, panes, entries: BTreeMap::new(), clock: 0 };
        trial.steps.iter().for_each(|step| walk.step(step));
        let entries = walk.entries;
        for (number, &Starting { fields, lease }) in (1..).zip(&setup.starting) {
            let ends = lease != 0 && lease <= setup.rounds;
            self.note("starting entry FOREVER", lease == FOREVER);
            self.note("starting entry of lease 0", lease == 0);
            self.note("starting entry that ends", ends);
            self.note("starting entry that ends untaken", ends && !entries[&number].taken);
            self.note("side, image or place not 0", fields[1..] != [0; 3]);
        }
    }

    /// 23, whatever the reason.
    fn not_a_setup(&mut self, case: &Case) {
        let Case { words, room } = case;
        self.note("refused with 23", true);
        self.note("23: under 3 words", words.len() < 3);
        let &[rounds, panes, starting, ..] = words.as_slice() else { return };
        let wanted = 3 + 6 * u64::from(panes) + 5 * u64::from(starting);
        self.note("23: 0 panes", panes == 0);
        self.note("23: 5 panes or more", panes as usize > MOST_PANES);
        self.note("23: 9 starting entries or more", starting as usize > MOST_STARTING);
        self.note("23: words too few", (words.len() as u64) < wanted);
        self.note("23: words left over", (words.len() as u64) > wanted);
        self.note("23: counts too short", setup(words).is_some_and(|setup| *room < COUNTS * setup.panes.len()));
        self.note("23: rounds above 1000 too", rounds > MOST_ROUNDS);
    }
}
