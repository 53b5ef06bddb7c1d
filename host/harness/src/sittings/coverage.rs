//! How often each thing that can occur in lists of trays has occurred, told from the reference's sittings.

use crate::seeds::{self, Situations};
use reference::answer::{Kind, Record, RECORD, STEP};
use reference::frame::{word, Refusal, FOREVER, LOOK_UPS, NONE};
use reference::sittings::{add, closes, sitting, Figures, Report, Step};
use reference::sittings::{HANDED_IN, MOST_TRAYS, PARTIES};
use reference::tray::{judge, LONGEST_TRAY, MOST_FRAMES};
use tray::bytes::frames_of;

#[rustfmt::skip]
const SITUATIONS: [&str; 78] = [
    "no tray", "1 tray", "63 trays", "64 trays", "65 trays or more",
    "25: a tray that would be run", "25: a tray that 15 refuses", "25: a tray that 16 refuses",
    "tray run", "refused with 15", "refused with 16",
    "refused with 15, look-ups in it", "refused with 16, look-ups in it",
    "refused tray between two that are run", "all trays refused, two or more",
    "tray without frames", "tray of 2000 frames", "more records than the program's area holds",
    "look-up found at once", "look-up gets nothing at once", "look-up refused", "look-up refused, of no party",
    "a read waits", "a take waits", "a readIfExists waits", "a takeIfExists waits",
    "waits outside transactions", "waits in a transaction", "waits without a deadline",
    "found by a write", "found by a commit", "found by an abort", "found by another's abort out of a wait",
    "found by a tick", "found in the tick of the deadline",
    "nothing at the deadline", "nothing in vain, by a frame", "nothing in vain, by a tick",
    "closed by an exception", "closed by an exception, in the tick of the deadline", "closed by its abort",
    "open at the end, after ticks", "open at the end, after no tick",
    "closed after no tick", "closed after 1 tick", "closed after 2 ticks or more",
    "two parties wait", "16 parties wait", "two waits closed by one frame", "one wait is closed, another goes on",
    "look-up refused in a wait", "other frame refused in a wait", "bell in a wait",
    "exception of another transaction in a wait",
    "party waits twice in a tray", "party waits ten times in a tray",
    "party waits inside and outside", "the longest wait is not the last", "two waits as long as the longest",
    "waits of no tick alone",
    "founds, at once and served", "founds, only at once", "founds, only served",
    "look-ups and no wait", "waits and no found",
    "party waits in two trays", "the longest wait in an earlier tray", "the longest wait in a later tray",
    "waits at the end, looks up in the next tray", "all 16 parties look up", "a party that does not look up",
    "any words: 25, word 0 of 64", "any words: 25, word 0 above 64", "any words: 25, of a refused tray",
    "any words: refused with 15", "any words: refused with 16", "any words: run", "any words: a sum beyond 32 bits",
];

pub struct Coverage {
    situations: Situations,
    pub trays: u64,
    pub waits: u64,
}

impl Default for Coverage {
    fn default() -> Coverage {
        Coverage { situations: Situations::of(&SITUATIONS), trays: 0, waits: 0 }
    }
}

impl seeds::Coverage for Coverage {
    fn situations(&self) -> &Situations {
        &self.situations
    }

    fn made_of(&self) -> String {
        format!(" of {} trays with {} waits", self.trays, self.waits)
    }
}

/// A look-up that waits.
#[derive(Clone, Copy)]
struct Open {
    since: u32,
    /// A clock; none for FOREVER.
    deadline: Option<u32>,
    transaction: u32,
}

/// A wait that is over.
#[derive(Clone, Copy)]
struct Wait {
    ticks: u32,
    inside: bool,
}

/// What a walk along a tray's steps has seen of a party.
#[derive(Clone, Default)]
struct Seen {
    open: Option<Open>,
    waits: Vec<Wait>,
    at_once: u32,
    served: u32,
}

/// A walk along a tray's steps.
struct Walk<'a> {
    coverage: &'a mut Coverage,
    /// By party; the first is nobody's.
    parties: Vec<Seen>,
}

fn is_party(party: u8) -> bool {
    (1..=PARTIES).contains(&party)
}

impl Walk<'_> {
    fn note(&mut self, situation: &str, holds: bool) {
        self.coverage.note(situation, holds);
    }

    fn step(&mut self, step: &Step) {
        let escapes = self.waits(step.frame.get(1).copied().unwrap_or(0));
        let mut closed = 0;
        for record in step.records.iter().filter(|record| is_party(record.party)) {
            let Some(open) = self.parties[usize::from(record.party)].open else { continue };
            if closes(record, record.party, open.transaction) {
                closed += 1;
                self.closed(step, record, open, escapes);
                self.over(record.party, step.clock);
            } else {
                self.passed(step, record);
            }
        }
        let open = (1..=PARTIES).filter(|&party| self.waits(party)).count();
        self.note("two waits closed by one frame", closed > 1);
        self.note("one wait is closed, another goes on", closed > 0 && open > 0);
        if step.frame.first().is_some_and(|operation| LOOK_UPS.contains(operation)) {
            self.look_up(step, &step.records[0]);
        }
    }

    fn waits(&self, party: u8) -> bool {
        is_party(party) && self.parties[usize::from(party)].open.is_some()
    }

    /// A wait is over, at this clock.
    fn over(&mut self, party: u8, clock: u32) -> u32 {
        let seen = &mut self.parties[usize::from(party)];
        let open = seen.open.take().expect("a party that waits");
        let ticks = clock - open.since;
        seen.waits.push(Wait { ticks, inside: open.transaction != NONE });
        self.coverage.waits += 1;
        ticks
    }

    /// By the closing answer. `escapes`: the frame is of a party that waits.
    fn closed(&mut self, step: &Step, record: &Record, open: Open, escapes: bool) {
        let (by_tick, at_deadline) = (step.frame[0] == 9, open.deadline == Some(step.clock));
        if record.is(Kind::Found) {
            self.parties[usize::from(record.party)].served += 1;
            let by = match step.frame[0] {
                1 => "found by a write",
                7 => "found by a commit",
                8 if escapes => "found by another's abort out of a wait",
                8 => "found by an abort",
                _ => "found by a tick",
            };
            self.note(by, true);
            self.note("found in the tick of the deadline", at_deadline);
        } else if record.is(Kind::Nothing) {
            self.note("nothing at the deadline", at_deadline);
            self.note("nothing in vain, by a frame", !by_tick);
            self.note("nothing in vain, by a tick", by_tick && !at_deadline);
        } else {
            self.note("closed by its abort", record.is(Kind::Aborted));
            self.note("closed by an exception", record.is(Kind::Exception));
            self.note("closed by an exception, in the tick of the deadline", at_deadline);
        }
        match step.clock - open.since {
            0 => self.note("closed after no tick", true),
            1 => self.note("closed after 1 tick", true),
            _ => self.note("closed after 2 ticks or more", true),
        }
    }

    /// A record to a party that waits on.
    fn passed(&mut self, step: &Step, record: &Record) {
        let look_up = LOOK_UPS.contains(&step.frame[0]);
        self.note("look-up refused in a wait", record.is(Kind::Refused) && look_up);
        self.note("other frame refused in a wait", record.is(Kind::Refused) && !look_up);
        self.note("bell in a wait", record.is(Kind::Rung));
        self.note("exception of another transaction in a wait", record.is(Kind::Exception));
    }

    /// A look-up's own record.
    fn look_up(&mut self, step: &Step, own: &Record) {
        self.note("look-up refused", own.is(Kind::Refused));
        self.note("look-up refused, of no party", own.is(Kind::Refused) && !is_party(own.party));
        self.note("look-up found at once", own.is(Kind::Found));
        self.note("look-up gets nothing at once", own.is(Kind::Nothing));
        if own.is(Kind::Found) {
            self.parties[usize::from(own.party)].at_once += 1;
        }
        if own.is(Kind::Waiting) {
            self.begin(step, own);
        }
    }

    fn begin(&mut self, step: &Step, own: &Record) {
        let name = ["read", "take", "readIfExists", "takeIfExists"][usize::from(step.frame[0]) - 2];
        let (transaction, timeout) = (word(&step.frame, 4), word(&step.frame, 8));
        self.note(&format!("a {name} waits"), true);
        self.note("waits outside transactions", transaction == NONE);
        self.note("waits in a transaction", transaction != NONE);
        self.note("waits without a deadline", timeout == FOREVER);
        let deadline = (timeout != FOREVER).then(|| step.clock + timeout);
        self.parties[usize::from(own.party)].open = Some(Open { since: step.clock, deadline, transaction });
        let open = (1..=PARTIES).filter(|&party| self.waits(party)).count();
        self.note("two parties wait", open == 2);
        self.note("16 parties wait", open == 16);
    }

    /// The tray's end; gives who waits then.
    fn end(&mut self, clock: u32) -> Vec<u8> {
        let open: Vec<u8> = (1..=PARTIES).filter(|&party| self.waits(party)).collect();
        for &party in &open {
            let ticks = self.over(party, clock);
            self.note("open at the end, after no tick", ticks == 0);
            self.note("open at the end, after ticks", ticks > 0);
        }
        for seen in std::mem::take(&mut self.parties) {
            self.party(&seen);
        }
        open
    }

    /// What the tray has had of a party.
    fn party(&mut self, Seen { waits, at_once, served, .. }: &Seen) {
        let longest = waits.iter().map(|wait| wait.ticks).max();
        let as_long = waits.iter().filter(|wait| Some(wait.ticks) == longest).count();
        let last = waits.last().map(|wait| wait.ticks);
        self.note("party waits twice in a tray", waits.len() == 2);
        self.note("party waits ten times in a tray", waits.len() >= 10);
        self.note("party waits inside and outside", waits.iter().any(|a| waits.iter().any(|b| a.inside != b.inside)));
        self.note("the longest wait is not the last", longest != last);
        self.note("two waits as long as the longest", as_long > 1 && longest > Some(0));
        self.note("waits of no tick alone", longest == Some(0));
        self.note("founds, at once and served", *at_once > 0 && *served > 0);
        self.note("founds, only at once", *at_once > 0 && *served == 0);
        self.note("founds, only served", *at_once == 0 && *served > 0);
        self.note("waits and no found", !waits.is_empty() && at_once + served == 0);
    }
}

impl Coverage {
    fn note(&mut self, situation: &str, holds: bool) {
        self.situations.note(situation, holds);
    }

    pub fn count(&mut self, trays: &[Vec<u8>]) {
        let most = MOST_TRAYS as usize;
        self.trays += trays.len() as u64;
        self.note("no tray", trays.is_empty());
        for (name, count) in [("1 tray", 1), ("63 trays", most - 1), ("64 trays", most)] {
            self.note(name, trays.len() == count);
        }
        self.note("65 trays or more", trays.len() > most);
        let (handed_in, beyond) = trays.split_at(trays.len().min(most));
        for tray in beyond {
            match judge(tray) {
                Ok(_) => self.note("25: a tray that would be run", true),
                Err(refusal) => self.note(&format!("25: a tray that {} refuses", refusal as u8), true),
            }
        }
        let histories: Vec<Option<Vec<Step>>> = handed_in.iter().map(|tray| self.tray(tray)).collect();
        let is_run: Vec<bool> = histories.iter().map(Option::is_some).collect();
        self.note("refused tray between two that are run", is_run.windows(3).any(|three| three == [true, false, true]));
        self.note("all trays refused, two or more", is_run.len() > 1 && !is_run.contains(&true));
        self.list(&histories.into_iter().flatten().collect::<Vec<Vec<Step>>>());
    }

    /// One tray that is handed in: its steps, unless it is refused.
    fn tray(&mut self, tray: &[u8]) -> Option<Vec<Step>> {
        let steps = match sitting(tray) {
            Ok(steps) => steps,
            Err(refusal) => {
                self.refused(tray, refusal);
                return None;
            }
        };
        let records: usize = steps.iter().map(|step| step.records.len()).sum();
        self.note("tray run", true);
        self.note("tray without frames", steps.is_empty());
        self.note("tray of 2000 frames", steps.len() == MOST_FRAMES as usize);
        self.note("more records than the program's area holds", RECORD * records + STEP > LONGEST_TRAY);
        Some(steps)
    }

    fn refused(&mut self, tray: &[u8], refusal: Refusal) {
        let look_up = |frame: &&[u8]| frame.first().is_some_and(|operation| LOOK_UPS.contains(operation));
        let name = format!("refused with {}", refusal as u8);
        self.note(&name, true);
        self.note(&format!("{name}, look-ups in it"), frames_of(tray).iter().any(look_up));
    }

    /// The histories of a list.
    fn list(&mut self, histories: &[Vec<Step>]) {
        let mut waiting = Vec::new();
        for steps in histories {
            let looks_up = |party: &u8| steps.iter().any(|step| step.asks(*party));
            self.note("waits at the end, looks up in the next tray", waiting.iter().any(looks_up));
            let mut walk = Walk { coverage: self, parties: vec![Seen::default(); usize::from(PARTIES) + 1] };
            steps.iter().for_each(|step| walk.step(step));
            waiting = walk.end(steps.last().map_or(0, |step| step.clock));
        }
        let of = |party| histories.iter().map(move |steps| Figures::of(steps, party));
        let ask = |party: &u8| of(*party).any(|figures| figures.look_ups > 0);
        self.note("all 16 parties look up", (1..=PARTIES).all(|party| ask(&party)));
        self.note("a party that does not look up", histories.len() > 1 && !(1..=PARTIES).all(|party| ask(&party)));
        for party in 1..=PARTIES {
            self.party(&of(party).collect::<Vec<Figures>>());
        }
    }

    /// A party's figures in each of a list's histories.
    fn party(&mut self, all: &[Figures]) {
        let longest: Vec<u32> = all.iter().filter(|figures| figures.waits > 0).map(|figures| figures.longest).collect();
        self.note("look-ups and no wait", longest.is_empty() && all.iter().any(|figures| figures.look_ups > 0));
        self.note("party waits in two trays", longest.len() > 1);
        self.note("the longest wait in an earlier tray", longest.last() < longest.iter().max());
        self.note("the longest wait in a later tray", longest.first() < longest.iter().max());
    }

    /// A tray, handed in to a report with any words.
    pub fn on_any_words(&mut self, report: &Report, tray: &[u8]) {
        let mut after = *report;
        add(&mut after, tray);
        let sums = |figures: Figures| [figures.look_ups, figures.founds, figures.ticks, figures.waits];
        let wraps = |party| {
            let (before, after) = (sums(Figures::at(report, party)), sums(Figures::at(&after, party)));
            before.iter().zip(after).any(|(&before, after)| after < before)
        };
        let (handed_in, judged) = (report[HANDED_IN], judge(tray));
        if handed_in >= MOST_TRAYS {
            self.note("any words: 25, word 0 of 64", handed_in == MOST_TRAYS);
            self.note("any words: 25, word 0 above 64", handed_in > MOST_TRAYS);
            self.note("any words: 25, of a refused tray", judged.is_err());
        } else if let Err(refusal) = judged {
            self.note(&format!("any words: refused with {}", refusal as u8), true);
        } else {
            self.note("any words: run", true);
            self.note("any words: a sum beyond 32 bits", (1..=PARTIES).any(wraps));
        }
    }
}
