//! What occurs with arcs (document 02, T-09).

use super::hand_outs::look_up_of;
use super::situation::{of, Step, Times};
use reference::answer::Kind;
use reference::clock_face::{Arc, PLACES};
use reference::frame::{asks_arc, word, Mark, LOOK_UPS, NONE, PLACE};
use reference::space::{Entry, LookUp, Registration, MOST_REGISTRATIONS};

/// The bit of a blank place.
const BLANK_PLACE: u8 = 1 << PLACE;

/// Where a mark lies, seen from an arc.
type Position = fn(Arc, &Mark) -> bool;

/// A position that is not in the arc; its names where a look-up does not find the mark at once, where one waits on, and
/// where no bell rings.
struct Outside {
    holds: Position,
    passed: &'static str,
    waits_on: &'static str,
    silent: &'static str,
}

const OUTSIDE: [Outside; 4] = [
    Outside {
        holds: just_before,
        passed: "arc, not found: just before its start",
        waits_on: "arc, waits on: just before its start",
        silent: "arc, silent: just before its start",
    },
    Outside {
        holds: just_behind,
        passed: "arc, not found: just behind its end",
        waits_on: "arc, waits on: just behind its end",
        silent: "arc, silent: just behind its end",
    },
    Outside {
        holds: is_blank,
        passed: "arc, not found: a blank, which is 0",
        waits_on: "arc, waits on: a blank, which is 0",
        silent: "arc, silent: a blank, which is 0",
    },
    Outside {
        holds: is_larger,
        passed: "arc, not found: 720 or more",
        waits_on: "arc, waits on: 720 or more",
        silent: "arc, silent: 720 or more",
    },
];

fn end(arc: Arc) -> u32 {
    (arc.start + arc.length) % PLACES
}

fn has(arc: Arc, mark: &Mark) -> bool {
    mark.blanks & BLANK_PLACE == 0 && arc.has(mark.fields[PLACE])
}

pub fn at_start(arc: Arc, mark: &Mark) -> bool {
    has(arc, mark) && mark.fields[PLACE] == arc.start
}

pub fn at_end(arc: Arc, mark: &Mark) -> bool {
    has(arc, mark) && mark.fields[PLACE] == end(arc)
}

pub fn inside(arc: Arc, mark: &Mark) -> bool {
    has(arc, mark) && !at_start(arc, mark) && !at_end(arc, mark)
}

/// The arc goes on behind 12:00, where the mark lies.
pub fn behind_12(arc: Arc, mark: &Mark) -> bool {
    has(arc, mark) && mark.fields[PLACE] < arc.start
}

/// It does, and the mark lies before.
pub fn before_12(arc: Arc, mark: &Mark) -> bool {
    has(arc, mark) && mark.fields[PLACE] >= arc.start && arc.start + arc.length >= PLACES
}

pub fn just_before(arc: Arc, mark: &Mark) -> bool {
    let place = mark.fields[PLACE];
    mark.blanks & BLANK_PLACE == 0 && !arc.has(place) && place == (arc.start + PLACES - 1) % PLACES
}

pub fn just_behind(arc: Arc, mark: &Mark) -> bool {
    let place = mark.fields[PLACE];
    mark.blanks & BLANK_PLACE == 0 && !arc.has(place) && place == (end(arc) + 1) % PLACES
}

/// A blank, which is kept as 0, and the arc has that.
pub fn is_blank(arc: Arc, mark: &Mark) -> bool {
    mark.blanks & BLANK_PLACE != 0 && arc.has(0)
}

/// A larger place, and the arc has it modulo 720.
pub fn is_larger(arc: Arc, mark: &Mark) -> bool {
    mark.fields[PLACE] >= PLACES && arc.has(mark.fields[PLACE] % PLACES)
}

/// The mark as it would be at the arc's start.
fn placed(arc: Arc, mark: &Mark) -> Mark {
    let mut placed = Mark { blanks: mark.blanks & !BLANK_PLACE, ..*mark };
    placed.fields[PLACE] = arc.start;
    placed
}

/// Whether an entry that lies there would be what the look-up wants, if it lay in the arc.
fn but_for(look_up: &LookUp, entry: &Entry, lies: Position, wanted: fn(&Entry, &LookUp) -> bool) -> bool {
    look_up.template.arc().is_some_and(|arc| {
        let there = Entry { mark: placed(arc, &entry.mark), ..entry.clone() };
        lies(arc, &entry.mark) && wanted(&there, look_up)
    })
}

impl Step<'_> {
    /// A look-up with an arc that is not refused.
    fn asked_arc(&self) -> Vec<Times> {
        let Some(look_up) = look_up_of(self.frame).filter(|it| it.template.arc().is_some()) else { return Vec::new() };
        let stored = &self.before.entries;
        let found = self.own(Kind::Found);
        let passed = |it: &Outside| !found && stored.iter().any(|e| but_for(&look_up, e, it.holds, Entry::available));
        let conflicts = |it: &Outside| stored.iter().any(|e| but_for(&look_up, e, it.holds, Entry::conflicts));
        let in_vain = look_up.kind.if_exists && self.own(Kind::Nothing) && word(self.frame, 8) != 0;
        let mut times: Vec<Times> = OUTSIDE.iter().map(|it| (it.passed, of(passed(it)))).collect();
        times.extend([
            ("arc, and nothing else asked", of(self.frame[2] == 16)),
            ("arc, and other fields asked", of(self.frame[2] != 16)),
            ("arc, nothing", of(self.own(Kind::Nothing))),
            ("arc, waits", of(self.own(Kind::Waiting))),
            ("arc, IfExists waits", of(self.own(Kind::Waiting) && look_up.kind.if_exists)),
            ("arc, IfExists: another's is outside", of(in_vain && OUTSIDE.iter().any(conflicts))),
        ]);
        times
    }

    /// The look-ups with an arc that waited before.
    fn waited_arcs(&self) -> Vec<Times> {
        let wait_on = |it: &Outside| self.waiting_on(|w, e| but_for(w, e, it.holds, Entry::available));
        let mut times: Vec<Times> = OUTSIDE.iter().map(|it| (it.waits_on, wait_on(it))).collect();
        let waited = |party: u8| {
            let mut arcs = self.before.waiting.iter().filter(|look_up| look_up.template.arc().is_some());
            arcs.find(|look_up| look_up.party == party)
        };
        let nothings = self.records[1..].iter().filter(|record| record.is(Kind::Nothing));
        let closed: Vec<&LookUp> = nothings.filter_map(|nothing| waited(nothing.party)).collect();
        let by_deadline = |it: &&&LookUp| it.deadline.reached(self.after.clock);
        times.extend([
            ("arc, nothing later by deadline", closed.iter().filter(by_deadline).count()),
            ("arc, nothing later in vain", closed.iter().filter(|it| !by_deadline(it)).count()),
        ]);
        times
    }

    /// The registrations with an arc, where entries become public.
    fn rung_arcs(&self) -> Vec<Times> {
        let public = self.public();
        let live = self.before.registrations.iter().filter(|_| !public.is_empty());
        let rings = |it: &&Registration| self.bells().iter().any(|bell| bell.entry == it.number);
        let (rung, silent): (Vec<&Registration>, Vec<&Registration>) = live.partition(rings);
        let heard = |it: &Registration, mark: &Mark, lies: Position| {
            it.template.arc().is_some_and(|arc| lies(arc, mark) && it.template.matches(&placed(arc, mark)))
        };
        let count = |among: &[&Registration], lies: Position| {
            among.iter().filter(|it| public.iter().any(|(_, mark)| heard(it, mark, lies))).count()
        };
        let mut times: Vec<Times> = OUTSIDE.iter().map(|it| (it.silent, count(&silent, it.holds))).collect();
        times.extend([
            ("arc, bell: at its start", count(&rung, at_start)),
            ("arc, bell: at its end", count(&rung, at_end)),
            ("arc, bell: inside", count(&rung, inside)),
            ("arc, bell: across 12:00, before it", count(&rung, before_12)),
            ("arc, bell: across 12:00, behind it", count(&rung, behind_12)),
        ]);
        times
    }

    /// The name for a look-up, or the one for a notify.
    fn either(&self, look_up: &'static str, notify: &'static str) -> &'static str {
        if self.frame[0] == 10 {
            notify
        } else {
            look_up
        }
    }

    /// A template with bit 4 that is refused with 4: for its mask alone, or for a field alone.
    fn ill_formed_arc(&self) -> Vec<Times> {
        let (frame, mask) = (self.frame, self.frame[2]);
        let unasked = (0..PLACE).any(|i| mask >> i & 1 == 0 && word(frame, 12 + 4 * i) != 0);
        let sound = frame[3] == 0 && (frame[0] != 10 || word(frame, 4) == NONE);
        let (with_bit_3, above) = (mask & 8 != 0, mask > 31);
        let by_mask = |holds: bool| of(sound && !unasked && holds);
        vec![
            (
                self.either("look-up refused: bits 3 and 4", "notify refused: bits 3 and 4"),
                by_mask(with_bit_3 && !above),
            ),
            (
                self.either("look-up refused: bit 4 and above", "notify refused: bit 4 and above"),
                by_mask(above && !with_bit_3),
            ),
            (
                self.either("look-up refused: arc, one not asked", "notify refused: arc, one not asked"),
                of(sound && unasked && mask <= 23),
            ),
        ]
    }

    /// 21, by what is out of range, and what stands behind it in the order.
    fn off_the_face(&self, arc: Arc) -> Vec<Times> {
        let (frame, before) = (self.frame, self.before);
        let (start, length) = (arc.start >= PLACES, arc.length >= PLACES);
        let transaction = word(frame, 4);
        let live = before.transactions.iter().any(|live| live.number == transaction);
        let waits = before.waiting.iter().any(|look_up| look_up.party == frame[1]);
        let full = frame[0] == 10 && before.registrations.len() == MOST_REGISTRATIONS;
        vec![
            (self.either("look-up with 21: the start", "notify with 21: the start"), of(start && !length)),
            (self.either("look-up with 21: the length", "notify with 21: the length"), of(length && !start)),
            ("21: start 720", of(arc.start == PLACES)),
            ("21: length 720", of(arc.length == PLACES)),
            ("21, and the party waits", of(waits)),
            ("21, and the transaction is not live", of(transaction != NONE && !live)),
            ("21, and it is another party's", of(live && !self.is_own(transaction))),
            ("21, and too late", of(self.is_too_late())),
            ("21, and lease 0", of(frame[0] == 10 && word(frame, 8) == 0)),
            ("21, and 8 registrations live", of(full)),
        ]
    }

    /// A refused frame with bit 4.
    fn refused_arc(&self) -> Vec<Times> {
        let (frame, number) = (self.frame, self.records[0].refusal);
        if frame.len() < 4 || frame[2] & 16 == 0 {
            return Vec::new();
        }
        let has_template = frame.len() == 28 && (LOOK_UPS.contains(&frame[0]) || frame[0] == 10);
        let arc = has_template.then(|| Arc::of(word(frame, 24)));
        let off = arc.is_some_and(|arc| asks_arc(frame[2]) && arc.judge().is_err());
        let bit_4 = if frame[0] == 1 { "write refused: bit 4" } else { "another refused: bit 4" };
        match (number, arc) {
            (4, None) => vec![(bit_4, of(frame[2] < 32 && frame[3] == 0))],
            (4, _) => [vec![("4, and the arc off the face", of(off))], self.ill_formed_arc()].concat(),
            (5, _) => vec![("5, and the arc off the face", of(off))],
            (21, Some(arc)) => self.off_the_face(arc),
            _ => Vec::new(),
        }
    }

    /// A frame that wrote some record has been compared.
    pub fn arcs(&self) -> Vec<Times> {
        if self.own(Kind::Refused) {
            return self.refused_arc();
        }
        if self.own(Kind::Notified) {
            return vec![("notified, an arc", of(asks_arc(self.frame[2])))];
        }
        [self.asked_arc(), self.waited_arcs(), self.rung_arcs()].concat()
    }
}
