//! The founds of a step, each with the entries that were there at its turn.

use super::arcs::{at_end, at_start, before_12, behind_12, inside, is_blank, is_larger, just_before, just_behind};
use super::blanks::asks_0_of_a_blank;
use reference::answer::{Kind, Record, STEP};
use reference::clock_face::Arc;
use reference::frame::{decode, Mark, Request, Template, NONE};
use reference::space::{End, Entry, LookUp, Space};

/// An entry handed out, at once or in service.
pub struct HandOut {
    pub served: bool,
    look_up: LookUp,
    number: u32,
    /// The entries at the look-up's turn.
    entries: Vec<Entry>,
}

/// What a found can be, whether it can be that in service, and whether it is that.
type Situation = (&'static str, bool, fn(&HandOut) -> bool);

/// The situations of founds. A transaction's own private entry is available to its look-ups at once, and its owner
/// writes nothing while waiting: in service there is none.
pub const FOUNDS: [Situation; 24] = [
    ("read, of several", true, |it| it.of_several(false, false)),
    ("take, of several", true, |it| it.of_several(true, false)),
    ("readIfExists, of several", true, |it| it.of_several(false, true)),
    ("takeIfExists, of several", true, |it| it.of_several(true, true)),
    ("inside a transaction, of several", true, |it| it.look_up.transaction != NONE && it.newer().next().is_some()),
    ("an older match is held", true, |it| it.passed_over().any(|e| e.private_to == NONE)),
    ("an older match is another's private", true, |it| it.passed_over().any(|e| e.private_to != NONE)),
    ("committed, an own private is newer", false, |it| !it.own_private() && it.newer().any(|e| e.private_to != NONE)),
    ("own private, a committed is newer", false, |it| it.own_private() && it.newer().any(|e| e.private_to == NONE)),
    ("with blanks, by other fields", true, |it| it.has_blanks() && !it.asks_nothing()),
    ("with blanks, by any", true, |it| it.has_blanks() && it.asks_nothing()),
    ("an older is blank where 0 is asked", true, |it| it.older().any(|e| it.asks_0_of(e))),
    ("read, by an arc", true, |it| it.by_arc(|_, _| !it.look_up.kind.takes)),
    ("by an arc, at its start", true, |it| it.by_arc(at_start)),
    ("by an arc, at its end", true, |it| it.by_arc(at_end)),
    ("by an arc, inside", true, |it| it.by_arc(inside)),
    ("by an arc of one place", true, |it| it.by_arc(|arc, _| arc.length == 0)),
    ("by an arc that is the whole face", true, |it| it.by_arc(|arc, _| arc.length == 719)),
    ("by an arc across 12:00, before it", true, |it| it.by_arc(before_12)),
    ("by an arc across 12:00, behind it", true, |it| it.by_arc(behind_12)),
    ("an older is just before the arc", true, |it| it.by_arc_over(just_before)),
    ("an older is just behind the arc", true, |it| it.by_arc_over(just_behind)),
    ("an older is blank, by an arc", true, |it| it.by_arc_over(is_blank)),
    ("an older is 720 or more, by an arc", true, |it| it.by_arc_over(is_larger)),
];

impl HandOut {
    fn of_several(&self, takes: bool, if_exists: bool) -> bool {
        let kind = self.look_up.kind;
        kind.takes == takes && kind.if_exists == if_exists && self.newer().next().is_some()
    }

    fn available(&self) -> impl Iterator<Item = &Entry> {
        self.entries.iter().filter(|e| e.available(&self.look_up))
    }

    /// The available entries that were not handed out.
    fn newer(&self) -> impl Iterator<Item = &Entry> {
        self.available().filter(|e| e.number > self.number)
    }

    fn older(&self) -> impl Iterator<Item = &Entry> {
        self.entries.iter().filter(|e| e.number < self.number)
    }

    /// The matching entries with a lower number.
    fn passed_over(&self) -> impl Iterator<Item = &Entry> {
        self.older().filter(|e| self.look_up.template.matches(&e.mark))
    }

    fn handed_out(&self) -> impl Iterator<Item = &Entry> {
        self.entries.iter().filter(|e| e.number == self.number)
    }

    fn own_private(&self) -> bool {
        self.handed_out().any(|e| e.private_to != NONE)
    }

    fn asks_nothing(&self) -> bool {
        self.look_up.template == Template::new(0, [0; 4])
    }

    fn asks_0_of(&self, entry: &Entry) -> bool {
        asks_0_of_a_blank(&self.look_up.template, &entry.mark)
    }

    /// Whether it is found by an arc, and lies so.
    fn by_arc(&self, lies: impl Fn(Arc, &Mark) -> bool) -> bool {
        self.look_up.template.arc().is_some_and(|arc| self.handed_out().any(|e| lies(arc, &e.mark)))
    }

    /// Whether it is found by an arc, and an older entry lies so.
    fn by_arc_over(&self, lies: impl Fn(Arc, &Mark) -> bool) -> bool {
        self.look_up.template.arc().is_some_and(|arc| self.older().any(|e| lies(arc, &e.mark)))
    }

    fn has_blanks(&self) -> bool {
        self.handed_out().any(|e| e.mark.blanks != 0)
    }
}

/// The founds of a step that was not refused, as the reference wrote them. Each has the lowest number of those
/// available at its turn: so the reference keeps to the number, wherever it may store an entry.
pub fn hand_outs(before: &Space, frame: &[u8], records: &[Record]) -> Vec<HandOut> {
    let founds = records.iter().enumerate().filter(|(_, record)| record.is(Kind::Found));
    let hand_outs = founds.filter_map(|(place, found)| hand_out(before, frame, place > 0, found));
    hand_outs.inspect(|it| assert_eq!(it.available().map(|e| e.number).min(), Some(it.number))).collect()
}

fn hand_out(before: &Space, frame: &[u8], served: bool, found: &Record) -> Option<HandOut> {
    let number = found.entry;
    if !served {
        let look_up = look_up_of(frame)?;
        return Some(HandOut { served, look_up, number, entries: before.entries.clone() });
    }
    let place = before.waiting.iter().position(|look_up| look_up.party == found.party)?;
    let look_up = before.waiting[place].clone();
    Some(HandOut { served, look_up, number, entries: at_turn(before, frame, place).entries })
}

/// The look-up that a frame asks for; its deadline does not matter here.
pub fn look_up_of(frame: &[u8]) -> Option<LookUp> {
    match decode(frame) {
        Ok(Request::LookUp { party, transaction, kind, template, .. }) => {
            Some(LookUp { party, transaction, kind, template, deadline: End::Never })
        }
        _ => None,
    }
}

/// The space at the turn of the waiting look-up with this place: what the frame makes of the space before, if only
/// those wait that arrived earlier.
fn at_turn(before: &Space, frame: &[u8], place: usize) -> Space {
    let mut space = before.clone();
    space.waiting.truncate(place);
    space.step(frame, &mut [0; STEP]);
    space
}
