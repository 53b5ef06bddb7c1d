//! Wrong arcs (document 02, T-09): the comparison must find each, and print a text that shows it.

#[path = "common/shown.rs"]
mod shown;

use harness::compare::in_order;
use harness::frames::arc_word;
use harness::subject::{Beginning, Subject};
use reference::answer::{Kind, Record, RECORD, STEP};
use reference::clock_face::{Arc, PLACES};
use reference::frame::{asks_arc, mark_of, word, Fields, Mark, Template, LOOK_UPS, PLACE};
use reference::space::Space;
use reference::tray::run;
use shown::shows;

/// What lies in an arc; then what becomes of it; then what 4 lets through; then where 21 stands, and what it is for.
const NOT_ACROSS_12: u8 = 0;
const START_LEFT_OUT: u8 = 1;
const END_LEFT_OUT: u8 = 2;
const BLANK_IN_IT: u8 = 3;
const LARGER_IN_IT: u8 = 4;
const START_AND_LENGTH_SWAPPED: u8 = 5;
const LOST_IN_A_WAIT: u8 = 6;
const LOST_IN_A_REGISTRATION: u8 = 7;
const BITS_3_AND_4_AS_AN_ARC: u8 = 8;
const BITS_3_AND_4_AS_A_VALUE: u8 = 9;
const BIT_5_ACCEPTED: u8 = 10;
const BIT_4_OF_A_WRITE_ACCEPTED: u8 = 11;
const FIELD_NOT_ASKED_ACCEPTED: u8 = 12;
const ARC_REFUSED_WITH_4: u8 = 13;
const JUDGED_BEFORE_5: u8 = 14;
const JUDGED_BEHIND_6: u8 = 15;
const JUDGED_LAST: u8 = 16;
const START_720_ACCEPTED: u8 = 17;
const LENGTH_720_ACCEPTED: u8 = 18;
const VALUE_JUDGED_TOO: u8 = 19;

/// Where a frame has its place.
const AT_PLACE: usize = 24;

/// What no entry matches.
const NONE_SUCH: (u8, Fields) = (15, [0x5eed; 4]);

/// The reference with a fault.
#[derive(Clone, PartialEq)]
struct Wrong<const FAULT: u8>(Space);

fn has_template(frame: &[u8]) -> bool {
    frame.len() == 28 && (LOOK_UPS.contains(&frame[0]) || frame[0] == 10)
}

fn template_of(frame: &[u8]) -> Option<Template> {
    has_template(frame).then(|| Template::new(frame[2], mark_of(frame).fields))
}

fn put_place(frame: &mut [u8], place: u32) {
    frame[AT_PLACE..].copy_from_slice(&place.to_le_bytes());
}

/// Whether the frame's arc is off the face.
fn is_off(frame: &[u8]) -> bool {
    template_of(frame).and_then(|template| template.arc()).is_some_and(|arc| arc.judge().is_err())
}

impl<const FAULT: u8> Wrong<FAULT> {
    /// The template as the fault takes it; if its arc is lost, with the whole face.
    fn mistaken(template: Template, lost: bool) -> Template {
        let Some(Arc { start, length }) = template.arc().filter(|arc| arc.judge().is_ok()) else { return template };
        let mut fields = template.fields;
        let arc = match FAULT {
            NOT_ACROSS_12 => Arc { start, length: length.min(PLACES - 1 - start) },
            START_LEFT_OUT if length > 0 => Arc { start: (start + 1) % PLACES, length: length - 1 },
            END_LEFT_OUT if length > 0 => Arc { start, length: length - 1 },
            START_LEFT_OUT | END_LEFT_OUT => return Template::new(NONE_SUCH.0, NONE_SUCH.1),
            START_AND_LENGTH_SWAPPED => Arc { start: length, length: start },
            _ if lost => Arc { start: 0, length: PLACES - 1 },
            _ => return template,
        };
        fields[PLACE] = arc_word(arc);
        Template::new(template.mask, fields)
    }

    /// The frame as the fault judges it: what 4 and 21 are for.
    fn misjudged(frame: &[u8]) -> Vec<u8> {
        let mut frame = frame.to_vec();
        if FAULT == BIT_4_OF_A_WRITE_ACCEPTED && frame.len() == 28 && frame[0] == 1 {
            frame[2] &= !16;
        }
        if !has_template(&frame) {
            return frame;
        }
        let (mask, Arc { start, length }) = (frame[2], Arc::of(word(&frame, AT_PLACE)));
        let both = mask & 24 == 24;
        match FAULT {
            BITS_3_AND_4_AS_AN_ARC if both => frame[2] &= !8,
            BITS_3_AND_4_AS_A_VALUE if both => frame[2] &= !16,
            BIT_5_ACCEPTED if asks_arc(mask) => frame[2] &= !32,
            FIELD_NOT_ASKED_ACCEPTED if asks_arc(mask) => {
                for field in (0..PLACE).filter(|i| mask >> i & 1 == 0) {
                    frame[12 + 4 * field..16 + 4 * field].fill(0);
                }
            }
            ARC_REFUSED_WITH_4 if asks_arc(mask) && (start, length) != (0, 0) => frame[3] = 1,
            START_720_ACCEPTED if asks_arc(mask) && start == PLACES => {
                put_place(&mut frame, arc_word(Arc { start: 0, length }));
            }
            LENGTH_720_ACCEPTED if asks_arc(mask) && length == PLACES => {
                put_place(&mut frame, arc_word(Arc { start, length: PLACES - 1 }));
            }
            VALUE_JUDGED_TOO if mask & 24 == 8 && word(&frame, AT_PLACE) >= PLACES => {
                frame[2] ^= 24;
                put_place(&mut frame, PLACES);
            }
            _ => {}
        }
        frame
    }

    /// Where 21 stands in the order.
    fn number(&self, frame: &[u8], number: u8) -> u8 {
        let waits = || self.0.waiting.iter().any(|look_up| look_up.party == frame[1]);
        match (FAULT, number) {
            (JUDGED_BEFORE_5, 5) if is_off(frame) => 21,
            (JUDGED_BEHIND_6, 21) if waits() => 6,
            (JUDGED_LAST, 21) => {
                let mut sound = frame.to_vec();
                put_place(&mut sound, 0);
                match self.0.clone().step(&sound, &mut [0; STEP]).number {
                    0 => 21,
                    other => other,
                }
            }
            (_, number) => number,
        }
    }

    /// The mark as an arc takes it.
    fn disguised(mark: Mark) -> Mark {
        let Mark { mut fields, blanks } = mark;
        match FAULT {
            BLANK_IN_IT => Mark { blanks: blanks & !8, ..mark },
            LARGER_IN_IT => {
                fields[PLACE] %= PLACES;
                Mark { fields, blanks }
            }
            _ => mark,
        }
    }

    /// What the step is carried out on. Marks are disguised only while nobody asks for a place by its value.
    fn seen(&self, frame: &mut [u8]) -> Space {
        let mut seen = self.0.clone();
        let own = template_of(frame);
        for look_up in &mut seen.waiting {
            look_up.template = Self::mistaken(look_up.template, FAULT == LOST_IN_A_WAIT);
        }
        for registration in &mut seen.registrations {
            registration.template = Self::mistaken(registration.template, FAULT == LOST_IN_A_REGISTRATION);
        }
        let waiting = seen.waiting.iter().map(|look_up| look_up.template);
        let registered = seen.registrations.iter().map(|registration| registration.template);
        if waiting.chain(registered).chain(own).all(|template| template.mask & 8 == 0) {
            seen.entries.iter_mut().for_each(|entry| entry.mark = Self::disguised(entry.mark));
            if frame.len() == 28 && frame[0] == 1 && (frame[2] & 8 == 0 || word(frame, AT_PLACE) == 0) {
                let mark = Self::disguised(mark_of(frame));
                frame[2] = mark.blanks;
                put_place(frame, mark.fields[PLACE]);
            }
        }
        if let Some(template) = own.map(|template| Self::mistaken(template, false)) {
            frame[2] = template.mask;
            template.fields.iter().zip(frame[12..].chunks_exact_mut(4)).for_each(|(field, bytes)| {
                bytes.copy_from_slice(&field.to_le_bytes());
            });
        }
        seen
    }

    /// The true mark of an entry that was stored before the frame, or that the frame writes.
    fn mark(&self, number: u32, frame: &[u8]) -> Mark {
        let stored = self.0.entries.iter().find(|entry| entry.number == number);
        stored.map_or_else(|| mark_of(frame), |entry| entry.mark)
    }

    /// The space behind the step, with its true marks and templates.
    fn told(&self, mut seen: Space, frame: &[u8]) -> Space {
        let own = template_of(frame);
        for entry in &mut seen.entries {
            entry.mark = self.mark(entry.number, frame);
        }
        for look_up in &mut seen.waiting {
            let waited = self.0.waiting.iter().find(|it| it.party == look_up.party).map(|it| it.template);
            look_up.template = waited.or(own).unwrap_or(look_up.template);
        }
        for registration in &mut seen.registrations {
            let live = self.0.registrations.iter().find(|it| it.number == registration.number).map(|it| it.template);
            registration.template = live.or(own).unwrap_or(registration.template);
        }
        seen
    }
}

impl<const FAULT: u8> Subject for Wrong<FAULT> {
    const NAME: &'static str = "the wrong space";

    fn begin(at: Beginning) -> Self {
        Wrong(at.of_reference())
    }

    fn step(&mut self, frame: &[u8], area: &mut [u8]) -> u64 {
        if area.len() < STEP {
            return 65536;
        }
        let frame = Self::misjudged(frame);
        let mut read = frame.clone();
        let mut seen = self.seen(&mut read);
        let outcome = seen.step(&read, area);
        let number = self.number(&frame, outcome.number);
        area[2] = number;
        for bytes in area[..RECORD * outcome.records].chunks_exact_mut(RECORD) {
            let record = Record::read(bytes);
            if record.is(Kind::Found) {
                Record { mark: self.mark(record.entry, &frame), ..record }.write(bytes);
            }
        }
        self.0 = self.told(seen, &frame);
        outcome.records as u64 + 65536 * u64::from(number)
    }

    fn run_tray(tray: &[u8], area: &mut [u8]) -> u64 {
        run(tray, area).packed()
    }

    fn tables(&self) -> Option<Space> {
        Some(in_order(&self.0))
    }
}

/// "It matches p from 0 to 719 exactly if (p - start) modulo 720 is at most the length; blanks and larger places never
/// match"; "low 16 bits start, high 16 bits length".
#[test]
fn wrong_arcs_are_shown() {
    shows::<Wrong<NOT_ACROSS_12>>();
    shows::<Wrong<START_LEFT_OUT>>();
    shows::<Wrong<END_LEFT_OUT>>();
    shows::<Wrong<BLANK_IN_IT>>();
    shows::<Wrong<LARGER_IN_IT>>();
    shows::<Wrong<START_AND_LENGTH_SWAPPED>>();
}

/// "In a look-up or notify", in service and in bells too.
#[test]
fn lost_arcs_are_shown() {
    shows::<Wrong<LOST_IN_A_WAIT>>();
    shows::<Wrong<LOST_IN_A_REGISTRATION>>();
}

/// "Number 4 lets bit 4 and its arc through, but not with bit 3."
#[test]
fn what_4_is_for_is_shown() {
    shows::<Wrong<BITS_3_AND_4_AS_AN_ARC>>();
    shows::<Wrong<BITS_3_AND_4_AS_A_VALUE>>();
    shows::<Wrong<BIT_5_ACCEPTED>>();
    shows::<Wrong<BIT_4_OF_A_WRITE_ACCEPTED>>();
    shows::<Wrong<FIELD_NOT_ASKED_ACCEPTED>>();
    shows::<Wrong<ARC_REFUSED_WITH_4>>();
}

/// "21 when a start, a length .. exceeds 719, .. after 5."
#[test]
fn what_21_is_for_is_shown() {
    shows::<Wrong<JUDGED_BEFORE_5>>();
    shows::<Wrong<JUDGED_BEHIND_6>>();
    shows::<Wrong<JUDGED_LAST>>();
    shows::<Wrong<START_720_ACCEPTED>>();
    shows::<Wrong<LENGTH_720_ACCEPTED>>();
    shows::<Wrong<VALUE_JUDGED_TOO>>();
}
