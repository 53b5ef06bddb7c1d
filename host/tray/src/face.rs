//! Positions on the clock face: times, arcs and mirrors as text. Which times and places there are, the library says.

use crate::boundary::{mirror_of, place_of, time_of};
use crate::line::{Fault, Line};
use crate::words::{Arc, PLACES};

/// What the library gives; none where that is a refusal's number.
fn given(returned: u64) -> Option<u32> {
    u16::try_from(returned).ok().map(u32::from)
}

/// Where an hour stands.
pub fn place_of_hour(hour: u32) -> Option<u32> {
    given(place_of(hour, 0))
}

/// The place that a word like "2:30" stands for: hour 1 to 12, minutes in two digits.
pub fn place_at(time: &str) -> Option<u32> {
    let (hour, minute) = time.split_once(':')?;
    let is_number = |digits: &str| digits.bytes().all(|byte| byte.is_ascii_digit());
    let is_time = (1..=2).contains(&hour.len()) && minute.len() == 2 && is_number(hour) && is_number(minute);
    given(place_of(hour.parse().ok().filter(|_| is_time)?, minute.parse().ok()?))
}

/// "2:30"; none of a place that is not on the face.
pub fn time_text(place: u32) -> Option<String> {
    given(time_of(place)).map(|time| format!("{}:{:02}", time / 256, time % 256))
}

fn ends(arc: Arc) -> Option<(String, String)> {
    Some((time_text(arc.start)?, time_text(arc.end()?)?))
}

/// "arc 11:00 to 1:00"; "arc start 720 length 5" of one that is refused.
pub fn arc_text(arc: Arc) -> String {
    match ends(arc) {
        Some((start, end)) => format!("arc {start} to {end}"),
        None => format!("arc start {} length {}", arc.start, arc.length),
    }
}

/// The same where there is little room: "11:00-1:00", "720+5".
pub fn arc_slot(arc: Arc) -> String {
    match ends(arc) {
        Some((start, end)) => format!("{start}-{end}"),
        None => format!("{}+{}", arc.start, arc.length),
    }
}

/// The arc of the same length that begins at the mirror of the end.
fn mirrored(arc: Arc) -> Option<Arc> {
    Some(Arc { start: given(mirror_of(arc.end()?))?, length: arc.length })
}

/// What `tray place` is asked for: an arc, with its mirror; a place is one of length 0.
#[derive(Clone, Copy, PartialEq, Eq, Debug)]
pub struct Mirrored {
    pub arc: Arc,
    pub mirror: Arc,
    pub is_place: bool,
}

impl Mirrored {
    /// `2:30`, `150`, `1:00 to 3:00`, `start 60 length 120`.
    pub fn parse(words: &str) -> Result<Mirrored, Fault> {
        let mut line = Line::new(0, words);
        let is_place = !line.passes("arc") && words.split_whitespace().count() == 1;
        let arc = match is_place {
            true => Arc { start: line.on_the_face("a place of the clock face")?, length: 0 },
            false => line.arc()?,
        };
        line.finish()?;
        let why = || Fault::new(0, format!("expected a start and a length below {PLACES}, found `{words}`"));
        Ok(Mirrored { arc, mirror: mirrored(arc).ok_or_else(why)?, is_place })
    }

    /// "2:30", "arc 1:00 to 3:00"
    pub fn name(&self, arc: Arc) -> String {
        match time_text(arc.start) {
            Some(time) if self.is_place => time,
            _ => arc_text(arc),
        }
    }

    fn line(&self, arc: Arc) -> String {
        match self.is_place {
            true => format!("{} is place {}", self.name(arc), arc.start),
            false => format!("{}: {}, in a frame {}", self.name(arc), arc.words(), arc.field()),
        }
    }

    pub fn words(&self) -> String {
        format!("{}\nmirrored: {}\n", self.line(self.arc), self.line(self.mirror))
    }
}
