//! A history: frames, the records of each, and the tables after it.

use crate::boundary::{run_tray, Done, Space, PROGRAM_AREA};
use crate::bytes::frames_of;
use crate::frame::{Class, Request};
use crate::oracle::Sought;
use crate::record::Record;
use crate::tally::Logged;
use crate::text::{Asked, Expectation, Text};
use crate::words::{tables, Tables};

#[derive(Clone, Debug)]
pub struct Step {
    pub asked: Asked,
    pub records: Vec<Record>,
    pub after: Tables,
}

impl Step {
    /// The expectations that no record meets (or that one does, where none should), in order: each record is used once.
    pub fn unmet(&self) -> Vec<&Expectation> {
        let mut next = 0;
        let mut fails = |expectation: &&Expectation| {
            if expectation.negated {
                return self.records.iter().any(|record| expectation.is_met_by(record));
            }
            let met = self.records[next..].iter().position(|record| expectation.is_met_by(record));
            next += met.map_or(0, |place| place + 1);
            met.is_none()
        };
        self.asked.expectations.iter().filter(|expectation| fails(expectation)).collect()
    }

    pub fn request(&self) -> Option<Request> {
        Request::of(&self.asked.frame)
    }

    pub fn is_tick(&self) -> bool {
        self.request().is_some_and(|request| request.operation.class == Class::Tick)
    }
}

/// A history from the empty space.
#[derive(Clone, Debug)]
pub struct History {
    pub title: String,
    pub lead: String,
    pub beginning: Tables,
    pub steps: Vec<Step>,
}

impl Default for History {
    fn default() -> History {
        let beginning = tables(&Space::default().words);
        History { title: String::new(), lead: String::new(), beginning, steps: Vec::new() }
    }
}

impl History {
    /// Frame by frame, from the empty space.
    pub fn of(frames: impl IntoIterator<Item = Asked>) -> History {
        let mut history = History::default();
        let mut space = Space::default();
        for asked in frames {
            space.step(&asked.frame);
            let records = space.records().collect();
            history.steps.push(Step { asked, records, after: tables(&space.words) });
        }
        history
    }

    /// The tables before a frame, counted from 0.
    pub fn before(&self, place: usize) -> &Tables {
        match place {
            0 => &self.beginning,
            _ => &self.steps[place - 1].after,
        }
    }

    /// The tables after the last frame.
    pub fn last(&self) -> &Tables {
        self.before(self.steps.len())
    }

    /// Frames and answers alone.
    pub fn log(&self) -> Vec<Logged<'_>> {
        self.steps.iter().map(|Step { asked, records, .. }| Logged { frame: &asked.frame, records }).collect()
    }

    /// The look-up to which a record of a frame is the answer: the frame's own, or one that waited before it.
    pub fn sought(&self, place: usize, record: usize) -> Option<Sought> {
        let step = &self.steps[place];
        let own = step.request().filter(Request::looks_up);
        match own {
            Some(request) if record == 0 => Sought::of_request(&request),
            _ => self.before(place).look_up(step.records[record].party).and_then(Sought::of_look_up),
        }
    }
}

/// What became of a tray.
pub struct Outcome {
    /// The frames that were done.
    pub history: History,
    pub done: Done,
    /// The answers area.
    pub area: Vec<u8>,
    /// The frames that the tray has; none of a refused one.
    pub frames: usize,
}

impl Outcome {
    /// As a whole, with 15 or 16: no frame was run.
    pub fn is_refused(&self) -> bool {
        self.done.number > 1
    }
}

/// Runs a text's tray as the program does, and the frames that were done one by one.
pub fn run(text: &Text, tray: &[u8]) -> Outcome {
    run_in(text, tray, PROGRAM_AREA)
}

/// The same, in an answers area of so many bytes.
pub fn run_in(text: &Text, tray: &[u8], bytes: usize) -> Outcome {
    let mut area = vec![0; bytes];
    let done = Done::of(run_tray(tray, &mut area));
    let frames = if done.number > 1 { Vec::new() } else { frames_of(tray) };
    let mut written = text.frames();
    // Where the pairs were changed, a frame is not what its line says.
    let asked = |frame: &&[u8]| match written.next() {
        Some(asked) if asked.frame == *frame => asked.clone(),
        _ => Asked::of(frame.to_vec()),
    };
    let history = History::of(frames.iter().take(done.frames).map(asked));
    let history = History { title: text.title.clone(), lead: text.lead.clone(), ..history };
    Outcome { history, done, area, frames: frames.len() }
}
