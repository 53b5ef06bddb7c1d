//! The text of a setup: `rounds`, `start` and `pane` lines, in any order.

use super::{Asked, Pane, Range, Setup, Slot, Start};
use crate::frame::FIELD_NAMES;
use crate::line::{Fault, Line};
use crate::words::FOREVER;

/// A range with more numbers is a slip; `rounds 0 to 1000` is the longest of use.
const MOST_TRIALS: u32 = 1001;

const LINES: &str = "`rounds N`, `start kind K side S image I place L lease D` or \
                     `pane lease D takes K timeout D writes K lease D hold D`";

#[derive(Default)]
struct Parser {
    setup: Setup,
    has_rounds: bool,
    /// With its line.
    range: Option<(usize, Range)>,
}

impl Parser {
    /// A number of ticks, or a range of them, for which its first number stands.
    fn ticks(&mut self, line: &mut Line, slot: Slot, what: &str) -> Result<(), Fault> {
        *self.setup.slot(slot) = line.duration(what)?;
        self.range(line, slot)
    }

    /// `to B`, behind a number, or nothing.
    fn range(&mut self, line: &mut Line, slot: Slot) -> Result<(), Fault> {
        let first = *self.setup.slot(slot);
        if first == FOREVER || !line.passes("to") {
            return Ok(());
        }
        let most = first.saturating_add(MOST_TRIALS - 1).min(FOREVER - 1);
        let (at, what) = (line.clone(), format!("where the range ends, a number from {first} to {most}"));
        let last = line.number(&what)?;
        if !(first..=most).contains(&last) {
            return Err(at.expected(&what));
        }
        match self.range.replace((line.number, Range { slot, first, last })) {
            Some((earlier, _)) => {
                let why = format!("expected only one range in the text: there is one in line {earlier}");
                Err(Fault::new(line.number, why))
            }
            None => Ok(()),
        }
    }

    fn rounds(&mut self, line: &mut Line) -> Result<(), Fault> {
        if self.has_rounds {
            return Err(Fault::new(line.number, "expected `rounds N` only once"));
        }
        self.has_rounds = true;
        self.setup.rounds = line.number("how many rounds")?;
        self.range(line, Slot::Rounds)
    }

    /// Fields by name; those behind the kind may be left out, and are 0 then.
    fn start(&mut self, line: &mut Line) -> Result<(), Fault> {
        let place = self.setup.starts.len();
        let mut fields = [0; FIELD_NAMES.len()];
        for (i, name) in FIELD_NAMES.iter().enumerate() {
            if i == 0 {
                line.want(name)?;
                fields[i] = line.field(i)?;
            } else if line.passes(name) {
                fields[i] = line.field(i)?;
            }
        }
        self.setup.starts.push(Start { fields, lease: 0 });
        line.want("lease")?;
        self.ticks(line, Slot::StartLease(place), "a lease")
    }

    fn pane(&mut self, line: &mut Line) -> Result<(), Fault> {
        let place = self.setup.panes.len();
        self.setup.panes.push(Pane { lease: 0, timeout: 0, takes: 0, written_lease: 0, writes: 0, hold: 0 });
        line.want("lease")?;
        self.ticks(line, Slot::Lease(place), "a transaction lease")?;
        line.want("takes")?;
        self.setup.panes[place].takes = line.number("the kind that it takes")?;
        line.want("timeout")?;
        self.ticks(line, Slot::Timeout(place), "a timeout")?;
        line.want("writes")?;
        self.setup.panes[place].writes = line.number("the kind that it writes")?;
        line.want("lease")?;
        self.ticks(line, Slot::WrittenLease(place), "a lease of what it writes")?;
        line.want("hold")?;
        self.ticks(line, Slot::Hold(place), "a hold")
    }

    fn line(&mut self, line: &mut Line) -> Result<(), Fault> {
        if line.is_empty() {
            return Ok(());
        }
        if line.passes("rounds") {
            return self.rounds(line);
        }
        if line.passes("start") {
            return self.start(line);
        }
        if line.passes("pane") {
            return self.pane(line);
        }
        Err(match line.peek() {
            Some("party" | "tick" | "bytes") => {
                Fault::new(line.number, "expected a setup, found the text of a tray (`tray run` runs it)")
            }
            _ => line.expected(LINES),
        })
    }
}

/// What the text asks for, or the first thing that is wrong with it. How many panes, starting entries and rounds there
/// may be, the library says.
pub fn parse(text: &str) -> Result<Asked, Fault> {
    let mut parser = Parser::default();
    for (place, whole) in text.lines().enumerate() {
        let mut line = Line::new(place + 1, whole);
        parser.line(&mut line)?;
        line.finish()?;
    }
    match parser.has_rounds {
        true => Ok(Asked { setup: parser.setup, range: parser.range.map(|(_, range)| range) }),
        false => Err(Fault::new(0, "expected a line `rounds N`, the text ends")),
    }
}
