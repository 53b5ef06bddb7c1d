//! Where everything stands: columns, lanes and their lines, rows of entries, and the cut into rows as of printed music.

use super::labels::{labels, Labels};
use super::lives::{EntryLife, Gone, Lives, Mark, Moment, RegistrationLife, TransactionLife};
use super::metrics::{bold_width, width, AHEAD, COLUMN, GUTTER, MARK, PAD, SLOT};
use crate::frame::short_fields;
use crate::history::History;
use crate::oracle::Matcher;
use crate::prose::lease_words;
use crate::record::{FOUND, NOTHING, NOTIFIED, REFUSED, RUNG, TICKED, WRITTEN};
use crate::words::End;
use std::collections::HashMap;
use std::ops::RangeInclusive;

/// Runs of at least so many equal frames with equal outcome are drawn as one column.
const RUN: usize = 4;
/// More rows of entries than this are drawn without names above them.
const ROOMY: usize = 14;
/// Labels in the same row and zone are this far apart, and so far from a tick line.
const APART: f64 = 10.0;
const CLEAR: f64 = 5.0;
const MOST_STRETCH: f64 = 1.35;
const MOST_DIVIDED: usize = 6;
/// The word beside a tick's number reaches so far; the clock above it so much farther than its words are wide.
const TICK_WORD: f64 = 40.0;
const CLOCK_ROOM: f64 = 12.0;
/// Before the first column of a row but the first: the names of bars that go on begin there.
const NAMES_AGAIN: f64 = 20.0;
/// No label reaches farther to the left of its mark.
const FARTHEST_LEFT: f64 = 400.0;
/// Behind the end of a registration, with the sign between.
pub const REGISTRATION_ENDED: &str = "expired";
pub const REGISTRATION_ENDED_AT: f64 = 18.0;
/// A row with more of its width empty than this looks lost.
const SCANTY: f64 = 0.55;

/// A column: a frame, or a run of equal ones.
#[derive(Clone, PartialEq, Debug)]
pub struct Column {
    pub frames: RangeInclusive<usize>,
    pub tick: bool,
    pub slots: usize,
    pub clock: u32,
    /// Of the mark's place in slot 0, from that of the first column.
    pub x: f64,
    /// As far left as labels of this column reach.
    left: f64,
    /// As far right as labels of this column and of those before it reach.
    right: f64,
}

/// A mark with its labels, in a line of a lane.
#[derive(Clone, Debug)]
pub struct Placed {
    pub mark: Mark,
    pub labels: Labels,
    pub column: usize,
    pub lane: usize,
    pub line: usize,
    /// The labels end at the mark, so that nothing handed out in the step runs through them.
    pub ends_here: bool,
}

/// Entries drawn as one bar, in a row.
#[derive(Clone, Debug)]
pub struct Bar {
    pub life: EntryLife,
    /// The last of the entries.
    pub last: u32,
    pub row: usize,
}

#[derive(Clone, Debug)]
pub struct Track {
    pub life: TransactionLife,
    pub lane: usize,
    pub line: usize,
}

/// A registration, on a line of its lane below what the party does meanwhile.
#[derive(Clone, Debug)]
pub struct Registered {
    pub life: RegistrationLife,
    pub lane: usize,
    pub line: usize,
}

#[derive(Clone, Debug)]
pub struct Lane {
    pub party: u8,
    pub lines: usize,
}

/// A drawing, not yet cut into rows.
pub struct Layout {
    pub lives: Lives,
    pub columns: Vec<Column>,
    pub column_of: Vec<usize>,
    pub placed: Vec<Placed>,
    pub bars: Vec<Bar>,
    pub tracks: Vec<Track>,
    pub registered: Vec<Registered>,
    pub lanes: Vec<Lane>,
    pub rows: usize,
    pub compact: bool,
}

/// Columns from one to another in a row of the drawing, stretched to its width.
#[derive(Clone, Debug)]
pub struct System {
    pub columns: RangeInclusive<usize>,
    /// Before the first column, for the names of bars that go on, and labels that end at their marks.
    pub indent: f64,
    pub stretch: f64,
    /// Behind the last column, for ends that lie ahead.
    pub ahead: f64,
    pub width: f64,
}

pub fn clock_label(clock: u32) -> String {
    format!("clock {clock}")
}

fn quiet_tick(history: &History, lives: &Lives, frame: usize) -> bool {
    let (before, after) = (history.before(frame), &history.steps[frame].after);
    let same = before.entries == after.entries
        && before.transactions == after.transactions
        && before.look_ups == after.look_ups
        && before.registrations == after.registrations;
    let left_over = |lease: End| lease == End::At(after.clock);
    same && !lives.entries.iter().any(|life| left_over(life.last_lease()))
        && !lives.transactions.iter().any(|life| left_over(life.lease))
}

/// Whether two entries' lives differ in their beginnings alone.
fn alike(one: &EntryLife, other: &EntryLife) -> bool {
    one.values == other.values
        && one.lease == other.lease
        && one.renewals == other.renewals
        && one.end == other.end
        && one.segments.len() == other.segments.len()
        && one.segments.iter().skip(1).eq(other.segments.iter().skip(1))
        && one.segments.iter().map(|(_, hold)| hold).eq(other.segments.iter().map(|(_, hold)| hold))
}

/// Whether a frame can share a column with the one before it.
fn repeats(history: &History, lives: &Lives, frame: usize) -> bool {
    let (one, other) = (&history.steps[frame - 1], &history.steps[frame]);
    let ([first], [second]) = (&one.records[..], &other.records[..]) else { return false };
    if one.asked.frame != other.asked.frame || first.kind != second.kind {
        return false;
    }
    match second.kind {
        TICKED => quiet_tick(history, lives, frame - 1) && quiet_tick(history, lives, frame),
        WRITTEN => match (lives.entry(first.entry), lives.entry(second.entry)) {
            (Some(one), Some(other)) => alike(one, other),
            _ => false,
        },
        NOTHING | REFUSED => first == second,
        _ => false,
    }
}

fn columns(history: &History, lives: &Lives) -> Vec<Column> {
    let mut columns: Vec<Column> = Vec::new();
    let mut frame = 0;
    while frame < history.steps.len() {
        let mut last = frame;
        while last + 1 < history.steps.len() && repeats(history, lives, last + 1) {
            last += 1;
        }
        let last = if last + 1 - frame >= RUN { last } else { frame };
        let step = &history.steps[last];
        let tick = step.records.first().is_some_and(|record| record.kind == TICKED);
        let (slots, clock) = (lives.slots[frame], step.after.clock);
        columns.push(Column { frames: frame..=last, tick, slots, clock, x: 0.0, left: 0.0, right: 0.0 });
        frame = last + 1;
    }
    columns
}

impl Bar {
    pub fn name(&self) -> String {
        match self.last {
            last if last == self.life.number => format!("E{last}"),
            last => format!("E{}-E{last}", self.life.number),
        }
    }

    fn name_width(&self) -> f64 {
        let told = format!("{} {}", short_fields(&self.life.values), lease_words(self.life.lease));
        bold_width(&self.name()) + 6.0 + width(&told) + 8.0
    }

    pub fn end_word(&self) -> &'static str {
        match self.life.end {
            Some((_, Gone::Taken)) => "taken",
            Some((_, Gone::Expired)) => "expired",
            Some((_, Gone::Removed)) => "removed",
            None if !self.life.is_stored() => "never stored",
            None => "",
        }
    }

    /// The end word with its glyph.
    fn end_width(&self) -> f64 {
        let glyph = match self.life.end {
            Some((_, Gone::Expired | Gone::Removed)) => 16.0,
            _ => 0.0,
        };
        6.0 + glyph + bold_width(self.end_word())
    }
}

impl Layout {
    pub fn new(history: &History) -> Layout {
        let lives = Lives::of(history);
        let columns = columns(history, &lives);
        let mut column_of = Vec::new();
        for (place, column) in columns.iter().enumerate() {
            column_of.extend(column.frames.clone().map(|_| place));
        }
        let mut layout = Layout {
            lives,
            columns,
            column_of,
            placed: vec![],
            bars: vec![],
            tracks: vec![],
            registered: vec![],
            lanes: vec![],
            rows: 0,
            compact: false,
        };
        layout.make_lanes();
        layout.make_tracks();
        layout.make_registered();
        layout.place_marks(history);
        layout.make_bars();
        layout.place_columns();
        layout.place_bars();
        layout
    }

    pub fn column(&self, at: Moment) -> usize {
        self.column_of[at.frame]
    }

    /// Where a moment is, before stretching.
    fn x(&self, at: Moment) -> f64 {
        self.columns[self.column(at)].x + SLOT * at.slot as f64
    }

    /// The column in which the clock reaches this, if it does.
    pub fn column_at(&self, clock: u32) -> Option<usize> {
        self.columns.iter().position(|column| column.tick && column.clock == clock)
    }

    /// The column of a lease's end that lies behind the moment in which what it was for has ended.
    pub fn left_over(&self, lease: End, end: Option<Moment>) -> Option<usize> {
        let (End::At(clock), Some(end)) = (lease, end) else { return None };
        self.column_at(clock).filter(|&column| column > self.column(end))
    }

    fn make_lanes(&mut self) {
        let mut parties: Vec<u8> = self.lives.marks.iter().map(|mark| mark.record.party).collect();
        parties.sort_unstable();
        parties.dedup();
        self.lanes = parties.into_iter().map(|party| Lane { party, lines: 1 }).collect();
    }

    fn lane(&self, party: u8) -> usize {
        self.lanes.iter().position(|lane| lane.party == party).unwrap_or(0)
    }

    /// The columns that a transaction takes up in its line.
    fn track_span(&self, life: &TransactionLife) -> (usize, usize) {
        let end = life.end.map(|(end, _)| end);
        let last = end.map_or(usize::MAX, |end| self.column(end));
        (self.column(life.begin), self.left_over(life.lease, end).unwrap_or(last))
    }

    /// The columns in which something of the party happens outside its transactions.
    fn outside(&self, party: u8) -> Vec<(usize, usize)> {
        let mine = |transaction: u32| self.lives.transaction(transaction).is_some_and(|life| life.party == party);
        let listens = |mark: &Mark| matches!(mark.record.kind, NOTIFIED | RUNG);
        let marks = self.lives.marks.iter().filter(|mark| mark.record.party == party && !mine(mark.transaction));
        let marks = marks.filter(|mark| !listens(mark));
        let mut spans: Vec<(usize, usize)> = marks.map(|mark| (self.column(mark.at), self.column(mark.at))).collect();
        let waits = self.lives.waits.iter().filter(|wait| wait.look_up.party == party && wait.look_up.transaction == 0);
        spans.extend(waits.map(|wait| {
            let end = wait.end.map_or(usize::MAX, |(end, _)| self.column(end));
            (self.column(wait.begin), end)
        }));
        spans
    }

    /// A transaction lies on its party's line if nothing happens outside it meanwhile, else on one below.
    fn make_tracks(&mut self) {
        let meets = |a: (usize, usize), b: (usize, usize)| a.0 <= b.1 && b.0 <= a.1;
        for life in self.lives.transactions.clone() {
            let lane = self.lane(life.party);
            let span = self.track_span(&life);
            let outside = self.outside(life.party).into_iter().any(|other| meets(span, other));
            let taken = |line: usize| {
                (line == 0 && outside)
                    || self.tracks.iter().any(|track| {
                        track.lane == lane && track.line == line && meets(span, self.track_span(&track.life))
                    })
            };
            let line = (0..).find(|&line| !taken(line)).unwrap_or(0);
            self.lanes[lane].lines = self.lanes[lane].lines.max(line + 1);
            self.tracks.push(Track { life, lane, line });
        }
    }

    /// Each on the first line, below those of transactions, on which none has its bar, or its end just before.
    fn make_registered(&mut self) {
        let first: Vec<usize> = self.lanes.iter().map(|lane| lane.lines).collect();
        for life in self.lives.registrations.clone() {
            let (lane, begin) = (self.lane(life.registration.party), self.column(life.begin));
            let reaches = |other: &Registered| other.life.end.is_none_or(|end| self.column(end) + 1 >= begin);
            let taken = |line: usize| {
                self.registered.iter().any(|other| other.lane == lane && other.line == line && reaches(other))
            };
            let line = (first[lane]..).find(|&line| !taken(line)).unwrap_or(first[lane]);
            self.lanes[lane].lines = self.lanes[lane].lines.max(line + 1);
            self.registered.push(Registered { life, lane, line });
        }
    }

    /// The line on which a mark stands.
    fn mark_line(&self, mark: &Mark) -> usize {
        let its = |other: &&Registered| other.life.registration.number == mark.record.entry;
        match mark.record.kind {
            NOTIFIED | RUNG => self.registered.iter().find(its).map_or(0, |registered| registered.line),
            _ => self.line(mark.transaction, mark.record.party),
        }
    }

    /// The line of a lane on which something in this transaction of the party stands.
    pub fn line(&self, transaction: u32, party: u8) -> usize {
        let its = |track: &&Track| track.life.number == transaction && track.life.party == party;
        self.tracks.iter().find(its).map_or(0, |track| track.line)
    }

    fn place_marks(&mut self, history: &History) {
        let mut matcher = Matcher::default();
        for mark in self.lives.marks.clone() {
            let column = self.column(mark.at);
            let of = &self.columns[column];
            if *of.frames.start() != mark.at.frame {
                continue;
            }
            let mut labels = labels(history, &self.lives, &mark, &mut matcher);
            let times = of.frames.clone().count();
            if times > 1 {
                let last = mark.record.entry + times as u32 - 1;
                if mark.record.kind == WRITTEN {
                    labels.below[0] = format!("written E{}-E{last}", mark.record.entry);
                }
                labels.above[0] = format!("{times} x {}", labels.above[0]);
            }
            let (lane, line) = (self.lane(mark.record.party), self.mark_line(&mark));
            let mut later = history.steps[mark.at.frame].records.iter().skip(1);
            let hands_out = later.any(|record| matches!(record.kind, FOUND | NOTHING));
            let ends_here = mark.at.slot == 0 && (hands_out || of.tick);
            self.placed.push(Placed { mark, labels, column, lane, line, ends_here });
        }
    }

    fn make_bars(&mut self) {
        for life in &self.lives.entries {
            let column = self.column(life.begin);
            match self.bars.last_mut() {
                Some(bar) if self.column_of[bar.life.begin.frame] == column => bar.last = life.number,
                _ => self.bars.push(Bar { life: life.clone(), last: life.number, row: 0 }),
            }
        }
    }

    /// The labels of a mark: their row and zone, and from where to where they reach, seen from the column's place.
    fn boxes(&self, placed: &Placed) -> Vec<((usize, usize, bool), f64, f64)> {
        let slot = SLOT * placed.mark.at.slot as f64;
        let above = placed.labels.above.iter().map(|line| width(line)).fold(0.0, f64::max);
        let first = placed.labels.below.first().map_or(0.0, |line| bold_width(line));
        let below = placed.labels.below.iter().skip(1).map(|line| width(line)).fold(first, f64::max);
        let (lane, line) = (placed.lane, placed.line);
        let mut boxes = Vec::new();
        if above > 0.0 {
            let left = if placed.ends_here { -5.0 - above } else { 6.0 };
            boxes.push(((lane, line, true), slot + left, slot + left + above));
        }
        if below > 0.0 {
            let left = if placed.ends_here { 10.0 - below } else { -8.0 };
            boxes.push(((lane, line, false), slot + left, slot + left + below));
        }
        boxes
    }

    /// The word "deadline" before a tick in which a wait's deadline is reached.
    fn deadline_boxes(&self, column: usize) -> Vec<((usize, usize, bool), f64, f64)> {
        let of = &self.columns[column];
        let reached = self.lives.waits.iter().filter(|wait| {
            of.tick
                && wait.look_up.deadline == End::At(of.clock)
                && wait.end.is_some_and(|(end, _)| self.column(end) == column)
        });
        let place = |party: u8, transaction: u32| (self.lane(party), self.line(transaction, party), true);
        let left = -5.0 - width("deadline");
        reached.map(|wait| (place(wait.look_up.party, wait.look_up.transaction), left, -5.0)).collect()
    }

    fn words_at(&self, column: usize) -> impl Iterator<Item = f64> + '_ {
        let ended = self.bars.iter().filter(move |bar| bar.life.end.is_some_and(|(end, _)| self.column(end) == column));
        let ended = ended.map(|bar| bar.life.end.map_or(0.0, |(end, _)| SLOT * end.slot as f64) + bar.end_width());
        let lapses = move |registered: &&Registered| registered.life.end.is_some_and(|end| self.column(end) == column);
        let word = REGISTRATION_ENDED_AT + bold_width(REGISTRATION_ENDED);
        ended.chain(self.registered.iter().filter(lapses).map(move |_| word))
    }

    /// From left to right, each column as near as its labels allow.
    fn place_columns(&mut self) {
        let mut last_right: HashMap<(usize, usize, bool), f64> = HashMap::new();
        let (mut farthest, mut reach, mut tick) = (f64::NEG_INFINITY, f64::NEG_INFINITY, f64::NEG_INFINITY);
        for place in 0..self.columns.len() {
            let mut x: f64 = 0.0;
            if let Some(before) = place.checked_sub(1) {
                let Column { x: last, slots, .. } = self.columns[before];
                x = last + COLUMN.max(MARK + SLOT * (slots - 1) as f64 + 30.0);
                x = self.words_at(before).fold(x, |x, word| x.max(last + word + 8.0));
            }
            if self.columns[place].tick {
                x = x.max(farthest + CLEAR);
            }
            let here = self.placed.iter().filter(|placed| placed.column == place);
            let mut boxes: Vec<_> = here.flat_map(|placed| self.boxes(placed)).collect();
            boxes.extend(self.deadline_boxes(place));
            for (zone, left, _) in &boxes {
                if let Some(right) = last_right.get(zone) {
                    x = x.max(right + APART - left);
                }
                x = x.max(tick + CLEAR - left);
            }
            let of = &mut self.columns[place];
            of.x = x;
            of.left = boxes.iter().fold(x, |far, (_, left, _)| far.min(x + left));
            tick = if of.tick { x } else { tick };
            farthest = farthest.max(x + SLOT * (of.slots - 1) as f64 + 12.0);
            for (zone, _, right) in boxes {
                farthest = farthest.max(x + right);
                last_right.insert(zone, x + right);
            }
            reach = self.words_at(place).fold(reach.max(farthest), |far, word| far.max(x + word));
            let begin = self.bars.iter().filter(|bar| self.column(bar.life.begin) == place);
            reach = begin.fold(reach, |far, bar| far.max(x + bar.name_width()));
            if self.columns[place].tick {
                let clock = bold_width(&clock_label(self.columns[place].clock));
                reach = reach.max(x + TICK_WORD).max(x + clock + CLOCK_ROOM);
            }
            self.columns[place].right = reach + 4.0;
        }
    }

    /// Each bar goes to the first row where neither bar, name nor end word meets another.
    fn place_bars(&mut self) {
        let mut rows: Vec<Vec<(f64, f64)>> = Vec::new();
        let spans: Vec<(f64, f64)> = self.bars.iter().map(|bar| self.bar_span(bar)).collect();
        for (bar, span) in self.bars.iter_mut().zip(spans) {
            let free = |row: &Vec<(f64, f64)>| row.iter().all(|other| span.0 >= other.1 || other.0 >= span.1);
            bar.row = rows.iter().position(free).unwrap_or_else(|| {
                rows.push(Vec::new());
                rows.len() - 1
            });
            rows[bar.row].push(span);
        }
        self.rows = rows.len();
        self.compact = self.rows > ROOMY;
    }

    fn bar_span(&self, bar: &Bar) -> (f64, f64) {
        let begin = self.x(bar.life.begin);
        let end = match bar.life.end {
            Some((end, _)) => {
                let left_over = self.left_over(bar.life.last_lease(), Some(end));
                let left_over = left_over.map_or(0.0, |column| self.columns[column].x);
                (self.x(end) + bar.end_width()).max(left_over + 12.0)
            }
            None if !bar.life.is_stored() => begin + 12.0 + bar.end_width(),
            None => f64::INFINITY,
        };
        (begin - 8.0, end.max(begin + bar.name_width()) + 8.0)
    }

    fn indent(&self, from: usize, to: usize) -> f64 {
        let begin = self.columns[from].x;
        let near = self.columns[from..=to].iter().take_while(|column| column.x - begin < FARTHEST_LEFT);
        let names = if from == 0 { 0.0 } else { NAMES_AGAIN };
        near.map(|column| begin - column.left - MARK + CLEAR).fold(names, f64::max)
    }

    /// Ends of leases, and deadlines, that the history does not reach.
    fn ends_ahead(&self) -> impl Iterator<Item = End> + '_ {
        let entries = self.lives.entries.iter().filter(|life| life.is_stored() && life.end.is_none());
        let transactions = self.lives.transactions.iter().filter(|life| life.end.is_none());
        let waits = self.lives.waits.iter().filter(|wait| wait.end.is_none());
        let registrations = self.lives.registrations.iter().filter(|life| life.end.is_none());
        let leases = entries.map(EntryLife::last_lease).chain(transactions.map(|life| life.lease));
        let leases = leases.chain(registrations.map(|life| life.registration.end));
        leases.chain(waits.map(|wait| wait.look_up.deadline))
    }

    /// The room behind a column for what lies ahead: none but behind the last.
    fn ahead(&self, column: usize) -> f64 {
        if column + 1 < self.columns.len() {
            return 0.0;
        }
        let width = |end: End| match end {
            End::At(clock) => AHEAD + width(&clock_label(clock)),
            End::Never => 0.0,
        };
        self.ends_ahead().map(width).fold(0.0, f64::max)
    }

    fn natural_width(&self, from: usize, to: usize) -> f64 {
        let columns = (self.columns[to].right - self.columns[from].x).max(0.0);
        GUTTER + self.indent(from, to) + MARK + columns + self.ahead(to) + PAD
    }

    /// What it costs to cut before this column: bars divided, and the cut not before a tick.
    fn cut_cost(&self, column: usize) -> f64 {
        let divides = |begin: Moment, end: Option<Moment>| {
            self.column(begin) < column && end.is_none_or(|end| self.column(end) >= column)
        };
        let entries = self
            .bars
            .iter()
            .filter(|bar| bar.life.is_stored() && divides(bar.life.begin, bar.life.end.map(|(end, _)| end)));
        let tracks = self.tracks.iter().filter(|track| divides(track.life.begin, track.life.end.map(|(end, _)| end)));
        let waits = self.lives.waits.iter().filter(|wait| divides(wait.begin, wait.end.map(|(end, _)| end)));
        let registered =
            self.registered.iter().filter(|registered| divides(registered.life.begin, registered.life.end));
        // Where many are divided anyway, a few more do not matter.
        let divided = (entries.count() + tracks.count() + waits.count() + registered.count()).min(MOST_DIVIDED);
        0.12 * divided as f64 + if self.columns[column].tick { 0.0 } else { 0.03 }
    }

    /// Fewest rows; among these the evenest, with the fewest bars divided.
    pub fn cut(&self, room: f64) -> Vec<System> {
        let count = self.columns.len();
        let mut best: Vec<(usize, f64, usize)> = vec![(0, 0.0, 0)];
        for to in 0..count {
            let mut choice = (usize::MAX, f64::INFINITY, to);
            for from in (0..=to).rev() {
                let width = self.natural_width(from, to);
                if width > room && from < to {
                    break;
                }
                let slack = ((room - width) / room).max(0.0);
                let cut = if from == 0 { 0.0 } else { self.cut_cost(from) };
                let scanty = if slack > SCANTY { 1.0 } else { 0.0 };
                let (rows, cost) = (best[from].0 + 1, best[from].1 + slack * slack + scanty + cut);
                if rows < choice.0 || (rows == choice.0 && cost < choice.1) {
                    choice = (rows, cost, from);
                }
            }
            best.push(choice);
        }
        let mut systems = Vec::new();
        let mut end = count;
        while end > 0 {
            let from = best[end].2;
            systems.push(self.system(from, end - 1, room));
            end = from;
        }
        systems.reverse();
        systems
    }

    fn system(&self, from: usize, to: usize, room: f64) -> System {
        let span = self.columns[to].x - self.columns[from].x;
        let tail = self.columns[to].right - self.columns[to].x;
        let (indent, ahead) = (self.indent(from, to), self.ahead(to));
        let fixed = GUTTER + indent + MARK + tail + ahead + PAD;
        let stretch = if span > 0.0 { ((room - fixed) / span).clamp(1.0, MOST_STRETCH) } else { 1.0 };
        System { columns: from..=to, indent, stretch, ahead, width: fixed + span * stretch }
    }
}
