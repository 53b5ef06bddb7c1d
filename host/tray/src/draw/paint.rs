//! One row of the drawing as SVG: bands, tick lines and lanes; bars and waits; connectors; marks; text, in this order.

use super::glyphs;
use super::labels::look_up;
use super::layout::{clock_label, Bar, Layout, Placed, Registered, System, REGISTRATION_ENDED, REGISTRATION_ENDED_AT};
use super::lives::{Gone, Hold, Moment, RegistrationLife, TransactionLife, Wait};
use super::metrics::*;
use super::svg::{attributes, group, line, n, path, rect, text};
use crate::frame::{end_text, named_fields, operation_of, short_fields, template_text};
use crate::history::History;
use crate::prose::{lease_words, told};
use crate::record::{ABORTED, COMMITTED, EXCEPTION, FOUND, NOTHING, NOTIFIED, REFUSED, RENEWED, RUNG, WRITTEN};
use crate::words::{End, Registration};

/// A column that is pointed at, and the caption below it.
#[derive(Clone, Debug)]
pub struct Pointed {
    pub frame: usize,
    pub caption: String,
}

/// What a row is painted with.
pub struct Style<'a> {
    /// Before the names of patterns, which must differ between the drawings of a page.
    pub prefix: &'a str,
    /// Frame numbers lead to the table.
    pub links: bool,
    /// Names of parties, under their numbers.
    pub names: &'a [(u8, String)],
    pub pointed: Option<&'a Pointed>,
}

/// A line of a lane: where its zone begins, and how many label lines stand above and below it.
#[derive(Clone, Copy, Default)]
struct LineBox {
    used: bool,
    zone: f64,
    above: usize,
    below: usize,
}

impl LineBox {
    fn middle(&self) -> f64 {
        self.zone + 13.0
    }
}

struct LaneBox {
    top: f64,
    bottom: f64,
    lines: Vec<LineBox>,
    idle: bool,
}

pub struct Painter<'a> {
    history: &'a History,
    layout: &'a Layout,
    system: &'a System,
    style: &'a Style<'a>,
    /// Of each row of entries that is in use here: where its bar begins.
    rows: Vec<Option<f64>>,
    lanes: Vec<LaneBox>,
    space_bottom: f64,
    right: f64,
    bottom: f64,
    layers: [String; 5],
}

const GROUND: usize = 0;
const BARS: usize = 1;
const LINES: usize = 2;
const MARKS: usize = 3;
const TEXT: usize = 4;

const IDLE: f64 = 12.0;
/// Heights of an entry's name line, bar and gap; and of those without names.
const ROOMY_ROW: (f64, f64, f64) = (15.0, 20.0, 9.0);
const COMPACT_ROW: (f64, f64, f64) = (0.0, 12.0, 4.0);

fn moment_words(at: Moment) -> String {
    format!("{}.{}", at.frame + 1, at.slot)
}

/// The height of the read holds' stripes that lie below the bar: all but the first.
fn stripes_below(bar: &Bar, at: Moment) -> f64 {
    match bar.life.segments.iter().rev().find(|(from, _)| *from <= at) {
        Some((_, Hold::Read(readers))) => 6.0 * (readers.len() - 1) as f64,
        _ => 0.0,
    }
}

/// As much of a name as goes into the gutter.
fn shortened(name: &str) -> String {
    let mut short: String = name.to_string();
    while width(&short) * 11.0 / 12.0 > GUTTER - 12.0 {
        short.pop();
    }
    short
}

/// A transaction's bar: its fill, its edges, and the stroke where it begins.
fn track_bar(party: u8, zone: f64, left: f64, right: f64, begins: bool, ends: bool) -> String {
    let colour = hue(party, 1.0);
    let edges = format!("M{} {}H{}M{} {}H{}", n(left), n(zone), n(right), n(left), n(zone + 26.0), n(right));
    let mut bar = rect(left, zone, right - left, 26.0, &format!("fill=\"{}\"", hue(party, 0.16)))
        + &path(&edges, &format!("fill=\"none\" stroke=\"{colour}\" stroke-width=\"1.4\""));
    if begins {
        let stroke = format!("stroke=\"{colour}\" stroke-width=\"5\"");
        bar += &line(left, zone - 0.7, left, zone + 26.7, &stroke);
    }
    if !ends {
        bar += &glyphs::chevron(right, zone + 13.0, &colour);
    }
    bar
}

/// "renewed in frame 4: lease to clock 9"
fn renewal_title((at, lease): (Moment, End)) -> String {
    format!("renewed in frame {}: {}", at.frame + 1, lease_words(lease))
}

fn track_title(life: &TransactionLife) -> String {
    let ended = life.end.map_or(String::new(), |(at, kind)| {
        let word = crate::record::kind_of(kind).map_or("", |kind| kind.name);
        format!("; {word} in frame {}", at.frame + 1)
    });
    format!("T{}, transaction of party {}, {}{ended}", life.number, life.party, lease_words(life.lease))
}

fn registration_title(life: &RegistrationLife) -> String {
    let Registration { number, party, template, end, .. } = &life.registration;
    let ended = life.end.map_or(String::new(), |at| format!("; {REGISTRATION_ENDED} in frame {}", at.frame + 1));
    let bells = match life.bells.len() {
        1 => "1 bell".to_string(),
        bells => format!("{bells} bells"),
    };
    let (template, lease) = (template_text(template), lease_words(*end));
    format!("R{number}, registration of party {party}: {template}; {lease}; {bells}{ended}")
}

impl<'a> Painter<'a> {
    pub fn new(history: &'a History, layout: &'a Layout, system: &'a System, style: &'a Style<'a>) -> Painter<'a> {
        let layers = Default::default();
        let right = system.width - PAD - system.ahead;
        let mut painter = Painter {
            history,
            layout,
            system,
            style,
            rows: vec![None; layout.rows],
            lanes: Vec::new(),
            space_bottom: RULER,
            right,
            bottom: 0.0,
            layers,
        };
        painter.measure_rows();
        painter.measure_lanes();
        painter
    }

    fn row_sizes(&self) -> (f64, f64, f64) {
        if self.layout.compact {
            return COMPACT_ROW;
        }
        ROOMY_ROW
    }

    fn first(&self) -> usize {
        *self.system.columns.start()
    }

    fn last(&self) -> usize {
        *self.system.columns.end()
    }

    /// Where a moment of this row's columns is.
    fn x(&self, at: Moment) -> f64 {
        self.column_x(self.layout.column(at)) + SLOT * at.slot as f64
    }

    fn column_x(&self, column: usize) -> f64 {
        let from = self.layout.columns[self.first()].x;
        GUTTER + self.system.indent + MARK + (self.layout.columns[column].x - from) * self.system.stretch
    }

    fn has(&self, at: Moment) -> bool {
        self.system.columns.contains(&self.layout.column(at))
    }

    /// From where to where something reaches in this row, and whether it begins and ends here; none if it is elsewhere.
    fn reach(&self, begin: Moment, end: Option<Moment>) -> Option<(f64, f64, bool, bool)> {
        let from = self.layout.column(begin);
        let to = end.map_or(usize::MAX, |end| self.layout.column(end));
        if from > self.last() || to < self.first() {
            return None;
        }
        let begins = from >= self.first();
        let ends = end.filter(|_| to <= self.last());
        let left = if begins { self.x(begin) } else { GUTTER };
        Some((left, ends.map_or(self.right, |end| self.x(end)), begins, ends.is_some()))
    }

    fn bar_here(&self, bar: &Bar) -> bool {
        let end = bar.life.end.map(|(end, _)| end);
        let left_over = self.layout.left_over(bar.life.last_lease(), end);
        let last = match (end, left_over) {
            _ if !bar.life.is_stored() => self.layout.column(bar.life.begin),
            (None, _) => usize::MAX,
            (Some(_), Some(column)) => column,
            (Some(end), None) => self.layout.column(end),
        };
        self.layout.column(bar.life.begin) <= self.last() && last >= self.first()
    }

    fn measure_rows(&mut self) {
        let (name, height, gap) = self.row_sizes();
        let mut y = RULER + 4.0;
        for row in 0..self.layout.rows {
            let here: Vec<&Bar> = self.layout.bars.iter().filter(|bar| bar.row == row && self.bar_here(bar)).collect();
            if here.is_empty() {
                continue;
            }
            self.rows[row] = Some(y + name);
            let readers = |bar: &&Bar| {
                let counts = bar.life.segments.iter().map(|(_, hold)| match hold {
                    Hold::Read(readers) => readers.len(),
                    _ => 0,
                });
                counts.max().unwrap_or(0)
            };
            let more = here.iter().map(readers).max().unwrap_or(0).saturating_sub(1);
            y += name + height + gap + 6.0 * more as f64;
        }
        self.space_bottom = y.max(RULER + 40.0);
    }

    /// The lines of a lane: which are used here, and how many label lines each needs.
    fn lines_here(&self, place: usize) -> Vec<LineBox> {
        let lane = &self.layout.lanes[place];
        let mut lines = vec![LineBox::default(); lane.lines];
        for placed in self.layout.placed.iter().filter(|p| p.lane == place && self.has(p.mark.at)) {
            let line = &mut lines[placed.line];
            line.above = line.above.max(placed.labels.above.len());
            line.below = line.below.max(placed.labels.below.len());
            line.used = true;
        }
        for wait in self.layout.lives.waits.iter().filter(|wait| wait.look_up.party == lane.party) {
            let line = &mut lines[self.layout.line(wait.look_up.transaction, lane.party)];
            line.used |= self.reach(wait.begin, wait.end.map(|(end, _)| end)).is_some();
            if self.deadline(wait).is_some() {
                line.above = line.above.max(1);
            }
        }
        for track in self.layout.tracks.iter().filter(|track| track.lane == place) {
            let end = track.life.end.map(|(end, _)| end);
            let left_over = self
                .layout
                .left_over(track.life.lease, end)
                .is_some_and(|column| column >= self.first() && self.layout.column(track.life.begin) <= self.last());
            lines[track.line].used |= self.reach(track.life.begin, end).is_some() || left_over;
        }
        for Registered { life, line, .. } in self.layout.registered.iter().filter(|other| other.lane == place) {
            lines[*line].used |= self.reach(life.begin, life.end).is_some();
        }
        lines
    }

    fn measure_lanes(&mut self) {
        let mut y = self.space_bottom;
        for place in 0..self.layout.lanes.len() {
            let top = y;
            let mut lines = self.lines_here(place);
            let idle = !lines.iter().any(|line| line.used);
            y += if idle { IDLE } else { 5.0 };
            for line in lines.iter_mut().filter(|line| line.used) {
                y += LINE * line.above as f64 + 3.0;
                line.zone = y;
                y += 26.0 + LINE * line.below as f64 + 6.0;
            }
            y += if idle { 0.0 } else { 3.0 };
            self.lanes.push(LaneBox { top, bottom: y, lines, idle });
        }
        self.bottom = y;
    }

    /// The tick's column in which a wait's deadline is reached, if the wait lasts until then and that is here.
    fn deadline(&self, wait: &Wait) -> Option<usize> {
        let End::At(clock) = wait.look_up.deadline else { return None };
        let (end, _) = wait.end?;
        let column = self.layout.column_at(clock)?;
        (column == self.layout.column(end) && self.system.columns.contains(&column)).then_some(column)
    }

    fn line_box(&self, lane: usize, line: usize) -> LineBox {
        self.lanes[lane].lines[line]
    }

    fn add(&mut self, layer: usize, element: &str) {
        self.layers[layer].push_str(element);
        self.layers[layer].push('\n');
    }

    fn frame_title(&self, frame: usize) -> String {
        let step = &self.history.steps[frame];
        let records = (0..step.records.len()).map(|record| told(self.history, frame, record));
        let lines: Vec<String> =
            std::iter::once(format!("frame {}: {}", frame + 1, step.asked.text)).chain(records).collect();
        lines.join("\n")
    }

    fn record_title(&self, placed: &Placed) -> String {
        let step = &self.history.steps[placed.mark.at.frame];
        let record = told(self.history, placed.mark.at.frame, placed.mark.place);
        // What stands under a registration or a bell is in the record's words already.
        let told = matches!(placed.mark.record.kind, NOTIFIED | RUNG);
        let reason = placed.labels.below.get(1).filter(|_| !told);
        let reason = reason.map_or(String::new(), |reason| format!(" ({reason})"));
        format!("frame {}: {}\n{record}{reason}", placed.mark.at.frame + 1, step.asked.text)
    }

    /// The clock's bands and tick lines.
    fn bands(&mut self) {
        let (first, last) = (self.first(), self.last());
        let mut clock = self.history.before(*self.layout.columns[first].frames.start()).clock;
        let mut left = GUTTER;
        for column in first..=last + 1 {
            let tick = column <= last && self.layout.columns[column].tick;
            if !tick && column <= last {
                continue;
            }
            let x = if column <= last { self.column_x(column) } else { self.right };
            if x > left {
                self.band(clock, left, x);
            }
            if column <= last {
                clock = self.layout.columns[column].clock;
                let times = self.layout.columns[column].frames.clone().count();
                let stroke = if times > 1 { "7\" stroke-dasharray=\"2 2" } else { "3" };
                let frame = self.layout.columns[column].frames.start() + 1;
                let more =
                    format!("stroke=\"#a9b8c0\" stroke-width=\"{stroke}\" class=\"tick\" data-frame=\"{frame}\"");
                let tick = line(x, BAND, x, self.bottom, &more);
                self.add(GROUND, &tick);
            }
            left = x;
        }
    }

    fn band(&mut self, clock: u32, left: f64, right: f64) {
        let odd = clock % 2 == 1;
        if odd {
            let tint = rect(left, BAND, right - left, self.bottom - BAND, "fill=\"#eff3f5\"");
            self.layers[GROUND].insert_str(0, &tint);
        }
        let fill = if odd { "#37474f" } else { "#5d6d75" };
        let more = format!("fill=\"{fill}\" class=\"clock\" data-clock=\"{clock}\"");
        self.add(GROUND, &rect(left, 0.0, right - left, BAND, &more));
        let labels = [clock_label(clock), clock.to_string()];
        if let Some(label) = labels.iter().find(|label| bold_width(label) + 10.0 < right - left) {
            self.add(TEXT, &text(left + 6.0, 15.0, "b", "style=\"fill:#fff\"", label));
        }
    }

    fn ruler(&mut self) {
        for column in self.system.columns.clone() {
            let frames = self.layout.columns[column].frames.clone();
            let (first, last) = (*frames.start(), *frames.end());
            let name = if first == last { format!("{}", first + 1) } else { format!("{}-{}", first + 1, last + 1) };
            let (x, wide) = (self.column_x(column), (width(&name) * 11.0 / 12.0 + 10.0).max(16.0));
            let pill = rect(x - wide / 2.0, 25.0, wide, 15.0, "rx=\"7.5\" fill=\"#fff\" stroke=\"#9aa5ac\"");
            let number = text(x, 36.3, "", "text-anchor=\"middle\" style=\"font-size:11px\"", &name);
            let about = attributes(&[("class", &"column"), ("data-frame", &(first + 1)), ("data-last", &(last + 1))]);
            let inner = group(&about, &self.frame_title(first), &format!("{pill}{number}"));
            let linked = format!("<a href=\"#f{}\">{inner}</a>", first + 1);
            self.add(MARKS, if self.style.links { &linked } else { &inner });
            if self.layout.columns[column].tick {
                let times = last + 1 - first;
                let word = if times > 1 { format!("{times} ticks") } else { "tick".to_string() };
                self.add(TEXT, &text(x + wide / 2.0 + 4.0, 36.3, "dim", "", &word));
            }
        }
    }

    fn lane_grounds(&mut self) {
        let strong = format!("stroke=\"{INK}\" stroke-width=\"1.6\"");
        for y in [RULER, self.space_bottom] {
            self.add(GROUND, &line(0.0, y, self.right, y, &strong));
        }
        self.add(TEXT, &text(4.0, RULER + 18.0, "b", "", "the"));
        self.add(TEXT, &text(4.0, RULER + 32.0, "b", "", "space"));
        for place in 0..self.lanes.len() {
            let (party, lane) = (self.layout.lanes[place].party, &self.lanes[place]);
            let (top, bottom, idle) = (lane.top, lane.bottom, lane.idle);
            let used = lane.lines.iter().filter(|line| line.used).map(LineBox::middle);
            let middles: Vec<f64> = if idle { vec![(top + bottom) / 2.0 - 1.0] } else { used.collect() };
            let middle = middles[0];
            let strip = rect(0.0, top + 2.0, 5.0, bottom - top - 4.0, &format!("fill=\"{}\"", hue(party, 1.0)));
            let about = attributes(&[("class", &"lane"), ("data-party", &party)]);
            let under = line(0.0, bottom, self.right, bottom, "stroke=\"#b8c1c7\"");
            let lines: String = middles.iter().map(|&y| line(GUTTER, y, self.right, y, "stroke=\"#c9d1d6\"")).collect();
            self.add(GROUND, &group(&about, "", &format!("{under}{strip}{lines}")));
            let more = format!("style=\"fill:{}{}\"", hue(party, 1.0), if idle { ";font-size:10px" } else { "" });
            let name = format!("party {party}");
            let down = if idle { 4.0 } else { 5.0 };
            self.add(TEXT, &text(10.0, middle + down, "b", &more, &name));
            let called = self.style.names.iter().find(|(of, _)| *of == party).filter(|_| !idle);
            if let Some((_, name)) = called {
                self.add(TEXT, &text(10.0, middle + down + LINE, "dim", "style=\"font-size:11px\"", &shortened(name)));
            }
        }
    }

    fn tracks(&mut self) {
        for track in &self.layout.tracks {
            let life = &track.life;
            let line_box = self.line_box(track.lane, track.line);
            if !line_box.used {
                continue;
            }
            let (zone, end) = (line_box.zone, life.end.map(|(end, _)| end));
            let (name, colour) = (format!("T{}", life.number), hue(life.party, 1.0));
            self.left_over_lease(&name, "transaction", life.number, (life.lease, end), zone + 13.0, &colour);
            let Some((left, right, begins, ends)) = self.reach(life.begin, end) else { continue };
            if end.is_none() {
                self.ahead("transaction", life.number, life.lease, zone + 6.0, &colour);
            }
            let bar = track_bar(life.party, zone, left, right, begins, ends);
            let (from, to) = (moment_words(life.begin), end.map_or("open".to_string(), moment_words));
            let about = attributes(&[
                ("class", &"transaction"),
                ("data-transaction", &life.number),
                ("data-party", &life.party),
                ("data-from", &from),
                ("data-to", &to),
            ]);
            self.add(BARS, &group(&about, &track_title(life), &bar));
            let at = if begins { left + 8.0 } else { left + 4.0 };
            if right - left > bold_width(&name) + 14.0 {
                let ground = format!("fill=\"{}\"", hue(life.party, 0.16));
                self.add(TEXT, &rect(at - 2.0, zone + 4.0, bold_width(&name) + 4.0, 18.0, &ground));
                self.add(TEXT, &text(at, zone + 17.5, "b", &format!("style=\"fill:{colour}\""), &name));
            }
        }
    }

    fn registrations(&mut self) {
        for Registered { life, lane, line } in &self.layout.registered {
            let Some((left, right, begins, ends)) = self.reach(life.begin, life.end) else { continue };
            let Registration { number, party, end: lease, .. } = life.registration;
            let (y, colour, title) = (self.line_box(*lane, *line).middle(), hue(party, 1.0), registration_title(life));
            let mut bar = glyphs::registration(left, right, y, party);
            if !ends {
                bar += &glyphs::chevron(right, y, &colour);
            }
            let about = attributes(&[
                ("class", &"registration"),
                ("data-registration", &number),
                ("data-party", &party),
                ("data-from", &moment_words(life.begin)),
                ("data-to", &life.end.map_or("open".to_string(), moment_words)),
            ]);
            self.add(BARS, &group(&about, &title, &bar));
            if !begins {
                self.registration_name(life, y);
            }
            if life.end.is_none() {
                self.ahead("registration", number, lease, y, &colour);
            }
            if life.end.is_some_and(|end| self.has(end)) {
                let about = attributes(&[("class", &"unregistered"), ("data-registration", &number)]);
                self.add(MARKS, &group(&about, &title, &glyphs::unregistered(right, y, party)));
                self.add(TEXT, &text(right + REGISTRATION_ENDED_AT, y + 4.0, "h b", "", REGISTRATION_ENDED));
            }
        }
    }

    /// Where a row begins, and its own beginning is in another: number and template, or the number, if there is room.
    fn registration_name(&mut self, life: &RegistrationLife, y: f64) {
        let (left, party) = (GUTTER + 4.0, life.registration.party);
        let next = life.bells.iter().copied().chain(life.end).find(|&at| self.has(at));
        let room = next.map_or(self.right, |next| self.x(next) - MARK) - left;
        let number = format!("R{}", life.registration.number);
        let full = format!("{number} {}", template_text(&life.registration.template));
        if let Some(name) = [full, number].iter().find(|name| bold_width(name) <= room) {
            self.add(TEXT, &text(left, y + 4.0, "h b", &format!("style=\"fill:{}\"", hue(party, 1.0)), name));
        }
    }

    /// A dotted line to where the lease would have ended.
    fn left_over_lease(
        &mut self,
        name: &str,
        class: &str,
        number: u32,
        (lease, end): (End, Option<Moment>),
        y: f64,
        colour: &str,
    ) {
        let Some(column) = self.layout.left_over(lease, end) else { return };
        let Some(end) = end else { return };
        let from = self.layout.column(end);
        if column < self.first() || from > self.last() {
            return;
        }
        let here = self.system.columns.contains(&column);
        let left = if from >= self.first() { self.x(end) } else { GUTTER };
        let right = if here { self.column_x(column) } else { self.right };
        let dotted = format!("stroke=\"{colour}\" stroke-width=\"1.6\" stroke-dasharray=\"1.5 4\"");
        let mut inner = line(left, y, right, y, &dotted);
        if here {
            inner += &glyphs::hourglass(right, y, "#fff", colour);
        }
        let data = format!("data-{class}");
        let about = attributes(&[("class", &"lease"), (data.as_str(), &number)]);
        let title = format!("{name}: the lease would have run {}", crate::frame::end_text(lease));
        self.add(BARS, &group(&about, &title, &inner));
        if from < self.first() && right - left > width(name) + 20.0 {
            self.add(TEXT, &text(GUTTER + 4.0, y - 4.0, "h", &format!("style=\"fill:{colour}\""), name));
        }
    }

    /// Behind the last column, when something that is still there will end.
    fn ahead(&mut self, class: &str, number: u32, end: End, y: f64, colour: &str) {
        let End::At(clock) = end else { return };
        if self.last() + 1 < self.layout.columns.len() {
            return;
        }
        let x = self.right + 8.0;
        let glyph = match class {
            "party" => glyphs::deadline(x, y),
            _ => glyphs::hourglass(x, y, "#fff", colour),
        };
        let (data, label) = (format!("data-{class}"), clock_label(clock));
        let about = attributes(&[("class", &"ahead"), (data.as_str(), &number), ("data-clock", &clock)]);
        self.add(MARKS, &group(&about, &format!("ends at {label}, which this history does not reach"), &glyph));
        self.add(TEXT, &text(self.right + AHEAD, y + 4.0, "dim", "", &label));
    }

    fn party_of(&self, transaction: u32) -> u8 {
        self.layout.lives.transaction(transaction).map_or(1, |life| life.party)
    }

    fn entries(&mut self) {
        for bar in &self.layout.bars {
            let Some(y) = self.rows[bar.row].filter(|_| self.bar_here(bar)) else { continue };
            let height = self.row_sizes().1;
            let end = bar.life.end.map(|(end, _)| end);
            let word = format!("{}, {}", bar.name(), bar.end_word());
            let lease = bar.life.last_lease();
            self.left_over_lease(&word, "entry", bar.life.number, (lease, end), y + height / 2.0, GREY);
            self.segments(bar, y, height);
            self.renewals(bar, y, height);
            if bar.life.is_stored() && end.is_none() {
                self.ahead("entry", bar.life.number, lease, y + height / 2.0, GREY);
            }
            self.entry_end(bar, y, height);
            self.entry_name(bar, y, height);
        }
    }

    fn entry_title(&self, bar: &Bar) -> String {
        let ended =
            bar.life.end.map_or(String::new(), |(at, _)| format!("; {} in frame {}", bar.end_word(), at.frame + 1));
        let renewed: String =
            bar.life.renewals.iter().map(|&renewal| format!("; {}", renewal_title(renewal))).collect();
        let lease = lease_words(bar.life.lease);
        format!("{}: {}; {lease}{renewed}{ended}", bar.name(), named_fields(&bar.life.values))
    }

    /// Where its lease was set anew: a sign on the bar, and the new end behind it if there is room. One with lease 0 ends
    /// the bar.
    fn renewals(&mut self, bar: &Bar, y: f64, height: f64) {
        let end = bar.life.end.map(|(end, _)| end);
        for &(at, lease) in &bar.life.renewals {
            if !self.has(at) || Some(at) == end {
                continue;
            }
            let x = self.x(at);
            let about = attributes(&[
                ("class", &"renewal"),
                ("data-entry", &bar.life.number),
                ("data-frame", &(at.frame + 1)),
                ("data-lease", &end_text(lease)),
            ]);
            let title = format!("{}: {}", bar.name(), renewal_title((at, lease)));
            self.add(MARKS, &group(&about, &title, &glyphs::renewed(x, y + height / 2.0)));
            let next = bar.life.next_change(at).filter(|&next| self.has(next));
            let room = next.map_or(self.right, |next| self.x(next)) - x;
            if !self.layout.compact && width(&end_text(lease)) + 20.0 <= room {
                self.add(TEXT, &text(x + 9.0, y + 14.2, "", "", &end_text(lease)));
            }
        }
    }

    fn segments(&mut self, bar: &Bar, y: f64, height: f64) {
        let segments = &bar.life.segments;
        for (place, (from, hold)) in segments.iter().enumerate() {
            let end = segments.get(place + 1).map(|next| next.0).or(bar.life.end.map(|(end, _)| end));
            let Some((left, right, begins, ends)) = self.reach(*from, end) else { continue };
            let (class, label) = match hold {
                Hold::Committed => ("committed", String::new()),
                Hold::Read(by) => ("read", by.iter().map(|t| format!("T{t}")).collect::<Vec<_>>().join(" ")),
                Hold::Taken(by) => ("taken", format!("T{by}")),
                Hold::Private(by) => ("private", format!("T{by}")),
            };
            let mut inner = self.segment(hold, left, right, y, height, begins);
            if !ends {
                inner += &glyphs::chevron(right, y + height / 2.0, INK);
            }
            let title = format!("{}; here {}", self.entry_title(bar), [class, &label].join(" ").trim());
            let (from, to) = (moment_words(*from), end.map_or("open".to_string(), moment_words));
            let about = attributes(&[
                ("class", &format!("entry {class}")),
                ("data-entry", &bar.life.number),
                ("data-last", &bar.last),
                ("data-from", &from),
                ("data-to", &to),
            ]);
            self.add(BARS, &group(&about, &title, &inner));
            if !self.layout.compact {
                self.hold_label(hold, &label, left, right, y);
            }
        }
    }

    /// The bar of a segment: fill, edges, and the stroke where it begins.
    fn segment(&self, hold: &Hold, left: f64, right: f64, y: f64, height: f64, begins: bool) -> String {
        let (fill, stroke, more) = match hold {
            Hold::Committed | Hold::Read(_) => (COMMITTED_FILL.to_string(), INK.to_string(), "stroke-width=\"1.3\""),
            Hold::Taken(by) => {
                let party = self.party_of(*by);
                let pattern = format!("url(#{}h{})", self.style.prefix, (party.max(1) - 1) % 8);
                (pattern, hue(party, 1.0), "stroke-width=\"1.6\"")
            }
            Hold::Private(by) => {
                let party = self.party_of(*by);
                (hue(party, 0.1), hue(party, 1.0), "stroke-width=\"1.8\" stroke-dasharray=\"5 4\"")
            }
        };
        let edges = format!("M{} {}H{}M{} {}H{}", n(left), n(y), n(right), n(left), n(y + height), n(right));
        let mut bar = rect(left, y, right - left, height, &format!("fill=\"{fill}\""))
            + &path(&edges, &format!("fill=\"none\" stroke=\"{stroke}\" {more}"));
        if let Hold::Read(readers) = hold {
            let stripe = height * 0.3;
            for (place, reader) in readers.iter().enumerate() {
                let top = y + height - stripe + 6.0 * place as f64;
                let more =
                    format!("fill=\"{}\" stroke=\"#fff\" stroke-width=\"0.8\"", hue(self.party_of(*reader), 1.0));
                bar += &rect(left, top, right - left, stripe, &more);
            }
        }
        if begins {
            bar += &line(left, y - 0.6, left, y + height + 0.6, &format!("stroke=\"{stroke}\" {more}"));
        }
        bar
    }

    /// Who holds it: in full, else without "hold" and "to", else the number, else nothing.
    fn hold_label(&mut self, hold: &Hold, label: &str, left: f64, right: f64, y: f64) {
        let (full, short, colour) = match hold {
            Hold::Committed => return,
            Hold::Read(_) => (format!("read hold {label}"), format!("read {label}"), INK.to_string()),
            Hold::Taken(by) => (format!("take hold {label}"), format!("take {label}"), hue(self.party_of(*by), 1.0)),
            Hold::Private(by) => {
                (format!("private to {label}"), format!("private {label}"), hue(self.party_of(*by), 1.0))
            }
        };
        let choices = [full, short, label.to_string()];
        let Some(fits) = choices.iter().find(|text| width(text) + 10.0 <= right - left) else { return };
        if matches!(hold, Hold::Taken(_)) {
            self.add(TEXT, &rect(left + 3.0, y + 2.5, width(fits) + 6.0, 15.0, "rx=\"2\" fill=\"#fff\""));
        }
        let down = if matches!(hold, Hold::Read(_)) { 11.2 } else { 14.2 };
        self.add(TEXT, &text(left + 6.0, y + down, "", &format!("style=\"fill:{colour}\""), fits));
    }

    fn entry_end(&mut self, bar: &Bar, y: f64, height: f64) {
        let middle = y + height / 2.0;
        let (x, gone) = match bar.life.end {
            Some((at, gone)) if self.has(at) => (self.x(at), Some(gone)),
            None if !bar.life.is_stored() && self.has(bar.life.begin) => (self.x(bar.life.begin), None),
            _ => return,
        };
        let stroke = |wide: &str| format!("stroke=\"{INK}\" stroke-width=\"{wide}\"");
        let (glyph, word_at) = match gone {
            Some(Gone::Taken) => (line(x, y - 1.0, x, y + height + 1.0, &stroke("2.4")), x + 6.0),
            Some(Gone::Expired) => {
                let taller = line(x, y - 4.0, x, y + height + 4.0, &stroke("2.4"));
                (taller + &glyphs::hourglass(x + 9.0, middle, INK, INK), x + 18.0)
            }
            Some(Gone::Removed) => {
                (line(x, y, x, y + height, &stroke("1.2")) + &glyphs::cross(x + 9.0, middle, 8.0, INK), x + 18.0)
            }
            None => (glyphs::never_stored(x, middle), x + 13.0),
        };
        let class = format!("end {}", bar.end_word());
        let about = attributes(&[("class", &class), ("data-entry", &bar.life.number), ("data-last", &bar.last)]);
        self.add(MARKS, &group(&about, &self.entry_title(bar), &glyph));
        if !self.layout.compact {
            self.add(TEXT, &text(word_at, y + 14.0, "h b", "", bar.end_word()));
        }
    }

    /// Above its beginning, and again where a row begins.
    fn entry_name(&mut self, bar: &Bar, y: f64, height: f64) {
        let end = bar.life.end.map(|(end, _)| end);
        let begins = self.has(bar.life.begin);
        if !begins && self.reach(bar.life.begin, end).is_none() {
            return;
        }
        let left = if begins { self.x(bar.life.begin) } else { GUTTER + 2.0 };
        let fields = short_fields(&bar.life.values);
        let first = *self.layout.columns[self.first()].frames.start();
        let lease = if begins { bar.life.lease } else { bar.life.lease_before(first) };
        if self.layout.compact {
            let told = format!("{} {fields}", bar.name());
            self.add(TEXT, &text(left + 4.0, y + height - 3.0, "h", "style=\"font-size:9px\"", &told));
            return;
        }
        let room = if begins { f64::INFINITY } else { self.name_room(bar) - left };
        let (mut spans, mut wide) = (String::new(), 0.0);
        let parts = [("class=\"b\"", bar.name()), ("dx=\"6\"", fields), ("dx=\"8\" class=\"dim\"", lease_words(lease))];
        for (about, words) in parts {
            wide += bold_width(&words) + 8.0;
            if spans.is_empty() || wide <= room {
                spans += &format!("<tspan {about}>{words}</tspan>");
            }
        }
        self.add(TEXT, &format!("<text x=\"{}\" y=\"{}\" class=\"h\">{spans}</text>", n(left), n(y - 4.0)));
    }

    /// How far the name of a bar from another row may reach: to the next that begins in its row of entries.
    fn name_room(&self, bar: &Bar) -> f64 {
        let others = self.layout.bars.iter().filter(|other| other.row == bar.row && other.life.begin > bar.life.begin);
        let begin = others.map(|other| other.life.begin).filter(|&begin| self.has(begin)).min();
        begin.map_or(f64::INFINITY, |begin| self.x(begin))
    }

    fn waits(&mut self) {
        for wait in &self.layout.lives.waits {
            let end = wait.end.map(|(end, _)| end);
            let Some((left, right, _, ends)) = self.reach(wait.begin, end) else { continue };
            let Some(lane) = self.layout.lanes.iter().position(|lane| lane.party == wait.look_up.party) else {
                continue;
            };
            let line_box = self.line_box(lane, self.layout.line(wait.look_up.transaction, wait.look_up.party));
            let y = line_box.middle();
            let dashed = format!("stroke=\"{INK}\" stroke-width=\"3.2\" stroke-dasharray=\"8 5\"");
            let mut inner = line(left, y, right, y, &dashed);
            if !ends {
                inner += &glyphs::chevron(right, y, INK);
            }
            let name = operation_of(wait.look_up.operation).map_or("", |operation| operation.name);
            let title = format!(
                "party {}: {name} {} waits {}",
                wait.look_up.party,
                template_text(&wait.look_up.template),
                crate::frame::end_text(wait.look_up.deadline)
            );
            let to = end.map_or("open".to_string(), moment_words);
            let about = attributes(&[
                ("class", &"wait"),
                ("data-party", &wait.look_up.party),
                ("data-from", &moment_words(wait.begin)),
                ("data-to", &to),
            ]);
            self.add(BARS, &group(&about, &title, &inner));
            if end.is_none() {
                // Below the mark of the transaction on whose bar it stands.
                let down = if wait.look_up.transaction == 0 { 0.0 } else { 10.0 };
                self.ahead("party", wait.look_up.party.into(), wait.look_up.deadline, y + down, INK);
            }
            if let Some(column) = self.deadline(wait) {
                let x = self.column_x(column);
                let about = attributes(&[("class", &"deadline"), ("data-party", &wait.look_up.party)]);
                self.add(MARKS, &group(&about, &title, &glyphs::deadline(x, y)));
                self.add(TEXT, &text(x - 5.0, line_box.zone - 5.0, "h dim", "text-anchor=\"end\"", "deadline"));
            }
        }
    }

    fn bar_of(&self, entry: u32) -> Option<(&Bar, f64)> {
        let bar = self.layout.bars.iter().find(|bar| (bar.life.number..=bar.last).contains(&entry))?;
        Some((bar, self.rows[bar.row]?))
    }

    /// Lines between entries and marks, always upright.
    fn connectors(&mut self, placed: &Placed, x: f64, y: f64) {
        let record = &placed.mark.record;
        let title = self.record_title(placed);
        let height = self.row_sizes().1;
        let ink = format!("stroke=\"{INK}\" stroke-width=\"1.1\"");
        let handed = match record.kind {
            WRITTEN | FOUND | RENEWED => self.bar_of(record.entry).map(|(_, top)| top),
            _ => None,
        };
        if let Some(top) = handed {
            let takes = look_up(placed.mark.class).is_some_and(|(takes, _)| takes);
            let inner = match record.kind {
                WRITTEN | RENEWED => {
                    line(x, y - 8.0, x, top + height + 1.0, &ink) + &glyphs::head_up(x, top + height + 1.0)
                }
                _ if takes => line(x, top + height - 2.0, x, y - 8.0, &ink) + &glyphs::head_down(x, y - 8.5),
                _ => {
                    let ring = format!(
                        "<circle cx=\"{}\" cy=\"{}\" r=\"3\" fill=\"#fff\" stroke=\"{INK}\" stroke-width=\"1.3\"/>",
                        n(x),
                        n(top + height)
                    );
                    line(x, top + height, x, y - 8.0, &ink) + &ring + &glyphs::head_open(x, y - 8.0)
                }
            };
            let class = match record.kind {
                WRITTEN => "wrote",
                RENEWED => "renews",
                _ => "handed",
            };
            let about = attributes(&[
                ("class", &class),
                ("data-entry", &record.entry),
                ("data-frame", &(placed.mark.at.frame + 1)),
            ]);
            self.add(LINES, &group(&about, &title, &inner));
        }
        self.barred(placed, x, y, &title);
    }

    /// Dotted lines from a nothing or waiting up to each matching entry, ending in a crossbar; a bar of several once.
    fn barred(&mut self, placed: &Placed, x: f64, y: f64, title: &str) {
        let height = self.row_sizes().1;
        let mut done: Vec<u32> = Vec::new();
        for &entry in &placed.labels.barred {
            let Some((bar, top)) = self.bar_of(entry) else { continue };
            let first = bar.life.number;
            if done.contains(&first) {
                continue;
            }
            done.push(first);
            let under = top + height + 4.0 + stripes_below(bar, placed.mark.at);
            let dotted = format!("stroke=\"{INK}\" stroke-width=\"1.2\" stroke-dasharray=\"1.2 3.2\"");
            let inner = line(x, under + 1.0, x, y - 8.0, &dotted)
                + &line(x - 7.0, under, x + 7.0, under, &format!("stroke=\"{INK}\" stroke-width=\"2.6\""));
            let about = attributes(&[
                ("class", &"barred"),
                ("data-entry", &first),
                ("data-frame", &(placed.mark.at.frame + 1)),
            ]);
            self.add(LINES, &group(&about, title, &inner));
        }
    }

    fn glyph(&self, placed: &Placed, x: f64, y: f64) -> String {
        let record = &placed.mark.record;
        match (record.kind, look_up(placed.mark.class)) {
            (REFUSED, _) => glyphs::refused(x, y, record.refusal),
            (WRITTEN, _) => glyphs::write(x, y),
            (RENEWED, _) => glyphs::renewed(x, y),
            (NOTIFIED, _) => glyphs::notified(x, y, record.party),
            (RUNG, _) => glyphs::rung(x, y, record.party, record.bell().0),
            (COMMITTED, _) => glyphs::committed(x, y, record.party),
            (ABORTED, _) => glyphs::aborted(x, y, record.party),
            (EXCEPTION, _) => {
                let colour = hue(record.party, 1.0);
                glyphs::exception(x, y) + &glyphs::hourglass(x, y - 19.0, &colour, &colour)
            }
            (kind, Some((takes, if_exists))) => glyphs::look_up(x, y, takes, if_exists, kind == FOUND, kind == NOTHING),
            _ => String::new(),
        }
    }

    fn marks(&mut self) {
        let layout = self.layout;
        for placed in &layout.placed {
            if !self.has(placed.mark.at) {
                continue;
            }
            let line_box = self.line_box(placed.lane, placed.line);
            let (x, y) = (self.x(placed.mark.at), line_box.middle());
            self.connectors(placed, x, y);
            let record = &placed.mark.record;
            let kind = crate::record::kind_of(record.kind).map_or("", |kind| kind.name);
            let class = format!("mark {kind}");
            let about = attributes(&[
                ("class", &class),
                ("data-frame", &(placed.mark.at.frame + 1)),
                ("data-slot", &placed.mark.at.slot),
                ("data-party", &record.party),
            ]);
            // A point that shows nothing, so that every mark has its place in the file.
            let point = format!("<circle cx=\"{}\" cy=\"{}\" r=\"0\"/>", n(x), n(y));
            let glyph = self.glyph(placed, x, y);
            self.add(MARKS, &group(&about, &self.record_title(placed), &format!("{point}{glyph}")));
            self.mark_labels(placed, x, line_box);
        }
    }

    fn mark_labels(&mut self, placed: &Placed, x: f64, line_box: LineBox) {
        let (anchor, above_x, below_x) = match placed.ends_here {
            true => ("text-anchor=\"end\"", x - 5.0, x + 10.0),
            false => ("", x + 6.0, x - 8.0),
        };
        let count = placed.labels.above.len();
        for (place, label) in placed.labels.above.iter().enumerate() {
            let y = line_box.zone - 5.0 - LINE * (count - 1 - place) as f64;
            self.add(TEXT, &text(above_x, y, "h", anchor, label));
        }
        for (place, label) in placed.labels.below.iter().enumerate() {
            let class = if place == 0 { "h b" } else { "h" };
            self.add(TEXT, &text(below_x, line_box.zone + 38.0 + LINE * place as f64, class, anchor, label));
        }
    }

    /// A frame around the column, and a caption below it; gives the room that the caption takes.
    fn pointed(&mut self) -> f64 {
        let Some(pointed) = self.style.pointed else { return 0.0 };
        let column = self.layout.column_of[pointed.frame];
        if !self.system.columns.contains(&column) {
            return 0.0;
        }
        let left = self.column_x(column) - 16.0;
        let right =
            if column == self.last() { self.right } else { (self.column_x(column + 1) - 16.0).max(left + 40.0) };
        let frame = format!("rx=\"4\" fill=\"none\" stroke=\"{INK}\" stroke-width=\"2.4\" class=\"pointed\"");
        self.add(MARKS, &rect(left, BAND + 1.0, right - left, self.bottom - BAND - 1.0, &frame));
        let wide = bold_width(&pointed.caption) + 16.0;
        let begin = (right - wide).max(0.0);
        self.add(MARKS, &rect(begin, self.bottom, wide, 20.0, &format!("rx=\"3\" fill=\"{INK}\"")));
        self.add(TEXT, &text(begin + 8.0, self.bottom + 14.0, "b", "style=\"fill:#fff\"", &pointed.caption));
        26.0
    }

    /// The row's elements, and its height.
    pub fn paint(mut self) -> (String, f64) {
        self.bands();
        self.lane_grounds();
        self.tracks();
        self.registrations();
        self.entries();
        self.waits();
        self.marks();
        self.ruler();
        let caption = self.pointed();
        (self.layers.concat(), self.bottom + 2.0 + caption)
    }
}
