//! `tray draw`, more closely: every bar's ends, leases and deadlines, in one row and cut into several; and no text cut off
//! or run into.

use crate::draw::{at, columns, histories, history, hold, moment, near, svg, ONE_ROW, SLOT};
use crate::xml::Element;
use std::collections::{BTreeMap, BTreeSet};
use tray::draw::lives::slots;
use tray::draw::metrics::width;
use tray::draw::svg_file;
use tray::frame::{operation_of, Class};
use tray::history::History;
use tray::record::{COMMITTED, EXCEPTION, FOUND, RENEWED, TICKED, WRITTEN};
use tray::words::{End, Tables, FOREVER};

const ROOMS: [f64; 4] = [ONE_ROW, 1548.0, 852.0, 320.0];

/// The rows of a drawing, with the frames of each and where they are.
fn rows(drawn: &Element) -> Vec<(&Element, BTreeMap<usize, f64>)> {
    drawn.children.iter().filter(|child| child.name == "g").map(|row| (row, columns(row))).collect()
}

fn last_slot(history: &History, frame: usize) -> usize {
    slots(&history.steps[frame - 1]).into_iter().max().unwrap_or(0)
}

/// The entries that are named so, each with what a bar says of it.
fn shown(bars: &[&Element], next_entry: u32) -> Vec<(u32, String)> {
    let mut shown = Vec::new();
    for bar in bars {
        let numbers = bar.number("data-entry") as u32..=bar.number("data-last") as u32;
        // Of a run of equal writes only those that have been written by now.
        let written = numbers.filter(|&number| number < next_entry);
        shown.extend(written.map(|number| (number, bar.get("class").replace("entry ", ""))));
    }
    shown.sort();
    shown
}

fn numbers(bars: &[&Element], name: &str) -> BTreeSet<u32> {
    bars.iter().map(|bar| bar.number(name) as u32).collect()
}

/// In whatever width: after every frame the bars of its row are the tables.
#[test]
fn bars_are_the_tables_in_every_row() {
    for (history, room) in histories().iter().flat_map(|history| ROOMS.map(|room| (history, room))) {
        let drawn = svg(history, room);
        let mut seen = 0;
        for (row, columns) in rows(&drawn) {
            let [entries, transactions, waits, registrations] =
                ["entry", "transaction", "wait", "registration"].map(|class| row.with_class(class));
            for &frame in columns.keys() {
                let now = (frame, last_slot(history, frame));
                let Tables {
                    entries: stored, transactions: live, look_ups, registrations: registered, next_entry, ..
                } = &history.steps[frame - 1].after;
                let about = format!("{} after frame {frame}, {room} wide", history.title);
                let wanted: Vec<(u32, String)> = stored.iter().map(|e| (e.number, hold(e).to_string())).collect();
                assert_eq!(shown(&at(&entries, now), *next_entry), wanted, "{about}");
                let wanted: BTreeSet<u32> = live.iter().map(|t| t.number).collect();
                assert_eq!(numbers(&at(&transactions, now), "data-transaction"), wanted, "{about}");
                let wanted: BTreeSet<u32> = look_ups.iter().map(|l| l.party.into()).collect();
                assert_eq!(numbers(&at(&waits, now), "data-party"), wanted, "{about}");
                let wanted: BTreeSet<u32> = registered.iter().map(|r| r.number).collect();
                assert_eq!(numbers(&at(&registrations, now), "data-registration"), wanted, "{about}");
                seen += 1;
            }
        }
        assert_eq!(seen, history.steps.len());
    }
}

/// The left and right ends of a bar.
fn ends(bar: &Element) -> (f64, f64) {
    match bar.has_class("wait") {
        true => (bar.child("line").number("x1"), bar.child("line").number("x2")),
        false => {
            let rect = bar.child("rect");
            (rect.number("x"), rect.number("x") + rect.number("width"))
        }
    }
}

/// A bar reaches from its moment to its moment, and where these are in other rows from edge to edge.
#[test]
fn bars_reach_from_moment_to_moment() {
    let (mut divided, mut whole) = (0, 0);
    for (history, room) in histories().iter().flat_map(|history| ROOMS.map(|room| (history, room))) {
        let drawn = svg(history, room);
        for (row, columns) in rows(&drawn) {
            let bands: Vec<(f64, f64)> = row
                .with_class("clock")
                .iter()
                .map(|band| (band.number("x"), band.number("x") + band.number("width")))
                .collect();
            let (left_edge, right_edge) = (bands[0].0, bands[bands.len() - 1].1);
            let x = |(frame, slot): (usize, usize)| columns.get(&frame).map(|x| x + SLOT * slot as f64);
            let classes = ["entry", "transaction", "wait", "registration"];
            for bar in classes.iter().flat_map(|class| row.with_class(class)) {
                let (from, to) = (x(moment(bar.get("data-from"))), x(moment(bar.get("data-to"))));
                let (left, right) = ends(bar);
                assert!(near(left, from.unwrap_or(left_edge)), "{}, {room} wide: {bar:?}", history.title);
                assert!(near(right, to.unwrap_or(right_edge)), "{}, {room} wide: {bar:?}", history.title);
                divided += usize::from(from.is_none() || to.is_none());
                whole += usize::from(from.is_some() && to.is_some());
            }
        }
    }
    assert!(divided > 1000 && whole > 1000, "{divided} divided, {whole} whole");
}

/// The band above a column has the clock after its frames.
#[test]
fn bands_have_the_clock() {
    for (history, room) in histories().iter().flat_map(|history| ROOMS.map(|room| (history, room))) {
        let drawn = svg(history, room);
        for (row, columns) in rows(&drawn) {
            for pill in row.with_class("column") {
                let last = pill.number("data-last") as usize;
                let x = columns[&last] + 0.5;
                let over = |band: &&Element| (0.0..band.number("width")).contains(&(x - band.number("x")));
                let clocks: Vec<f64> =
                    row.with_class("clock").into_iter().filter(over).map(|band| band.number("data-clock")).collect();
                assert_eq!(clocks, [f64::from(history.steps[last - 1].after.clock)], "{} {last}", history.title);
            }
        }
    }
}

/// Where and how each entry ends, by records and tables alone: frame, slot, word.
fn entry_ends(history: &History) -> BTreeMap<u32, ((usize, usize), &'static str)> {
    let mut ends = BTreeMap::new();
    for (place, step) in history.steps.iter().enumerate() {
        let (own, slots) = (&step.records[0], slots(step));
        let written = (own.kind == WRITTEN).then_some(own.entry);
        let before = history.before(place).entries.iter().map(|entry| entry.number).chain(written);
        for number in before.filter(|&number| step.after.entry(number).is_none()) {
            let found = step.records.iter().rposition(|record| record.kind == FOUND && record.entry == number);
            let entry = history.before(place).entry(number);
            let private = entry.map_or(0, |entry| entry.private_to);
            let excepted = step.records.iter().any(|r| r.kind == EXCEPTION && private != 0 && r.transaction == private);
            let (slot, word) = match found {
                Some(place) => (slots[place], "taken"),
                None if written == Some(number) => (0, "stored"),
                None if own.kind == COMMITTED => (0, "taken"),
                None if own.kind == TICKED && !excepted => (0, "expired"),
                None => (0, "removed"),
            };
            ends.insert(number, ((place + 1, slot), word));
        }
    }
    ends
}

/// Every entry's last bar and the sign behind it are where the entry ends, and the sign says how.
#[test]
fn entries_end_where_they_end() {
    let mut words: BTreeSet<String> = BTreeSet::new();
    for history in histories() {
        let drawn = svg(&history, ONE_ROW);
        let columns = columns(&drawn);
        let mut signs: BTreeMap<u32, (f64, String)> = BTreeMap::new();
        for sign in drawn.with_class("end") {
            let word = sign.get("class").rsplit(' ').next().unwrap().to_string();
            let x = sign.children.iter().find(|child| child.name == "line").map(|line| line.number("x1"));
            for number in sign.number("data-entry") as u32..=sign.number("data-last") as u32 {
                assert!(signs.insert(number, (x.unwrap_or(0.0), word.clone())).is_none(), "E{number} ends twice");
            }
        }
        let ends = entry_ends(&history);
        assert_eq!(signs.keys().collect::<Vec<_>>(), ends.keys().collect::<Vec<_>>(), "{}", history.title);
        for (number, ((frame, slot), word)) in ends {
            let (x, sign) = &signs[&number];
            assert_eq!(sign, word, "{} E{number}", history.title);
            words.insert(sign.clone());
            if word == "stored" {
                continue;
            }
            assert!(near(*x, columns[&frame] + SLOT * slot as f64), "{} E{number}", history.title);
            let bars = drawn.with_class("entry");
            let its =
                |bar: &&&Element| (bar.number("data-entry") as u32..=bar.number("data-last") as u32).contains(&number);
            let last = bars.iter().filter(its).map(|bar| moment(bar.get("data-to"))).max();
            assert_eq!(last, Some((frame, slot)), "{} E{number}", history.title);
        }
    }
    assert_eq!(words.len(), 4, "{words:?}");
}

/// Lease, beginning and end of each transaction, as frames.
fn transactions(history: &History) -> BTreeMap<u32, (End, Option<usize>)> {
    let mut lives = BTreeMap::new();
    for (place, step) in history.steps.iter().enumerate() {
        lives.extend(step.after.transactions.iter().map(|t| (t.number, (t.end, None))));
        for ended in history.before(place).transactions.iter() {
            if step.after.transaction(ended.number).is_none() {
                lives.insert(ended.number, (ended.end, Some(place + 1)));
            }
        }
    }
    lives
}

/// The tick in which the clock reaches this, if it lies behind the frame.
fn reached_later(history: &History, end: End, after: usize) -> Option<usize> {
    let reaches = |place: &usize| {
        let step = &history.steps[*place];
        step.records[0].kind == TICKED && end == End::At(step.after.clock)
    };
    (after..history.steps.len()).find(reaches).map(|place| place + 1)
}

/// What ended before its lease did is followed by a dotted line to the lease's end, if the history gets there.
#[test]
fn leases_left_over() {
    let mut seen = 0;
    for history in histories() {
        let drawn = svg(&history, ONE_ROW);
        let columns = columns(&drawn);
        // From its write, or from the last renewal.
        let lease = |number: u32| {
            let mut given = history.steps.iter().rev().filter(|step| matches!(step.records[0].kind, WRITTEN | RENEWED));
            let step = given.find(|step| step.records[0].entry == number)?;
            let lease = step.request().map_or(FOREVER, |request| request.duration);
            Some(if lease == FOREVER { End::Never } else { End::At(step.after.clock + lease) })
        };
        let mut wanted: BTreeMap<(&str, u32), usize> = BTreeMap::new();
        for (number, ((frame, _), _)) in entry_ends(&history) {
            let tick = lease(number).and_then(|end| reached_later(&history, end, frame));
            wanted.extend(tick.map(|tick| (("data-entry", number), tick)));
        }
        for (number, (lease, end)) in transactions(&history) {
            let tick = end.and_then(|end| reached_later(&history, lease, end));
            wanted.extend(tick.map(|tick| (("data-transaction", number), tick)));
        }
        // Of entries drawn as one bar the first stands for all.
        let bars = drawn.with_class("entry");
        let first = |number: u32| bars.iter().any(|bar| bar.number("data-entry") as u32 == number);
        wanted.retain(|(class, number), _| *class == "data-transaction" || first(*number));
        seen += wanted.len();
        let lines = drawn.with_class("lease");
        assert_eq!(lines.len(), wanted.len(), "{}", history.title);
        for ((class, number), tick) in wanted {
            let line = lines.iter().find(|line| line.get(class) == number.to_string());
            let line = line.unwrap_or_else(|| panic!("{}: no lease of {class} {number}", history.title));
            assert!(near(line.child("line").number("x2"), columns[&tick]), "{}", history.title);
            assert!(line.children.iter().any(|child| child.name == "path"), "the hourglass");
        }
    }
    assert!(seen > 50, "{seen}");
}

/// The look-ups that wait before a frame and not after it, or that still wait: party, deadline, and that frame.
fn waits(history: &History) -> Vec<(u8, End, Option<usize>)> {
    let mut closed = Vec::new();
    for (place, step) in history.steps.iter().enumerate() {
        let gone = |party: u8| step.after.look_up(party).is_none();
        let before = history.before(place).look_ups.iter().filter(|look_up| gone(look_up.party));
        closed.extend(before.map(|look_up| (look_up.party, look_up.deadline, Some(place + 1))));
    }
    let last = history.steps.last().map(|step| &step.after.look_ups);
    closed.extend(last.into_iter().flatten().map(|look_up| (look_up.party, look_up.deadline, None)));
    closed
}

/// A wait that lasts until its deadline has it marked in that tick.
#[test]
fn deadlines() {
    let mut seen = 0;
    for history in histories() {
        let drawn = svg(&history, ONE_ROW);
        let columns = columns(&drawn);
        let mut wanted: Vec<(u8, i64)> = Vec::new();
        for (party, deadline, frame) in waits(&history) {
            if let Some(frame) = frame.filter(|frame| deadline == End::At(history.steps[frame - 1].after.clock)) {
                wanted.push((party, (columns[&frame] * 5.0).round() as i64));
            }
        }
        let x = |mark: &Element| {
            // "M<left> <top>H<x>V..": the bracket's back.
            let path = mark.child("path").get("d").to_string();
            path.split(['H', 'V']).nth(1).unwrap().parse::<f64>().unwrap()
        };
        let mut marks: Vec<(u8, i64)> = drawn
            .with_class("deadline")
            .iter()
            .map(|mark| (mark.number("data-party") as u8, (x(mark) * 5.0).round() as i64))
            .collect();
        marks.sort_unstable();
        wanted.sort_unstable();
        assert_eq!(marks.len(), wanted.len(), "{}", history.title);
        for (mark, want) in marks.iter().zip(&wanted) {
            assert!(mark.0 == want.0 && (mark.1 - want.1).abs() <= 1, "{}: {mark:?} {want:?}", history.title);
        }
        seen += wanted.len();
    }
    assert!(seen > 30, "{seen}");
}

/// What is still there after the last frame has the clock at which it will end behind it, in the last row alone.
#[test]
fn ends_that_lie_ahead() {
    let mut seen = 0;
    for (history, room) in histories().iter().flat_map(|history| ROOMS.map(|room| (history, room))) {
        let drawn = svg(history, room);
        let last = &history.steps.last().unwrap().after;
        let finite = |end: End| match end {
            End::At(clock) => Some(clock),
            End::Never => None,
        };
        let bars = drawn.with_class("entry");
        let first = |number: u32| bars.iter().any(|bar| bar.number("data-entry") as u32 == number);
        let mut wanted: BTreeSet<(&str, u32, u32)> = BTreeSet::new();
        for entry in last.entries.iter().filter(|entry| first(entry.number)) {
            wanted.extend(finite(entry.end).map(|clock| ("data-entry", entry.number, clock)));
        }
        for live in &last.transactions {
            wanted.extend(finite(live.end).map(|clock| ("data-transaction", live.number, clock)));
        }
        for look_up in &last.look_ups {
            wanted.extend(finite(look_up.deadline).map(|clock| ("data-party", look_up.party.into(), clock)));
        }
        for live in &last.registrations {
            wanted.extend(finite(live.end).map(|clock| ("data-registration", live.number, clock)));
        }
        let mut marks = BTreeSet::new();
        for mark in drawn.with_class("ahead") {
            let classes = ["data-entry", "data-transaction", "data-party", "data-registration"];
            let class = classes.into_iter().find(|class| !mark.get(class).is_empty()).unwrap();
            assert!(marks.insert((class, mark.number(class) as u32, mark.number("data-clock") as u32)));
        }
        assert_eq!(marks, wanted, "{}, {room} wide", history.title);
        let rows = rows(&drawn);
        let (row, _) = rows.last().unwrap();
        assert_eq!(row.with_class("ahead").len(), wanted.len(), "{}, {room} wide", history.title);
        seen += wanted.len();
    }
    assert!(seen > 100, "{seen}");
}

/// A text's line, left end and right end, by the widths that the drawing is laid out with.
fn extent(text: &Element) -> (f64, f64, f64) {
    let all: String = text.all().iter().map(|part| part.text.as_str()).collect();
    let gaps: f64 = text.children.iter().filter(|part| !part.get("dx").is_empty()).map(|part| part.number("dx")).sum();
    let style = text.get("style");
    let size = style.split("font-size:").nth(1).and_then(|rest| rest.split("px").next());
    let size: f64 = size.map_or(12.0, |size| size.parse().unwrap());
    let bold = if text.has_class("b") { 1.07 } else { 1.0 };
    let wide = width(&all) * size / 12.0 * bold + gaps;
    let x = text.number("x");
    let left = match text.get("text-anchor") {
        "end" => x - wide,
        "middle" => x - wide / 2.0,
        _ => x,
    };
    (text.number("y"), left, left + wide)
}

/// No text is cut off at an edge.
#[test]
fn texts_are_inside() {
    for (history, room) in histories().iter().flat_map(|history| ROOMS.map(|room| (history, room))) {
        let drawn = svg(history, room);
        let (wide, high) = (drawn.number("width"), drawn.number("height"));
        for text in drawn.all().into_iter().filter(|element| element.name == "text") {
            let (y, left, right) = extent(text);
            let about = format!("{}, {room} wide: {:?} at {left}-{right}", history.title, text.text);
            assert!(left > -0.5 && right < wide + 0.5 && y > 0.0 && y < high, "{about}");
        }
    }
}

/// The names of entries, their holds and the words at their ends do not run into each other.
#[test]
fn texts_of_the_space_are_apart() {
    for (history, room) in histories().iter().flat_map(|history| ROOMS.map(|room| (history, room))) {
        are_apart(history, room);
    }
    // Where a row begins, a name that is told again leaves room for the next in its row of entries.
    let text = "party 1 write 7 1 40 9 lease forever\nrepeat 3\nparty 2 read any timeout 0\nend\n\
                party 2 take kind 7 timeout 0\nparty 1 write 7 1 41 9 lease forever\nparty 2 read kind 7 timeout 0\n";
    are_apart(&history(text), 360.0);
    assert!(svg_file(&history(text), 360.0).contains("<tspan dx=\"6\">7 1 40 9</tspan></text>"), "without its lease");
}

fn are_apart(history: &History, room: f64) {
    let drawn = svg(history, room);
    for (row, _) in rows(&drawn) {
        let lanes = row.with_class("lane");
        let bottom = lanes.first().map_or(f64::MAX, |lane| lane.child("rect").number("y"));
        let mut lines: BTreeMap<i64, Vec<(f64, f64, String)>> = BTreeMap::new();
        for text in row.children.iter().filter(|child| child.name == "text") {
            let (y, left, right) = extent(text);
            let all: String = text.all().iter().map(|part| part.text.as_str()).collect();
            if y > 44.0 && y < bottom && left > 60.0 {
                lines.entry((y * 10.0) as i64).or_default().push((left, right, all));
            }
        }
        for texts in lines.values_mut() {
            texts.sort_by(|a, b| a.0.total_cmp(&b.0));
            for pair in texts.windows(2) {
                assert!(pair[0].1 < pair[1].0 + 0.5, "{}, {room} wide: {pair:?}", history.title);
            }
        }
    }
}

/// The sign of a mark is that of its request and answer: triangle, circle, square, octagon, box; filled or not.
#[test]
fn signs_are_those_of_the_records() {
    let mut seen: BTreeSet<&str> = BTreeSet::new();
    for history in histories() {
        let drawn = svg(&history, ONE_ROW);
        for mark in drawn.with_class("mark").iter().filter(|mark| mark.has_class("found") || mark.has_class("waiting"))
        {
            let (frame, party) = (mark.number("data-frame") as usize, mark.number("data-party") as u8);
            let step = &history.steps[frame - 1];
            let waited = history.before(frame - 1).look_up(party).and_then(|look_up| operation_of(look_up.operation));
            let own = mark.number("data-slot") == 0.0;
            let operation = if own { step.request().map(|request| request.operation) } else { waited };
            let Some(Class::LookUp { takes, if_exists }) = operation.map(|operation| operation.class) else {
                panic!("{} frame {frame}", history.title)
            };
            // The first circle is the mark's point.
            let circles = mark.children.iter().filter(|child| child.name == "circle").skip(1);
            let squares = mark.children.iter().filter(|child| child.name == "rect");
            let body = if takes { squares.collect::<Vec<_>>() } else { circles.collect() };
            assert_eq!(body.len(), 1, "{} frame {frame}", history.title);
            assert_eq!(body[0].get("fill") == "#fff", mark.has_class("waiting"), "{} frame {frame}", history.title);
            let asks = mark.children.iter().any(|child| child.name == "text" && child.text == "?");
            assert_eq!(asks, if_exists, "{} frame {frame}", history.title);
            seen.insert(operation.unwrap().name);
        }
    }
    assert_eq!(seen.len(), 4, "{seen:?}");
}

/// Under every mark stands its record's word.
#[test]
fn marks_are_labelled() {
    for (history, room) in histories().iter().flat_map(|history| ROOMS.map(|room| (history, room))) {
        let drawn = svg(history, room);
        for (row, _) in rows(&drawn) {
            let texts: Vec<&Element> = row.children.iter().filter(|child| child.name == "text").collect();
            for mark in row.with_class("mark") {
                let (x, y) = (mark.child("circle").number("cx"), mark.child("circle").number("cy"));
                let word = mark.get("class").replace("mark ", "");
                let under = |text: &&&Element| {
                    let (line, left, right) = extent(text);
                    text.has_class("b") && near(line, y + 25.0) && (left..right).contains(&x)
                };
                let labels: Vec<&str> = texts.iter().filter(under).map(|text| text.text.as_str()).collect();
                assert!(labels.len() == 1 && labels[0].starts_with(&word), "{}: {labels:?} {word}", history.title);
            }
        }
    }
}
