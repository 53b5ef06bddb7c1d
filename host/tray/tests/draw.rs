//! `tray draw`: well formed, and its lanes, bars and marks are those of the history, each where it belongs.

use crate::common::{files, random_text, scratch, tray};
use crate::xml::{parse as parse_xml, Element};
use std::collections::{BTreeMap, BTreeSet};
use tray::draw::lives::{entries_by_slot, slots};
use tray::draw::{page, svg_file};
use tray::history::{run, History};
use tray::oracle::Matcher;
use tray::record::{kind_of, FOUND, NOTHING, TICKED, WAITING, WRITTEN};
use tray::text;
use tray::words::Entry;

pub const ONE_ROW: f64 = 1e9;
pub const SLOT: f64 = 27.0;

pub fn history(text: &str) -> History {
    let text = text::parse(text).unwrap();
    run(&text, &text.tray().unwrap()).history
}

pub fn histories() -> Vec<History> {
    let examples = files("examples", ".txt");
    let mut texts: Vec<String> = examples.iter().map(|file| std::fs::read_to_string(file).unwrap()).collect();
    texts.extend((1..40).map(|seed| random_text(seed, 10 + 2 * seed as usize)));
    texts.push("repeat 9\ntick\nend\nparty 1 write 1 1 1 1 lease 3\nrepeat 70\ntick\nend\n".to_string());
    texts.push("party 1 write 1 1 1 1 lease 30\nparty 2 take any timeout 0\nrepeat 70\ntick\nend\n".to_string());
    let histories = texts.iter().map(|text| history(text));
    histories.filter(|history| !history.steps.is_empty() && history.steps.len() < 300).collect()
}

pub fn svg(history: &History, room: f64) -> Element {
    let text = svg_file(history, room);
    parse_xml(&text).unwrap_or_else(|why| panic!("{}: {why}", history.title))
}

/// "3.1": frame 3, slot 1.
pub fn moment(text: &str) -> (usize, usize) {
    match text.split_once('.') {
        Some((frame, slot)) => (frame.parse().unwrap(), slot.parse().unwrap()),
        None => (usize::MAX, 0),
    }
}

/// Where each frame's column is, read off the ruler.
pub fn columns(svg: &Element) -> BTreeMap<usize, f64> {
    let mut columns = BTreeMap::new();
    for pill in svg.with_class("column") {
        let rect = pill.child("rect");
        let x = rect.number("x") + rect.number("width") / 2.0;
        for frame in pill.number("data-frame") as usize..=pill.number("data-last") as usize {
            assert!(columns.insert(frame, x).is_none(), "frame {frame} twice");
        }
    }
    columns
}

pub fn near(a: f64, b: f64) -> bool {
    (a - b).abs() < 0.2
}

#[test]
fn slots_lead_to_the_tables() {
    for history in histories() {
        for (frame, step) in history.steps.iter().enumerate() {
            assert_eq!(entries_by_slot(&history, frame).last(), Some(&step.after.entries), "{}", history.title);
        }
    }
}

#[test]
fn columns_and_ticks() {
    for history in histories() {
        let drawn = svg(&history, ONE_ROW);
        let columns = columns(&drawn);
        let frames: Vec<usize> = columns.keys().copied().collect();
        assert_eq!(frames, (1..=history.steps.len()).collect::<Vec<_>>());
        let xs: Vec<f64> = columns.values().copied().collect();
        assert!(xs.windows(2).all(|pair| pair[0] <= pair[1]));
        // A tick line stands in every column whose frames are ticks, and nowhere else; the bands' clocks are theirs.
        let ticked = |frame: &usize| history.steps[frame - 1].records[0].kind == TICKED;
        let wanted: BTreeSet<u64> =
            frames.iter().filter(|f| ticked(f)).map(|f| (columns[f] * 10.0).round() as u64).collect();
        let lines: BTreeSet<u64> =
            drawn.with_class("tick").iter().map(|line| (line.number("x1") * 10.0).round() as u64).collect();
        assert_eq!(lines.len(), wanted.len());
        assert!(lines.iter().zip(&wanted).all(|(a, b)| a.abs_diff(*b) < 3), "{}", history.title);
        let clocks: BTreeSet<u32> =
            drawn.with_class("clock").iter().map(|band| band.number("data-clock") as u32).collect();
        let reached = history.steps.iter().map(|step| step.after.clock).max().unwrap_or(0);
        assert!(clocks.contains(&reached) && clocks.iter().all(|&clock| clock <= reached));
    }
}

#[test]
fn lanes_are_the_parties() {
    for history in histories() {
        let records = history.steps.iter().flat_map(|step| &step.records);
        let parties: BTreeSet<u8> = records.filter(|record| record.kind != TICKED).map(|record| record.party).collect();
        let drawn = svg(&history, 852.0);
        let rows = drawn.children.iter().filter(|child| child.name == "g").count();
        let lanes = drawn.with_class("lane");
        assert_eq!(lanes.len(), rows * parties.len(), "{}", history.title);
        let named: BTreeSet<u8> = lanes.iter().map(|lane| lane.number("data-party") as u8).collect();
        assert_eq!(named, parties);
        for row in drawn.children.iter().filter(|child| child.name == "g") {
            let tops: Vec<f64> = row.with_class("lane").iter().map(|lane| lane.child("rect").number("y")).collect();
            assert!(tops.windows(2).all(|pair| pair[0] < pair[1]), "lanes by number, one below the other");
        }
    }
}

/// A mark for every record but the ticked, in its column, slot and lane.
#[test]
fn marks_are_the_records() {
    for history in histories() {
        let drawn = svg(&history, ONE_ROW);
        let columns = columns(&drawn);
        let shared: BTreeSet<usize> = drawn
            .with_class("column")
            .iter()
            .flat_map(|pill| pill.number("data-frame") as usize + 1..=pill.number("data-last") as usize)
            .collect();
        let lanes: BTreeMap<u8, (f64, f64)> = drawn
            .with_class("lane")
            .iter()
            .map(|lane| {
                let rect = lane.child("rect");
                (lane.number("data-party") as u8, (rect.number("y"), rect.number("y") + rect.number("height")))
            })
            .collect();
        let mut marks: Vec<(usize, usize, u8, String)> = Vec::new();
        for mark in drawn.with_class("mark") {
            let (frame, slot) = (mark.number("data-frame") as usize, mark.number("data-slot"));
            let (party, point) = (mark.number("data-party") as u8, mark.child("circle"));
            assert!(near(point.number("cx"), columns[&frame] + SLOT * slot), "{} frame {frame}", history.title);
            let (top, bottom) = lanes[&party];
            assert!((top..bottom).contains(&point.number("cy")), "{} frame {frame}", history.title);
            marks.push((frame, slot as usize, party, mark.get("class").replace("mark ", "")));
        }
        let mut wanted = Vec::new();
        for (place, step) in history.steps.iter().enumerate().filter(|(place, _)| !shared.contains(&(place + 1))) {
            for (record, slot) in step.records.iter().zip(slots(step)).filter(|(record, _)| record.kind != TICKED) {
                wanted.push((place + 1, slot, record.party, kind_of(record.kind).unwrap().name.to_string()));
            }
        }
        marks.sort();
        wanted.sort();
        assert_eq!(marks, wanted, "{}", history.title);
    }
}

pub fn hold(entry: &Entry) -> &'static str {
    match entry {
        Entry { taken_by, .. } if *taken_by != 0 => "taken",
        Entry { private_to, .. } if *private_to != 0 => "private",
        Entry { read_by, .. } if !read_by.is_empty() => "read",
        _ => "committed",
    }
}

/// Bars whose span has this moment in it.
pub fn at<'a>(bars: &[&'a Element], now: (usize, usize)) -> Vec<&'a Element> {
    let covers = |bar: &&Element| moment(bar.get("data-from")) <= now && now < moment(bar.get("data-to"));
    bars.iter().copied().filter(covers).collect()
}

/// What is handed out or written has its line, and so has each matching entry that is not handed out; nothing else has.
#[test]
fn connectors() {
    let (mut matcher, mut barred) = (Matcher::default(), 0);
    for history in histories() {
        let drawn = svg(&history, ONE_ROW);
        let bars = drawn.with_class("entry");
        // Of entries drawn as one bar the first stands for all.
        let first_of = |number: u32| {
            let mut spans = bars.iter().map(|bar| (bar.number("data-entry") as u32, bar.number("data-last") as u32));
            spans.find(|(first, last)| (*first..=*last).contains(&number)).map_or(number, |(first, _)| first)
        };
        let mut wanted: BTreeSet<(&str, usize, u32)> = BTreeSet::new();
        for pill in drawn.with_class("column") {
            let frame = pill.number("data-frame") as usize;
            let step = &history.steps[frame - 1];
            for (place, record) in step.records.iter().enumerate() {
                match record.kind {
                    WRITTEN => wanted.extend([("wrote", frame, record.entry)]),
                    FOUND => wanted.extend([("handed", frame, record.entry)]),
                    NOTHING | WAITING => {
                        let sought = history.sought(frame - 1, place).unwrap();
                        let matching = matcher.matching(&sought.template, &step.after);
                        wanted.extend(matching.iter().map(|entry| ("barred", frame, first_of(entry.number))));
                    }
                    _ => {}
                }
            }
        }
        let mut lines = BTreeSet::new();
        for class in ["wrote", "handed", "barred"] {
            for line in drawn.with_class(class) {
                lines.insert((class, line.number("data-frame") as usize, line.number("data-entry") as u32));
            }
        }
        barred += lines.iter().filter(|line| line.0 == "barred").count();
        assert_eq!(lines, wanted, "{}", history.title);
    }
    assert!(barred > 50, "{barred}");
}

/// Labels of the same lane do not run into each other: their boxes, by the same widths, are apart.
#[test]
fn labels_do_not_overlap() {
    for history in histories() {
        let drawn = svg(&history, 852.0);
        for row in drawn.children.iter().filter(|child| child.name == "g") {
            let mut lines: BTreeMap<i64, Vec<(f64, f64, &str)>> = BTreeMap::new();
            let first_lane = row.with_class("lane").first().map_or(0.0, |lane| lane.child("rect").number("y"));
            for text in row.children.iter().filter(|child| child.name == "text" && child.has_class("h")) {
                let (x, y) = (text.number("x"), text.number("y"));
                if y < first_lane || text.text.is_empty() {
                    continue;
                }
                let bold = if text.has_class("b") { 1.07 } else { 1.0 };
                let wide = tray::draw::metrics::width(&text.text) * bold;
                let left = if text.get("text-anchor") == "end" { x - wide } else { x };
                lines.entry((y * 10.0) as i64).or_default().push((left, left + wide, &text.text));
            }
            for labels in lines.values_mut() {
                labels.sort_by(|a, b| a.0.total_cmp(&b.0));
                for pair in labels.windows(2) {
                    assert!(pair[0].1 < pair[1].0 + 0.5, "{}: {pair:?}", history.title);
                }
            }
        }
    }
}

#[test]
fn pages_are_well_formed() {
    for history in histories() {
        let page = page::page(&history, "a <b> & \"c\"");
        let root = parse_xml(&page).unwrap_or_else(|why| panic!("{}: {why}", history.title));
        assert!(!page.contains("<script") && !page.contains("http://www.w3.org/1999/xlink"));
        let rows: Vec<&Element> =
            root.all().into_iter().filter(|e| e.name == "tr" && e.get("id").starts_with('f')).collect();
        assert_eq!(rows.len(), history.steps.len());
        // Every link leads somewhere, and no name is given twice.
        let ids: Vec<&str> = root.all().iter().map(|e| e.get("id")).filter(|id| !id.is_empty()).collect();
        assert_eq!(ids.iter().collect::<BTreeSet<_>>().len(), ids.len());
        for link in root.all().iter().filter(|e| e.name == "a") {
            assert!(ids.contains(&link.get("href").trim_start_matches('#')), "{}", link.get("href"));
        }
        for hatched in root.all().iter().filter_map(|e| e.get("fill").strip_prefix("url(#")) {
            assert!(ids.contains(&hatched.trim_end_matches(')')), "{hatched}");
        }
    }
}

/// Colours and shapes: each party of the first eight has a hue of its own, dark enough for text on white.
#[test]
fn hues_are_dark_and_apart() {
    let hues: Vec<String> = (1..=8).map(|party| tray::draw::metrics::hue(party, 1.0)).collect();
    assert_eq!(hues.iter().collect::<BTreeSet<_>>().len(), 8);
    for hue in hues {
        let part = |at: usize| {
            let value = f64::from(u8::from_str_radix(&hue[at..at + 2], 16).unwrap()) / 255.0;
            if value <= 0.03928 {
                value / 12.92
            } else {
                ((value + 0.055) / 1.055).powf(2.4)
            }
        };
        let light = 0.2126 * part(1) + 0.7152 * part(3) + 0.0722 * part(5);
        assert!(1.05 / (light + 0.05) > 4.5, "{hue} has too little contrast on white");
    }
}

/// A look-up that has found one of several says so; one that had no other does not.
#[test]
fn the_oldest_of_several() {
    let text = std::fs::read_to_string("../../examples/oldest-first.txt").unwrap();
    let drawn = svg_file(&history(&text), ONE_ROW);
    let told = |several: &str| drawn.matches(&format!(">{several}<")).count();
    assert_eq!((told("oldest of 3"), told("oldest of 2"), told("oldest of 1")), (3, 3, 0));
}

/// So does one that has waited: of those at its turn.
#[test]
fn the_oldest_of_several_in_service() {
    let text = std::fs::read_to_string("../../examples/oldest-first-served.txt").unwrap();
    let drawn = svg_file(&history(&text), ONE_ROW);
    let told = |several: &str| drawn.matches(&format!(">{several}<")).count();
    assert_eq!((told("oldest of 3"), told("oldest of 2"), told("oldest of 1")), (1, 3, 0));
}

#[test]
fn the_program_draws() {
    let folder = scratch("draw");
    let (html, svg) = (folder.join("a.html"), folder.join("a.svg"));
    let file = "../../examples/belief-1-lease-runs-on.txt";
    for to in [&html, &svg] {
        let answer = tray(&["draw", file, "-o", to.to_str().unwrap()], "");
        assert_eq!((answer.status, answer.out.as_str(), answer.err.as_str()), (0, "", ""));
        assert!(parse_xml(&std::fs::read_to_string(to).unwrap()).is_ok());
    }
    assert_eq!(tray(&["draw", file], "").status, 2);
    assert_eq!(tray(&["draw", file, "-o", "a.png"], "").status, 2);
    assert_eq!(tray(&["draw", file, "-o", "a.svg", "-o", "a.svg"], "").status, 2);
    assert_eq!(tray(&["draw", file, "-o", "/no/such/folder/a.svg"], "").status, 1);
    assert_eq!(tray(&["draw", "-", "-o", svg.to_str().unwrap()], "frob").status, 2);
    assert_eq!(tray(&["draw", "-", "-o", svg.to_str().unwrap()], "tick\ncount 9").status, 3);
    assert_eq!(tray(&["draw", "-", "-o", svg.to_str().unwrap()], "# Nothing.\n").status, 0);
}
