//! Positions on the clock face (document 02, T-09): times and arcs in texts and frames, numbers 4 and 21, the rule of
//! matching and its mirror, and how arcs are told and drawn.

use crate::common::{assembled, bad_lines, scratch, tray};
use crate::draw::{history, ONE_ROW};
use crate::explore::verdicts;
use tray::boundary::{mirror_of, place_of, time_of, Space};
use tray::claim::Verdict::{Kept, Refuted};
use tray::draw::{page, svg_file};
use tray::face::{arc_text, place_at, time_text, Mirrored};
use tray::frame::{operation_named, show, Part, Request, OPERATIONS};
use tray::oracle::Matcher;
use tray::words::{Arc, Fields, Template, Values, PLACES};

const REFUSED: u64 = 65536 * 21;

/// Document 02's rule, once more: "low 16 bits start, high 16 bits length. It matches p from 0 to 719 exactly if
/// (p - start) modulo 720 is at most the length".
pub fn in_arc(field: u32, place: u32) -> bool {
    place < 720 && (720 + place - field % 65536) % 720 <= field / 65536
}

fn look_up(name: &str, mask: u8, fields: Fields) -> Vec<u8> {
    let operation = operation_named(name).unwrap();
    Request { mask, fields, duration: 1, ..Request::new(operation, 1) }.frame()
}

fn arc_frame(start: u32, length: u32) -> Vec<u8> {
    look_up("read", 16, [0, 0, 0, Arc { start, length }.field()])
}

#[test]
fn the_library_converts() {
    for place in 0..720u32 {
        let (hour, minute) = (if place < 60 { 12 } else { place / 60 }, place % 60);
        assert_eq!(time_of(place), u64::from(256 * hour + minute));
        assert_eq!(place_of(hour, minute), u64::from(place));
        assert_eq!(mirror_of(place), u64::from((720 - place) % 720));
        assert_eq!(time_text(place), Some(format!("{hour}:{minute:02}")));
        assert_eq!(place_at(&format!("{hour}:{minute:02}")), Some(place));
    }
    for (hour, minute) in [(0, 0), (13, 0), (1, 60), (12, 60), (0, 59), (u32::MAX, 0), (1, u32::MAX), (256, 1)] {
        assert_eq!(place_of(hour, minute), REFUSED, "{hour}:{minute}");
    }
    for place in [720, 721, 65536, u32::MAX] {
        assert_eq!((time_of(place), mirror_of(place), time_text(place)), (REFUSED, REFUSED, None), "{place}");
    }
    for word in ["", ":", "2:", ":30", "2:5", "2:60", "0:30", "13:00", "2:030", "002:30", "2:30:00", "+2:30", "2:-3"] {
        assert_eq!(place_at(word), None, "{word}");
    }
    assert_eq!(place_at("02:30"), Some(150));
}

/// A time is another way to write a number: the same bytes, which are shown as a number.
#[test]
fn times_in_texts() {
    for (time, number) in [
        ("party 1 write 7 1 40 2:30 lease 5", "party 1 write 7 1 40 150 lease 5"),
        ("party 1 write blank blank 40 12:00 lease 0 in 2", "party 1 write blank blank 40 0 lease 0 in 2"),
        ("party 1 take place 12:59 timeout 0", "party 1 take place 59 timeout 0"),
        (
            "party 1 read kind 7 side 1 place 11:59 timeout 5 in 2",
            "party 1 read kind 7 side 1 place 719 timeout 5 in 2",
        ),
        ("party 1 notify place 1:00 lease 5", "party 1 notify place 60 lease 5"),
    ] {
        assert_eq!(assembled(time), assembled(number));
        assert_eq!(show(&assembled(time)), number);
    }
}

/// Every arc has a line, and the line stands for these bytes; so has each that is refused with 21.
#[test]
fn arcs_in_texts() {
    let numbers = [0, 1, 59, 60, 359, 360, 660, 718, 719, 720, 721, 1000, 65535];
    for (start, length) in (0..720)
        .map(|start| (start, 37 * start % 720))
        .chain(numbers.into_iter().flat_map(|start| numbers.map(|length| (start, length))))
    {
        let (frame, on_the_face) = (arc_frame(start, length), start < 720 && length < 720);
        assert_eq!(frame[24..], [start as u8, (start >> 8) as u8, length as u8, (length >> 8) as u8]);
        let arc = match on_the_face {
            true => {
                let end = (start + length) % 720;
                assert_eq!(assembled(&format!("party 1 read arc {start} to {end} timeout 1")), frame);
                format!("arc {} to {}", time_text(start).unwrap(), time_text(end).unwrap())
            }
            false => format!("arc start {start} length {length}"),
        };
        assert_eq!(arc_text(Arc { start, length }), arc);
        assert_eq!(show(&frame), format!("party 1 read {arc} timeout 1"));
        assert_eq!(assembled(&show(&frame)), frame);
        assert_eq!(assembled(&format!("party 1 read arc start {start} length {length} timeout 1")), frame);
        assert_eq!(Space::default().step(&frame), if on_the_face { 0 } else { 21 }, "{arc}");
    }
    for line in [
        "party 2 take kind 7 side 1 image 40 arc 11:00 to 1:00 timeout forever in 3",
        "party 2 notify kind 7 arc 3:00 to 3:00 lease 5",
        "party 2 readIfExists arc 12:00 to 11:59 timeout 0",
    ] {
        assert_eq!(show(&assembled(line)), line);
    }
}

/// Which masks and places number 4 and number 21 refuse; number 4's have no line of their own.
#[test]
fn numbers_4_and_21_and_texts_agree() {
    let places = [0, 9, 719, 720, 65535, 65536, 719 * 65536 + 719, 720 * 65536, 719 * 65536 + 720, u32::MAX];
    for operation in OPERATIONS.iter().filter(|operation| operation.length == 28) {
        let template = operation.parts.contains(&Part::Template);
        for (mask, place) in (0..=255u8).flat_map(|mask| places.map(|place| (mask, place))) {
            let values: Fields = [7, 1, 40, place];
            let filled = |i: usize| (mask >> i & 1 == 1) == template || (i == 3 && mask & 16 != 0);
            let fields = std::array::from_fn(|i| if filled(i) { values[i] } else { 0 });
            let request = Request { mask, fields, duration: 1, ..Request::new(operation, 1) };
            let arc = template && mask & 24 == 16;
            let number = match mask {
                32.. => 4,
                16.. if !arc => 4,
                16.. if place % 65536 > 719 || place / 65536 > 719 => 21,
                _ => 0,
            };
            let text = show(&request.frame());
            assert_eq!(Space::default().step(&request.frame()), number, "{} {mask} {place}", operation.name);
            assert_eq!(text.starts_with("bytes "), number == 4, "{text}");
            assert_eq!(text.contains(" arc "), arc && number != 4, "{text}");
            assert_eq!(assembled(&text), request.frame());
        }
        // Beside an arc, too, a field is 0 where its bit is 0.
        let frame = Request { mask: 16, fields: [7, 0, 0, 0], duration: 1, ..Request::new(operation, 1) }.frame();
        assert!(Space::default().step(&frame) == 4 && show(&frame).starts_with("bytes "), "{}", operation.name);
    }
}

#[test]
fn bad_times_and_arcs() {
    let time = "a time of the clock face: hour 1 to 12, minutes 00 to 59 in two digits, as in 2:05";
    let begins = "where the arc begins: a time (2:30) or a number from 0 to 719";
    let ends = "where the arc ends: a time (2:30) or a number from 0 to 719";
    let bad = [
        ("place 13:00", format!("{time}, found `13:00`")),
        ("place 2:60", format!("{time}, found `2:60`")),
        ("place 2:5", format!("{time}, found `2:5`")),
        ("place 0:30", format!("{time}, found `0:30`")),
        ("place", "a number or a time (2:30) for place, found `timeout`".to_string()),
        ("kind 2:30", "a number for kind, found `2:30`".to_string()),
        ("arc", format!("{begins}, found `timeout`")),
        ("arc 720 to 5", format!("{begins}, found `720`")),
        ("arc blank to 5", format!("{begins}, found `blank`")),
        ("arc 1:00", "`to` and where the arc ends, found `timeout`".to_string()),
        ("arc 1:00 - 3:00", "`to` and where the arc ends, found `-`".to_string()),
        ("arc 1:00 to", format!("{ends}, found `timeout`")),
        ("arc 1:00 to 720", format!("{ends}, found `720`")),
        ("arc 1:00 to 24:00", format!("{time}, found `24:00`")),
        ("arc 1:00 to 2:00 kind 7", "`timeout`, found `kind`".to_string()),
        ("arc 1:00 to 2:00 place 9", "`place` or `arc` only once, found `place`".to_string()),
        ("place 9 arc 1:00 to 2:00", "`place` or `arc` only once, found `arc`".to_string()),
        ("arc start 5", "`length`, found `timeout`".to_string()),
        ("arc start 65536 length 5", "the arc's start, a number up to 65535, found `65536`".to_string()),
        ("arc start 5 length", "the arc's length, a number up to 65535, found `timeout`".to_string()),
        ("2:30", "a template: `any`, or `kind K side S image I place L`".to_string()),
    ];
    for (template, expected) in bad {
        bad_lines(&[(&format!("party 1 read {template} timeout 0"), &expected)]);
    }
    let write = tray(&["run", "-"], "party 1 write 7 1 40 12:0 lease 5");
    assert!(write.status == 2 && write.err.contains(&format!("expected {time}, found `12:0`")), "{}", write.err);
    let none = tray(&["run", "-"], "party 1 write 7 1 40 arc 1:00 to 2:00 lease 5");
    assert!(none.status == 2 && none.err.contains("a time (2:30) for place, found `arc`"), "{}", none.err);
}

/// The space's own answer, by the rule: both ends, across 12:00, the whole face; blanks and larger places never.
#[test]
fn the_rule_of_matching() {
    let (mut matcher, mut within) = (Matcher::default(), 0);
    for (start, length) in [(0, 0), (0, 719), (660, 120), (60, 600), (719, 0), (719, 1), (300, 719), (59, 1), (1, 718)]
    {
        let field = Arc { start, length }.field();
        let template = Template { mask: 16, fields: [0, 0, 0, field] };
        for place in (0..720).step_by(7).chain([start, (start + length) % 720, (start + length + 1) % 720, 59, 719]) {
            let values = |place| Values { fields: [7, 1, 40, place], blanks: 0 };
            assert_eq!(matcher.matches(&template, &values(place)), in_arc(field, place), "{start} {length} {place}");
            assert!(!matcher.matches(&template, &values(place + 720)) && !in_arc(field, place + 720));
            within += usize::from(in_arc(field, place));
        }
        assert!(in_arc(field, start) && in_arc(field, (start + length) % 720));
        let blank = Values { fields: [7, 1, 40, 0], blanks: 8 };
        assert!(!matcher.matches(&template, &blank), "a blank lies in no arc");
    }
    assert!(within > 300, "{within}");
}

/// A place lies in an arc exactly when its mirror lies in the mirrored arc, by the library and by the space.
#[test]
fn mirrors() {
    let mut matcher = Matcher::default();
    let mut matches = |arc: Arc, place: u32| {
        let template = Template { mask: 16, fields: [0, 0, 0, arc.field()] };
        matcher.matches(&template, &Values { fields: [7, 1, 40, place], blanks: 0 })
    };
    for words in
        ["1:00 to 3:00", "11:00 to 1:00", "11:00 to 9:00", "12:00 to 12:00", "start 60 length 719", "arc 0 to 1"]
    {
        let Mirrored { arc, mirror, is_place } = Mirrored::parse(words).unwrap();
        assert!(!is_place && mirror.length == arc.length, "{words}");
        assert_eq!(mirror.start, (1440 - arc.start - arc.length) % 720, "{words}");
        for place in (0..720).step_by(11).chain([arc.start, arc.end().unwrap()]) {
            let mirrored = mirror_of(place) as u32;
            assert_eq!(matches(arc, place), matches(mirror, mirrored), "{words}: {place}");
            assert_eq!(mirror_of(mirrored), u64::from(place), "twice");
        }
    }
}

/// 21 comes after 5 and before 6, and so before all that is judged later.
#[test]
fn order_of_judgement() {
    let text = "tick\nparty 3 take kind 9 timeout forever\nrepeat 8\nparty 1 notify any lease 9\nend\n";
    let mut space = Space::default();
    tray::text::parse(text).unwrap().frames().for_each(|asked| assert_eq!(space.step(&asked.frame), 0));
    let before = space.words;
    for (line, number) in [
        ("party 0 read arc start 720 length 0 timeout 0", 5),
        ("party 17 notify arc start 0 length 720 lease 0", 5),
        ("party 3 read arc start 720 length 0 timeout 0", 21),
        ("party 3 read arc start 719 length 719 timeout 0", 6),
        ("party 2 read arc start 720 length 0 timeout 4294967294 in 9", 21),
        ("party 2 read arc start 719 length 0 timeout 4294967294 in 9", 7),
        ("party 2 read arc start 719 length 0 timeout 4294967294", 10),
        ("party 2 notify arc start 0 length 720 lease 0", 21),
        ("party 2 notify arc start 0 length 719 lease 0", 9),
        ("party 2 notify arc start 0 length 720 lease 5", 21),
        ("party 2 notify arc start 0 length 719 lease 5", 17),
    ] {
        assert_eq!(space.step(&assembled(line)), number, "{line}");
        assert!(space.words == before, "refused, and nothing changed");
    }
}

const HELD: &str = "party 1 write 7 1 40 12:30 lease 5\nparty 1 write 7 1 41 6:00 lease 5\nparty 2 create lease 9\n\
    party 2 take arc 11:00 to 1:00 timeout 0 in 1\nparty 3 take kind 7 arc 11:00 to 1:00 timeout forever\n\
    party 4 read arc 12:00 to 12:29 timeout 0\nparty 5 notify arc 12:30 to 12:30 lease 9\n\
    party 4 read arc start 720 length 5 timeout 0\nparty 1 write 7 1 42 12:30 lease 5\nparty 4 read any timeout 0\n";

#[test]
fn arcs_in_words() {
    let out = tray(&["run", "--state", "-"], HELD).out;
    for line in [
        "4  clock 0   party 2 take arc 11:00 to 1:00 timeout 0 in 1",
        "party 2: found entry 1, kind 7, side 1, image 40, place 30, in transaction 1; at 12:30",
        "| party 3 waits forever: take kind 7 arc 11:00 to 1:00",
        "|   entry 1 (7 1 40 30, at 12:30): taken by transaction 1 of party 2",
        "| registration 1 of party 5: arc 12:30 to 12:30, ends at clock 9, 0 so far",
        "party 4: refused 21: the arc's start or length is above 719",
        "party 3: found entry 3, kind 7, side 1, image 42, place 30; at 12:30",
        "party 5: rung: 1 new, 1 so far, by registration 1; for entry 3",
        "party 4: found entry 2, kind 7, side 1, image 41, place 360",
    ] {
        assert!(out.lines().any(|found| found.trim() == line), "{line}:\n{out}");
    }
    let waiting = tray(&["waiting", "-", "--after", "8"], HELD).out;
    let list =
        "   1  party 3 waits since clock 0, no deadline; frame 5: party 3 take kind 7 arc 11:00 to 1:00 timeout \
                forever\n        entry 1 (7 1 40 30, at 12:30): taken by transaction 1 of party 2\n";
    assert!(waiting.contains(list), "{waiting}");
}

/// What was typed is saved as it was written, and gives the same answers.
#[test]
fn arcs_as_typed() {
    let file = scratch("arcs").join("saved.txt");
    let lines = "party 1 write 7 1 40 2:30 lease 5\nparty 2 read arc 150 to 2:31 timeout 0\n";
    let typed = tray(&["try"], &format!("{lines}party 2 read arc 3 timeout 0\nsave {}\n", file.display()));
    assert!(typed.out.contains("place 150; at 2:30\n"), "{}", typed.out);
    assert_eq!(typed.err, "expected `to` and where the arc ends, found `timeout`\n");
    assert_eq!(std::fs::read_to_string(&file).unwrap(), lines);
    let shown = tray(
        &["run", "-"],
        &tray::bytes::show_all(lines.lines().map(assembled).collect::<Vec<_>>().iter().map(|f| &f[..])),
    );
    assert!(shown.out.contains("party 2 read arc 2:30 to 2:31 timeout 0\n"), "{}", shown.out);
}

/// The arc in words where there is room, else in a slot; in full where one points, in the table and at its bar.
#[test]
fn arcs_in_drawings() {
    let text = format!(
        "{HELD}party 6 read kind 7 side 1 arc 9:00 to 11:00 timeout 0\n\
                        party 6 read kind 7 side 1 arc start 720 length 5 timeout 0\n"
    );
    let history = history(&text);
    let drawn = svg_file(&history, ONE_ROW);
    let told = |label: &str| drawn.matches(&format!(">{label}<")).count();
    assert_eq!((told("arc 11:00 to 1:00"), told("kind 7 arc 11:00 to 1:00")), (1, 1), "{drawn}");
    assert_eq!((told("7 1 * 9:00-11:00"), told("7 1 * 720+5"), told("arc start 720 length 5")), (1, 1, 1), "{drawn}");
    assert_eq!((told("refused 21"), told("off the clock face")), (2, 2), "{drawn}");
    assert!(drawn.contains("party 3: take kind 7 arc 11:00 to 1:00 waits forever"), "{drawn}");
    assert!(drawn.contains("R1, registration of party 5: arc 12:30 to 12:30; lease to clock 9; 1 bell"), "{drawn}");
    assert!(drawn.contains("found entry 3, kind 7, side 1, image 42, place 30; at 12:30"), "{drawn}");
    let page = page::page(&history, "arcs");
    assert!(crate::xml::parse(&page).is_ok());
    assert!(page.contains("entry 1 (7 1 40 30, at 12:30): taken by transaction 1 of party 2"), "{page}");
    assert!(page.contains("of party 5, arc 12:30 to 12:30, lease to clock 9, 1 so far"), "{page}");
}

#[test]
fn arcs_of_panes() {
    let text = "party 16 write 7 1 40 2:30 lease forever\n\
                pane Mover party 1\ncreate lease 1 as T\ntake arc 2:00 to 3:00 timeout 0 in T after nothing stop\n\
                write 7 1 40 9:30 lease forever in T\ncommit T\n\
                pane Left party 2\nnotify arc 2:00 to 3:00 lease forever\nread arc 2:00 to 3:00 timeout 0\n\
                pane Right party 3\nread kind 7 arc 9:00 to 10:00 timeout forever\n\
                pane Wrong party 4\nread arc start 720 length 0 timeout 0\nticks at most 1\n\
                claim always exactly 1 committed entry matches kind 7 side 1\n\
                claim always some committed entry matches arc 2:00 to 3:00\n\
                claim always no committed entry matches arc 3:00 to 9:29\nclaim Left never gets rung\n\
                claim Wrong always gets refused 21\nclaim Right always gets found\n\
                claim at the end exactly 1 stored entry matches arc 9:30 to 2:30\n";
    assert_eq!(verdicts(text), [Kept, Refuted, Kept, Kept, Kept, Refuted, Kept]);
    let to = scratch("arcs").join("report.html");
    let answer = tray(&["explore", "-", "-o", to.to_str().unwrap()], text);
    assert_eq!(answer.status, 0, "{}", answer.err);
    assert!(answer.out.contains("REFUTED: always some committed entry matches arc 2:00 to 3:00"), "{}", answer.out);
    assert!(answer.out.contains("party 1 take arc 2:00 to 3:00 timeout 0 in 1"), "{}", answer.out);
    let report = std::fs::read_to_string(&to).unwrap();
    assert!(crate::xml::parse(&report).is_ok());
    assert!(report.contains("0 committed match arc 2:00 to 3:00"), "what fails stands under the last column");
    let bad =
        tray(&["explore", "-"], "pane A party 1\nread any timeout 0\nclaim always no stored entry matches arc 3\n");
    assert!(bad.status == 2 && bad.err.contains("-:3: expected `to` and where the arc ends"), "{}", bad.err);
}

#[test]
fn the_program_converts() {
    for (words, told) in [
        (vec!["2:30"], "2:30 is place 150\nmirrored: 9:30 is place 570\n"),
        (vec!["150"], "2:30 is place 150\nmirrored: 9:30 is place 570\n"),
        (vec!["12:00"], "12:00 is place 0\nmirrored: 12:00 is place 0\n"),
        (
            vec!["1:00", "to", "3:00"],
            "arc 1:00 to 3:00: start 60, length 120, in a frame 7864380\n\
             mirrored: arc 9:00 to 11:00: start 540, length 120, in a frame 7864860\n",
        ),
        (
            vec!["arc", "180", "to", "180"],
            "arc 3:00 to 3:00: start 180, length 0, in a frame 180\n\
             mirrored: arc 9:00 to 9:00: start 540, length 0, in a frame 540\n",
        ),
    ] {
        let answer = tray(&[&["place"], &words[..]].concat(), "");
        assert_eq!((answer.status, answer.out.as_str(), answer.err.as_str()), (0, told, ""), "{words:?}");
    }
    for (words, why) in [
        (vec![], "expected tray place PLACE"),
        (vec!["720"], "expected a place of the clock face: a time (2:30) or a number from 0 to 719, found `720`"),
        (vec!["13:00"], "expected a time of the clock face"),
        (vec!["1:00", "to"], "expected where the arc ends"),
        (vec!["2:30", "9:30"], "expected `to` and where the arc ends, found `9:30`"),
        (vec!["1:00", "to", "2:00", "3:00"], "expected the end of the line, found `3:00`"),
        (vec!["start", "0", "length", "720"], "expected a start and a length below 720, found `start 0 length 720`"),
        (vec!["2:30", "-o", "face.png"], "expected a file that ends with .svg, found `face.png`"),
    ] {
        let answer = tray(&[&["place"], &words[..]].concat(), "");
        assert_eq!((answer.status, answer.out.as_str()), (2, ""), "{words:?}");
        assert!(answer.err.starts_with(&format!("tray: {why}")), "{words:?}: {}", answer.err);
    }
}

/// Two faces; on the right one each end is as far to the other side of its middle.
#[test]
fn faces_are_drawn() {
    let to = scratch("arcs").join("faces.svg");
    for words in ["2:30", "1:00 to 3:00", "12:00 to 11:59", "8:10 to 2:20"] {
        let file = to.to_str().unwrap();
        let arguments: Vec<&str> = ["place"].into_iter().chain(words.split(' ')).chain(["-o", file]).collect();
        assert_eq!(tray(&arguments, "").status, 0);
        let drawn = crate::xml::parse(&std::fs::read_to_string(&to).unwrap()).unwrap();
        let circles: Vec<_> = drawn.all().into_iter().filter(|element| element.name == "circle").collect();
        let [left, start, end, right, mirrored_start, mirrored_end] = circles[..] else { panic!("{words}") };
        let place = |dot: &crate::xml::Element, face: &crate::xml::Element| {
            (dot.number("cx") - face.number("cx"), dot.number("cy") - face.number("cy"))
        };
        for (dot, mirror) in [(start, mirrored_end), (end, mirrored_start)] {
            let ((x, y), (mirrored_x, mirrored_y)) = (place(dot, left), place(mirror, right));
            assert!((x + mirrored_x).abs() < 0.2 && (y - mirrored_y).abs() < 0.2, "{words}");
            assert!((x.hypot(y) - left.number("r")).abs() < 0.2, "{words}");
        }
        // The arc goes the long way exactly if it is longer than half the face.
        let long = Mirrored::parse(words).unwrap().arc.length > PLACES / 2;
        let arcs = drawn.all().into_iter().filter(|element| element.name == "path");
        let large: Vec<bool> = arcs.map(|path| path.get("d").contains(" 0 1 1 ")).collect();
        assert_eq!(large, [long, long], "{words}");
    }
}

/// The manual's tables of times and of arcs say what the library and the tool say.
#[test]
fn tables_of_the_manual() {
    let manual = std::fs::read_to_string("../../docs/MANUAL.md").unwrap();
    let section = manual.split("\n## ").find(|section| section.starts_with("Positions on the clock face\n")).unwrap();
    let (mut times, mut arcs) = (0, 0);
    for row in section.lines().filter(|line| line.starts_with("| ")) {
        let cells: Vec<&str> = row.trim_matches('|').split('|').map(str::trim).collect();
        let asked = Mirrored::parse(cells[0]);
        match (asked, &cells[1..]) {
            (Ok(Mirrored { arc, mirror, is_place: true }), [place, mirrored]) => {
                assert_eq!(arc.start.to_string(), *place, "{row}");
                assert_eq!(format!("{}, {}", time_text(mirror.start).unwrap(), mirror.start), *mirrored, "{row}");
                times += 1;
            }
            (Ok(Mirrored { arc, mirror, is_place: false }), [start, length, field, mirrored]) => {
                assert_eq!(
                    [arc.start, arc.length, arc.field()].map(|n| n.to_string()),
                    [*start, *length, *field],
                    "{row}"
                );
                assert_eq!(arc_text(mirror), format!("arc {mirrored}"), "{row}");
                arcs += 1;
            }
            (asked, _) => assert!(asked.is_err() && ["time", "arc"].contains(&cells[0]), "{row}"),
        }
    }
    assert_eq!((times, arcs), (8, 6));
}
