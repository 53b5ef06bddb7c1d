//! Marks without a place (document 02, T-08): blanks in texts, frames, records and words, the null rule, number 4, and how
//! they are shown.

use crate::common::{assembled, bad_lines, random_text, tray};
use crate::draw::{history, ONE_ROW};
use tray::boundary::Space;
use tray::draw::{page, svg_file};
use tray::frame::{operation_named, show, Class, Part, Request, OPERATIONS};
use tray::history::History;
use tray::oracle::Matcher;
use tray::record::{FOUND, RECORD_BYTES, RUNG, STEP_BYTES};
use tray::text::parse;
use tray::words::{Fields, Template, Values, FOREVER, WORDS};

const PLACELESS: &str = "party 1 write 7 1 40 blank lease 5";

fn write(mask: u8, fields: Fields, lease: u32) -> Vec<u8> {
    let operation = operation_named("write").unwrap();
    Request { mask, fields, duration: lease, ..Request::new(operation, 1) }.frame()
}

/// These values where the bit is 1, else 0.
fn under(mask: u8, values: Fields) -> Fields {
    std::array::from_fn(|i| if mask >> i & 1 == 1 { values[i] } else { 0 })
}

#[test]
fn a_write_with_blanks_as_text() {
    assert_eq!(assembled(PLACELESS), write(8, [7, 1, 40, 0], 5));
    assert_eq!(show(&write(8, [7, 1, 40, 0], 5)), PLACELESS);
    let inside = "party 3 write blank 1 blank 9 lease forever in 2";
    assert_eq!(show(&assembled(inside)), inside);
    for blanks in 0..16u8 {
        let fields = under(!blanks, [7, 1, 40, 9]);
        let slot = |i: usize| if blanks >> i & 1 == 1 { "blank".to_string() } else { fields[i].to_string() };
        let line = format!("party 1 write {} lease 0", (0..4).map(slot).collect::<Vec<_>>().join(" "));
        assert_eq!(show(&write(blanks, fields, 0)), line);
        assert_eq!(assembled(&line), write(blanks, fields, 0));
    }
    assert_ne!(assembled(&PLACELESS.replace("blank", "0")), assembled(PLACELESS), "0 is a value");
}

/// What the space refuses with 4 has no words for it: it is shown byte by byte, and assembles to the same bytes.
#[test]
fn number_4_and_texts_agree() {
    for mask in 0..=255u8 {
        for filled in 0..16u8 {
            let fields = under(filled, [7, 1, 40, 9]);
            for lease in [0, 5, FOREVER] {
                let frame = write(mask, fields, lease);
                let wrong = mask > 15 || mask & filled != 0;
                let mut space = Space::default();
                assert_eq!(space.step(&frame), if wrong { 4 } else { 0 }, "mask {mask}, fields {fields:?}");
                assert_eq!(show(&frame).starts_with("bytes "), wrong, "{}", show(&frame));
                assert_eq!(assembled(&show(&frame)), frame);
                assert_eq!(space.words == Space::default().words, wrong, "refused, and nothing changed");
            }
        }
    }
}

/// Look-ups are judged and shown as before, and notifies as these; all other frames have no mask.
#[test]
fn masks_of_other_frames() {
    for operation in OPERATIONS.iter().filter(|operation| operation.class != Class::Write) {
        let party = u8::from(operation.class != Class::Tick);
        for mask in 0..=255u8 {
            let request = Request { mask, duration: 1, ..Request::new(operation, party) };
            let has_template = operation.parts.contains(&Part::Template);
            let request = match has_template {
                true => Request { fields: under(mask, [7, 1, 40, 9]), ..request },
                false => request,
            };
            let wrong = if has_template { mask > 31 || mask & 24 == 24 } else { mask != 0 };
            let number = Space::default().step(&request.frame());
            assert_eq!(number == 4, wrong, "{} with mask {mask}", operation.name);
            let text = show(&request.frame());
            assert_eq!(text.starts_with("bytes "), wrong, "{text}");
            assert!(!text.contains("blank") && assembled(&text) == request.frame(), "{text}");
        }
    }
}

#[test]
fn bad_blanks() {
    bad_lines(&[
        ("party 1 write 7 1 40 Blank lease 5", "`blank`, a number or a time (2:30) for place, found `Blank`"),
        ("party 1 write 7 1 40 lease 5", "`blank`, a number or a time (2:30) for place, found `lease`"),
        ("party 1 write blank lease 5", "`blank` or a number for side, found `lease`"),
        ("party 1 write 7 1 40 9 blank lease 5", "`lease`, found `blank`"),
        ("party 1 write 7 1 40 blank lease blank", "a lease (a number of ticks"),
        // A template that asks for a blank there is none.
        ("party 1 read place blank timeout 0", "a number or a time (2:30) for place, found `blank`"),
        ("party 1 read blank timeout 0", "a template: `any`, or"),
    ]);
    let pane = tray(&["explore", "-"], "pane A party 1\nread place blank timeout 0\n");
    assert!(pane.status == 2 && pane.err.contains("-:2: expected a number or a time (2:30) for place"), "{}", pane.err);
}

/// The null rule: a value never matches a blank, what is not asked for matches everything.
#[test]
fn a_value_never_matches_a_blank() {
    let mut matcher = Matcher::default();
    for (mask, blanks) in (0..16u8).flat_map(|mask| (0..16u8).map(move |blanks| (mask, blanks))) {
        for value in [0, 5] {
            let template = Template { mask, fields: under(mask, [value; 4]) };
            let entry = Values { fields: under(!blanks, [value; 4]), blanks };
            let matches = matcher.matches(&template, &entry);
            assert_eq!(matches, mask & blanks == 0, "mask {mask}, blanks {blanks}, value {value}");
        }
    }
}

/// A found record has the entry's blanks in byte 3, every other 0 there; the tool reads them so.
#[test]
fn blanks_of_records() {
    let (mut with, mut without) = (0, 0);
    for seed in 1..120 {
        let text = parse(&random_text(seed, 60)).unwrap();
        let written: Vec<Vec<u8>> = text.frames().map(|asked| asked.frame.clone()).collect();
        let history = History::of(text.frames().cloned());
        // By entry number, counted from 1: every write that was taken up.
        let mut values = vec![Values::default()];
        let (mut words, mut area) = ([0; WORDS], [0u8; STEP_BYTES]);
        tray::boundary::empty(&mut words);
        for (place, step) in history.steps.iter().enumerate() {
            tray::boundary::step(&mut words, &written[place], &mut area);
            if step.records[0].kind == tray::record::WRITTEN {
                values.push(step.request().unwrap().values());
            }
            for (record, bytes) in step.records.iter().zip(area.chunks_exact(RECORD_BYTES)) {
                assert_eq!(record.blanks, bytes[3]);
                match record.kind {
                    FOUND => assert_eq!(record.values(), values[record.entry as usize], "seed {seed}, frame {place}"),
                    RUNG => assert_eq!(record.blanks, 0, "seed {seed}, frame {place}"),
                    _ => assert_eq!(record.values(), Values::default(), "seed {seed}, frame {place}"),
                }
                with += usize::from(record.blanks != 0);
                without += usize::from(record.kind == FOUND && record.blanks == 0);
            }
            for entry in &step.after.entries {
                assert_eq!(entry.values(), values[entry.number as usize], "seed {seed}, frame {place}");
            }
        }
    }
    assert!(with > 100 && without > 100, "{with} founds with blanks, {without} without");
}

/// Byte 3 of the records of the examples, by line, as the manual tells it.
#[test]
fn bytes_that_the_manual_tells() {
    let told = |name: &str, lines: &[usize]| -> Vec<u8> {
        let text = parse(&std::fs::read_to_string(format!("../../examples/{name}.txt")).unwrap()).unwrap();
        let area = tray::history::run(&text, &text.tray().unwrap()).area;
        lines.iter().map(|line| area[(line - 1) * RECORD_BYTES + 3]).collect()
    };
    assert_eq!(told("marks-without-a-place", &[2, 3, 13, 11, 9, 1, 12]), [8, 8, 8, 10, 0, 0, 0]);
    assert_eq!(told("place-found-later", &[5, 8, 12]), [0, 8, 0]);
    assert_eq!(told("blanks-committed", &[3, 7, 9, 11, 13, 16, 21]), [8; 7]);
}

#[test]
fn blanks_in_words() {
    let text = format!(
        "{PLACELESS}\nparty 2 read kind 7 timeout 0\nparty 2 read kind 7 place 0 timeout 0\nparty 2 create lease 3\n\
         party 2 take kind 7 timeout 0 in 1\nparty 3 take kind 7 timeout forever\nparty 4 take place 0 timeout forever\n"
    );
    let out = tray(&["run", "--state", "-"], &text).out;
    let waiting = tray(&["waiting", "-"], &text).out;
    for line in [
        "1  clock 0   party 1 write 7 1 40 blank lease 5",
        "party 2: found entry 1, kind 7, side 1, image 40, place blank",
        "party 2: found entry 1, kind 7, side 1, image 40, place blank, in transaction 1",
        "| entry 1 of party 1: 7 1 40 blank, committed, ends at clock 5",
        "| entry 1 of party 1: 7 1 40 blank, committed, taken by transaction 1 of party 2, ends at clock 5",
        "|   entry 1 (7 1 40 blank): taken by transaction 1 of party 2",
        "|   no stored entry matches",
    ] {
        assert!(out.lines().any(|found| found.trim() == line), "{line}:\n{out}");
    }
    assert!(waiting.contains("        entry 1 (7 1 40 blank): taken by transaction 1 of party 2\n"), "{waiting}");
    // The program's lines do not tell a blank from 0.
    let (raw, zero) = (tray(&["run", "--raw", "-"], PLACELESS), PLACELESS.replace("blank", "0"));
    assert_eq!(raw.out, tray(&["run", "--raw", "-"], &zero).out);
    let typed = tray(&["try"], &format!("{PLACELESS}\nparty 2 take any timeout 0\nundo\nstate\n"));
    assert_eq!(
        typed.out.matches("entry 1 of party 1: 7 1 40 blank, committed, ends at clock 5").count(),
        3,
        "{}",
        typed.out
    );
}

/// The word above the write, or where it would be too long a sign, as always in the bar's name; in full where one points,
/// and in the page's table.
#[test]
fn blanks_in_drawings() {
    let text = "party 1 write 7 1 40 blank lease 5\nparty 1 write 7 blank blank 40000 lease 5\n\
                party 1 write blank blank blank blank lease 5\nparty 2 take any timeout 0\n\
                bytes 01 01 08 00 00 00 00 00 05 00 00 00 07 00 00 00 01 00 00 00 28 00 00 00 09 00 00 00\n";
    let history = history(text);
    let drawn = svg_file(&history, ONE_ROW);
    let told = |label: &str| drawn.matches(&format!(">{label}<")).count();
    // Above the write, and at the beginning of its bar.
    assert_eq!((told("7 1 40 blank"), told("7 1 40 _"), told("7 1 40 0")), (1, 1, 0), "{drawn}");
    assert_eq!((told("_ _ _ _"), told("7 _ _ 40000")), (2, 2), "{drawn}");
    assert_eq!(told("7 1 40 blank(9)"), 1, "refused, and what was wrong can be seen");
    assert!(drawn.contains("kind blank, side blank, image blank, place blank; lease to clock 5"));
    assert!(drawn.contains("found entry 1, kind 7, side 1, image 40, place blank"));
    let page = page::page(&history, "blanks");
    assert!(page.contains("</b> of party 1, 7 1 40 blank, committed, lease to clock 5</li>"), "{page}");
    assert!(page.contains("party 2: found entry 1, kind 7, side 1, image 40, place blank"));
    assert!(page.contains("<tspan dx=\"6\">7 1 40 _</tspan></text></svg><span>"), "the legend has the sign");
}

/// What is told of a look-up that has nothing: a blank does not match, so it is not barred either.
#[test]
fn a_blank_is_no_reason() {
    let text = "party 1 create lease 5\nparty 1 write 7 1 40 blank lease 5 in 1\n\
                party 2 readIfExists place 0 timeout 2\nparty 2 readIfExists kind 7 timeout 2\n";
    let drawn = svg_file(&history(text), ONE_ROW);
    assert_eq!((drawn.matches(">no such entry<").count(), drawn.matches(">E1: private to T1<").count()), (1, 1));
    let gone = format!("{PLACELESS}\nparty 2 take any timeout 0\nparty 2 take place 0 timeout 0\n");
    assert!(!svg_file(&history(&gone), ONE_ROW).contains("E1 was taken"), "it was no match");
}

#[test]
fn blanks_of_panes() {
    let text = "party 16 write 7 1 40 blank lease forever\n\
                pane Writer party 1\nw: write 8 blank 40 blank lease 2 after refusal stop\nwrite 8 1 40 0 lease 0\n\
                pane Reader party 2\ncreate lease forever as T\nread kind 7 timeout 0 in T\n\
                pane Zero party 3\nread place 0 timeout 0\ntake kind 7 timeout 1\nticks at most 1\n\
                claim Zero never gets found\nclaim Zero always gets nothing\nclaim Writer always gets written at w\n\
                claim at the end exactly 1 committed entry matches kind 8\nclaim always no stored entry matches place 0\n\
                claim always no stored entry matches kind 8 side 0\nclaim Writer and Reader never both hold the same entry\n\
                claim Zero gets nothing only if no stored entry matches\n";
    let answer = tray(&["explore", "-"], text);
    assert_eq!(answer.status, 0, "{}", answer.err);
    let words = answer.out.lines().filter_map(|line| line.split_once(": ")).map(|(word, _)| word);
    let verdicts: String = words.filter(|word| ["KEPT", "REFUTED"].contains(word)).map(|word| &word[..1]).collect();
    assert_eq!(verdicts, "RKKKKKKR", "{}", answer.out);
    // The shortest history is told with blanks, as a text that can be run again.
    assert!(answer.out.contains("party 16 write 7 1 40 blank lease forever"), "{}", answer.out);
    assert!(answer.out.contains("found entry 1, kind 7, side 1, image 40, place blank"), "{}", answer.out);
    let to = crate::common::scratch("blanks").join("report.html");
    assert_eq!(tray(&["explore", "-", "-o", to.to_str().unwrap()], text).status, 0);
    let report = std::fs::read_to_string(&to).unwrap();
    assert!(crate::xml::parse(&report).is_ok());
    assert!(report.contains("write 8 blank 40 blank lease 2") && report.contains(">7 1 40 blank<"));
}
