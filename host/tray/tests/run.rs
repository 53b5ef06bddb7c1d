//! `tray run`: every example as the program prints it, words, reasons, expectations, bad texts.

use crate::common::{files, random_text, scratch, tray};
use std::ffi::OsStr;
use std::fs::File;
use std::os::unix::ffi::OsStrExt;
use std::process::{Command, Stdio};
use tray::boundary::Space;
use tray::bytes::frames_of;
use tray::frame::{show, Class, Request};
use tray::history::{run, History};
use tray::oracle::{Matcher, Sought, Standing};
use tray::record::{Record, FOUND, NOTHING, RECORD_BYTES, WAITING};
use tray::text::parse;
use tray::words::Values;

fn read(path: &std::path::Path) -> String {
    std::fs::read_to_string(path).unwrap()
}

#[test]
fn examples_are_answered_as_stored() {
    for file in files("examples", ".txt") {
        let name = file.to_str().unwrap();
        let answer = tray(&["run", "--raw", name], "");
        let (expected, end) = (file.with_extension("expected"), file.with_extension("expected-end"));
        match end.is_file() {
            true => assert!(answer.out.ends_with(&read(&end)), "{name}"),
            false => assert_eq!(answer.out, read(&expected), "{name}"),
        }
        let number = answer.out.trim_end().rsplit(' ').next().unwrap().to_string();
        assert_eq!(answer.status, if number == "0" { 0 } else { 3 }, "{name}");
        assert_eq!(tray(&["run", "-"], &read(&file)).status, answer.status, "{name}");
    }
}

#[test]
fn steps_and_trays_agree() {
    let mut texts: Vec<String> = files("examples", ".txt").iter().map(|file| read(file)).collect();
    texts.extend((1..40).map(|seed| random_text(seed, 60)));
    for text in texts {
        let text = parse(&text).unwrap();
        let outcome = run(&text, &text.tray().unwrap());
        let by_tray: Vec<Record> =
            outcome.area.chunks_exact(RECORD_BYTES).take(outcome.done.records).map(Record::read).collect();
        let by_steps: Vec<Record> = outcome.history.steps.iter().flat_map(|step| step.records.clone()).collect();
        assert_eq!(by_tray, by_steps, "{}", text.title);
    }
}

#[test]
fn words() {
    let text = "party 1 write 7 1 40 9 lease 5\nparty 3 create lease forever\nparty 3 create lease 2\n\
                party 3 take kind 7 timeout 0 in 2\nparty 1 commit 2\ntick\ntick\n";
    let answer = tray(&["run", "-"], text);
    assert_eq!(answer.status, 0);
    let lines: Vec<&str> = answer.out.lines().map(str::trim).collect();
    assert_eq!(lines[7], "party 3: found entry 1, kind 7, side 1, image 40, place 9, in transaction 2");
    assert_eq!(lines[8], "5  clock 0   party 1 commit 2");
    assert_eq!(lines[9], "party 1: refused 8: the transaction is another party's");
    assert_eq!(lines[13], "ticked: the clock is 2");
    assert_eq!(lines[14], "party 3: exception: transaction 2 has expired");
    assert_eq!(lines[15], "7 frames, 8 records");
}

#[test]
fn states_and_reasons() {
    let file = "../../examples/belief-4-six-panes.txt";
    let out = tray(&["run", "--state", file], "").out;
    for line in [
        "| entry 1 of party 1: 7 1 40 9, committed, taken by transaction 1 of party 2, ends at clock 3",
        "| entry 2 of party 1: 7 2 41 9, committed, read by transaction 2 of party 3, never ends",
        "| transaction 2 of party 3: ends at clock 3",
        "| party 5 waits until clock 3: takeIfExists side 2",
        "|   entry 2 (7 2 41 9): read by transaction 2 of party 3",
        "| party 2 waits forever: take kind 8 in transaction 1",
        "|   no stored entry matches",
        "no stored entry matches",
    ] {
        assert!(out.lines().any(|found| found.trim() == line), "{line}");
    }
}

/// What `standing` and `Matcher` say is what the space does: found exactly if an entry is available, and of several the
/// one with the lowest number.
#[test]
fn reasons_are_those_of_the_space() {
    let mut matcher = Matcher::default();
    let (mut found, mut several, mut barred, mut by_arc) = (0, 0, 0, 0);
    for seed in 1..220 {
        let text = parse(&random_text(seed, 80)).unwrap();
        let history = History::of(text.frames().cloned());
        for (place, step) in history.steps.iter().enumerate() {
            let Some(request) = step.request().filter(Request::looks_up) else { continue };
            let sought = Sought::of_request(&request).unwrap();
            let standings = sought.standings(history.before(place), &mut matcher);
            let available: Vec<u32> =
                standings.iter().filter(|(_, s)| *s == Standing::Available).map(|(entry, _)| entry.number).collect();
            match step.records[0].kind {
                FOUND => {
                    let oldest = available.iter().copied().min();
                    assert_eq!(oldest, Some(step.records[0].entry), "seed {seed}, frame {place}");
                }
                NOTHING | WAITING => assert!(available.is_empty(), "seed {seed}, frame {place}"),
                _ => continue,
            }
            found += usize::from(!available.is_empty());
            by_arc += usize::from(!available.is_empty() && sought.template.arc().is_some());
            several += usize::from(available.len() > 1);
            barred += usize::from(available.is_empty() && !standings.is_empty());
        }
        for step in &history.steps {
            for look_up in &step.after.look_ups {
                let standings = Sought::of_look_up(look_up).unwrap().standings(&step.after, &mut matcher);
                assert!(standings.iter().all(|(_, standing)| *standing != Standing::Available));
            }
        }
    }
    assert!(found > 500 && several > 300 && barred > 300, "{found} found, {several} of several, {barred} barred");
    assert!(by_arc > 50, "{by_arc} by an arc");
}

#[test]
fn matching_field_by_field() {
    let mut matcher = Matcher::default();
    for mask in 0..16u8 {
        let fields = std::array::from_fn(|i| if mask >> i & 1 == 1 { 5 } else { 0 });
        let template = tray::words::Template { mask, fields };
        for differing in 0..16u8 {
            let fields = std::array::from_fn(|i| if differing >> i & 1 == 1 { 6 } else { 5 });
            let entry = Values { fields, blanks: 0 };
            assert_eq!(matcher.matches(&template, &entry), mask & differing == 0);
        }
    }
}

#[test]
fn expectations() {
    let good = "party 1 write 7 1 40 9 lease 5\nexpect written 1\nexpect no found\nparty 2 read any timeout 0\n\
                expect found 1\nparty 2 commit 9\nexpect party 2 refused 7\nparty 3 take kind 8 timeout 1\n\
                expect waiting\ntick\nexpect ticked\nexpect party 3 nothing\n";
    let answer = tray(&["run", "-"], good);
    assert_eq!((answer.status, answer.err.as_str()), (0, ""));
    for (wrong, line) in [("written 1", "written 2"), ("found 1", "nothing"), ("refused 7", "refused 8")]
        .map(|(was, is)| (good.replace(was, is), good.lines().position(|text| text.ends_with(was)).unwrap() + 1))
    {
        let answer = tray(&["run", "-"], &wrong);
        assert_eq!(answer.status, 4);
        assert!(answer.err.starts_with(&format!("tray: -:{line}: expected ")), "{}", answer.err);
        assert!(answer.err.contains("came: party"), "{}", answer.err);
        assert!(answer.out.contains("NOT AS EXPECTED"));
    }
    let negated = tray(&["run", "-"], "party 1 write 7 1 40 9 lease 5\nexpect no written\n");
    assert_eq!(negated.status, 4);
    // Each record is used once, in order.
    let twice = tray(&["run", "-"], "tick\nexpect ticked\nexpect ticked\n");
    assert_eq!(twice.status, 4);
}

#[test]
fn bad_texts() {
    let bad = [
        ("party 1 write 7 1 40 lease 5", 1, "a number or a time (2:30) for place, found `lease`"),
        ("tick\nparty x create lease 1", 2, "a party's number, 1 to 16, found `x`"),
        ("party 300 create lease 1", 1, "a party's number"),
        ("party +1 create lease 1", 1, "a party's number, 1 to 16, found `+1`"),
        ("party 1 creat lease 1", 1, "an operation (write, read, take,"),
        ("party 1 tick", 1, "an operation"),
        ("party 1 create lease 4294967296", 1, "a lease (a number of ticks"),
        ("party 1 create lease", 1, "a lease (a number of ticks below 4294967295, or `forever`), the line ends"),
        ("party 1 take timeout 0", 1, "a template: `any`, or"),
        ("party 1 take place 1 kind 2 timeout 0", 1, "`timeout`, found `kind`"),
        ("party 1 commit T", 1, "a transaction's number, found `T`"),
        ("party 1 commit 1 2", 1, "the end of the line, found `2`"),
        ("bytes 01 1ff", 1, "a byte in base 16, found `1ff`"),
        ("bytes +1", 1, "a byte in base 16, found `+1`"),
        ("expect nothing", 1, "a frame before `expect`"),
        ("tick\nexpect everything", 2, "an answer (written, found,"),
        ("repeat 2\ntick", 1, "an `end` for this `repeat`"),
        ("end", 1, "a `repeat` before `end`"),
        ("frob", 1, "a line that begins with"),
        ("size 3\ncount 1", 2, "a place inside the tray, which has 3 bytes"),
        ("tick\npair 0 offset 1 length 1", 2, "a place inside the tray"),
        ("tick\npair 2 offset 1 length 1", 2, "a place inside the tray"),
        ("pair 18446744073709551615 offset 1 length 1", 1, "a place inside the tray"),
        ("size 99999999999", 1, "a size (at most"),
        ("size 18446744073709551616", 1, "a size (at most"),
        ("gap 99999999999", 1, "a gap (at most"),
        ("repeat 99999999999\ntick\nend", 3, "at most 100000 frames"),
        ("repeat 18446744073709551615\ntick\ntick\nend", 4, "at most 100000 frames"),
        ("repeat 50000\nrepeat 50000\ntick\nend\nend", 5, "at most 100000 frames"),
    ];
    for (text, line, expected) in bad {
        for verb in ["run", "assemble"] {
            let answer = tray(&[verb, "-"], text);
            assert_eq!((answer.status, answer.out.as_str()), (2, ""), "{text}");
            assert!(answer.err.starts_with(&format!("tray: -:{line}: expected ")), "{text}: {}", answer.err);
            assert!(answer.err.contains(expected), "{text}: {}", answer.err);
        }
    }
    // A repeat of nothing is nothing, however often.
    let nothing = tray(&["assemble", "-"], "repeat 18446744073709551615\nend\ntick\n");
    assert_eq!(nothing.out, tray(&["assemble", "-"], "tick\n").out);
    let gaps = tray(&["run", "-"], "repeat 99\ngap 16777216\nend\n");
    assert_eq!((gaps.status, gaps.out.as_str()), (2, ""));
}

#[test]
fn bad_usage_and_files() {
    let both = &["run", "-", "--raw", "--state"];
    let twice = &["run", "-", "--raw", "--raw"];
    for arguments in [&[][..], &["frob"], &["run"], &["run", "a", "b"], &["run", "--frob", "-"], &["show"], both, twice]
    {
        let answer = tray(arguments, "");
        assert_eq!((answer.status, answer.out.as_str()), (2, ""), "{arguments:?}");
        assert!(answer.err.contains("expected"), "{}", answer.err);
    }
    let missing = tray(&["run", "no/such/file.txt"], "");
    assert_eq!((missing.status, missing.out.as_str()), (1, ""));
    assert!(missing.err.contains("no/such/file.txt"));
    let binary = scratch("run").join("binary");
    std::fs::write(&binary, [0xff, 0xfe]).unwrap();
    assert_eq!(tray(&["run", binary.to_str().unwrap()], "").status, 2);
    assert_eq!(tray(&["run", "-"], "\u{feff}tick\n").out, tray(&["run", "-"], "tick\n").out);
}

/// Whatever the words, and wherever the output goes, the program ends with a status of its own.
#[test]
fn odd_surroundings() {
    let run = |arguments: &[&OsStr], out: Stdio, err: Stdio| {
        let mut program = Command::new(env!("CARGO_BIN_EXE_tray"));
        program.args(arguments).stdin(Stdio::null()).stdout(out).stderr(err).status().unwrap().code()
    };
    let full = || Stdio::from(File::options().write(true).open("/dev/full").unwrap());
    let (verb, file, odd) =
        (OsStr::new("run"), OsStr::new("../../examples/sample.txt"), OsStr::from_bytes(&[0xff, 0xfe]));
    assert_eq!(run(&[verb, odd], Stdio::null(), Stdio::null()), Some(2));
    assert_eq!(run(&[verb, file], full(), Stdio::null()), Some(1));
    assert_eq!(run(&[verb, file], full(), full()), Some(1));
    assert_eq!(run(&[verb, OsStr::new("no/such/file")], Stdio::null(), full()), Some(1));
    assert_eq!(run(&[OsStr::new("--help")], full(), full()), Some(1));
}

#[test]
fn help() {
    for verb in ["run", "waiting", "bounds", "draw", "explore", "try", "assemble", "show"] {
        let answer = tray(&[verb, "--help"], "");
        assert_eq!(answer.status, 0);
        assert!(answer.out.starts_with(&format!("tray {verb}")) && answer.out.lines().count() > 2);
        assert!(tray(&["--help"], "").out.contains(verb));
    }
}

/// A shown frame assembles to the same bytes, whatever the bytes.
#[test]
fn shown_frames_assemble() {
    let mut random = crate::common::Random(7);
    for _ in 0..20000 {
        let length = [0, 1, 4, 8, 12, 28, random.below(30)][random.below(7) as usize];
        let mut frame: Vec<u8> = (0..length).map(|_| (random.below(5) * random.below(5)) as u8).collect();
        if let Some(operation) = frame.first_mut() {
            *operation = random.below(13) as u8;
        }
        let text = parse(&show(&frame)).unwrap();
        let tray = text.tray().unwrap();
        assert_eq!(frames_of(&tray), [&frame[..]], "{}", show(&frame));
    }
}

/// What the texts call an operation is what the space takes it for.
#[test]
fn operations_are_the_spaces() {
    for operation in &tray::frame::OPERATIONS {
        let party = u8::from(operation.class != Class::Tick);
        let mut space = Space::default();
        let request = Request { transaction: 0, duration: 1, ..Request::new(operation, party) };
        let number = space.step(&request.frame());
        let wanted = match operation.class {
            Class::Commit | Class::Abort => 7,
            Class::Renew => 18,
            _ => 0,
        };
        assert_eq!(number, wanted, "{}", operation.name);
        let longer: Vec<u8> = request.frame().into_iter().chain([0]).collect();
        assert_eq!(space.clone().step(&longer), 3, "{}", operation.name);
    }
}
