//! `tray bounds` (document 02, T-10): the bounds are document 02's, every run keeps within them, an area of the size
//! that is told suffices and a smaller one does not; what the proofs exclude is told.

use crate::common::{files, random_text, tray};
use tray::boundary::{run_tray, tray_bounds, Done, TrayBounds};
use tray::bytes::frames_of;
use tray::needs::{Needs, Share};
use tray::text::parse;

fn needs(text: &str) -> (Needs, Vec<u8>) {
    let text = parse(text).unwrap();
    let tray = text.tray().unwrap();
    (Needs::of(&text, &tray), tray)
}

/// Document 02's words, once more: entries and records.
fn counted(frames: &[&[u8]]) -> (usize, usize) {
    let is = |frame: &[u8], kinds: &[u8]| frame.first().is_some_and(|kind| kinds.contains(kind));
    let many = |kinds: &[u8]| frames.iter().filter(|frame| is(frame, kinds)).count();
    let ahead = |place: usize| frames[..place].iter().filter(|frame| is(frame, &[10])).count();
    let ringing = (0..frames.len()).filter(|&place| is(frames[place], &[1, 7]));
    let bells: usize = ringing.map(|place| ahead(place).min(8)).sum();
    (many(&[1]).min(64), frames.len() + many(&[2, 3, 4, 5]) + many(&[6]) + bells)
}

fn texts() -> Vec<String> {
    let examples = files("examples", ".txt").into_iter().map(|file| std::fs::read_to_string(file).unwrap());
    let broken = ["bytes", "bytes 01", "bytes 0a 01", "bytes 07 ff 00", "bytes ff 01 02", "bytes 06", "bytes 04 00"];
    let random = (1..150).map(|seed| {
        let lines = random_text(seed, 80);
        let lines = lines.lines().enumerate();
        lines.map(|(place, line)| format!("{line}\n{}\n", broken.get(place % 23).unwrap_or(&""))).collect()
    });
    examples.chain(random).chain([String::new()]).collect()
}

#[test]
fn every_run_keeps_within() {
    let (mut refused, mut reached, mut below) = (0, 0, 0);
    for text in texts() {
        let (needs, tray) = needs(&text);
        assert_eq!(needs.faults(), [""; 0], "{text}");
        if needs.outcome.is_refused() {
            assert_eq!(tray_bounds(&tray), u64::from(needs.outcome.done.number) << 32, "{text}");
            refused += 1;
            continue;
        }
        let (entries, records) = counted(&frames_of(&tray));
        assert_eq!(needs.bounds, TrayBounds { entries, records, number: 0 }, "{text}");
        assert_eq!(needs.outcome.done.frames, frames_of(&tray).len(), "{text}");
        let tight = needs.entries() == entries && needs.outcome.done.records == records;
        (reached, below) = (reached + usize::from(tight), below + usize::from(!tight));
    }
    assert!(refused > 5 && reached > 4 && below > 100, "{refused} refused, {reached} reached, {below} below");
}

/// The smallest area: in a byte less the run stops before its last frame.
#[test]
fn the_area_in_fact() {
    for text in texts() {
        let (needs, tray) = needs(&text);
        let (area, frames) = (needs.area(), needs.outcome.frames);
        if frames == 0 {
            assert_eq!(area, 0, "{text}");
            continue;
        }
        assert!(area <= needs.bounds.area(), "{text}");
        assert_eq!(Done::of(run_tray(&tray, &mut vec![0; area])), needs.outcome.done, "{text}");
        let less = Done::of(run_tray(&tray, &mut vec![0; area - 1]));
        assert_eq!((less.frames, less.number), (frames - 1, 1), "{text}");
    }
}

#[test]
fn words() {
    let answer = tray(&["bounds", "../../examples/sample.txt"], "");
    assert_eq!((answer.status, answer.err.as_str()), (0, ""));
    assert_eq!(
        answer.out,
        "                           at most   in fact\n\
         entries stored together          1         1\n\
         records                          4         3\n\
         bytes of answers area          784       756\n\
         \n\
         \x20             frames  records besides their own  at most   in fact\n\
         write              1  bells                            0         0\n\
         look-up            1  later answers                    1         0\n\
         tick               1                                   0         0\n\
         all                3                                   1         0\n"
    );
    let none = tray(&["bounds", "-"], "");
    assert_eq!((none.status, none.out.lines().nth(3)), (0, Some("bytes of answers area          672         0")));
    assert!(
        none.out.ends_with("\nall                0                                   0         0\n"),
        "{}",
        none.out
    );
}

/// Each record besides a frame's own is in the share of its kind.
#[test]
fn shares_by_kind() {
    let text = "party 2 notify any lease forever\nparty 3 create lease 1\nparty 4 take kind 7 timeout forever\n\
                party 5 take kind 8 timeout 1\nparty 1 write 7 1 40 9 lease 5\nparty 1 create lease 5\n\
                party 1 write 9 1 40 9 lease 5 in 2\nparty 1 commit 2\nparty 1 abort 1\nparty 1 renew 1 lease 1\n\
                tick\nbytes\nbytes 0c\n";
    let share = |frames, at_most, came| Share { frames, at_most, came };
    let none = |frames| share(frames, 0, 0);
    let wanted = [
        share(2, 2, 1), // write: a bell of the first
        share(2, 2, 2), // look-up: found by the write, nothing by the tick
        share(2, 2, 1), // create: the exception of transaction 1
        share(1, 1, 1), // commit
        none(1),
        none(1),
        none(1),
        none(1),
        none(2),
    ];
    assert_eq!(needs(text).0.shares(), wanted);
}

/// "Frames are told apart by byte 0 alone, garbled ones too; an empty one is none of these kinds."
#[test]
fn garbled_and_empty_frames() {
    for (frames, entries, records) in [
        ("bytes", 0, 1),
        ("bytes 00\nbytes 0c\nbytes ff", 0, 3),
        ("bytes 01", 1, 1),
        ("bytes 02\nbytes 05 ff", 0, 4),
        ("bytes 06", 0, 2),
        ("bytes 0a\nbytes 01\nbytes 07\nbytes 0a", 1, 6),
        ("bytes 01\nbytes 0a", 1, 2),
    ] {
        let (needs, tray) = needs(frames);
        assert_eq!(needs.bounds, TrayBounds { entries, records, number: 0 }, "{frames}");
        let refused = frames_of(&tray).len();
        assert_eq!(needs.outcome.done, Done { frames: refused, records: refused, number: 0 }, "{frames}");
    }
}

/// A tray that the program's area is too small for is run to its end all the same.
#[test]
fn longer_than_the_program_can() {
    let name = "../../examples/refusal-01.txt";
    let (run, bounds) = (tray(&["run", name], ""), tray(&["bounds", name], ""));
    assert_eq!((run.status, bounds.status), (3, 0));
    assert_eq!(bounds.out.lines().nth(3), Some("bytes of answers area        76272     76244"));
}

#[test]
fn refused_trays_have_none() {
    for (text, number) in [("size 3", 15), ("tick\nsize 15", 16), ("repeat 2001\ntick\nend", 15)] {
        let answer = tray(&["bounds", "-"], text);
        assert_eq!(answer.status, 3, "{text}");
        assert!(answer.out.starts_with(&format!("the tray is refused {number}: ")), "{}", answer.out);
        assert_eq!(answer.out.lines().last(), Some("it has no bounds"), "{text}");
    }
}

/// Who hands in a tray's bytes is told how to make a text of them.
#[test]
fn bytes_and_bad_usage() {
    let text = "party 1 write 7 1 40 9 lease 5\n";
    let bytes = tray(&["assemble", "-"], text).out;
    let answer = tray(&["bounds", "-"], &bytes);
    assert_eq!((answer.status, answer.out.as_str()), (2, ""));
    assert_eq!(answer.err, "tray: -: expected a text in UTF-8; `tray show` makes one of a tray's bytes\n");
    let shown = tray(&["show", "-"], &bytes).out;
    assert_eq!(tray(&["bounds", "-"], &shown).out, tray(&["bounds", "-"], text).out);
    for (arguments, status) in [
        (&["bounds"][..], 2),
        (&["bounds", "-", "--state"], 2),
        (&["bounds", "a", "b"], 2),
        (&["bounds", "no/such/file.txt"], 1),
    ] {
        let answer = tray(arguments, "");
        assert_eq!((answer.status, answer.out.as_str()), (status, ""), "{arguments:?}");
    }
    assert!(tray(&["bounds", "-"], "frob").err.starts_with("tray: -:1: expected a line that begins with"));
}

/// Made-up bounds, as of a damaged archive.
#[test]
fn what_the_proofs_exclude_is_told() {
    let sound = || needs("party 2 take any timeout forever\nparty 1 write 7 1 40 9 lease 5\n").0;
    let bounds = TrayBounds { entries: 1, records: 3, number: 0 };
    assert_eq!(sound().bounds, bounds);
    let faults = |bounds| Needs { bounds, ..sound() }.faults();
    assert_eq!(faults(bounds), [""; 0]);
    assert_eq!(faults(TrayBounds { entries: 0, ..bounds }), ["entries stored together: 1, and the bound is 0"]);
    let shares = "the shares of the frames do not add up to the bound of the records";
    assert_eq!(faults(TrayBounds { records: 2, ..bounds }), ["records: 3, and the bound is 2", shares]);
    assert_eq!(faults(TrayBounds { records: 4, ..bounds }), [shares]);
    assert_eq!(faults(TrayBounds { number: 16, ..bounds }), ["the bounds have number 16, the run 0"]);
}
