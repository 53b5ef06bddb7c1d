//! Document 02, T-08: "The plain set keeps blanks with its fields." A found needs both, and both are left at the end.
//! T-05: "In the serial run a renewal changes the entry's end at its place." T-03 changes nothing in the run: kinds 10 and
//! 11 are "any other record".

use harness::frames::{create_frame, ending_frame, long_frame, notify_frame, renew_frame, tick_frame};
use reference::answer::{Kind, Record, RECORD, STEP};
use reference::frame::{FOREVER, NONE};
use reference::serial::{committed, SerialRun};
use reference::space::{End, Space};

/// A mark without a place is committed and read, with its fields and its blanks but for what is done to the record and
/// to the space.
fn run(record: impl Fn(&mut Record), space: impl Fn(&mut Space)) -> Result<(), String> {
    let frames = [
        create_frame(1, FOREVER),
        long_frame(1, 1, 8, 1, FOREVER, [7, 1, 40, 0]),
        ending_frame(7, 1, 1),
        long_frame(2, 2, 1, NONE, 0, [7, 0, 0, 0]),
    ];
    let (mut sound, mut run, mut area) = (Space::new(), SerialRun::new(0), [0; STEP]);
    for frame in &frames {
        sound.step(frame, &mut area);
        let mut answer = Record::read(&area[..RECORD]);
        if answer.is(Kind::Found) {
            record(&mut answer);
        }
        run.feed(frame, std::iter::once(answer));
    }
    space(&mut sound);
    run.check(&committed(&sound))
}

#[test]
fn blanks_are_kept() {
    assert_eq!(run(|_| {}, |_| {}), Ok(()));
}

#[test]
fn other_blanks_are_missing() {
    for blanks in (0..16).filter(|&blanks| blanks != 8) {
        let why = run(|found| found.mark.blanks = blanks, |_| {}).unwrap_err();
        assert!(why.contains("is missing"), "{why}");
    }
}

#[test]
fn other_blanks_are_not_what_is_left() {
    for blanks in (0..16).filter(|&blanks| blanks != 8) {
        let why = run(|_| {}, |space| space.entries[0].mark.blanks = blanks).unwrap_err();
        assert!(why.starts_with("left: "), "{why}");
    }
}

/// An entry of lease 3, a tick, a renewal with this lease, so many ticks; each record but for what is done to it.
fn renew(lease: u32, ticks: usize, record: impl Fn(&mut Record)) -> (Space, Result<(), String>) {
    let mut frames = vec![long_frame(1, 1, 0, NONE, 3, [7, 0, 0, 0]), tick_frame(), renew_frame(1, 1, lease)];
    frames.extend((0..ticks).map(|_| tick_frame()));
    let (mut space, mut run, mut area) = (Space::new(), SerialRun::new(0), [0; STEP]);
    for frame in &frames {
        space.step(frame, &mut area);
        let mut answer = Record::read(&area[..RECORD]);
        record(&mut answer);
        run.feed(frame, std::iter::once(answer));
    }
    let checked = run.check(&committed(&space));
    (space, checked)
}

#[test]
fn a_renewal_changes_the_end() {
    for (lease, end) in [(1, End::At(2)), (2, End::At(3)), (9, End::At(10)), (FOREVER, End::Never)] {
        let (space, checked) = renew(lease, 0, |_| {});
        assert_eq!((space.entries[0].end, checked), (end, Ok(())), "lease {lease}");
    }
    for (lease, ticks, left) in [(0, 0, 0), (0, 1, 0), (1, 1, 0), (9, 8, 1), (9, 9, 0), (FOREVER, 20, 1)] {
        let (space, checked) = renew(lease, ticks, |_| {});
        assert_eq!((space.entries.len(), checked), (left, Ok(())), "lease {lease}, {ticks} ticks");
    }
}

/// The end that it had is another, unless the renewal gives the same.
#[test]
fn a_renewal_left_out_is_told() {
    for (lease, told) in [(0, true), (1, true), (2, false), (9, true), (FOREVER, true)] {
        let written = |record: &mut Record| record.kind = if record.is(Kind::Renewed) { 0 } else { record.kind };
        assert_eq!(renew(lease, 0, written).1.is_err(), told, "lease {lease}");
    }
}

#[test]
fn a_renewal_needs_its_entry() {
    for other in [0, 2, FOREVER] {
        let why = renew(9, 0, |record| record.entry = if record.is(Kind::Renewed) { other } else { record.entry }).1;
        assert_eq!(why, Err(format!("entry {other} is renewed and missing")));
    }
}

/// Two registrations, a write that a waiting take gets at once, and a commit of two entries: whatever is done to the
/// records of registrations and bells, the run is the same.
fn ring(alter: impl Fn(&mut Record)) -> Result<(), String> {
    let fields = [7, 0, 0, 0];
    let frames = [
        notify_frame(1, 0, FOREVER, [0; 4]),
        notify_frame(2, 1, 1, fields),
        long_frame(3, 3, 1, NONE, FOREVER, fields),
        long_frame(1, 1, 0, NONE, FOREVER, fields),
        create_frame(2, FOREVER),
        long_frame(1, 2, 0, 1, FOREVER, fields),
        long_frame(1, 2, 0, 1, 2, fields),
        ending_frame(7, 2, 1),
        tick_frame(),
        long_frame(1, 1, 8, NONE, FOREVER, fields),
    ];
    let (mut space, mut run, mut area, mut bells) = (Space::new(), SerialRun::new(0), [0; STEP], 0);
    for frame in &frames {
        let written = space.step(frame, &mut area).records;
        let mut records: Vec<Record> = area.chunks_exact(RECORD).take(written).map(Record::read).collect();
        for record in records.iter_mut().filter(|record| record.is(Kind::Notified) || record.is(Kind::Rung)) {
            bells += usize::from(record.is(Kind::Rung));
            alter(record);
        }
        run.feed(frame, records.into_iter());
    }
    assert_eq!((bells, space.entries.len()), (5, 3), "bells, and entries left");
    run.check(&committed(&space))
}

#[test]
fn bells_change_nothing() {
    assert_eq!(ring(|_| {}), Ok(()));
    assert_eq!(ring(|bell| bell.kind = 0), Ok(()));
    for number in [0, 1, 2, 3, 4, FOREVER] {
        assert_eq!(ring(|bell| (bell.entry, bell.transaction) = (number, number)), Ok(()));
        assert_eq!(ring(|bell| bell.mark.fields = [number; 4]), Ok(()));
    }
}
