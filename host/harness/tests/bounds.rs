//! Wrong bounds (document 02, T-10): the comparison must find each, and print a text whose tray shows it; and the
//! reference's bounds, word for word.

#[path = "common/shown.rs"]
mod shown;

use harness::compare::{compare_bounds, in_order};
use harness::frames::{create_frame, ending_frame, long_frame, notify_frame, tick_frame};
use harness::subject::{Beginning, Proved, Subject};
use reference::bounds::{bounds, packed, Bounds};
use reference::frame::{decode, Refusal, FOREVER, LOOK_UPS, NONE};
use reference::space::Space;
use reference::tray::{judge, run};
use shown::{found, shows};
use tray::bytes::tray_of;

/// What is not counted, so that some run outruns the bounds; then what is counted otherwise than document 02 says; then
/// what a refused tray gives; then a run that does not fit into the area that the bounds give.
const WITHOUT_CREATES: u8 = 0;
const WITHOUT_LOOK_UPS: u8 = 1;
const WITHOUT_IF_EXISTS: u8 = 2;
const WITHOUT_BELLS: u8 = 3;
const WITHOUT_BELLS_OF_COMMITS: u8 = 4;
const WITHOUT_EMPTY_FRAMES: u8 = 5;
const WITHOUT_UNKNOWN_OPERATIONS: u8 = 6;
const WITHOUT_LAST_WRITE: u8 = 7;
const ALL_NOTIFIES: u8 = 8;
const GARBLED_WRITE_NOT_COUNTED: u8 = 9;
const GARBLED_NOTIFY_NOT_COUNTED: u8 = 10;
const GARBLED_LOOK_UP_NOT_COUNTED: u8 = 11;
const CAP_OF_64_MISSING: u8 = 12;
const CAP_OF_8_MISSING: u8 = 13;
const EMPTY_AS_A_WRITE: u8 = 14;
const BELLS_OF_ABORTS: u8 = 15;
const REFUSED_WITH_BOUNDS: u8 = 16;
const REFUSED_WITHOUT_NUMBER: u8 = 17;
const PAIRS_REFUSED_WITH_15: u8 = 18;
const STOPS_IN_ITS_AREA: u8 = 19;

/// The reference with a fault in its bounds, or in its run in the area that they give.
#[derive(Clone, PartialEq)]
struct Wrong<const FAULT: u8>(Space);

fn is(frame: &[u8], kind: u8) -> bool {
    frame.first() == Some(&kind)
}

impl<const FAULT: u8> Wrong<FAULT> {
    /// The frame as the fault counts it; none if it does not.
    fn counted(frame: &[u8]) -> Option<&[u8]> {
        const OTHER: &[u8] = &[9];
        let (kind, garbled) = (frame.first().copied(), decode(frame).is_err());
        match (FAULT, kind) {
            (WITHOUT_CREATES, Some(6)) | (WITHOUT_IF_EXISTS, Some(4 | 5)) => Some(OTHER),
            (WITHOUT_LOOK_UPS, Some(kind)) if LOOK_UPS.contains(&kind) => Some(OTHER),
            (WITHOUT_BELLS, Some(10)) | (WITHOUT_BELLS_OF_COMMITS, Some(7)) => Some(OTHER),
            (WITHOUT_EMPTY_FRAMES, None) => None,
            (WITHOUT_UNKNOWN_OPERATIONS, Some(0 | 12..)) => None,
            (GARBLED_WRITE_NOT_COUNTED, Some(1)) if garbled => Some(OTHER),
            (GARBLED_NOTIFY_NOT_COUNTED, Some(10)) if garbled => Some(OTHER),
            (GARBLED_LOOK_UP_NOT_COUNTED, Some(2..=5)) if garbled => Some(OTHER),
            (EMPTY_AS_A_WRITE, None) => Some(&[1]),
            (BELLS_OF_ABORTS, Some(8)) => Some(&[7]),
            _ => Some(frame),
        }
    }

    fn of(frames: &[&[u8]]) -> Bounds {
        let mut frames: Vec<&[u8]> = frames.iter().filter_map(|frame| Self::counted(frame)).collect();
        if FAULT == ALL_NOTIFIES {
            frames.sort_by_key(|frame| !is(frame, 10));
        }
        let Bounds { mut entries, mut records } = Bounds::of(frames.iter().copied());
        let (mut writes, mut notifies) = (0, 0);
        for frame in &frames {
            writes += usize::from(is(frame, 1));
            notifies += usize::from(is(frame, 10));
            if FAULT == CAP_OF_8_MISSING && (is(frame, 1) || is(frame, 7)) {
                records += usize::saturating_sub(notifies, 8);
            }
        }
        match FAULT {
            CAP_OF_64_MISSING => entries = writes,
            WITHOUT_LAST_WRITE => entries = entries.saturating_sub(1),
            _ => {}
        }
        Bounds { entries, records }
    }
}

impl<const FAULT: u8> Subject for Wrong<FAULT> {
    const NAME: &'static str = "the wrong space";

    fn begin(at: Beginning) -> Self {
        Wrong(at.of_reference())
    }

    fn step(&mut self, frame: &[u8], area: &mut [u8]) -> u64 {
        let outcome = self.0.step(frame, area);
        outcome.records as u64 + 65536 * u64::from(outcome.number)
    }

    fn run_tray(tray: &[u8], area: &mut [u8]) -> u64 {
        let just_fits = bounds(tray).is_ok_and(|bounds| bounds.records > 0 && bounds.area() == area.len());
        match FAULT {
            STOPS_IN_ITS_AREA if just_fits => run(tray, &mut []).packed(),
            _ => run(tray, area).packed(),
        }
    }

    fn tray_bounds(tray: &[u8]) -> Option<u64> {
        Some(match (judge(tray), FAULT) {
            (Ok(frames), _) => {
                let frames: Vec<&[u8]> = frames.into_iter().map(|frame| &tray[frame]).collect();
                packed(Ok(Self::of(&frames)))
            }
            (Err(refusal), REFUSED_WITH_BOUNDS) => packed(Err(refusal)) + 1 + 65536,
            (Err(_), REFUSED_WITHOUT_NUMBER) => 0,
            (Err(_), PAIRS_REFUSED_WITH_15) => packed(Err(Refusal::TraySize)),
            (Err(refusal), _) => packed(Err(refusal)),
        })
    }

    fn tables(&self) -> Option<Space> {
        Some(in_order(&self.0))
    }
}

/// The fault is shown, and the run of these frames does not keep within the bounds.
fn is_outrun<const FAULT: u8>(frames: &[Vec<u8>]) {
    shows::<Wrong<FAULT>>();
    let told = compare_bounds::<Wrong<FAULT>>(&tray_of(frames)).err().unwrap_or_default();
    assert!(told.starts_with("the run does not keep within the bounds: "), "fault {FAULT}: {told}");
}

fn write(transaction: u32) -> Vec<u8> {
    long_frame(1, 1, 0, transaction, FOREVER, [7, 0, 0, 0])
}

fn look_up(operation: u8, party: u8) -> Vec<u8> {
    long_frame(operation, party, 0, NONE, FOREVER, [0; 4])
}

fn notify() -> Vec<u8> {
    notify_frame(2, 0, FOREVER, [0; 4])
}

/// "frames + look-ups + creates + for each write or commit ..": each of them is needed.
#[test]
fn bounds_that_some_run_exceeds_are_shown() {
    is_outrun::<WITHOUT_CREATES>(&[create_frame(1, 1), tick_frame()]);
    is_outrun::<WITHOUT_LOOK_UPS>(&[look_up(3, 2), write(NONE)]);
    is_outrun::<WITHOUT_IF_EXISTS>(&[create_frame(1, 1), write(1), look_up(4, 2), tick_frame()]);
    is_outrun::<WITHOUT_BELLS>(&[notify(), write(NONE)]);
    is_outrun::<WITHOUT_BELLS_OF_COMMITS>(&[create_frame(1, 1), write(1), notify(), notify(), ending_frame(7, 1, 1)]);
    is_outrun::<WITHOUT_EMPTY_FRAMES>(&[Vec::new()]);
    is_outrun::<WITHOUT_UNKNOWN_OPERATIONS>(&[vec![12]]);
    is_outrun::<WITHOUT_LAST_WRITE>(&[write(NONE), write(NONE)]);
}

/// "the lesser of 64 and the writes"; "the lesser of 8 and the notify frames ahead of it"; "Frames are told apart by
/// byte 0 alone, garbled ones too; an empty one is none of these kinds".
#[test]
fn other_bounds_are_shown() {
    shows::<Wrong<ALL_NOTIFIES>>();
    shows::<Wrong<GARBLED_WRITE_NOT_COUNTED>>();
    shows::<Wrong<GARBLED_NOTIFY_NOT_COUNTED>>();
    shows::<Wrong<GARBLED_LOOK_UP_NOT_COUNTED>>();
    shows::<Wrong<CAP_OF_64_MISSING>>();
    shows::<Wrong<CAP_OF_8_MISSING>>();
    shows::<Wrong<EMPTY_AS_A_WRITE>>();
    shows::<Wrong<BELLS_OF_ABORTS>>();
}

fn shows_refused<const FAULT: u8>() {
    let discrepancy = found::<Wrong<FAULT>>(true);
    let tray = shown::tray_of(&discrepancy);
    assert!(judge(&tray).is_err() && compare_bounds::<Wrong<FAULT>>(&tray).is_err(), "{discrepancy}");
}

/// "A tray that 15 or 16 refuses gives that number and no bounds."
#[test]
fn bounds_of_refused_trays_are_shown() {
    shows_refused::<REFUSED_WITH_BOUNDS>();
    shows_refused::<REFUSED_WITHOUT_NUMBER>();
    shows_refused::<PAIRS_REFUSED_WITH_15>();
}

/// The text is the tray's, and a comment says in how big an area to run it.
#[test]
fn a_run_that_stops_in_its_area_is_told() {
    let discrepancy = found::<Wrong<STOPS_IN_ITS_AREA>>(false);
    let area = bounds(&shown::tray_of(&discrepancy)).unwrap().area();
    assert_eq!(discrepancy.besides, format!("run as a whole tray, with an answers area of {area} bytes"));
    assert!(discrepancy.why.starts_with("a run in the area that its bounds give differs\n"), "{discrepancy}");
}

/// Frames by their first bytes, without the rest; -1 is an empty one.
fn by_first_bytes(kinds: &[i16]) -> u64 {
    let frames: Vec<Vec<u8>> = kinds.iter().map(|&kind| u8::try_from(kind).into_iter().collect()).collect();
    let tray = tray_of(&frames);
    assert_eq!(Proved::tray_bounds(&tray), Some(packed(bounds(&tray))), "{kinds:?}");
    packed(bounds(&tray))
}

/// Document 02's words, in numbers, of the reference and of the library.
#[test]
fn bounds_in_numbers() {
    let records = |records: u64, entries: u64| entries + 65536 * records;
    assert_eq!(by_first_bytes(&[]), 0);
    assert_eq!(by_first_bytes(&[-1, 0, 8, 9, 11, 12, 255]), records(7, 0), "frames");
    assert_eq!(by_first_bytes(&[2, 3, 4, 5, 6]), records(10, 0), "look-ups and a create");
    assert_eq!(by_first_bytes(&[1, 7, 10, 1, 7, 10, 10]), records(7 + 2, 2), "notify frames ahead, not behind");
    assert_eq!(by_first_bytes(&[[10; 9].as_slice(), &[1, 7, 7]].concat()), records(12 + 3 * 8, 1), "8 at most");
    assert_eq!(by_first_bytes(&[1; 65]), records(65, 64), "64 at most");
}

/// "Every tray that passes 15 and 16 must keep within both when run", and some reach them.
#[test]
fn bounds_are_reached() {
    for frames in [
        vec![create_frame(2, 1), tick_frame()],
        vec![look_up(2, 2), look_up(2, 3), write(NONE), write(NONE)],
        vec![create_frame(1, 1), write(1), look_up(4, 2), look_up(5, 3), tick_frame()],
        vec![notify(), write(NONE), notify(), write(NONE)],
        // taken in the step of its write: it was stored for a moment
        vec![look_up(3, 2), write(NONE)],
    ] {
        let whole = compare_bounds::<Proved>(&tray_of(&frames)).unwrap().unwrap();
        let needed = Bounds { entries: whole.entries, records: whole.done.records };
        assert_eq!((needed, whole.done.frames), (whole.bounds, frames.len()), "{frames:?}");
    }
}
