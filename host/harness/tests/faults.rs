//! Wrong spaces: the comparison must find each, and print a text that shows it.

#[path = "common/shown.rs"]
mod shown;

use harness::compare::{compare, in_order, replay, Coverage, Discrepancy};
use harness::subject::{Beginning, Subject};
use reference::answer::{Kind, RECORD, STEP};
use reference::frame::{word, Template, FOREVER, LAST_CLOCK, LOOK_UPS, NONE};
use reference::space::{End, Entry, Outcome, Space};
use reference::tray::run;
use shown::{frames_of, tray_of};
use std::collections::BTreeMap;

/// The mistakes that document 01 tells of students, and what its contracts exclude; then smaller ones; then the order
/// that document 02 fixes; then one that only some areas show; then the rule of document 01 that document 02 replaces;
/// then a count of its own that answers and tables do not show; then blanks; then renewals.
const LEASE_STOPS_UNDER_A_TAKE_HOLD: u8 = 0;
const OWN_READ_BARS_OWN_TAKE: u8 = 1;
const NOTHING_BEFORE_SERVICE: u8 = 2;
const PRIVATE_ENTRY_SHOWN: u8 = 3;
const COMMIT_LOST: u8 = 4;
const EVERY_FRAME_REFUSED: u8 = 5;
const READ_HOLD_NOT_IN_THE_TABLE: u8 = 6;
const BYTE_BEHIND_THE_LAST_RECORD: u8 = 7;
const REFUSED_FRAME_COUNTS: u8 = 8;
const RECORD_COUNT_INVENTED: u8 = 9;
const LAST_NUMBER_GIVEN_OUT: u8 = 10;
const NEWEST_FIRST_AT_ONCE: u8 = 11;
const NEWEST_FIRST_IN_SERVICE: u8 = 12;
const LONGER_AREA_TOUCHED: u8 = 13;
const WAITS_ON_IN_VAIN: u8 = 14;
const WAITING_INSIDE_NOT_COUNTED: u8 = 15;
const BLANK_MATCHED_AS_0: u8 = 16;
const BLANKS_LOST_AT_COMMIT: u8 = 17;
const BLANKS_LOST_AT_ABORT: u8 = 18;
const FOUND_WITHOUT_BLANKS: u8 = 19;
const FILLED_BLANK_WRITTEN: u8 = 20;
const MASK_OF_LEASE_0_NOT_JUDGED: u8 = 21;
const RENEWED_FROM_THE_OLD_END: u8 = 22;
const HELD_ENTRY_RENEWED: u8 = 23;
const ANOTHERS_ENTRY_RENEWED: u8 = 24;
const LEASE_0_LEFT_TO_THE_NEXT_TICK: u8 = 25;
const WRITER_LOST_AT_COMMIT: u8 = 26;
const TOO_LATE_JUDGED_FIRST: u8 = 27;

/// The reference with a fault.
#[derive(Clone, PartialEq)]
struct Wrong<const FAULT: u8>(Space);

impl<const FAULT: u8> Wrong<FAULT> {
    /// What the fault does to the space before a sound step.
    fn before(&mut self, frame: &[u8]) {
        let tick = frame == [9, 0, 0, 0];
        for entry in &mut self.0.entries {
            match FAULT {
                LEASE_STOPS_UNDER_A_TAKE_HOLD if tick && entry.taken_by != 0 => entry.end = End::Never,
                OWN_READ_BARS_OWN_TAKE if !entry.read_by.is_empty() => entry.read_by.push(FOREVER),
                PRIVATE_ENTRY_SHOWN if tick => entry.private_to = 0,
                _ => {}
            }
        }
        if [BLANKS_LOST_AT_COMMIT, BLANKS_LOST_AT_ABORT, WRITER_LOST_AT_COMMIT].contains(&FAULT) {
            self.lose(frame);
        }
        if FAULT == NOTHING_BEFORE_SERVICE && tick {
            let next = self.0.clock + 1;
            for look_up in self.0.waiting.iter_mut().filter(|look_up| look_up.deadline.reached(next)) {
                look_up.template = Template::new(15, [0x5eed; 4]);
            }
        }
        // a look-up's own step serves nobody, and other steps find nothing at once
        let at_once = frame.first().is_some_and(|operation| LOOK_UPS.contains(operation));
        if FAULT == if at_once { NEWEST_FIRST_AT_ONCE } else { NEWEST_FIRST_IN_SERVICE } {
            self.0.entries.reverse();
        }
    }

    /// Has the waiting IfExists look-ups wait as reads and takes do; gives their parties.
    fn as_plain_waits(&mut self) -> Vec<u8> {
        let existing = self.0.waiting.iter_mut().filter(|look_up| look_up.kind.if_exists);
        existing
            .map(|look_up| {
                look_up.kind.if_exists = false;
                look_up.party
            })
            .collect()
    }

    /// Has the stored entries match as if their blanks were values; gives their blanks.
    fn as_values(&mut self) -> BTreeMap<u32, u8> {
        let entries = self.0.entries.iter_mut();
        entries.map(|entry| (entry.number, std::mem::take(&mut entry.mark.blanks))).collect()
    }

    /// Puts the blanks back, in the founds too.
    fn with_blanks(&mut self, blanks: &BTreeMap<u32, u8>, founds: &mut [u8]) {
        for entry in &mut self.0.entries {
            entry.mark.blanks = blanks.get(&entry.number).copied().unwrap_or(entry.mark.blanks);
        }
        for record in founds.chunks_exact_mut(RECORD).filter(|record| record[0] == Kind::Found as u8) {
            record[3] = blanks.get(&word(record, 8)).copied().unwrap_or(record[3]);
        }
    }

    /// If the frame ends a transaction, what that makes public or puts back loses its blanks, or its writer.
    fn lose(&mut self, frame: &[u8]) {
        let ending = if FAULT == BLANKS_LOST_AT_ABORT { 8 } else { 7 };
        if frame.len() != 8 || frame[0] != ending || self.0.clone().step(frame, &mut [0; STEP]).number != 0 {
            return;
        }
        let transaction = word(frame, 4);
        let entries = self.0.entries.iter_mut();
        for entry in entries.filter(|entry| [entry.private_to, entry.taken_by].contains(&transaction)) {
            match FAULT {
                WRITER_LOST_AT_COMMIT => entry.writer = 0,
                _ => entry.mark.blanks = 0,
            }
        }
    }

    /// Has a renewal find the entry that it names as the fault takes it to be; gives the entry as it is.
    fn mistake(&mut self, frame: &[u8]) -> Option<Entry> {
        let (party, number) = named(frame)?;
        let entry = self.0.entries.iter_mut().find(|entry| entry.number == number)?;
        let was = entry.clone();
        match FAULT {
            HELD_ENTRY_RENEWED => {
                (entry.private_to, entry.taken_by) = (NONE, NONE);
                entry.read_by.clear();
            }
            ANOTHERS_ENTRY_RENEWED => entry.writer = party,
            _ => {}
        }
        Some(was)
    }

    /// Gives that entry what it had, but for what the fault makes of the renewal.
    fn mend(&mut self, frame: &[u8], was: Option<Entry>, outcome: Outcome, area: &mut [u8]) -> Outcome {
        let (Some(was), clock) = (was, self.0.clock) else { return outcome };
        let lease = word(frame, 8);
        let late = lease != FOREVER && lease > LAST_CLOCK - clock;
        match (self.0.entries.iter_mut().find(|entry| entry.number == was.number), was.end) {
            (Some(entry), End::At(end)) if FAULT == RENEWED_FROM_THE_OLD_END && outcome.number == 0 => {
                entry.end = if lease == FOREVER { End::Never } else { End::At(end.saturating_add(lease)) };
            }
            (Some(entry), _) => *entry = Entry { end: entry.end, ..was },
            (None, _) if FAULT == LEASE_0_LEFT_TO_THE_NEXT_TICK => {
                self.0.entries.push(Entry { end: End::At(clock), ..was });
            }
            _ => {}
        }
        if FAULT != TOO_LATE_JUDGED_FIRST || outcome.number < 18 || !late {
            return outcome;
        }
        area[2] = 10;
        Outcome { number: 10, ..outcome }
    }

    /// The frame as the fault reads it.
    fn misread(frame: &[u8]) -> Vec<u8> {
        let mut frame = frame.to_vec();
        let written = frame.len() == 28 && frame[0] == 1;
        match FAULT {
            EVERY_FRAME_REFUSED => frame.clear(),
            FILLED_BLANK_WRITTEN if written => {
                for field in (0..4).filter(|i| frame[2] >> i & 1 == 1).collect::<Vec<_>>() {
                    frame[12 + 4 * field..16 + 4 * field].fill(0);
                }
            }
            MASK_OF_LEASE_0_NOT_JUDGED if written && word(&frame, 8) == 0 => frame[2] = 0,
            COMMIT_LOST if frame.len() == 8 && frame[0] == 7 => frame[0] = 8,
            _ => {}
        }
        frame
    }

    /// What it does behind one; gives what is returned.
    fn after(&mut self, outcome: Outcome, area: &mut [u8]) -> u64 {
        let returned = outcome.records as u64 + 65536 * u64::from(outcome.number);
        for entry in &mut self.0.entries {
            entry.read_by.retain(|&reader| reader != FOREVER);
        }
        self.0.entries.sort_by_key(|entry| entry.number);
        let end = RECORD * outcome.records;
        let founds = area[..end].chunks_exact_mut(RECORD).filter(|record| record[0] == Kind::Found as u8);
        match FAULT {
            FOUND_WITHOUT_BLANKS => founds.for_each(|record| record[3] = 0),
            BYTE_BEHIND_THE_LAST_RECORD if end < area.len() => area[end] = !area[end],
            REFUSED_FRAME_COUNTS if returned == 1 + 65536 * 7 => self.0.next_entry += 1,
            LAST_NUMBER_GIVEN_OUT if self.0.next_entry == FOREVER => self.0.next_entry -= 1,
            LONGER_AREA_TOUCHED if area.len() > STEP => area[STEP] = !area[STEP],
            _ => {}
        }
        returned
    }
}

impl<const FAULT: u8> Subject for Wrong<FAULT> {
    const NAME: &'static str = "the wrong space";

    fn begin(at: Beginning) -> Self {
        Wrong(at.of_reference())
    }

    fn step(&mut self, frame: &[u8], area: &mut [u8]) -> u64 {
        if area.len() < STEP {
            return 65536;
        }
        let commit = FAULT == COMMIT_LOST && frame.len() == 8 && frame[0] == 7;
        let frame = Self::misread(frame);
        self.before(&frame);
        let plain = if FAULT == WAITS_ON_IN_VAIN { self.as_plain_waits() } else { Vec::new() };
        let blanks = if FAULT == BLANK_MATCHED_AS_0 { self.as_values() } else { BTreeMap::new() };
        let was = self.mistake(&frame);
        let outcome = self.0.step(&frame, area);
        let outcome = self.mend(&frame, was, outcome, area);
        for look_up in self.0.waiting.iter_mut().filter(|look_up| plain.contains(&look_up.party)) {
            look_up.kind.if_exists = true;
        }
        self.with_blanks(&blanks, &mut area[..RECORD * outcome.records]);
        if commit && outcome.number == 0 {
            area[0] = 6;
        }
        self.after(outcome, area)
    }

    fn run_tray(tray: &[u8], area: &mut [u8]) -> u64 {
        let done = run(tray, area).packed();
        let invented = FAULT == RECORD_COUNT_INVENTED && done % 65536 > 100;
        done + if invented { 65536 } else { 0 }
    }

    fn tables(&self) -> Option<Space> {
        let mut space = in_order(&self.0);
        if FAULT == READ_HOLD_NOT_IN_THE_TABLE {
            space.entries.iter_mut().for_each(|entry| entry.read_by.clear());
        }
        Some(space)
    }

    fn waiting(&self) -> Option<usize> {
        let counted = |transaction| FAULT != WAITING_INSIDE_NOT_COUNTED || transaction == NONE;
        Some(self.0.waiting.iter().filter(|look_up| counted(look_up.transaction)).count())
    }
}

/// The party and the entry number of a renewal's frame.
fn named(frame: &[u8]) -> Option<(u8, u32)> {
    (frame.len() == 12 && frame[0] == 11).then(|| (frame[1], word(frame, 4)))
}

fn found<const FAULT: u8>(by_text: bool) -> Discrepancy {
    shown::found::<Wrong<FAULT>>(by_text)
}

fn shows<const FAULT: u8>() {
    shown::shows::<Wrong<FAULT>>();
}

#[test]
fn mistakes_of_students_are_shown() {
    shows::<LEASE_STOPS_UNDER_A_TAKE_HOLD>();
    shows::<OWN_READ_BARS_OWN_TAKE>();
    shows::<NOTHING_BEFORE_SERVICE>();
    shows::<PRIVATE_ENTRY_SHOWN>();
}

#[test]
fn what_the_contracts_exclude_is_shown() {
    shows::<COMMIT_LOST>();
    shows::<EVERY_FRAME_REFUSED>();
}

#[test]
fn tables_and_areas_are_compared() {
    shows::<READ_HOLD_NOT_IN_THE_TABLE>();
    shows::<BYTE_BEHIND_THE_LAST_RECORD>();
    shows::<REFUSED_FRAME_COUNTS>();
}

/// Document 02: "for immediate and served look-ups alike".
#[test]
fn another_order_is_shown() {
    shows::<NEWEST_FIRST_AT_ONCE>();
    shows::<NEWEST_FIRST_IN_SERVICE>();
}

/// Document 02: "after every frame that is not refused", not in the tick of the deadline.
#[test]
fn a_wait_in_vain_is_shown() {
    shows::<WAITS_ON_IN_VAIN>();
}

/// Document 02: "a template field that has a value never matches a blank"; "A found record's byte 3 carries the
/// blanks"; "a bit of 1 is blank, and the field must be 0".
#[test]
fn wrong_blanks_are_shown() {
    shows::<BLANK_MATCHED_AS_0>();
    shows::<BLANKS_LOST_AT_COMMIT>();
    shows::<BLANKS_LOST_AT_ABORT>();
    shows::<FOUND_WITHOUT_BLANKS>();
    shows::<FILLED_BLANK_WRITTEN>();
    shows::<MASK_OF_LEASE_0_NOT_JUDGED>();
}

/// Document 02: "the entry then ends at clock + lease"; "Lease 0 removes it in this step"; "19 when another party wrote
/// it, after 18; 20 when it is private or held, after 19".
#[test]
fn wrong_renewals_are_shown() {
    shows::<RENEWED_FROM_THE_OLD_END>();
    shows::<HELD_ENTRY_RENEWED>();
    shows::<ANOTHERS_ENTRY_RENEWED>();
    shows::<LEASE_0_LEFT_TO_THE_NEXT_TICK>();
    shows::<WRITER_LOST_AT_COMMIT>();
    shows::<TOO_LATE_JUDGED_FIRST>();
}

/// The lines of an answer are the program's, which say nothing of byte 3: it stands behind them.
#[test]
fn blanks_in_an_answer_are_told() {
    let why = found::<FOUND_WITHOUT_BLANKS>(true).why;
    let lines: Vec<&str> = why.lines().filter(|line| line.starts_with("    2 ")).collect();
    assert!(lines.len() == 2 && lines[1].starts_with(&format!("{}, blanks ", lines[0])), "{why}");
}

/// Document 02: "still waiting, the last counted in the space".
#[test]
fn look_ups_that_do_not_add_up_are_shown() {
    shows::<WAITING_INSIDE_NOT_COUNTED>();
    let why = found::<WAITING_INSIDE_NOT_COUNTED>(true).why;
    assert!(why.contains("look-ups not refused: 1, which is NOT 0 found + 0 nothing + 0 closed"), "{why}");
}

/// Only the tray's run is wrong: the text is the tray's, and a comment says what to run it with.
#[test]
fn a_trays_run_is_compared() {
    let discrepancy = found::<RECORD_COUNT_INVENTED>(false);
    let tray = tray_of(&discrepancy);
    let (mut ours, mut theirs) = (vec![0; 300_000], vec![0; 300_000]);
    let returned = Wrong::<RECORD_COUNT_INVENTED>::run_tray(&tray, &mut ours);
    assert_ne!(returned, run(&tray, &mut theirs).packed());
    assert!(discrepancy.besides.starts_with("run as a whole tray, with an answers area of "));
}

/// No text has the beginning that shows it: a comment tells where the history begins.
#[test]
fn a_beginning_that_no_text_has_is_told() {
    let discrepancy = found::<LAST_NUMBER_GIVEN_OUT>(false);
    let frames = frames_of(&discrepancy);
    assert!(!frames.is_empty() && replay::<Wrong<LAST_NUMBER_GIVEN_OUT>>(Beginning::EMPTY, &frames).is_ok());
    assert!(discrepancy.to_string().contains("\n# This text does not say: the history begins at clock "));
}

/// Nor an area: the frames are shortened all the same, and a comment tells the last one's.
#[test]
fn an_area_that_no_text_has_is_told() {
    let discrepancy = found::<LONGER_AREA_TOUCHED>(false);
    assert_eq!(frames_of(&discrepancy).len(), 1, "{discrepancy}");
    assert!(discrepancy.besides.contains("the last frame gets an answers area of "), "{discrepancy}");
}

/// Frames that got too small an area have changed nothing, and stand in no text.
#[test]
fn frames_refused_with_1_are_left_out() {
    let mut coverage = Coverage::default();
    let all = (1..120).filter_map(|seed| compare::<Wrong<READ_HOLD_NOT_IN_THE_TABLE>>(seed, &mut coverage).err());
    let all: Vec<Discrepancy> = all.collect();
    assert!(all.len() > 20, "{} discrepancies", all.len());
    assert!(all.iter().all(|discrepancy| !discrepancy.besides.contains("answers area")));
}
