//! `tray waiting`, and the sums of a history: what stands in crates/demands/specs/WaitingList.antt is so after every
//! frame, and what it excludes is told.

use crate::common::{files, random_text, tray};
use crate::draw::{histories, history};
use tray::history::{run, History, Outcome};
use tray::record::{ABORTED, EXCEPTION, FOUND, NOTHING, WAITING};
use tray::tally::{fates, Tally};
use tray::text::parse;
use tray::waiting::{words, Account};

const WITHDRAWN: &str = "../../examples/abort-out-of-a-wait.txt";

fn file(name: &str) -> String {
    std::fs::read_to_string(name).unwrap()
}

fn outcome(text: &str) -> Outcome {
    let text = parse(text).unwrap();
    run(&text, &text.tray().unwrap())
}

/// The history's first frames.
fn first(history: &History, frames: usize) -> History {
    let mut history = history.clone();
    history.steps.truncate(frames);
    history
}

/// The equation holds, no waiting look-up has an available entry, and those that frames and answers leave open are
/// those that wait, in order of arrival.
fn is_explained(history: &History) {
    let account = Account::of(history);
    let (title, frames) = (&history.title, history.steps.len());
    assert_eq!(account.faults(), [""; 0], "{title}, frame {frames}");
    let open = account.fates.iter().filter(|fate| fate.closed.is_none());
    let open: Vec<(u8, u32)> = open.map(|fate| (fate.party, fate.transaction)).collect();
    let waiting = history.last().look_ups.iter().map(|look_up| (look_up.party, look_up.transaction));
    assert_eq!(open, waiting.collect::<Vec<_>>(), "{title}, frame {frames}");
}

#[test]
fn every_list_is_explained() {
    let mut closed = [0; 4];
    let random = (1..600).map(|seed| history(&random_text(seed, 60)));
    for history in histories().into_iter().chain(random) {
        (0..=history.steps.len()).for_each(|frames| is_explained(&first(&history, frames)));
        let Account { fates, tally, .. } = Account::of(&history);
        let closed_as = |kind| fates.iter().filter(|fate| fate.closed_as() == Some(kind)).count();
        let by_kind = [FOUND, NOTHING, ABORTED, EXCEPTION].map(closed_as);
        // Each found and each nothing closes one look-up.
        assert_eq!([tally.found, tally.nothing], by_kind[..2], "{}", history.title);
        closed.iter_mut().zip(by_kind).for_each(|(all, here)| *all += here);
    }
    assert!(closed.iter().all(|&times| times > 20), "{closed:?}");
}

/// By which record, of which frame, each look-up of an example is closed.
#[test]
fn fates_of_an_example() {
    let withdrawn = history(&file(WITHDRAWN));
    let closed: Vec<(usize, Option<usize>, Option<u8>)> = fates(&withdrawn.log())
        .iter()
        .map(|fate| (fate.frame + 1, fate.closed.map(|(frame, _)| frame + 1), fate.closed_as()))
        .collect();
    let found = Some(FOUND);
    assert_eq!(
        closed,
        [(3, Some(3), found), (6, Some(11), Some(ABORTED)), (7, Some(12), found), (13, Some(13), found)]
    );
    assert_eq!(Tally::of(&withdrawn.log()), Tally { asked: 4, found: 3, nothing: 0, closed: 1 });
}

/// The tallies that WaitingList.antt calls wrong do not add up here either: a withdrawn look-up counted as nothing,
/// too; exceptions alone; every end of a transaction, whether a look-up waited inside or not.
#[test]
fn wrong_tallies_do_not_add_up() {
    let history = history(&file(WITHDRAWN));
    let tally = Tally::of(&history.log());
    let ends = history.steps.iter().flat_map(|step| &step.records).filter(|r| matches!(r.kind, ABORTED | EXCEPTION));
    assert!(tally.balances(0));
    assert!(!Tally { nothing: tally.nothing + 1, ..tally }.balances(0));
    assert!(!Tally { closed: 0, ..tally }.balances(0));
    assert!(!Tally { closed: ends.count(), ..tally }.balances(0));
}

/// Made-up histories, as of a damaged archive: what does not fit is told, in the list and beside it.
#[test]
fn what_the_proofs_exclude_is_told() {
    let sound = outcome(&file("../../examples/two-readers-forever.txt"));
    assert_eq!(Account::of(&sound.history).faults(), [""; 0]);

    // An answer is lost.
    let mut lost = sound.history.clone();
    lost.steps[3].records[0].kind = WAITING;
    let account = Account::of(&lost);
    assert_eq!(account.faults(), ["the look-ups do not add up"]);
    let equation = "look-ups not refused: 5, which is NOT 1 found + 1 nothing + 0 closed by an exception or abort + \
                    2 still waiting";
    assert_eq!(account.equation(), equation);

    // Another party waits than the one that asked; the sums do not show it.
    let mut other = Outcome { history: sound.history.clone(), ..outcome("") };
    other.history.steps[11].after.look_ups[1].party = 9;
    let faults = ["party 9 waits, and no frame of the history asked for it"];
    assert_eq!(Account::of(&other.history).faults(), faults);
    assert!(words(&other).contains("   2  party 9 waits, no deadline, in transaction 2; NO FRAME ASKED\n"));

    // The hold is gone, and the look-up was not served.
    let mut free = sound.history.clone();
    free.steps[11].after.entries[0].read_by = vec![1];
    assert_eq!(Account::of(&free).faults(), ["party 2 waits, and entry 1 is available to it"]);
}

/// The sums stand behind every history, also behind one without look-ups and one that stopped; a tray that is refused
/// as a whole has none.
#[test]
fn sums_in_the_summary() {
    for name in files("examples", ".txt") {
        let text = file(name.to_str().unwrap());
        let (told, list) = (tray(&["run", "-"], &text), tray(&["waiting", "-"], &text));
        let last = |out: &str| out.lines().last().unwrap().to_string();
        assert_eq!(list.status, told.status, "{}", name.display());
        assert_eq!(last(&list.out), last(&told.out), "{}", name.display());
        let refused = told.out.starts_with("the tray is refused");
        assert_eq!(last(&told.out).starts_with("look-ups not refused: "), !refused, "{}", name.display());
        assert!(!tray(&["run", "--raw", "-"], &text).out.contains("look-ups"), "{}", name.display());
    }
    let none =
        "0 frames, 0 records\nlook-ups not refused: 0 = 0 found + 0 nothing + 0 closed by an exception or abort + \
                0 still waiting\n";
    assert_eq!(tray(&["run", "-"], "").out, none);
    let page = tray::draw::page::page(&history(&file(WITHDRAWN)), "withdrawn");
    assert!(
        page.contains("look-ups not refused: 4 = 3 found + 0 nothing + 1 closed by an exception or abort + 0 still")
    );
}

#[test]
fn frames_of_bytes_and_without_look_ups() {
    let bytes = "bytes 03 02 01 00 00 00 00 00 05 00 00 00 07 00 00 00 00 00 00 00 00 00 00 00 00 00 00 00\ntick\n";
    let answer = tray(&["waiting", "-"], bytes);
    assert_eq!(answer.status, 0);
    let lines: Vec<&str> = answer.out.lines().collect();
    assert_eq!(lines[0], "after 2 of 2 frames, at clock 1: 1 look-up waits");
    let asked = bytes.lines().next().unwrap();
    assert_eq!(lines[1], format!("   1  party 2 waits since clock 0, deadline clock 5; frame 1: {asked}"));
    assert_eq!(lines[2], "        no stored entry matches");
    let nobody = "after 0 of 1 frames, at clock 0: nobody waits\nlook-ups not refused: 0 = ";
    assert!(tray(&["waiting", "-", "--after", "0"], "tick\n").out.starts_with(nobody));
}

#[test]
fn after_so_many_frames() {
    let text = file(WITHDRAWN);
    let after = |frames: &str| tray(&["waiting", "--after", frames, "-"], &text);
    assert_eq!(after("13").out, tray(&["waiting", "-"], &text).out);
    for frames in 0..=13 {
        let outcome = outcome(&text);
        let list = words(&Outcome { history: first(&outcome.history, frames), ..outcome });
        let answer = after(&frames.to_string());
        assert_eq!((answer.status, answer.out), (0, list), "after {frames}");
    }
    for (frames, expected) in [
        ("14", "-: expected a number of frames from 0 to 13 behind --after, found 14"),
        ("x", "expected a number behind --after, found `x`"),
        ("-1", "expected a number behind --after, found `-1`"),
        ("18446744073709551616", "expected a number behind --after, found `18446744073709551616`"),
    ] {
        let answer = after(frames);
        assert_eq!((answer.status, answer.out.as_str()), (2, ""), "{frames}");
        assert_eq!(answer.err.trim_end(), format!("tray: {expected}"));
    }
    for arguments in
        [&["waiting"][..], &["waiting", "-", "--after"], &["waiting", "-", "--state"], &["waiting", "a", "b"]]
    {
        assert_eq!(tray(arguments, &text).status, 2, "{arguments:?}");
    }
    assert_eq!(tray(&["waiting", "no/such/file.txt"], "").status, 1);
}

/// As `tray run`: a tray that stopped has the list of what was done, one that is refused has no list.
#[test]
fn trays_that_stop_or_are_refused() {
    let stopped = tray(&["waiting", "../../examples/refusal-01.txt", "--after", "7"], "");
    assert_eq!(stopped.status, 3);
    let lines: Vec<&str> = stopped.out.lines().collect();
    assert_eq!(
        lines[..2],
        [
            "stopped with 1 before frame 1545 of 1800: under 700 bytes of the answers area were left",
            "after 7 of 1800 frames, at clock 0: 1 look-up waits"
        ]
    );
    let beyond = tray(&["waiting", "../../examples/refusal-01.txt", "--after", "1545"], "");
    assert_eq!((beyond.status, beyond.out.as_str()), (2, ""));
    for name in ["refusal-15-too-short", "refusal-16-past-the-tray"] {
        let name = format!("../../examples/{name}.txt");
        let refused = tray(&["waiting", &name, "--after", "1"], "");
        assert_eq!((refused.status, refused.out), (3, tray(&["run", &name], "").out));
    }
}
