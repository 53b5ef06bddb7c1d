//! `tray trial`: setups as text, the library's counts beside a replay of the rounds, and what is told of each pane.

use crate::common::{files, scratch, tray, Random};
use std::collections::{BTreeMap, BTreeSet};
use tray::frame::{Class, Request};
use tray::trial::advice::{Told, View, CASES};
use tray::trial::parse::parse;
use tray::trial::replay::{Replay, Sender};
use tray::trial::{Asked, Counts, Pane, Setup, Slot, Start, Trial, LONGEST, MOST_STARTS};
use tray::words::FOREVER;

fn asked(text: &str) -> Asked {
    parse(text).unwrap_or_else(|fault| panic!("{}: {text}", fault.why))
}

fn trial(setup: &Setup) -> Trial {
    let trial = Trial::of(setup.clone()).unwrap_or_else(|number| panic!("{number}: {setup:?}"));
    assert_eq!(trial.fault(), None, "{setup:?}");
    trial
}

/// What `tray trial` prints of a text.
fn told(text: &str) -> String {
    let answer = tray(&["trial", "-"], text);
    assert_eq!((answer.status, answer.err.as_str()), (0, ""), "{text}");
    answer.out
}

const TIMES: [u32; 14] = [0, 1, 2, 3, 4, 5, 6, 7, 9, 12, 20, LONGEST, FOREVER - 1, FOREVER];

/// Few kinds and short times, so that panes feed each other, compete, wait and lose.
fn random_setup(random: &mut Random) -> Setup {
    let (count, kinds) = (1 + random.below(4), 1 + random.below(3));
    let mut kind = |random: &mut Random| 7 + random.below(kinds) as u32;
    let time = |random: &mut Random, most: u64| match random.below(12) {
        0 => TIMES[random.below(TIMES.len() as u64) as usize],
        1 => FOREVER,
        _ => random.below(most) as u32,
    };
    let pane = |random: &mut Random, kind: &mut dyn FnMut(&mut Random) -> u32| Pane {
        lease: time(random, 16),
        timeout: time(random, 9),
        takes: kind(random),
        written_lease: time(random, 24),
        writes: kind(random),
        hold: random.below(7) as u32,
    };
    let panes = (0..count).map(|_| pane(random, &mut kind)).collect();
    let starts = random.below(5);
    let start = |random: &mut Random| Start { fields: [kind(random), 1, 2, 3], lease: time(random, 30) };
    let starts = (0..starts).map(|_| start(random)).collect();
    Setup { rounds: random.below(90) as u32, panes, starts }
}

fn random_trials(seed: u64, count: usize) -> impl Iterator<Item = Trial> {
    let mut random = Random(seed);
    (0..count).map(move |_| trial(&random_setup(&mut random)))
}

/// The rounds in which a party writes.
fn writes_in(setup: &Setup, pane: usize) -> Vec<u32> {
    let writes = |frame: &[u8]| Request::of(frame).is_some_and(|request| request.operation.class == Class::Write);
    let sent = Replay::of(setup).sent.into_iter();
    sent.filter(|sent| sent.sender == Sender::Pane(pane) && writes(&sent.frame)).map(|sent| sent.round).collect()
}

/// "found by a frame in round r: holds 0 and 1 write in round r + 1, hold h in r + h; found by the tick of round r: in
/// r + 1 + h"
#[test]
fn holds() {
    let by_own_frame = "rounds 6\nstart kind 7 lease forever\n\
                        pane lease forever takes 7 timeout 0 writes 8 lease forever hold ";
    let by_others_frame = "rounds 7\nstart kind 5 lease forever\n\
                           pane lease forever takes 5 timeout 0 writes 7 lease forever hold 0\n\
                           pane lease forever takes 7 timeout forever writes 8 lease forever hold ";
    let by_tick = "rounds 7\nstart kind 7 lease forever\n\
                   pane lease 3 takes 7 timeout 0 writes 8 lease forever hold 50\n\
                   pane lease forever takes 7 timeout forever writes 8 lease forever hold ";
    for (text, pane, rounds) in
        [(by_own_frame, 0, [3, 3, 4, 5]), (by_others_frame, 1, [5, 5, 6, 7]), (by_tick, 1, [4, 5, 6, 7])]
    {
        for (hold, round) in rounds.into_iter().enumerate() {
            let setup = asked(&format!("{text}{hold}")).setup;
            assert_eq!((writes_in(&setup, pane), trial(&setup).counts.len()), (vec![round], pane + 1), "hold {hold}");
        }
    }
}

/// The library's counts are those of the replay; and each case is told of some pane.
#[test]
fn the_replay_counts_the_same() {
    let (mut cases, mut seen) = (BTreeMap::new(), [0; 5]);
    for trial in random_trials(13, 4000) {
        for place in 0..trial.counts.len() {
            let view = View { trial: &trial, place };
            let (case, _) = view.told().unwrap_or_else(|| panic!("no line: {:?}, pane {place}", trial.setup));
            *cases.entry(case.name).or_insert(0) += 1;
            let (pane, Counts { commits, exceptions, nothings }) = (&trial.replay.panes[place], trial.counts[place]);
            let now = [commits, exceptions, nothings, pane.out_of_waits, pane.kept_by_others];
            assert_eq!(pane.committed.len(), commits as usize, "an entry for each commit: {:?}", trial.setup);
            seen.iter_mut().zip(now).for_each(|(sum, now)| *sum += now);
        }
    }
    assert!(CASES.iter().all(|case| cases.get(case.name) > Some(&20)), "{cases:?}");
    assert!(seen.iter().all(|sum| *sum > 1000), "{seen:?}");
}

/// What a case says of a pane, and what its change promises, with the trial after that.
fn is_true(case: &str, View { trial, place }: &View, after: Option<&Trial>) -> bool {
    let (setup, counts, seen) = (&trial.setup, trial.counts[*place], &trial.replay.panes[*place]);
    let then = after.map(|after| after.counts[*place]).unwrap_or_default();
    match case {
        "the rounds are too few for a round trip" | "its create is refused" => counts.commits == 0,
        "a frame goes beyond the last clock" => {
            let first = seen.refusals[0];
            first.1 == 10 && after.is_some_and(|after| !after.replay.panes[*place].refusals.contains(&first))
        }
        "its transaction lease is too short for its hold" => {
            let commits = |lease| setup.with(Slot::Lease(*place), lease).tried().unwrap()[*place].commits;
            let least = after.unwrap().setup.panes[*place].lease;
            counts.commits == 0 && setup.panes[*place].lease < least && (0..least).all(|lease| commits(lease) == 0)
        }
        "nobody writes what it takes" => !is_committed(trial, setup.panes[*place].takes),
        "what it writes ends before it is found" => {
            counts.commits > 0 && seen.committed.iter().all(|entry| !trial.replay.found.contains(entry))
        }
        "its transactions end while it waits or holds" => counts.exceptions > 0 && then.exceptions == 0,
        // Who waits for ever finds, or waits.
        "it finds nothing" => counts.nothings > 0 && then.nothings == 0,
        "it commits as fast as its hold allows" => {
            with_other_times(setup, *place).iter().all(|&it| it <= counts.commits)
        }
        "it waits for what it takes" => {
            seen.waited > 0 && (counts.exceptions, counts.nothings, seen.refusals.len()) == (0, 0, 0)
        }
        _ => panic!("{case}"),
    }
}

/// The line below says what the library counts after the change.
fn says_the_effect(view: &View, words: &str, after: &Trial) {
    let (line, own) = (view.line(), after.counts[view.place].commits);
    let effect = line.lines().nth(1).unwrap();
    assert!(effect.starts_with(&format!("  with {words}: ")), "{line}");
    let still = own == 0 && view.trial.counts[view.place].commits == 0;
    let wanted = if still { "still no commits".to_string() } else { format!("{own} commit") };
    assert!(effect.contains(&wanted), "{line}");
    let all = |trial: &Trial| trial.counts.iter().map(|of| of.commits).sum::<u32>();
    let others = format!("; all panes {} in place of {}", all(after), all(view.trial));
    assert_eq!(effect.ends_with(&others), after.counts.len() > 1, "{line}");
}

/// What a line says holds of every pane for which it is told, and its change does what it promises.
#[test]
fn lines_are_true() {
    let mut helped = BTreeMap::new();
    for before in random_trials(24, 4000) {
        for place in 0..before.counts.len() {
            let view = View { trial: &before, place };
            let (case, Told { change, .. }) = view.told().unwrap();
            let after = change.as_ref().map(|change| trial(&change.setup));
            assert!(is_true(case.name, &view, after.as_ref()), "{}: pane {place} of {:?}", case.name, before.setup);
            if let (Some(change), Some(after)) = (change, after) {
                says_the_effect(&view, &change.words, &after);
                let more = after.counts[place].commits > before.counts[place].commits;
                *helped.entry(case.name).or_insert(0) += usize::from(more);
            }
        }
    }
    // Of the cases with a change each had it help somewhere.
    assert!(helped.len() == 8 && helped.values().all(|times| *times > 0), "{helped:?}");
}

/// Whether an entry of the kind ever was taken for good.
fn is_committed(trial: &Trial, kind: u32) -> bool {
    let takers = trial.setup.panes.iter().zip(&trial.counts).filter(|(pane, _)| pane.takes == kind);
    takers.map(|(_, counts)| counts.commits).sum::<u32>() > 0
}

/// The pane's commits with many another lease and timeout, and with as many starting entries as may be of its kind.
fn with_other_times(setup: &Setup, place: usize) -> Vec<u32> {
    let mut rich = setup.clone();
    rich.starts.resize(MOST_STARTS, Start { fields: [setup.panes[place].takes, 0, 0, 0], lease: FOREVER });
    let (both, mut commits) = ([setup.clone(), rich], Vec::new());
    for (lease, timeout) in TIMES.into_iter().flat_map(|lease| TIMES.map(|timeout| (lease, timeout))) {
        let other = |it: &Setup| it.with(Slot::Lease(place), lease).with(Slot::Timeout(place), timeout);
        commits.extend(both.iter().map(|it| other(it).tried().unwrap()[place].commits));
    }
    commits
}

/// Where there are 8 starting entries, no ninth is advised.
#[test]
fn no_more_than_eight_starting_entries() {
    for (starts, advised) in [(7, true), (8, false)] {
        let others = "start kind 9 lease forever\n".repeat(starts);
        let setup = asked(&going(40, "20", "5", "9", 2).replace("start kind 7 lease forever\n", &others));
        let (trial, place) = (trial(&setup.setup), 0);
        let (case, told) = View { trial: &trial, place }.told().unwrap();
        assert_eq!((case.name, told.change.is_some()), ("nobody writes what it takes", advised));
    }
}

/// A create in the last of 1,000 rounds is at clock 999.
#[test]
fn the_longest_time_is_never_refused() {
    let setup = asked(&going(1000, "9", "0", "forever", 6).replace("writes 8", "writes 7")).setup;
    let refusals = |lease| trial(&setup.with(Slot::Lease(0), lease)).replay.panes[0].refusals.clone();
    assert_eq!((refusals(LONGEST), refusals(LONGEST + 1)), (vec![], vec![("create", 10)]));
}

/// A tick less is too short: the shortest way, and the longest wait, which the tick of the deadline ends.
#[test]
fn leases_are_the_shortest() {
    for hold in 0..8 {
        let alone = format!(
            "rounds 50\nstart kind 7 lease forever\npane lease 1 takes 7 timeout 0 writes 7 lease forever hold {hold}"
        );
        let setup = asked(&alone).setup;
        let least = setup.panes[0].least_lease();
        let commits = |lease| setup.with(Slot::Lease(0), lease).tried().unwrap()[0].commits;
        assert_eq!((commits(least), commits(least - 1)), (50 / setup.panes[0].trip() as u32, 0), "{alone}");
        for timeout in 1..8 {
            // The first pane's transaction ends by the tick of the second one's deadline, and gives the entry back.
            let served = format!(
                "rounds 50\nstart kind 7 lease forever\n\
                 pane lease {} takes 7 timeout 0 writes 8 lease forever hold 40\n\
                 pane lease 1 takes 7 timeout {timeout} writes 8 lease forever hold {hold}",
                timeout + 1
            );
            let setup = asked(&served).setup;
            let safe = setup.panes[1].safe_lease();
            let exceptions = |lease| setup.with(Slot::Lease(1), lease).tried().unwrap()[1].exceptions;
            assert_eq!((exceptions(safe), exceptions(safe - 1) > 0), (0, true), "{served}");
        }
    }
}

/// What is told of pane 1: why, and the effect of the change.
fn first_line(text: &str) -> (String, String) {
    let told = told(text);
    let mut lines = told.lines().skip_while(|line| !line.starts_with("pane 1 "));
    let (why, effect) = (lines.next().unwrap(), lines.next().filter(|line| line.starts_with(' ')));
    (why.to_string(), effect.unwrap_or_default().trim().to_string())
}

/// A setup with a starting entry; pane 1 takes its kind.
fn going(rounds: u32, lease: &str, timeout: &str, written: &str, hold: u32) -> String {
    format!(
        "rounds {rounds}\nstart kind 7 lease forever\n\
         pane lease {lease} takes 7 timeout {timeout} writes 8 lease {written} hold {hold}\n"
    )
}

/// A pane beside it that takes what it writes, and gives it back.
fn giving_back(hold: u32) -> String {
    format!("pane lease forever takes 8 timeout forever writes 7 lease forever hold {hold}\n")
}

#[rustfmt::skip]
const LEASES: [(u32, &str, &str, &str, u32, &str, &str); 8] = [
    (10, "forever", "0", "forever", 8,
     "pane 1 cannot commit in 10 rounds: a round trip takes 11 at least (create, take, a hold of 8, commit)", ""),
    (10, "0", "0", "forever", 2,
     "pane 1 never begins: a transaction lease of 0 is refused with 9, and its hold wants 5 or more",
     "with a transaction lease of 5: 1 commit in place of 0"),
    (30, "4294967294", "0", "forever", 8,
     "pane 1 goes beyond the last clock: its create was refused 19 times with 10; 4294966295 or less never is",
     "with a transaction lease forever: 1 commit in place of 1"),
    (40, "8", "0", "forever", 8,
     "pane 1 never commits: its hold of 8 wants a transaction lease of 11 or more, it has 8",
     "with a transaction lease of 11: 1 commit in place of 0, no exceptions"),
    (40, "3", "0", "forever", 0,
     "pane 1 never commits: its way from create to commit wants a transaction lease of 4 or more, it has 3",
     "with a transaction lease of 4: 1 commit in place of 0, no exceptions"),
    (40, "8", "20", "forever", 2,
     "pane 1 lost 4 of 6 transactions to their lease of 8, each while it waited: \
      a wait of 20 and a hold of 2 want 25 or more",
     "with a transaction lease of 25: 1 commit in place of 1, no exceptions"),
    (40, "8", "forever", "forever", 2,
     "pane 1 lost 4 of 6 transactions to their lease of 8, each while it waited: \
      a wait without an end wants one forever",
     "with a transaction lease forever: 1 commit in place of 1, no exceptions"),
    // It commits in round 5; then come four rounds each: create, take, the wait's end, abort.
    (40, "8", "2", "forever", 2,
     "pane 1 found nothing 9 times: no entry of kind 7 was stored",
     "with timeout and transaction lease forever: 1 commit in place of 1"),
];

#[test]
fn lines_of_a_pane_alone() {
    for (rounds, lease, timeout, written, hold, why, effect) in LEASES {
        let text = going(rounds, lease, timeout, written, hold);
        assert_eq!(first_line(&text), (why.to_string(), effect.to_string()), "{text}");
    }
    let own = going(40, "9", "0", "forever", 3).replace("writes 8", "writes 7");
    let why = "pane 1 commits as fast as its hold allows: no round trip takes under 6 rounds";
    assert_eq!(first_line(&own), (format!("{why} (create, take, a hold of 3, commit)"), String::new()));
    let without = going(40, "20", "5", "forever", 2).replace("start kind 7", "start kind 9");
    let why = "pane 1 never finds: no starting entry is of kind 7, and no other pane writes it";
    let effect = "with one more starting entry of kind 7, lease forever: 1 commit in place of 0";
    assert_eq!(first_line(&without), (why.to_string(), effect.to_string()));
}

#[test]
fn lines_of_a_pane_among_others() {
    let vain = going(10, "forever", "0", "1", 0) + &giving_back(0);
    let why = "pane 1 writes in vain: all that it committed ended by its lease of 1 before anyone found it";
    let effect = "with a lease of what it writes forever: 1 commit in place of 1; all panes 2 in place of 1";
    assert_eq!(first_line(&vain), (format!("{why}; kind 8 is for pane 2"), effect.to_string()));
    // It commits in rounds 4, 10, 16, .., 40; each take but the first waits for two rounds.
    let waits = going(40, "forever", "forever", "forever", 0) + &giving_back(3);
    let effect = "with one more starting entry of kind 7, lease forever: 8 commits in place of 7";
    let wanted =
        ("pane 1 waited 12 of 40 rounds for kind 7".to_string(), format!("{effect}; all panes 14 in place of 13"));
    assert_eq!(first_line(&waits), wanted);
    // In round 2 panes 1 and 2 take the two entries, and panes 3 and 4 get nothing; in round 5 they find them again.
    let start = "start kind 7 lease forever\n".repeat(2);
    let four = "pane lease forever takes 7 timeout 0 writes 7 lease forever hold 0\n".repeat(4);
    let told = told(&format!("rounds 5\n{start}{four}"));
    let why =
        "pane 3 found nothing once: another pane had kind 7 in its transaction; panes 1, 2 and 4 take kind 7, too";
    assert!(told.contains(why), "{told}");
}

#[test]
fn texts_and_words() {
    let text = "# a setup\n\npane lease 20 takes 7 timeout forever writes 8 lease 9 hold 3 # a comment\nrounds 100\n  \
                start kind 7 side 1 image 2 place 2:30 lease forever\nstart kind 5 place 719 lease 0\n";
    let Asked { setup, range } = asked(text);
    assert_eq!(range, None);
    let words = [100, 1, 2, 20, FOREVER, 7, 9, 8, 3, 7, 1, 2, 150, FOREVER, 5, 0, 0, 719, 0];
    assert_eq!(setup.words(), words);
    let line = words.map(|word| word.to_string()).join(" ") + "\n";
    assert_eq!(tray(&["trial", "-", "--words"], text).out, line);
    // A range has a line for each number; what the library refuses has words, too.
    let swept = tray(&["trial", "-", "--words"], "rounds 1001 to 1002\n");
    assert_eq!((swept.status, swept.out.as_str()), (0, "1001 0 0\n1002 0 0\n"));
    let crlf = "\u{feff}rounds 0\r\npane lease 4 takes 7 timeout 0 writes 8 lease 1 hold 1\r\n";
    assert!(told(crlf).contains("\n   1        0           0         0               -\n"));
}

#[test]
fn bad_texts() {
    let lines = "expected `rounds N`, `start kind K side S image I place L lease D` or \
                 `pane lease D takes K timeout D writes K lease D hold D`";
    let ticks = "(a number of ticks below 4294967295, or `forever`)";
    let pane = "pane lease 20 takes 7 timeout 5 writes 8 lease 9 hold";
    for (line, why) in [
        ("panes 3", format!("{lines}, found `panes`")),
        ("party 1 create lease 5", "expected a setup, found the text of a tray (`tray run` runs it)".to_string()),
        ("rounds 5", "expected `rounds N` only once".to_string()),
        ("start side 1 lease 5", "expected `kind`, found `side`".to_string()),
        ("start kind blank lease 5", "expected a number for kind, found `blank`".to_string()),
        ("start kind 7 place 13:00 lease 5", "expected a time of the clock face: hour 1 to 12".to_string()),
        ("start kind 7 image 2 side 1 lease 5", "expected `lease`, found `side`".to_string()),
        ("start kind 7", "expected `lease`, the line ends".to_string()),
        ("start kind 7 lease 4294967296", format!("expected a lease {ticks}, found `4294967296`")),
        ("pane takes 7", "expected `lease`, found `takes`".to_string()),
        ("pane lease x", format!("expected a transaction lease {ticks}, found `x`")),
        ("pane lease 4 takes -1", "expected the kind that it takes, found `-1`".to_string()),
        ("pane lease 4 takes 7 timeout", format!("expected a timeout {ticks}, the line ends")),
        ("pane lease 4 takes 7 timeout 1 writes 8 hold 3", "expected `lease`, found `hold`".to_string()),
        (&format!("{pane}"), format!("expected a hold {ticks}, the line ends")),
        (&format!("{pane} 3 4"), "expected the end of the line, found `4`".to_string()),
        (&format!("{pane} 3 to"), "expected where the range ends, a number from 3 to 1003, the line ends".to_string()),
        (&format!("{pane} 3 to 2"), "expected where the range ends, a number from 3 to 1003, found `2`".to_string()),
        (
            &format!("{pane} 3 to 1004"),
            "expected where the range ends, a number from 3 to 1003, found `1004`".to_string(),
        ),
        (&format!("{pane} forever to 5"), "expected the end of the line, found `to`".to_string()),
        (
            &format!("{pane} 0 to 5\npane lease 4 to 5 takes 7 timeout 1 writes 8 lease 9 hold 0"),
            "expected only one range in the text: there is one in line 2".to_string(),
        ),
    ] {
        let answer = tray(&["trial", "-"], &format!("rounds 9\n{line}\n"));
        assert_eq!((answer.status, answer.out.as_str()), (2, ""), "{line}");
        let at = 1 + line.lines().count();
        assert!(answer.err.starts_with(&format!("tray: -:{at}: {why}")), "{line}: {}", answer.err);
    }
    assert_eq!(tray(&["trial", "-"], "").err, "tray: -: expected a line `rounds N`, the text ends\n");
    assert!(tray(&["trial", "-"], "rounds forever").err.starts_with("tray: -:1: expected how many rounds, found"));
}

/// "23 when panes are not 1-4 or starting entries exceed 8; 24 when rounds exceed 1,000, after 23."
#[test]
fn refused_in_words() {
    let pane = "pane lease 20 takes 7 timeout 5 writes 8 lease forever hold 3\n";
    let start = "start kind 7 lease forever\n";
    let bad = "refused 23: the trial has no pane or more than 4, or more than 8 starting entries\n";
    for (rounds, panes, starts, wanted) in [
        (10, 0, 0, format!("{bad}  no pane: 1 at least\n")),
        (10, 5, 8, format!("{bad}  5 panes: 4 at most\n")),
        (10, 4, 9, format!("{bad}  9 starting entries: 8 at most\n")),
        (1001, 5, 9, format!("{bad}  5 panes: 4 at most\n  9 starting entries: 8 at most\n")),
        (1001, 4, 8, "refused 24: the trial has more than 1,000 rounds\n  1001 rounds: 1000 at most\n".to_string()),
    ] {
        let text = format!("rounds {rounds}\n{}{}", pane.repeat(panes), start.repeat(starts));
        for arguments in [&["trial", "-"][..], &["trial", "-", "--history", "1"]] {
            let answer = tray(arguments, &text);
            assert_eq!((answer.status, answer.out), (3, wanted.clone()), "{text}");
        }
    }
    // The most that are not refused.
    let most = format!("rounds 1000\n{}{}", pane.repeat(4), start.repeat(8));
    assert!(told(&most).starts_with("1000 rounds\n"));
}

/// A row of a sweep is the trial with that number; those refused say so.
#[test]
fn sweeps() {
    let text = |rounds: &str, hold: &str| {
        format!(
            "rounds {rounds}\nstart kind 7 lease forever\n\
             pane lease 8 takes 7 timeout 3 writes 7 lease forever hold {hold}\n\
             pane lease 9 takes 7 timeout 4 writes 7 lease forever hold 1\n"
        )
    };
    let swept = told(&text("60", "0 to 9"));
    assert!(swept.starts_with("hold of pane 1 from 0 to 9, 60 rounds\n\n            pane 1 "), "{swept}");
    for hold in 0..10 {
        let alone = told(&text("60", &hold.to_string()));
        let rows: Vec<&str> = alone.lines().skip(3).take(2).map(|row| &row[4..]).collect();
        let row = format!("{hold:>10}{}", rows.concat());
        assert!(swept.lines().any(|line| line == row), "{row}\n{swept}");
    }
    assert!(swept.contains("\npane 1: most commits per 100 rounds with hold 0 to 1\n"), "{swept}");
    assert!(swept.contains("\n  hold 6 to 9: its transaction lease is too short for its hold\n"), "{swept}");
    let answer = tray(&["trial", "-"], &text("999 to 1001", "1"));
    assert_eq!(answer.status, 3);
    assert!(answer.out.starts_with("rounds from 999 to 1001\n"), "{}", answer.out);
    assert!(answer.out.contains("\n      1001  refused 24\n\npane 1: most"), "{}", answer.out);
    // Round trips of 4 rounds: one commit in 4 to 7 rounds, two in 8 and 9.
    let swept = told(&text("4 to 9", "0").replace("pane lease 9", "pane lease 1"));
    assert!(swept.contains("\npane 1: most commits per 100 rounds with rounds 4, 8\n"), "{swept}");
    let none = tray(&["trial", "-"], "rounds 9\nstart kind 7 lease 0 to 3\n");
    assert_eq!((none.status, none.out.lines().nth(1)), (3, Some("  no pane: 1 at least")));
}

/// Every number of a text can be the range.
#[test]
fn ranges() {
    let text = "rounds A\nstart kind 7 lease B\npane lease C takes 7 timeout D writes 8 lease E hold F\n";
    for (letter, name) in [
        ('A', "rounds"),
        ('B', "lease of starting entry 1"),
        ('C', "transaction lease of pane 1"),
        ('D', "timeout of pane 1"),
        ('E', "lease of what pane 1 writes"),
        ('F', "hold of pane 1"),
    ] {
        let others = text.replace(letter, "5 to 7").replace(['A', 'B', 'C', 'D', 'E', 'F'], "9");
        let rounds = if letter == 'A' { "" } else { ", 9 rounds" };
        assert_eq!(told(&others).lines().next(), Some(format!("{name} from 5 to 7{rounds}").as_str()));
        assert_eq!(tray(&["trial", "-", "--words"], &others).out.lines().count(), 3, "{others}");
    }
}

/// The rounds as a tray: its run has the same answers, and all of them are the trial's.
#[test]
fn rounds_as_a_tray() {
    let setup = "../../examples/trial-served-by-a-tick.trial";
    let text = tray(&["trial", setup, "--history", "100"], "").out;
    let run = tray(&["run", "-"], &text);
    assert_eq!(run.status, 0, "{}", run.err);
    let told = |party: usize, answer: &str| run.out.matches(&format!("party {party}: {answer}")).count() as u32;
    let counts = trial(&asked(&std::fs::read_to_string(setup).unwrap()).setup).counts;
    for (place, Counts { commits, exceptions, nothings }) in counts.into_iter().enumerate() {
        let said = (told(place + 1, "committed"), told(place + 1, "exception"), told(place + 1, "nothing"));
        assert_eq!(said, (commits, exceptions, nothings), "pane {place}");
    }
    let none = tray(&["trial", setup, "--history", "0"], "").out;
    assert_eq!(none.lines().count(), 2, "{none}");
    assert!(none.ends_with("party 16 write 7 1 40 150 lease forever  # starting entry 1\n"), "{none}");
    assert!(text.contains("# round 2, pane 3\ntick "), "{text}");
}

#[test]
fn the_verb() {
    let setup = "../../examples/trial-feed-each-other.trial";
    let sweep = "../../examples/trial-hold-nears-lease.trial";
    let folder = scratch("trial");
    for ending in ["svg", "html"] {
        let to = folder.join(format!("drawn.{ending}")).display().to_string();
        let answer = tray(&["trial", setup, "--draw", "8", "-o", &to], "");
        assert_eq!((answer.status, answer.out.as_str(), answer.err.as_str()), (0, "", ""));
        assert!(std::fs::read_to_string(&to).unwrap().contains("the first 8 of 100 rounds"), "{to}");
    }
    for (arguments, status) in [
        (vec!["trial"], 2),
        (vec!["trial", setup, "--words", "--history", "3"], 2),
        (vec!["trial", setup, "--history", "3", "--draw", "3"], 2),
        (vec!["trial", setup, "--draw", "3"], 2),
        (vec!["trial", setup, "-o", "a.svg"], 2),
        (vec!["trial", setup, "--draw", "3", "-o", "a.png"], 2),
        (vec!["trial", setup, "--history", "101"], 2),
        (vec!["trial", setup, "--history", "x"], 2),
        (vec!["trial", sweep, "--history", "3"], 2),
        (vec!["trial", "no/such/file"], 1),
    ] {
        let answer = tray(&arguments, "");
        assert_eq!((answer.status, answer.out.as_str()), (status, ""), "{arguments:?}: {}", answer.err);
    }
    let help = tray(&["trial", "--help"], "").out;
    assert!(help.contains("\n  pane lease D takes K timeout D writes K lease D hold D\n"), "{help}");
    assert!(tray(&["--help"], "").out.contains("\n  trial     panes that go round"));
}

/// Counts that no sound archive gives are told.
#[test]
fn what_the_proofs_exclude_is_told() {
    let setup = asked("rounds 9\nstart kind 7 lease forever\npane lease 9 takes 7 timeout 0 writes 7 lease 9 hold 0");
    let sound = trial(&setup.setup);
    assert_eq!(sound.counts, [Counts { commits: 2, exceptions: 0, nothings: 0 }]);
    for wrong in [Counts { commits: 3, ..sound.counts[0] }, Counts { nothings: 1, ..sound.counts[0] }] {
        let wrong = Trial { counts: vec![wrong], ..trial(&setup.setup) };
        assert_eq!(wrong.fault().as_deref(), Some("the counts of pane 1 are not those of its frames"));
    }
}

/// Each example is what its name says.
#[test]
fn examples() {
    let mut names = BTreeSet::new();
    for file in files("examples", ".trial") {
        let name = file.file_stem().unwrap().to_string_lossy().into_owned();
        let Asked { setup, range } = asked(&std::fs::read_to_string(&file).unwrap());
        let tried = setup.tried();
        assert_eq!(range.is_some(), name == "trial-hold-nears-lease", "{name}");
        match name.as_str() {
            "trial-refused-panes" => assert_eq!(tried, Err(23)),
            "trial-refused-rounds" => assert_eq!(tried, Err(24)),
            _ => assert!(tried.is_ok(), "{name}"),
        }
        names.insert(name);
    }
    assert_eq!(names.len(), 6, "{names:?}");
}

#[test]
fn the_header_says_the_same() {
    let header = std::fs::read_to_string("../space.h").unwrap();
    let said = |words: &str| assert!(header.contains(words), "{words}");
    said(&format!("#define SPACE_TRIAL_MAX_PANES {}\n", tray::trial::MOST_PANES));
    said(&format!("#define SPACE_TRIAL_MAX_STARTING {}\n", tray::trial::MOST_STARTS));
    said(&format!("#define SPACE_TRIAL_MAX_ROUNDS {}\n", tray::trial::MOST_ROUNDS));
    said("SPACE_REFUSAL_BAD_SETUP = 23");
    said("SPACE_REFUSAL_TOO_MANY_ROUNDS = 24");
}
