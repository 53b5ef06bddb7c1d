//! The comparison of waiting times finds wrong reports, shows each in as little as it needs, and the reference is right
//! where that can be told by hand.

use harness::sittings::{compare, keeps, same, trays, Coverage, Discrepancy, Proved, Reporter};
use reference::answer::{Kind, Record, STEP};
use reference::frame::{word, Refusal, LOOK_UPS, NONE};
use reference::sittings::{add, closes, empty, sitting, Figures, Report, Step};
use reference::sittings::{FIGURES_AT, HANDED_IN, MOST_TRAYS, PARTIES, REFUSED, REPORT};
use reference::tray::{judge, run, LONGEST_TRAY};
use tray::boundary;
use tray::bytes::{frames_of, tray_of};
use tray::sittings::parse::parse as sittings_in;
use tray::text::parse;

/// The rules of a report. A wrong one changes one of them.
trait Rules: Default {
    const NAME: &'static str;

    fn empty(report: &mut Report) {
        empty(report);
    }

    fn is_full(report: &Report) -> bool {
        report[HANDED_IN] >= MOST_TRAYS
    }

    fn sitting(&mut self, tray: &[u8]) -> Result<Vec<Step>, Refusal> {
        sitting(tray)
    }

    fn asks(step: &Step, party: u8) -> bool {
        step.asks(party)
    }

    fn waits(step: &Step, party: u8) -> bool {
        step.waits(party)
    }

    fn closes(record: &Record, party: u8, transaction: u32) -> bool {
        closes(record, party, transaction)
    }

    /// The wait from the first place to the last, which closes it; none if that is the end of the tray.
    fn wait(steps: &[Step], first: usize, last: Option<usize>) -> Option<u32> {
        Some(steps[last.unwrap_or(steps.len() - 1)].clock - steps[first].clock)
    }

    fn longest(waits: &[u32]) -> u32 {
        waits.iter().copied().max().unwrap_or(0)
    }

    fn founds(steps: &[Step], party: u8) -> usize {
        steps.iter().flat_map(|step| &step.records).filter(|record| is_found(record, party)).count()
    }

    fn sum(so_far: Figures, more: Figures) -> Figures {
        so_far.and(more)
    }

    fn note(report: &mut Report, steps: &[Step]) {
        for party in 1..=PARTIES {
            Self::sum(Figures::at(report, party), figures::<Self>(steps, party)).put(report, party);
        }
    }

    fn refuse(report: &mut Report, _tray: &[u8], refusal: Refusal) -> u64 {
        report[REFUSED] = report[REFUSED].wrapping_add(1);
        65536 * refusal as u64
    }

    fn add(&mut self, report: &mut Report, tray: &[u8]) -> u64 {
        if Self::is_full(report) {
            return 65536 * Refusal::Sittings as u64;
        }
        report[HANDED_IN] = report[HANDED_IN].wrapping_add(1);
        match self.sitting(tray) {
            Ok(steps) => {
                Self::note(report, &steps);
                0
            }
            Err(refusal) => Self::refuse(report, tray, refusal),
        }
    }
}

fn is_found(record: &Record, party: u8) -> bool {
    record.party == party && record.is(Kind::Found)
}

/// A party's waits, by the rules.
fn waits_of<R: Rules>(steps: &[Step], party: u8) -> Vec<u32> {
    let wait_from = |first: usize| {
        let transaction = word(&steps[first].frame, 4);
        let closes = |step: &Step| step.records.iter().any(|record| R::closes(record, party, transaction));
        R::wait(steps, first, (first + 1..steps.len()).find(|&last| closes(&steps[last])))
    };
    (0..steps.len()).filter(|&first| R::waits(&steps[first], party)).filter_map(wait_from).collect()
}

fn figures<R: Rules>(steps: &[Step], party: u8) -> Figures {
    let waits = waits_of::<R>(steps, party);
    Figures {
        look_ups: steps.iter().filter(|step| R::asks(step, party)).count() as u32,
        founds: R::founds(steps, party) as u32,
        longest: R::longest(&waits),
        ticks: waits.iter().sum(),
        waits: waits.len() as u32,
    }
}

/// Reports by the rules, right or wrong.
#[derive(Default)]
struct By<R>(R);

impl<R: Rules> Reporter for By<R> {
    const NAME: &'static str = R::NAME;

    fn empty(&mut self, report: &mut Report) {
        R::empty(report);
    }

    fn add(&mut self, report: &mut Report, tray: &[u8]) -> u64 {
        self.0.add(report, tray)
    }
}

/// Of the first list that differs.
fn found<R: Rules>() -> Discrepancy {
    let seed = (1..2000).find(|&seed| same::<By<R>>(&trays(seed)).is_err());
    let seed = seed.unwrap_or_else(|| panic!("{} is not found", R::NAME));
    compare::<By<R>>(seed, &mut Coverage::default()).expect_err("a list that differs")
}

/// The trays that the printed text stands for; none if there is no tray.
fn trays_in(discrepancy: &Discrepancy) -> Vec<Vec<u8>> {
    let sittings = sittings_in("-", discrepancy.to_string().into_bytes()).expect("a text of sittings");
    let sittings = sittings.into_iter().filter(|_| !discrepancy.trays.is_empty());
    sittings.map(|sitting| sitting.tray).collect()
}

/// What a run sees of a tray.
fn seen(tray: &[u8]) -> Result<Vec<&[u8]>, Refusal> {
    Ok(judge(tray)?.into_iter().map(|frame| &tray[frame]).collect())
}

/// Each list with one tray fewer, or with one frame fewer in a tray that is not refused.
fn shorter(trays: &[Vec<u8>]) -> Vec<Vec<Vec<u8>>> {
    let mut lists = Vec::new();
    for place in 0..trays.len() {
        let with = |tray: &[Vec<u8>]| [&trays[..place], tray, &trays[place + 1..]].concat();
        lists.push(with(&[]));
        let frames: Vec<Vec<u8>> = seen(&trays[place]).unwrap_or_default().into_iter().map(<[u8]>::to_vec).collect();
        let without = |left_out: usize| [&frames[..left_out], &frames[left_out + 1..]].concat();
        lists.extend((0..frames.len()).map(|left_out| with(&[tray_of(&without(left_out))])));
    }
    lists
}

/// The trays that are shown differ, nothing can be left out of them, and the texts stand for them.
fn shows<R: Rules>() {
    let discrepancy = found::<R>();
    let (trays, texts) = (&discrepancy.trays, trays_in(&discrepancy));
    assert!(same::<By<R>>(trays).is_err(), "{}:\n{discrepancy}", R::NAME);
    assert!(shorter(trays).iter().all(|list| same::<By<R>>(list).is_ok()), "{}:\n{discrepancy}", R::NAME);
    assert_eq!(texts.len(), trays.len(), "{}:\n{discrepancy}", R::NAME);
    assert!(texts.iter().zip(trays).all(|(text, tray)| seen(text) == seen(tray)), "{}:\n{discrepancy}", R::NAME);
    println!("{}:\n{discrepancy}", R::NAME);
}

/// The lists do not differ, but a report with any words shows it; a tray without frames or a refused one is enough.
fn shows_on_any_words<R: Rules>() {
    let mut coverage = Coverage::default();
    let found = (1..2000).find_map(|seed| compare::<By<R>>(seed, &mut coverage).err());
    let discrepancy = found.unwrap_or_else(|| panic!("{} is not found", R::NAME));
    let (report, trays) = (discrepancy.report.as_ref().expect("any words"), &discrepancy.trays);
    assert!(keeps::<By<R>>(report, &trays[0]).is_err(), "{}:\n{discrepancy}", R::NAME);
    assert!(trays_in(&discrepancy) == *trays && frames_of(&trays[0]).len() <= 1, "{}:\n{discrepancy}", R::NAME);
    println!("{}:\n{discrepancy}", R::NAME);
}

/// Wrong reports: the name of each, what it keeps from tray to tray, and the rule that it changes.
macro_rules! wrong {
    ($test:ident $shows:ident $($name:ident $(($field:ident: $kept:ty))? { $($rule:tt)* })*) => {
        $(
            #[derive(Default)]
            struct $name { $($field: $kept)? }
            impl Rules for $name {
                const NAME: &'static str = stringify!($name);
                $($rule)*
            }
        )*
        #[test]
        fn $test() {
            $($shows::<$name>();)*
        }
    };
}

wrong! {
    wrong_reports_are_found shows

    // ---- how long a wait is
    WithoutTheClosingTick {
        fn wait(steps: &[Step], first: usize, last: Option<usize>) -> Option<u32> {
            Some(steps[last.unwrap_or(steps.len()) - 1].clock - steps[first].clock)
        }
    }
    OneTickMore {
        fn wait(steps: &[Step], first: usize, last: Option<usize>) -> Option<u32> {
            Right::wait(steps, first, last).map(|ticks| ticks + 1)
        }
    }
    FromTheTraysBeginning {
        fn wait(steps: &[Step], _: usize, last: Option<usize>) -> Option<u32> {
            Some(steps[last.unwrap_or(steps.len() - 1)].clock)
        }
    }
    FramesForTicks {
        fn wait(steps: &[Step], first: usize, last: Option<usize>) -> Option<u32> {
            Some((last.unwrap_or(steps.len() - 1) - first) as u32)
        }
    }
    OpenWaitsLeftOut {
        fn wait(steps: &[Step], first: usize, last: Option<usize>) -> Option<u32> {
            Right::wait(steps, first, Some(last?))
        }
    }
    NoTickIsNoWait {
        fn wait(steps: &[Step], first: usize, last: Option<usize>) -> Option<u32> {
            Right::wait(steps, first, last).filter(|&ticks| ticks > 0)
        }
    }
    TheTimeoutForTheWait {
        fn wait(steps: &[Step], first: usize, last: Option<usize>) -> Option<u32> {
            let nothing = |step: &Step| step.records.iter().any(|record| record.is(Kind::Nothing));
            match last.filter(|&last| nothing(&steps[last])) {
                Some(_) => Some(word(&steps[first].frame, 8)),
                None => Right::wait(steps, first, last),
            }
        }
    }

    // ---- which look-ups have a wait, and what closes it
    AnsweredAtOnceWaits {
        fn waits(step: &Step, party: u8) -> bool { step.asks(party) }
    }
    WaitsInsideLeftOut {
        fn waits(step: &Step, party: u8) -> bool { step.waits(party) && step.records[0].transaction == NONE }
    }
    IfExistsLeftOut {
        fn waits(step: &Step, party: u8) -> bool { step.waits(party) && step.frame[0] < 4 }
    }
    AnotherPartysAnswerCloses {
        fn closes(record: &Record, _: u8, transaction: u32) -> bool { closes(record, record.party, transaction) }
    }
    FoundsDoNotClose {
        fn closes(record: &Record, party: u8, transaction: u32) -> bool {
            closes(record, party, transaction) && !record.is(Kind::Found)
        }
    }
    NothingsDoNotClose {
        fn closes(record: &Record, party: u8, transaction: u32) -> bool {
            closes(record, party, transaction) && !record.is(Kind::Nothing)
        }
    }
    ExceptionsDoNotClose {
        fn closes(record: &Record, party: u8, transaction: u32) -> bool {
            closes(record, party, transaction) && !record.is(Kind::Exception)
        }
    }
    AbortsDoNotClose {
        fn closes(record: &Record, party: u8, transaction: u32) -> bool {
            closes(record, party, transaction) && !record.is(Kind::Aborted)
        }
    }
    AnyExceptionCloses {
        fn closes(record: &Record, party: u8, _: u32) -> bool { closes(record, party, record.transaction) }
    }
    BellsClose {
        fn closes(record: &Record, party: u8, transaction: u32) -> bool {
            closes(record, party, transaction) || record.party == party && record.is(Kind::Rung)
        }
    }
    RefusalsClose {
        fn closes(record: &Record, party: u8, transaction: u32) -> bool {
            closes(record, party, transaction) || record.party == party && record.is(Kind::Refused)
        }
    }

    // ---- look-ups and founds
    RefusedLookUpsCounted {
        fn asks(step: &Step, party: u8) -> bool {
            step.frame.len() > 1 && LOOK_UPS.contains(&step.frame[0]) && step.frame[1] == party
        }
    }
    OnlyLookUpsThatWait {
        fn asks(step: &Step, party: u8) -> bool { step.waits(party) }
    }
    OnlyReadsAndTakes {
        fn asks(step: &Step, party: u8) -> bool { step.asks(party) && step.frame[0] < 4 }
    }
    OnlyServedFounds {
        fn founds(steps: &[Step], party: u8) -> usize {
            steps.iter().flat_map(|step| &step.records[1..]).filter(|record| is_found(record, party)).count()
        }
    }
    OnlyFoundsAtOnce {
        fn founds(steps: &[Step], party: u8) -> usize {
            steps.iter().filter(|step| is_found(&step.records[0], party)).count()
        }
    }
    FoundsOfTheFramesParty {
        fn founds(steps: &[Step], party: u8) -> usize {
            let own = steps.iter().filter(|step| step.frame.get(1) == Some(&party));
            own.flat_map(|step| &step.records).filter(|record| record.is(Kind::Found)).count()
        }
    }

    // ---- sums and maxima
    TheLastWaitForTheLongest {
        fn longest(waits: &[u32]) -> u32 { waits.last().copied().unwrap_or(0) }
    }
    TheSumForTheLongest {
        fn longest(waits: &[u32]) -> u32 { waits.iter().sum() }
    }
    LongestWaitsAdded {
        fn sum(so_far: Figures, more: Figures) -> Figures {
            Figures { longest: so_far.longest.wrapping_add(more.longest), ..so_far.and(more) }
        }
    }
    LongestOfTheLastTray {
        fn sum(so_far: Figures, more: Figures) -> Figures { Figures { longest: more.longest, ..so_far.and(more) } }
    }
    MostTicksOfATray {
        fn sum(so_far: Figures, more: Figures) -> Figures {
            Figures { ticks: so_far.ticks.max(more.ticks), ..so_far.and(more) }
        }
    }
    MostWaitsOfATray {
        fn sum(so_far: Figures, more: Figures) -> Figures {
            Figures { waits: so_far.waits.max(more.waits), ..so_far.and(more) }
        }
    }
    TheLastTrayAlone {
        fn sum(_: Figures, more: Figures) -> Figures { more }
    }
    TicksAndWaitsExchanged {
        fn sum(so_far: Figures, more: Figures) -> Figures {
            so_far.and(Figures { ticks: more.waits, waits: more.ticks, ..more })
        }
    }

    // ---- parties and words
    PartiesShifted {
        fn note(report: &mut Report, steps: &[Step]) {
            for party in 1..=PARTIES {
                let next = party % PARTIES + 1;
                Figures::at(report, next).and(Figures::of(steps, party)).put(report, next);
            }
        }
    }
    LastPartyLeftOut {
        fn note(report: &mut Report, steps: &[Step]) {
            for party in 1..PARTIES {
                Figures::at(report, party).and(Figures::of(steps, party)).put(report, party);
            }
        }
    }
    EmptyLeavesAWord {
        fn empty(report: &mut Report) { report[..REPORT - 1].fill(0); }
    }

    // ---- each tray from an empty space, to its last frame
    SpaceNotEmptied(frames: Vec<Vec<u8>>) {
        fn sitting(&mut self, tray: &[u8]) -> Result<Vec<Step>, Refusal> {
            let (before, own) = (self.frames.len(), seen(tray)?);
            self.frames.extend(own.into_iter().map(<[u8]>::to_vec));
            Ok(sitting(&tray_of(&self.frames)).map_or(Vec::new(), |mut steps| steps.split_off(before)))
        }
    }
    ClockNotReset(clock: u32) {
        fn sitting(&mut self, tray: &[u8]) -> Result<Vec<Step>, Refusal> {
            let mut steps = sitting(tray)?;
            for step in steps.iter_mut().filter(|step| !step.records[0].is(Kind::Waiting)) {
                step.clock += self.clock;
            }
            self.clock = steps.last().map_or(self.clock, |step| step.clock);
            Ok(steps)
        }
    }
    WaitsGoOnInTheNextTray(steps: Vec<Step>) {
        fn add(&mut self, report: &mut Report, tray: &[u8]) -> u64 {
            let returned = add(report, tray);
            let begin = self.steps.last().map_or(0, |step| step.clock);
            let steps = sitting(tray).unwrap_or_default();
            self.steps.extend(steps.into_iter().map(|step| Step { clock: begin + step.clock, ..step }));
            for party in (1..=PARTIES).filter(|_| returned == 0) {
                let waits = waits_of::<Right>(&self.steps, party);
                let (longest, ticks) = (Right::longest(&waits), waits.iter().sum());
                Figures { longest, ticks, ..Figures::at(report, party) }.put(report, party);
            }
            returned
        }
    }
    AreaRunsShort {
        fn sitting(&mut self, tray: &[u8]) -> Result<Vec<Step>, Refusal> {
            let mut steps = sitting(tray)?;
            steps.truncate(run(tray, &mut [0; 3 * STEP]).frames);
            Ok(steps)
        }
    }

    // ---- refused trays
    LongTraysLookUpsCounted {
        fn refuse(report: &mut Report, tray: &[u8], refusal: Refusal) -> u64 {
            let steps = sitting(&tray[..tray.len().min(LONGEST_TRAY)]).unwrap_or_default();
            Self::note(report, &steps);
            Right::refuse(report, tray, refusal)
        }
    }
    FramesBeforeABadPairCounted {
        fn refuse(report: &mut Report, tray: &[u8], refusal: Refusal) -> u64 {
            if refusal == Refusal::TrayPair {
                let sound = frames_of(tray).into_iter().take_while(|frame| !frame.is_empty());
                let frames: Vec<Vec<u8>> = sound.map(<[u8]>::to_vec).collect();
                Self::note(report, &sitting(&tray_of(&frames)).unwrap_or_default());
            }
            Right::refuse(report, tray, refusal)
        }
    }
    RefusedNotHandedIn {
        fn refuse(report: &mut Report, tray: &[u8], refusal: Refusal) -> u64 {
            report[HANDED_IN] = report[HANDED_IN].wrapping_sub(1);
            Right::refuse(report, tray, refusal)
        }
    }
    RefusedNotCounted {
        fn refuse(_: &mut Report, _: &[u8], refusal: Refusal) -> u64 { 65536 * refusal as u64 }
    }
    RefusedWithoutNumber {
        fn refuse(report: &mut Report, tray: &[u8], refusal: Refusal) -> u64 {
            Right::refuse(report, tray, refusal);
            0
        }
    }
    RefusedClearsFigures {
        fn refuse(report: &mut Report, tray: &[u8], refusal: Refusal) -> u64 {
            report[FIGURES_AT..].fill(0);
            Right::refuse(report, tray, refusal)
        }
    }

    // ---- more than 64 trays
    SixtyFiveAccepted {
        fn is_full(report: &Report) -> bool { report[HANDED_IN] > MOST_TRAYS }
    }
    SixtyFourRefused {
        fn is_full(report: &Report) -> bool { report[HANDED_IN] >= MOST_TRAYS - 1 }
    }
    RefusedNotAmongThe64 {
        fn is_full(report: &Report) -> bool { report[HANDED_IN].wrapping_sub(report[REFUSED]) >= MOST_TRAYS }
    }
    TrayJudgedBeforeTheCount {
        fn add(&mut self, report: &mut Report, tray: &[u8]) -> u64 {
            match (add(report, tray), judge(tray)) {
                (0, _) => 0,
                (_, Err(refusal)) => 65536 * refusal as u64,
                (returned, Ok(_)) => returned,
            }
        }
    }
    CountsOnWhenFull {
        fn add(&mut self, report: &mut Report, tray: &[u8]) -> u64 {
            let returned = add(report, tray);
            report[HANDED_IN] = report[HANDED_IN].wrapping_add(u32::from(returned == 65536 * 25));
            returned
        }
    }
}

// No calls make such words, so no list shows these.
wrong! {
    wrong_on_any_words_is_found shows_on_any_words

    OnlyJust64IsFull {
        fn is_full(report: &Report) -> bool { report[HANDED_IN] == MOST_TRAYS }
    }
    OneByteOfTheCount {
        fn is_full(report: &Report) -> bool { report[HANDED_IN] % 256 >= MOST_TRAYS }
    }
    RefusedMendsFigures {
        fn refuse(report: &mut Report, tray: &[u8], refusal: Refusal) -> u64 {
            for party in 1..=PARTIES {
                let figures = Figures::at(report, party);
                Figures { longest: figures.longest.min(figures.ticks), ..figures }.put(report, party);
            }
            Right::refuse(report, tray, refusal)
        }
    }
}

#[derive(Default)]
struct Right;

impl Rules for Right {
    const NAME: &'static str = "Right";
}

#[test]
fn right_rules_do_not_differ() {
    let mut coverage = Coverage::default();
    for seed in 1..300 {
        assert_eq!(compare::<By<Right>>(seed, &mut coverage), Ok(()));
    }
}

/// The figures of all parties together.
fn of_all(report: &Report) -> Figures {
    (1..=PARTIES).map(|party| Figures::at(report, party)).fold(Figures::default(), Figures::and)
}

/// The space's own steps, frame by frame, answer as many look-ups, founds and waits as its report says.
#[test]
fn the_space_reports_what_its_steps_answer() {
    let mut all = Figures::default();
    for tray in (1..60).flat_map(trays).filter(|tray| judge(tray).is_ok()) {
        let (mut space, mut wanted) = (boundary::Space::default(), Figures::default());
        for frame in frames_of(&tray) {
            space.step(frame);
            let is_look_up = frame.first().is_some_and(|operation| LOOK_UPS.contains(operation));
            let count = |kind: Kind| space.records().filter(|record| record.kind == kind as u8).count() as u32;
            wanted.look_ups += u32::from(is_look_up && count(Kind::Refused) == 0);
            wanted.founds += count(Kind::Found);
            wanted.waits += count(Kind::Waiting);
        }
        let mut report = [0xa5; REPORT];
        boundary::empty_report(&mut report);
        assert_eq!(boundary::add_sitting(&mut report, &tray), 0);
        let Figures { longest, ticks, .. } = of_all(&report);
        assert_eq!(of_all(&report), Figures { longest, ticks, ..wanted });
        all = all.and(wanted);
    }
    assert!(all.look_ups > all.waits && all.founds > 0 && all.waits > 0);
}

/// A text, a party, and its look-ups, founds, longest wait, ticks waited and count of waits.
const BY_HAND: [(&str, u8, [u32; 5]); 14] = [
    ("", 1, [0; 5]),
    // from clock 0 to the write, at clock 2
    ("party 2 take kind 7 timeout 9\ntick\ntick\nparty 1 write 7 1 40 9 lease 5\ntick", 2, [1, 1, 2, 2, 1]),
    // the tick of the deadline belongs to the wait
    ("tick\nparty 2 read any timeout 1\ntick\ntick", 2, [1, 0, 1, 1, 1]),
    // answered at once: found, and nothing
    ("party 1 write 7 1 40 9 lease 5\nparty 2 read any timeout 9\ntick", 2, [1, 1, 0, 0, 0]),
    ("party 2 read any timeout 0\ntick", 2, [1, 0, 0, 0, 0]),
    // to the end of the tray; the second is refused, since the first waits
    ("party 2 read any timeout forever\ntick\nparty 2 read any timeout 1\ntick", 2, [1, 0, 2, 2, 1]),
    // no tick, and yet a wait
    ("party 2 take any timeout 9\nparty 1 write 7 1 40 9 lease 5\ntick", 2, [1, 1, 0, 0, 1]),
    ("tick\nparty 2 take any timeout 9", 2, [1, 0, 0, 0, 1]),
    // the exception of its transaction, in the second tick
    ("party 2 create lease 2\nparty 2 take any timeout 9 in 1\ntick\ntick\ntick", 2, [1, 0, 2, 2, 1]),
    // that of another one of its own does not close it
    ("party 2 create lease 1\nparty 2 take any timeout 3\ntick\ntick\ntick\ntick", 2, [1, 0, 3, 3, 1]),
    // out of the wait, after a tick
    ("party 2 create lease 9\nparty 2 take any timeout 9 in 1\ntick\nparty 2 abort 1\ntick", 2, [1, 0, 1, 1, 1]),
    // the conflict is gone: nothing, after a tick
    (
        "party 1 create lease 9\nparty 1 write 7 1 40 9 lease 9 in 1\nparty 2 readIfExists any timeout 9\ntick\n\
         party 1 abort 1\ntick",
        2,
        [1, 0, 1, 1, 1],
    ),
    // 2 ticks, then 1: the longest is not the last; then found at once
    (
        "party 2 read any timeout 2\ntick\ntick\nparty 2 read any timeout 5\ntick\n\
         party 1 write 7 1 40 9 lease 5\nparty 2 read any timeout 5",
        2,
        [3, 2, 2, 3, 2],
    ),
    // the other party's answer does not close it
    (
        "party 16 read kind 8 timeout 5\nparty 2 read kind 7 timeout 5\ntick\nparty 1 write 7 1 40 9 lease 5\ntick",
        16,
        [1, 0, 2, 2, 1],
    ),
];

/// The reference and the space, on each of the trays and on all of them, one behind the other.
#[test]
fn waits_by_hand() {
    for (text, party, wanted) in BY_HAND {
        let tray = parse(text).unwrap().tray().unwrap();
        let mut report = [0; REPORT];
        assert_eq!(add(&mut report, &tray), 0);
        let [look_ups, founds, longest, ticks, waits] = wanted;
        assert_eq!(Figures::at(&report, party), Figures { look_ups, founds, longest, ticks, waits }, "{text}");
    }
    let trays: Vec<Vec<u8>> = BY_HAND.iter().map(|(text, ..)| parse(text).unwrap().tray().unwrap()).collect();
    assert_eq!(same::<Proved>(&trays), Ok(()));
    let mut report = [0; REPORT];
    assert!(trays.iter().all(|tray| add(&mut report, tray) == 0));
    let party_2 = Figures { look_ups: 15, founds: 6, longest: 3, ticks: 16, waits: 12 };
    assert_eq!((report[HANDED_IN], report[REFUSED], Figures::at(&report, 2)), (14, 0, party_2));
}
