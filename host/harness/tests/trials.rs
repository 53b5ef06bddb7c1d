//! The comparison of trials finds wrong ones, shows each in as little as it needs, and the reference is right where
//! that can be told by hand.

use harness::trials::{case, compare, words_of, Case, Coverage, Discrepancy, Runner};
use reference::answer::{Kind, Record};
use reference::frame::{Fields, Refusal, FOREVER};
use reference::trial::{frame, judge, put, run, setup, tick, trial};
use reference::trial::{Machine, Pane, Setup, Stage, Starting, Trial, COUNTS, MOST_PANES, MOST_ROUNDS, MOST_STARTING};
use std::marker::PhantomData;
use tray::boundary;

/// The rules of a trial. A wrong one changes one of them.
trait Rules {
    const NAME: &'static str;

    fn judge(words: &[u32], room: usize) -> Result<Setup, Refusal> {
        judge(words, room)
    }

    fn start(trial: &mut Trial, setup: &Setup) {
        setup.starting.iter().for_each(|entry| Self::send(trial, entry.frame()));
    }

    fn run(trial: &mut Trial, setup: &Setup) {
        Self::start(trial, setup);
        (0..setup.rounds).for_each(|_| Self::round(trial));
    }

    fn round(trial: &mut Trial) {
        trial.round += 1;
        ready::<Self>(trial).into_iter().for_each(|frame| Self::send(trial, frame));
        Self::send(trial, tick());
    }

    fn next(machine: &Machine, clock: u32) -> Option<Vec<u8>> {
        machine.next(clock)
    }

    fn send(trial: &mut Trial, frame: Vec<u8>) {
        let by_tick = frame == tick();
        let records = trial.carry_out(frame);
        records.iter().for_each(|record| heard::<Self>(trial, record, by_tick));
    }

    /// `by_tick`: the record is of a tick's step.
    fn hear(machine: &mut Machine, record: &Record, clock: u32, _by_tick: bool) {
        machine.hear(record, clock);
    }

    fn counts(trial: &Trial, party: u8) -> [u32; COUNTS] {
        trial.counts(party)
    }

    fn trial(words: &[u32], counts: &mut [u32]) -> u64 {
        let setup = match Self::judge(words, counts.len()) {
            Ok(setup) => setup,
            Err(refusal) => return 65536 * refusal as u64,
        };
        let mut trial = Trial::new(&setup.panes);
        Self::run(&mut trial, &setup);
        put(setup.panes.len(), counts, |party| Self::counts(&trial, party));
        0
    }
}

/// What the panes send that are neither waiting nor holding.
fn ready<R: Rules + ?Sized>(trial: &Trial) -> Vec<Vec<u8>> {
    trial.machines.iter().filter_map(|machine| R::next(machine, trial.space.clock)).collect()
}

fn heard<R: Rules + ?Sized>(trial: &mut Trial, record: &Record, by_tick: bool) {
    let clock = trial.space.clock;
    let hearer = trial.machines.iter_mut().find(|machine| machine.party == record.party);
    hearer.into_iter().for_each(|machine| R::hear(machine, record, clock, by_tick));
}

/// A round in which a pane that has sent sends again at once, if it then is in such a stage.
fn round_sending_again<R: Rules>(trial: &mut Trial, again: impl Fn(Stage) -> bool) {
    trial.round += 1;
    for frame in ready::<R>(trial) {
        let place = usize::from(frame[1]) - 1;
        R::send(trial, frame);
        let machine = trial.machines[place];
        if again(machine.stage) {
            R::next(&machine, trial.space.clock).into_iter().for_each(|frame| R::send(trial, frame));
        }
    }
    R::send(trial, tick());
}

/// After a record of this kind the pane is in this stage.
fn hear_so(machine: &mut Machine, record: &Record, clock: u32, kind: Kind, stage: Stage) {
    machine.hear(record, clock);
    if record.is(kind) {
        machine.stage = stage;
    }
}

/// The clock from which a pane writes, changed.
fn held(machine: &mut Machine, from: impl Fn(u64) -> u64) {
    if let Stage::Write { from: was } = &mut machine.stage {
        *was = from(*was);
    }
}

/// In one stage the pane's frame is another.
fn sends(machine: &Machine, clock: u32, stage: Stage, other: impl Fn(&Pane, u32) -> Vec<u8>) -> Option<Vec<u8>> {
    match machine.stage == stage {
        true => Some(other(&machine.pane, machine.transaction)),
        false => machine.next(clock),
    }
}

/// Starting entries, changed.
fn start_with<R: Rules>(trial: &mut Trial, setup: &Setup, change: impl Fn(Starting) -> Vec<u8>) {
    setup.starting.iter().for_each(|&entry| R::send(trial, change(entry)));
}

/// Runs by the rules, right or wrong.
struct By<R>(PhantomData<R>);

impl<R: Rules> Runner for By<R> {
    const NAME: &'static str = R::NAME;

    fn trial(words: &[u32], counts: &mut [u32]) -> u64 {
        R::trial(words, counts)
    }
}

fn found<R: Rules>() -> Discrepancy {
    let mut coverage = Coverage::default();
    let found = (1..3000).find_map(|seed| compare::<By<R>>(seed, &mut coverage).err());
    found.unwrap_or_else(|| panic!("{} is not found", R::NAME))
}

/// The words that a text for `tray trial` stands for.
fn words_in(text: &str) -> Vec<u32> {
    tray::trial::parse::parse(text).unwrap_or_else(|fault| panic!("{fault:?}:\n{text}")).setup.words()
}

/// The case that is shown differs, nothing can be left out of it, and if it is a setup, then its text stands for it.
fn shows<R: Rules>() {
    let discrepancy = found::<R>();
    let (case, text) = (&discrepancy.case, discrepancy.to_string());
    assert!(discrepancy.ours != discrepancy.theirs && case.differs::<By<R>>(), "{}:\n{text}", R::NAME);
    assert!(!case.shorter().iter().any(|shorter| shorter.differs::<By<R>>()), "{}:\n{text}", R::NAME);
    assert!(setup(&case.words).is_none() || words_in(&text) == case.words, "{}:\n{text}", R::NAME);
    println!("{}:\n{text}", R::NAME);
}

/// A wrong trial: its name, and the rule that it changes.
macro_rules! wrong {
    ($($name:ident { $($rule:tt)* })*) => {
        $(
            struct $name;
            impl Rules for $name {
                const NAME: &'static str = stringify!($name);
                $($rule)*
            }
        )*
        #[test]
        fn wrong_trials_are_found() {
            $(shows::<$name>();)*
        }
    };
}

wrong! {
    // ---- holds
    ServingTickCounts {
        fn hear(machine: &mut Machine, record: &Record, clock: u32, by_tick: bool) {
            machine.hear(record, clock - u32::from(by_tick));
        }
    }
    HoldsDoNotCount {
        fn hear(machine: &mut Machine, record: &Record, clock: u32, _: bool) {
            machine.hear(record, clock);
            held(machine, |_| 0);
        }
    }
    HoldsOneTickLonger {
        fn hear(machine: &mut Machine, record: &Record, clock: u32, _: bool) {
            machine.hear(record, clock);
            held(machine, |from| from + 1);
        }
    }
    HoldZeroIsOne {
        fn hear(machine: &mut Machine, record: &Record, clock: u32, _: bool) {
            machine.hear(record, clock);
            held(machine, |from| from.max(u64::from(clock) + 1));
        }
    }
    HoldZeroWritesInTheSameRound {
        fn round(trial: &mut Trial) {
            round_sending_again::<Self>(trial, |stage| matches!(stage, Stage::Write { .. }));
        }
    }

    // ---- what comes next
    GoesOnAfterAnException {
        fn hear(machine: &mut Machine, record: &Record, clock: u32, _: bool) {
            let stage = machine.stage;
            hear_so(machine, record, clock, Kind::Exception, stage);
        }
    }
    AbortsAfterAnException {
        fn hear(machine: &mut Machine, record: &Record, clock: u32, _: bool) {
            hear_so(machine, record, clock, Kind::Exception, Stage::Abort);
        }
    }
    NoAbortAfterNothing {
        fn hear(machine: &mut Machine, record: &Record, clock: u32, _: bool) {
            hear_so(machine, record, clock, Kind::Nothing, Stage::Create);
        }
    }
    TakesAgainAfterNothing {
        fn hear(machine: &mut Machine, record: &Record, clock: u32, _: bool) {
            hear_so(machine, record, clock, Kind::Nothing, Stage::Take);
        }
    }
    SameAgainAfterARefusal {
        fn hear(machine: &mut Machine, record: &Record, clock: u32, _: bool) {
            let stage = machine.stage;
            hear_so(machine, record, clock, Kind::Refused, stage);
        }
    }
    CommitsAfterARefusedWrite {
        fn hear(machine: &mut Machine, record: &Record, clock: u32, _: bool) {
            match machine.stage {
                Stage::Write { .. } => hear_so(machine, record, clock, Kind::Refused, Stage::Commit),
                _ => machine.hear(record, clock),
            }
        }
    }
    FirstAnswerDecides {
        fn send(trial: &mut Trial, frame: Vec<u8>) {
            let by_tick = frame == tick();
            for record in trial.carry_out(frame) {
                let mut earlier = trial.steps.iter().rev().skip(1).take_while(|step| step.round == trial.round);
                if !earlier.any(|step| step.records.iter().any(|answer| answer.party == record.party)) {
                    heard::<Self>(trial, &record, by_tick);
                }
            }
        }
    }

    // ---- rounds
    ServedSendsInTheSameRound {
        fn round(trial: &mut Trial) {
            for place in 0..trial.machines.len() {
                let frame = trial.machines[place].next(trial.space.clock);
                frame.into_iter().for_each(|frame| Self::send(trial, frame));
            }
            Self::send(trial, tick());
        }
    }
    CommitsInTheRoundOfTheWrite {
        fn round(trial: &mut Trial) {
            round_sending_again::<Self>(trial, |stage| stage == Stage::Commit);
        }
    }
    StartsOverInTheRoundOfTheEnd {
        fn round(trial: &mut Trial) {
            round_sending_again::<Self>(trial, |stage| stage == Stage::Create);
        }
    }
    TickBeforeThePanes {
        fn round(trial: &mut Trial) {
            Self::send(trial, tick());
            ready::<Self>(trial).into_iter().for_each(|frame| Self::send(trial, frame));
        }
    }
    PanesBackwards {
        fn round(trial: &mut Trial) {
            ready::<Self>(trial).into_iter().rev().for_each(|frame| Self::send(trial, frame));
            Self::send(trial, tick());
        }
    }
    OneRoundMore {
        fn run(trial: &mut Trial, setup: &Setup) {
            Self::start(trial, setup);
            (0..=setup.rounds).for_each(|_| Self::round(trial));
        }
    }
    NoLastTick {
        fn run(trial: &mut Trial, setup: &Setup) {
            Self::start(trial, setup);
            (1..setup.rounds).for_each(|_| Self::round(trial));
            ready::<Self>(trial).into_iter().for_each(|frame| Self::send(trial, frame));
        }
    }

    // ---- starting entries; that another party of 1 to 16 writes them, no counts can show
    StartingByNoParty {
        fn start(trial: &mut Trial, setup: &Setup) {
            start_with::<Self>(trial, setup, |entry| [&[1, 17], &entry.frame()[2..]].concat());
        }
    }
    StartingAfterTheFirstRound {
        fn run(trial: &mut Trial, setup: &Setup) {
            for round in 0..setup.rounds {
                Self::round(trial);
                if round == 0 {
                    Self::start(trial, setup);
                }
            }
        }
    }
    StartingAtClockOne {
        fn start(trial: &mut Trial, setup: &Setup) {
            Self::send(trial, tick());
            start_with::<Self>(trial, setup, |entry| entry.frame());
        }
    }
    TickBehindStarting {
        fn start(trial: &mut Trial, setup: &Setup) {
            start_with::<Self>(trial, setup, |entry| entry.frame());
            Self::send(trial, tick());
        }
    }
    StartingBackwards {
        fn start(trial: &mut Trial, setup: &Setup) {
            setup.starting.iter().rev().for_each(|entry| Self::send(trial, entry.frame()));
        }
    }
    StartingForever {
        fn start(trial: &mut Trial, setup: &Setup) {
            start_with::<Self>(trial, setup, |entry| Starting { lease: FOREVER, ..entry }.frame());
        }
    }
    StartingFieldsBackwards {
        fn start(trial: &mut Trial, setup: &Setup) {
            start_with::<Self>(trial, setup, |Starting { fields: [a, b, c, d], lease }| {
                Starting { fields: [d, c, b, a], lease }.frame()
            });
        }
    }

    // ---- frames
    TakesAnyKind {
        fn next(machine: &Machine, clock: u32) -> Option<Vec<u8>> {
            sends(machine, clock, Stage::Take, |pane, transaction| {
                frame(3, machine.party, 0, &[transaction, pane.timeout, 0, 0, 0, 0])
            })
        }
    }
    TakesByAllFields {
        fn next(machine: &Machine, clock: u32) -> Option<Vec<u8>> {
            sends(machine, clock, Stage::Take, |pane, transaction| {
                frame(3, machine.party, 15, &[transaction, pane.timeout, pane.takes, 0, 0, 0])
            })
        }
    }
    TakesIfExists {
        fn next(machine: &Machine, clock: u32) -> Option<Vec<u8>> {
            sends(machine, clock, Stage::Take, |pane, transaction| {
                frame(5, machine.party, 1, &[transaction, pane.timeout, pane.takes, 0, 0, 0])
            })
        }
    }
    ReadsForTakes {
        fn next(machine: &Machine, clock: u32) -> Option<Vec<u8>> {
            sends(machine, clock, Stage::Take, |pane, transaction| {
                frame(2, machine.party, 1, &[transaction, pane.timeout, pane.takes, 0, 0, 0])
            })
        }
    }
    TakesOutside {
        fn next(machine: &Machine, clock: u32) -> Option<Vec<u8>> {
            sends(machine, clock, Stage::Take, |pane, _| {
                frame(3, machine.party, 1, &[0, pane.timeout, pane.takes, 0, 0, 0])
            })
        }
    }
    WritesOutside {
        fn next(machine: &Machine, clock: u32) -> Option<Vec<u8>> {
            let outside = Machine { transaction: 0, ..*machine };
            if matches!(machine.stage, Stage::Write { .. }) { outside.next(clock) } else { machine.next(clock) }
        }
    }
    WritesWhatItTook {
        fn next(machine: &Machine, clock: u32) -> Option<Vec<u8>> {
            let pane = Pane { writes: machine.pane.takes, ..machine.pane };
            Machine { pane, ..*machine }.next(clock)
        }
    }
    LeasesExchanged {
        fn next(machine: &Machine, clock: u32) -> Option<Vec<u8>> {
            let Pane { lease, written_lease, .. } = machine.pane;
            let pane = Pane { lease: written_lease, written_lease: lease, ..machine.pane };
            Machine { pane, ..*machine }.next(clock)
        }
    }

    // ---- counts
    OthersCounts {
        fn counts(trial: &Trial, party: u8) -> [u32; COUNTS] {
            trial.counts(trial.machines.len() as u8 + 1 - party)
        }
    }
    CountsInAnotherOrder {
        fn counts(trial: &Trial, party: u8) -> [u32; COUNTS] {
            let [commits, exceptions, nothings] = trial.counts(party);
            [commits, nothings, exceptions]
        }
    }
    OwnStepsAlone {
        fn counts(trial: &Trial, party: u8) -> [u32; COUNTS] {
            let mut own = Trial::new(&[]);
            own.steps = trial.steps.iter().filter(|step| step.frame[1] == party).cloned().collect();
            own.counts(party)
        }
    }
    AbortsCountAsExceptions {
        fn counts(trial: &Trial, party: u8) -> [u32; COUNTS] {
            let records = trial.steps.iter().flat_map(|step| &step.records);
            let aborts = records.filter(|record| record.party == party && record.is(Kind::Aborted)).count();
            let [commits, exceptions, nothings] = trial.counts(party);
            [commits, exceptions + aborts as u32, nothings]
        }
    }
    CountsClearedByARefusal {
        fn trial(words: &[u32], counts: &mut [u32]) -> u64 {
            let returned = trial(words, counts);
            counts.iter_mut().filter(|_| returned != 0).for_each(|word| *word = 0);
            returned
        }
    }
    WordsBehindCleared {
        fn trial(words: &[u32], counts: &mut [u32]) -> u64 {
            let returned = trial(words, counts);
            let panes = if returned == 0 { words[1] as usize } else { counts.len() };
            counts.iter_mut().skip(COUNTS * panes).for_each(|word| *word = 0);
            returned
        }
    }

    // ---- what is refused
    RoundsJudgedFirst {
        fn judge(words: &[u32], room: usize) -> Result<Setup, Refusal> {
            if words.first() > Some(&MOST_ROUNDS) { Err(Refusal::Rounds) } else { judge(words, room) }
        }
    }
    ThousandRefused {
        fn judge(words: &[u32], room: usize) -> Result<Setup, Refusal> {
            let setup = judge(words, room)?;
            if setup.rounds == MOST_ROUNDS { Err(Refusal::Rounds) } else { Ok(setup) }
        }
    }
    ThousandAndOneAccepted {
        fn judge(words: &[u32], room: usize) -> Result<Setup, Refusal> {
            judge(words, room).or_else(|refusal| match setup(words) {
                Some(setup) if refusal == Refusal::Rounds && setup.rounds == MOST_ROUNDS + 1 => Ok(setup),
                _ => Err(refusal),
            })
        }
    }
    NoPaneAccepted {
        fn judge(words: &[u32], room: usize) -> Result<Setup, Refusal> {
            setup(words).filter(|setup| setup.panes.is_empty()).map_or_else(|| judge(words, room), Ok)
        }
    }
    FifthPaneLeftOut {
        fn judge(words: &[u32], room: usize) -> Result<Setup, Refusal> {
            setup(words).map_or(Err(Refusal::Setup), |mut setup| {
                setup.panes.truncate(MOST_PANES);
                judge(&words_of(&setup), room)
            })
        }
    }
    NinthEntryLeftOut {
        fn judge(words: &[u32], room: usize) -> Result<Setup, Refusal> {
            setup(words).map_or(Err(Refusal::Setup), |mut setup| {
                setup.starting.truncate(MOST_STARTING);
                judge(&words_of(&setup), room)
            })
        }
    }
    LeftOverAccepted {
        fn judge(words: &[u32], room: usize) -> Result<Setup, Refusal> {
            let end = (0..=words.len()).find(|&end| setup(&words[..end]).is_some());
            judge(&words[..end.unwrap_or(words.len())], room)
        }
    }
    ShortCountsFilled {
        fn trial(words: &[u32], counts: &mut [u32]) -> u64 {
            let mut whole = [0; COUNTS * MOST_PANES];
            let returned = trial(words, &mut whole);
            let panes = if returned == 0 { words[1] as usize } else { 0 };
            counts.iter_mut().zip(&whole[..COUNTS * panes]).for_each(|(word, count)| *word = *count);
            returned
        }
    }
    LongerCountsWanted {
        fn judge(words: &[u32], room: usize) -> Result<Setup, Refusal> {
            judge(words, room.saturating_sub(1))
        }
    }
}

struct Right;

impl Rules for Right {
    const NAME: &'static str = "Right";
}

#[test]
fn right_rules_do_not_differ() {
    let mut coverage = Coverage::default();
    for seed in 1..1000 {
        assert_eq!(compare::<By<Right>>(seed, &mut coverage), Ok(()));
    }
}

/// "equals what the space's rules give for the same frames": those of the proved space, on the reference's frames.
#[test]
fn the_space_counts_the_same_frames_alike() {
    let mut commits = 0;
    for seed in 1..1000 {
        let Case { words, room } = case(seed);
        let Ok(setup) = judge(&words, room) else { continue };
        let (mut space, mut wanted) = (boundary::Space::default(), vec![0; COUNTS * setup.panes.len()]);
        for step in run(&setup).steps {
            space.step(&step.frame);
            for record in space.records().filter(|record| (1..=setup.panes.len()).contains(&record.party.into())) {
                let first = COUNTS * (usize::from(record.party) - 1);
                let counted = [Kind::Committed, Kind::Exception, Kind::Nothing];
                let place = counted.into_iter().position(|kind| record.kind == kind as u8);
                place.into_iter().for_each(|place| wanted[first + place] += 1);
            }
        }
        let mut counts = vec![0; wanted.len()];
        assert_eq!((boundary::trial(&words, &mut counts), &counts), (0, &wanted), "seed {seed}");
        commits += counts[0];
    }
    assert!(commits > 0);
}

const fn entry(kind: u32) -> Starting {
    Starting { fields: [kind, 0, 0, 0], lease: FOREVER }
}

const fn pane(lease: u32, timeout: u32, takes: u32, writes: u32, hold: u32) -> Pane {
    Pane { lease, timeout, takes, written_lease: FOREVER, writes, hold }
}

/// The rounds in which a party writes.
fn writes_in(rounds: u32, panes: &[Pane], kind: u32, party: u8) -> Vec<u32> {
    let trial = run(&Setup { rounds, panes: panes.to_vec(), starting: vec![entry(kind)] });
    let writes = trial.steps.iter().filter(|step| step.frame[..2] == [1, party]);
    writes.map(|step| step.round).collect()
}

/// Found by a frame in round r, holds 0 and 1 write in r + 1, and hold h in r + h; found by its tick, in r + 1 + h.
#[test]
fn holds_count_whole_ticks() {
    for (hold, own, others, by_tick) in [(0, 3, 5, 4), (1, 3, 5, 5), (2, 4, 6, 6), (3, 5, 7, 7)] {
        // its own take finds in round 2
        assert_eq!(writes_in(6, &[pane(FOREVER, 0, 7, 8, hold)], 7, 1), [own]);
        // the commit of pane 1, in round 4, serves pane 2
        let feeds = pane(FOREVER, 0, 5, 7, 0);
        assert_eq!(writes_in(7, &[feeds, pane(FOREVER, FOREVER, 7, 8, hold)], 5, 2), [others]);
        // the tick of round 3 ends pane 1's transaction, and pane 2 is served
        let expires = pane(3, 0, 7, 8, 50);
        assert_eq!(writes_in(7, &[expires, pane(FOREVER, FOREVER, 7, 8, hold)], 7, 2), [by_tick]);
    }
}

/// One pane, byte by byte: it finds the starting entry, commits, and finds nothing after that.
#[test]
fn frames_are_as_documented() {
    let fields: Fields = [7, 1, 2, 3];
    let starting = vec![Starting { fields, lease: 9 }];
    let trial = run(&Setup { rounds: 7, panes: vec![pane(20, 0, 7, 8, 0)], starting });
    let frames: Vec<&[u8]> =
        trial.steps.iter().map(|step| step.frame.as_slice()).filter(|frame| frame[0] != 9).collect();
    let long = |head: [u8; 4], transaction: u8, duration: [u8; 4], kind: u8| -> Vec<u8> {
        [head, [transaction, 0, 0, 0], duration, [kind, 0, 0, 0], [0; 4], [0; 4], [0; 4]].concat()
    };
    assert_eq!(frames[0], [1, 16, 0, 0, 0, 0, 0, 0, 9, 0, 0, 0, 7, 0, 0, 0, 1, 0, 0, 0, 2, 0, 0, 0, 3, 0, 0, 0]);
    assert_eq!(frames[1], [6, 1, 0, 0, 0, 0, 0, 0, 20, 0, 0, 0]);
    assert_eq!(frames[2], long([3, 1, 1, 0], 1, [0; 4], 7));
    assert_eq!(frames[3], long([1, 1, 0, 0], 1, [255; 4], 8));
    assert_eq!(frames[4], [7, 1, 0, 0, 1, 0, 0, 0]);
    assert_eq!(frames[5], [6, 1, 0, 0, 0, 0, 0, 0, 20, 0, 0, 0]);
    assert_eq!(frames[6], long([3, 1, 1, 0], 2, [0; 4], 7));
    assert_eq!(frames[7], [8, 1, 0, 0, 2, 0, 0, 0]);
    assert_eq!((frames.len(), trial.steps.len(), trial.counts(1)), (8, 15, [1, 0, 1]));
}
