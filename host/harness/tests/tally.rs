//! The sums of a history, kept frame by frame: as by the definition; a lost or invented answer is told at its frame.

#[path = "common/steps.rs"]
mod steps;

use harness::compare::Sums;
use reference::answer::{Kind, Record, RECORD};
use reference::space::LookUp;
use steps::{steps, Step};
use tray::tally::{Logged, Tally};

const CLOSING: [Kind; 4] = [Kind::Found, Kind::Nothing, Kind::Exception, Kind::Aborted];

#[test]
fn kept_by_frames_as_by_the_definition() {
    let mut all = Tally::default();
    for seed in 0..120 {
        let steps = steps(seed);
        let mut sums = Sums::default();
        for (place, step) in steps.iter().enumerate() {
            sums.feed(&step.frame, &step.records());
            assert_eq!(sums.check(step.after.waiting.len()), Ok(()), "seed {seed}, frame {place}");
        }
        let read = |step: &Step| step.bytes.chunks_exact(RECORD).map(tray::record::Record::read).collect();
        let records: Vec<Vec<tray::record::Record>> = steps.iter().map(read).collect();
        let logged = steps.iter().zip(&records).map(|(step, records)| Logged { frame: &step.frame, records });
        assert_eq!(sums.tally, Tally::of(&logged.collect::<Vec<_>>()), "seed {seed}");
        all += sums.tally;
    }
    assert!(all.found > 1000 && all.nothing > 1000 && all.closed > 50, "{all:?}");
}

/// Whether the sums add up if the step is answered with these records.
fn adds_up(sums: &Sums, step: &Step, records: &[Record]) -> bool {
    let mut sums = sums.clone();
    sums.feed(&step.frame, records);
    sums.check(step.after.waiting.len()).is_ok()
}

/// Loses the record with this place (it becomes a waiting), and gives it twice. Gives its kind, if the sums must tell.
fn try_record(sums: &Sums, step: &Step, place: usize) -> Option<u8> {
    let records = step.records();
    let record = records[place];
    let mut lost = records.clone();
    lost[place].kind = Kind::Waiting as u8;
    let twice: Vec<Record> = records.into_iter().chain([record]).collect();
    let waits = |look_up: &LookUp| (look_up.party, look_up.transaction) == (record.party, record.transaction);
    let answers = record.is(Kind::Found) || record.is(Kind::Nothing);
    let ends_a_wait = !answers && step.before.waiting.iter().any(waits);
    assert_eq!(adds_up(sums, step, &lost), !answers && !ends_a_wait, "{record:?}");
    assert_eq!(adds_up(sums, step, &twice), !answers, "{record:?}");
    (answers || ends_a_wait).then_some(record.kind)
}

/// Only the end of a transaction in which nobody waits does not count.
#[test]
fn lost_and_invented_answers_are_told() {
    let mut told: Vec<u8> = Vec::new();
    for steps in (0..150).map(steps) {
        let mut sums = Sums::default();
        for step in &steps {
            let closing = |place: &usize| CLOSING.iter().any(|&kind| step.records()[*place].is(kind));
            let places = (0..step.records().len()).filter(closing);
            told.extend(places.filter_map(|place| try_record(&sums, step, place)));
            sums.feed(&step.frame, &step.records());
        }
    }
    let times = CLOSING.map(|kind| told.iter().filter(|&&it| it == kind as u8).count());
    assert!(times.iter().all(|&times| times > 10), "{times:?}");
}
