//! The bells of a history, from frames and answers alone (document 02, T-03): the reference's are these, and a lost, an
//! invented or another one is told at its frame.

#[path = "common/steps.rs"]
mod steps;

use harness::compare::Bells;
use reference::answer::{Kind, Record};
use steps::steps;

/// The records with another bell in the place of this one, or none, or several.
fn with(records: &[Record], place: usize, bells: &[Record]) -> Vec<Record> {
    [&records[..place], bells, &records[place + 1..]].concat()
}

/// Answers that differ in the bell with this place alone.
fn others(records: &[Record], place: usize) -> Vec<Vec<Record>> {
    let bell = records[place];
    let altered = |alter: fn(&mut Record)| {
        let mut other = bell;
        alter(&mut other);
        with(records, place, &[other])
    };
    let mut before_the_own = vec![bell];
    before_the_own.extend(with(records, place, &[]));
    vec![
        with(records, place, &[]),
        with(records, place, &[bell, bell]),
        before_the_own,
        altered(|bell| bell.party = bell.party % 16 + 1),
        altered(|bell| bell.transaction = 1),
        altered(|bell| bell.entry += 1),
        altered(|bell| bell.mark.fields[0] += 1),
        altered(|bell| bell.mark.fields[1] += 1),
        altered(|bell| bell.mark.fields[2] = 1),
        altered(|bell| bell.mark.blanks = 1),
    ]
}

#[test]
fn lost_and_invented_bells_are_told() {
    let (mut rung, mut silent) = (0, 0);
    for (seed, steps) in (0..150).map(|seed| (seed, steps(seed))) {
        let mut bells = Bells::new(0);
        for (place, step) in steps.iter().enumerate() {
            let records = step.records();
            let told = |answer: &[Record]| bells.clone().feed(&step.frame, answer).is_err();
            let rings = |place: &usize| records[*place].is(Kind::Rung);
            for answer in (0..records.len()).filter(rings).flat_map(|place| others(&records, place)) {
                assert!(told(&answer), "seed {seed}, frame {place}: {answer:?}");
                rung += 1;
            }
            if let (None, Some(live)) = ((0..records.len()).find(rings), step.before.registrations.first()) {
                let invented = Record { entry: live.number, ..Record::new(Kind::Rung, live.party, 0) };
                assert!(told(&[&records[..], &[invented]].concat()), "seed {seed}, frame {place}");
                silent += 1;
            }
            assert_eq!(bells.feed(&step.frame, &records), Ok(()), "seed {seed}, frame {place}");
        }
    }
    assert!(rung > 10_000 && silent > 1000, "{rung} of bells, {silent} of steps without");
}

/// The total that a space keeps is the history's.
#[test]
fn totals_are_kept() {
    let mut compared = 0;
    for steps in (0..150).map(steps) {
        let mut last = std::collections::BTreeMap::new();
        for step in &steps {
            for bell in step.records().iter().filter(|record| record.is(Kind::Rung)) {
                last.insert(bell.entry, bell.mark.fields[1]);
            }
            for live in &step.after.registrations {
                assert_eq!((live.total, live.count), (last.get(&live.number).copied().unwrap_or(0), 0));
                compared += 1;
            }
        }
    }
    assert!(compared > 10_000, "{compared}");
}
