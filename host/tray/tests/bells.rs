//! A bell for new images (document 02, T-03): operation 10 as text and bytes, number 17, records 10 and 11, what a bell
//! counts, and registrations in words, in drawings and in scripts of panes.

use crate::arcs::in_arc;
use crate::common::{assembled, bad_lines, random_text, tray, Random};
use crate::draw::{columns, histories, history, near, svg, ONE_ROW, SLOT};
use crate::explore::analysed;
use crate::xml::Element;
use std::collections::BTreeMap;
use tray::boundary::Space;
use tray::claim::Verdict::{Kept, Open, Refuted};
use tray::draw::lives::slots;
use tray::draw::{page, svg_file};
use tray::explore::shares::{needed, shares, Answer};
use tray::frame::{operation_named, show, Class, Request};
use tray::history::History;
use tray::record::{
    Record, ABORTED, COMMITTED, EXCEPTION, FOUND, NOTHING, NOTIFIED, RECORD_BYTES, REFUSED, RUNG, STEP_BYTES, TICKED,
    WRITTEN,
};
use tray::text::parse;
use tray::words::{tables, End, Fields, Registration, Template, Values, FOREVER};

fn notify(party: u8, mask: u8, fields: Fields, lease: u32) -> Vec<u8> {
    let operation = operation_named("notify").unwrap();
    Request { mask, fields, duration: lease, ..Request::new(operation, party) }.frame()
}

#[test]
fn a_notify_as_text() {
    let mut bytes = [0; 28];
    bytes[..3].copy_from_slice(&[10, 3, 0b1001]);
    (bytes[8], bytes[9], bytes[12], bytes[24]) = (2, 1, 7, 9);
    assert_eq!(notify(3, 0b1001, [7, 0, 0, 9], 258), bytes);
    assert_eq!(show(&bytes), "party 3 notify kind 7 place 9 lease 258");
    for line in [
        "party 3 notify kind 7 place 9 lease 258",
        "party 16 notify any lease 0",
        "party 0 notify kind 1 side 2 image 3 place 0 lease forever",
    ] {
        assert_eq!(show(&assembled(line)), line);
    }
    let read = Request::of(&bytes).unwrap();
    assert_eq!((read.operation.class, read.duration, read.looks_up()), (Class::Notify, 258, false));
}

/// Frames of another length, with byte 3, a transaction, a mask above 15 or a field outside it have no words: they are
/// shown byte by byte, and refused.
#[test]
fn odd_notifies_are_bytes() {
    let good = notify(1, 1, [7, 0, 0, 0], 5);
    for length in 1..=40 {
        let mut frame = good.clone();
        frame.resize(length, 0);
        assert_eq!(Space::default().step(&frame), if length == 28 { 0 } else { 3 }, "{length} bytes");
        assert_eq!(show(&frame).starts_with("bytes "), length != 28, "{}", show(&frame));
        assert_eq!(assembled(&show(&frame)), frame);
    }
    for (at, byte) in [3, 4, 5, 6, 7, 16, 20, 24].into_iter().flat_map(|at| [1, 9, 255].map(|byte| (at, byte))) {
        let mut frame = good.clone();
        frame[at] = byte;
        assert_eq!(Space::default().step(&frame), 4, "byte {at} is {byte}");
        assert!(show(&frame).starts_with("bytes 0a "), "{}", show(&frame));
        assert_eq!(assembled(&show(&frame)), frame);
    }
    // Nor outside any transaction but a live one of the party's own.
    let mut space = Space::default();
    assert_eq!(space.step(&assembled("party 1 create lease 5")), 0);
    let mut frame = good.clone();
    frame[4] = 1;
    assert_eq!(space.step(&frame), 4);
}

#[test]
fn bad_notifies() {
    bad_lines(&[
        ("party 1 notify lease 5", "a template: `any`, or"),
        ("party 1 notify kind 7", "`lease`, the line ends"),
        ("party 1 notify kind 7 timeout 5", "`lease`, found `timeout`"),
        ("party 1 notify kind 7 lease", "a lease (a number of ticks"),
        ("party 1 notify kind blank lease 5", "a number for kind, found `blank`"),
        ("party 1 notify kind 7 lease 5 in 1", "the end of the line, found `in`"),
        ("party 1 notify kind 7 lease 5 as R", "the end of the line, found `as`"),
        ("party 1 await bell", "an operation (write, read,"),
    ]);
}

/// The numbers in their order: each frame lacks what all numbers behind it ask for.
#[test]
fn order_of_judgement() {
    let text = "tick\nparty 3 take kind 9 timeout forever\nrepeat 8\nparty 1 notify any lease 9\nend\n";
    let mut space = Space::default();
    parse(text).unwrap().frames().for_each(|asked| assert_eq!(space.step(&asked.frame), 0));
    let (before, too_long) = (space.words, FOREVER - 1);
    let judged = [
        (notify(0, 32, [0; 4], too_long), 4),
        (notify(0, 0, [0; 4], too_long), 5),
        (notify(17, 0, [0; 4], too_long), 5),
        (notify(3, 0, [0; 4], 0), 6),
        (notify(2, 0, [0; 4], 0), 9),
        (notify(2, 0, [0; 4], too_long), 10),
        (notify(2, 0, [0; 4], too_long - 1), 17),
        (notify(1, 1, [7, 0, 0, 0], FOREVER), 17),
    ];
    for (frame, number) in judged {
        assert_eq!(space.step(&frame), number, "{}", show(&frame));
        assert!(space.words == before, "refused, and nothing changed");
    }
    // Neither writes nor creates nor look-ups are hindered.
    for line in ["party 2 create lease 5", "party 2 write 7 1 40 9 lease 5", "party 2 read any timeout 0"] {
        assert_eq!(space.step(&assembled(line)), 0, "{line}");
    }
    (0..9).for_each(|_| assert_eq!(space.step(&assembled("tick")), 0));
    assert!(tables(&space.words).registrations.is_empty());
    assert_eq!(space.step(&notify(2, 0, [0; 4], FOREVER)), 0);
    assert_eq!(tables(&space.words).registrations[0].number, 9, "no number comes again");
}

/// Document 02's rule of matching, once more.
fn matches(template: &Template, values: &Values) -> bool {
    let asked = |field: &usize| template.mask >> field & 1 == 1;
    let place = (!values.is_blank(3)).then_some(values.fields[3]);
    (0..4).filter(asked).all(|field| !values.is_blank(field) && values.fields[field] == template.fields[field])
        && (template.mask & 16 == 0 || place.is_some_and(|place| in_arc(template.fields[3], place)))
}

/// By frames and answers alone: what is private, and what each registration has heard of.
#[derive(Default)]
struct Book {
    clock: u32,
    made: u32,
    /// Transaction, number, values and end of what is written in a transaction and not taken again.
    private: Vec<(u32, u32, Values, End)>,
    listening: Vec<Registration>,
}

impl Book {
    fn tick(&mut self) {
        self.clock += 1;
        let ended = End::At(self.clock);
        self.private.retain(|&(.., end)| end != ended);
        self.listening.retain(|registration| registration.end != ended);
    }

    fn register(&mut self, request: &Request, own: &Record) {
        self.made += 1;
        let (template, end) = (request.template(), End::of_lease(self.clock, request.duration));
        self.listening.push(Registration { number: self.made, party: own.party, template, end, total: 0 });
    }

    /// What a frame makes public.
    fn public(&mut self, request: Option<Request>, own: &Record) -> Vec<Values> {
        let Some(request) = request else { return Vec::new() };
        match own.kind {
            TICKED => self.tick(),
            NOTIFIED => self.register(&request, own),
            WRITTEN if request.duration == 0 => {}
            WRITTEN if own.transaction == 0 => return vec![request.values()],
            WRITTEN => {
                let end = End::of_lease(self.clock, request.duration);
                self.private.push((own.transaction, own.entry, request.values(), end));
            }
            FOUND if matches!(request.operation.class, Class::LookUp { takes: true, .. }) => {
                self.private.retain(|&(_, number, ..)| number != own.entry);
            }
            COMMITTED => {
                let published = self.private.iter().filter(|row| row.0 == own.transaction).map(|row| row.2);
                return published.collect();
            }
            _ => {}
        }
        Vec::new()
    }

    /// The bells of a step, in their order.
    fn bells(&mut self, request: Option<Request>, records: &[Record]) -> Vec<Record> {
        let public = self.public(request, &records[0]);
        let ended = |record: &&Record| matches!(record.kind, COMMITTED | ABORTED | EXCEPTION);
        for record in records.iter().filter(ended) {
            self.private.retain(|&(transaction, ..)| transaction != record.transaction);
        }
        let mut bells = Vec::new();
        for registration in &mut self.listening {
            let new = public.iter().filter(|values| matches(&registration.template, values)).count() as u32;
            registration.total += new;
            let Registration { number, party, total, .. } = *registration;
            let bell = Record { kind: RUNG, party, entry: number, fields: [new, total, 0, 0], ..Record::default() };
            bells.extend((new > 0).then_some(bell));
        }
        bells
    }
}

/// Transactions that write, take again and commit, with look-ups that wait and registrations beside them.
fn random_commits(seed: u64, lines: usize) -> String {
    let (mut random, mut text) = (Random(seed), String::new());
    for party in 1..=2 {
        text += &format!("party {party} create lease forever\n");
    }
    let (mut live, mut made) = ([1, 2], 2);
    for _ in 0..lines {
        let of = random.below(2) as usize;
        let (party, transaction) = (of + 1, live[of]);
        let (kind, place) = (random.pick(&["1", "2"]), random.pick(&["0", "1", "blank"]));
        match random.below(9) {
            0..=3 => {
                text +=
                    &format!("party {party} write {kind} 1 4 {place} lease {} in {transaction}\n", 1 + random.below(6))
            }
            4 => text += &format!("party {party} take kind {kind} timeout 0 in {transaction}\n"),
            5 => text += &format!("party {} notify kind {kind} lease {}\n", 3 + random.below(4), 1 + random.below(6)),
            6 => text += &format!("party {} take kind {kind} timeout {}\n", 3 + random.below(4), random.below(3)),
            7 => text += "tick\n",
            _ => {
                let end = random.pick(&["commit", "commit", "abort"]);
                made += 1;
                live[of] = made;
                text += &format!("party {party} {end} {transaction}\nparty {party} create lease forever\n");
            }
        }
    }
    text
}

/// In random histories the bells of each step are those that frames and answers call for, behind all other records; the
/// total is the matching entries made public since the registration; and the tables have the registrations that live.
#[test]
fn bells_count_what_becomes_public() {
    let mut seen: BTreeMap<&str, usize> = BTreeMap::new();
    let long = (1..25).map(|seed| random_text(seed, 300)).chain((1..60).map(|seed| random_commits(seed, 200)));
    let texts = (1..120).map(|seed| random_text(seed, 80)).chain(long);
    for (seed, text) in texts.enumerate() {
        let history = History::of(parse(&text).unwrap().frames().cloned());
        let mut book = Book::default();
        for (place, step) in history.steps.iter().enumerate() {
            let (about, own) = (format!("text {seed}, frame {place}"), &step.records[0]);
            let bells = book.bells(step.request(), &step.records);
            let others = step.records.len() - bells.len().min(step.records.len());
            assert_eq!(step.records[others..], bells, "{about}");
            assert!(step.records[..others].iter().all(|record| record.kind != RUNG), "{about}");
            assert_eq!(step.after.registrations, book.listening, "{about}");
            assert_eq!(step.after.next_registration, book.made + 1, "{about}");
            assert!(step.records.len() * RECORD_BYTES <= STEP_BYTES, "{about}");
            let served = step.records[..others].iter().skip(1).any(|r| matches!(r.kind, FOUND | NOTHING));
            for (what, is) in [
                ("several new", bells.iter().any(|bell| bell.bell().0 > 1)),
                ("several bells", bells.len() > 1),
                ("by a commit", own.kind == COMMITTED && !bells.is_empty()),
                ("behind a found or nothing", served && !bells.is_empty()),
                ("to a party that waits", bells.iter().any(|bell| step.after.look_up(bell.party).is_some())),
                ("to who wrote", bells.iter().any(|bell| bell.party == own.party)),
                ("ended", own.kind == TICKED && history.before(place).registrations.len() > book.listening.len()),
                ("17", own.kind == REFUSED && own.refusal == 17),
            ] {
                *seen.entry(what).or_default() += usize::from(is);
            }
        }
    }
    assert!(seen.len() == 8 && seen.values().all(|&times| times > 10), "{seen:?}");
}

/// The largest step: a commit that rings all eight bells and answers all other parties that wait.
#[test]
fn all_bells_and_all_who_wait() {
    let mut text = "repeat 8\nparty 1 notify kind 7 lease 9\nend\nparty 1 create lease 9\n".to_string();
    (2..=16).for_each(|party| text += &format!("party {party} read kind 7 timeout 9\n"));
    text += "repeat 60\nparty 1 write 7 1 40 9 lease 9 in 1\nend\nparty 1 commit 1\n";
    let history = history(&text);
    let records = &history.steps.last().unwrap().records;
    assert_eq!(records.len(), 1 + 15 + 8);
    assert!(records[16..].iter().all(|record| record.kind == RUNG && record.bell() == (60, 60)));
    // No record of a later tick is a bell, though eight transactions and eight registrations end in it.
    let ends = "repeat 8\nparty 1 create lease 1\nend\nparty 1 take kind 7 timeout 0 in 2\ntick\n";
    let ticked =
        crate::draw::history(&(text.replace("lease 9\nend\nparty 1 create", "lease 1\nend\nparty 1 create") + ends));
    let last = ticked.steps.last().unwrap();
    assert_eq!((last.records.len(), last.after.registrations.len()), (1 + 8, 0));
    assert!(last.records.iter().all(|record| record.kind != RUNG));
}

const STRIP: &str = "party 5 notify kind 7 lease 2\nparty 1 write 7 1 40 1 lease 9\nexpect written 1\n\
    expect party 5 rung 1 new 1 so far 1\nparty 1 write 8 1 40 1 lease 9\nexpect no rung\nparty 1 create lease 9\n\
    party 1 write 7 1 41 1 lease 9 in 1\nexpect no rung\nparty 1 write 7 1 41 2 lease 9 in 1\nparty 1 commit 1\n\
    expect rung 1 new 2 so far 3\nexpect no rung 2\ntick\ntick\nexpect no rung\nparty 1 write 7 1 42 1 lease 9\n\
    expect no rung\nparty 5 notify any lease forever\nexpect notified 2\n";

#[test]
fn bells_in_words() {
    let answer = tray(&["run", "--state", "-"], STRIP);
    assert_eq!((answer.status, answer.err.as_str()), (0, ""));
    for line in [
        "1  clock 0   party 5 notify kind 7 lease 2",
        "party 5: notified registration 1; it ends at clock 2",
        "| registration 1 of party 5: kind 7, ends at clock 2, 0 so far",
        "party 5: rung: 1 new, 1 so far, by registration 1; for entry 1",
        "| registration 1 of party 5: kind 7, ends at clock 2, 1 so far",
        "party 5: rung: 2 new, 3 so far, by registration 1; for entries 3, 4",
        "| registration 1 of party 5: kind 7, ends at clock 2, 3 so far",
        "party 5: notified registration 2; it never ends",
        "| registration 2 of party 5: any, never ends, 0 so far",
    ] {
        assert!(answer.out.lines().any(|found| found.trim() == line), "{line}:\n{}", answer.out);
    }
    assert_eq!(answer.out.matches("rung: ").count(), 2, "{}", answer.out);
    let raw = tray(&["run", "--raw", "-"], STRIP).out;
    let lines: Vec<&str> = raw.lines().filter(|line| line.starts_with("10 ") || line.starts_with("11 ")).collect();
    assert_eq!(lines, ["10 5 0 0 1 0 0 0 0", "11 5 0 0 1 1 1 0 0", "11 5 0 0 1 2 3 0 0", "10 5 0 0 2 0 0 0 0"]);
    let full = "repeat 9\nparty 1 notify any lease 5\nend\nparty 1 notify any lease 0\n";
    let refused = tray(&["run", "-"], full).out;
    assert!(refused.contains("party 1: refused 17: 8 registrations are live\n"), "{refused}");
    assert!(refused.contains("party 1: refused 9: create or notify with lease 0\n"), "{refused}");
    // As a party types, too; an empty space has none.
    let typed = tray(&["try"], "party 5 notify kind 7 lease 2\nparty 1 write 7 1 40 1 lease 9\nundo\nundo\nstate\n");
    assert!(typed.out.contains("| registration 1 of party 5: kind 7, ends at clock 2, 1 so far\n"), "{}", typed.out);
    assert!(typed.out.ends_with("clock 0\n| nothing stored, live or waiting\n"), "{}", typed.out);
}

#[test]
fn expectations_of_bells() {
    let rings = |expected: &str| {
        let text = format!("party 5 notify any lease 5\nparty 1 write 7 1 40 1 lease 9\nexpect {expected}\n");
        tray(&["run", "-"], &text)
    };
    for met in ["rung", "rung 1", "party 5 rung 1 new 1", "rung so far 1", "rung 1 new 1 so far 1", "no rung 1 new 2"] {
        assert_eq!(rings(met).status, 0, "{met}");
    }
    for unmet in ["rung 2", "party 1 rung", "rung 1 new 2", "rung 1 so far 2", "no rung 1 new 1", "notified"] {
        let answer = rings(unmet);
        assert_eq!(answer.status, 4, "{unmet}");
        let came = "came: party 1: written entry 1; party 5: rung: 1 new, 1 so far, by registration 1";
        assert!(answer.err.contains(came), "{}", answer.err);
    }
    for (bad, expected) in [
        ("rung 1 new", "expected how many are new, the line ends"),
        ("rung 1 so far x", "expected how many there are so far, found `x`"),
        ("rung 1 far 2", "expected the end of the line, found `far`"),
        ("written 1 new 1", "expected the end of the line, found `new`"),
    ] {
        let answer = rings(bad);
        assert!(answer.status == 2 && answer.err.contains(expected), "{bad}: {}", answer.err);
    }
}

/// A registration neither answers a waiting look-up nor changes the list, and a bell closes none.
#[test]
fn bells_and_the_waiting_list() {
    let start = "party 1 write 7 1 40 9 lease 9\nparty 2 create lease 9\nparty 2 take kind 7 timeout 0 in 1\n\
                 party 3 takeIfExists kind 7 timeout forever\nparty 4 take kind 9 timeout 3\n";
    let rung =
        format!("party 3 notify any lease 9\nparty 4 notify any lease 9\n{start}party 1 write 8 1 40 9 lease 9\n");
    let list = |text: &str| tray(&["waiting", "-"], text).out;
    let lines = |text: &str| list(text).lines().skip(1).map(str::to_string).collect::<Vec<_>>().join("\n");
    assert_eq!(lines(&rung).replace("frame 6:", "frame 4:").replace("frame 7:", "frame 5:"), lines(start));
    assert_eq!(tray(&["run", "-"], &rung).out.matches("rung: 1 new, 2 so far").count(), 2);
}

/// The mark of a record, at this place of its registration's bar.
fn mark_at<'a>(drawn: &'a Element, record: &Record, x: f64) -> Option<&'a Element> {
    let bars = drawn.with_class("registration");
    let bar = bars.iter().find(|bar| bar.number("data-registration") as u32 == record.entry)?;
    let y = bar.child("rect").number("y") + 3.0;
    let here =
        |mark: &&Element| near(mark.child("circle").number("cx"), x) && near(mark.child("circle").number("cy"), y);
    drawn.with_class("mark").into_iter().find(here)
}

/// Of every registration a bar, and on it a bell for each record, with its count, in its slot.
#[test]
fn bells_are_drawn() {
    let mut bells = 0;
    for history in histories() {
        let drawn = svg(&history, ONE_ROW);
        let (columns, mut rung) = (columns(&drawn), 0);
        for (place, step) in history.steps.iter().enumerate() {
            for (record, slot) in step.records.iter().zip(slots(step)) {
                if !matches!(record.kind, NOTIFIED | RUNG) {
                    continue;
                }
                let about = format!("{} frame {}: R{}", history.title, place + 1, record.entry);
                let mark = mark_at(&drawn, record, columns[&(place + 1)] + SLOT * slot as f64);
                let mark = mark.unwrap_or_else(|| panic!("{about}"));
                assert_eq!((mark.has_class("rung"), mark.has_class("notified")), (slot > 0, slot == 0), "{about}");
                assert_eq!(mark.number("data-party") as u8, record.party, "{about}");
                if record.kind == RUNG {
                    assert_eq!(mark.child("text").text, record.bell().0.to_string(), "{about}");
                    rung += 1;
                }
            }
        }
        assert_eq!(drawn.with_class("rung").len(), rung, "{}", history.title);
        bells += rung;
    }
    assert!(bells > 100, "{bells}");
}

/// Where a registration has ended, a sign; in the tick that ended it, though that has no record of it.
#[test]
fn registrations_end_where_they_end() {
    let mut seen = 0;
    for history in histories() {
        let drawn = svg(&history, ONE_ROW);
        let (columns, mut wanted) = (columns(&drawn), BTreeMap::new());
        for (place, step) in history.steps.iter().enumerate() {
            let before = history.before(place).registrations.iter();
            let gone = before.filter(|before| step.after.registration(before.number).is_none());
            wanted.extend(gone.map(|gone| (gone.number, columns[&(place + 1)])));
        }
        let signs = drawn.with_class("unregistered");
        assert_eq!(signs.len(), wanted.len(), "{}", history.title);
        for sign in signs {
            let number = sign.number("data-registration") as u32;
            assert!(near(sign.child("line").number("x1"), wanted[&number]), "{} R{number}", history.title);
        }
        seen += wanted.len();
    }
    assert!(seen > 50, "{seen}");
}

/// What lies across the same columns of a lane lies on lines of its own: transactions, registrations, waits.
#[test]
fn bars_of_a_lane_are_apart() {
    for history in histories() {
        let drawn = svg(&history, ONE_ROW);
        let span = |bar: &Element| {
            let rect = bar.child("rect");
            let (x, y) = (rect.number("x"), rect.number("y"));
            (x, x + rect.number("width"), y, y + rect.number("height"))
        };
        let registrations: Vec<_> = drawn.with_class("registration").into_iter().map(span).collect();
        let transactions = drawn.with_class("transaction").into_iter().map(span);
        let waits = drawn.with_class("wait").into_iter().map(|wait| {
            let line = wait.child("line");
            (line.number("x1"), line.number("x2"), line.number("y1") - 2.0, line.number("y1") + 2.0)
        });
        let others: Vec<_> = transactions.chain(waits).collect();
        for (place, one) in registrations.iter().enumerate() {
            for other in registrations[place + 1..].iter().chain(&others) {
                let meets = one.0 < other.1 && other.0 < one.1 && one.2 < other.3 && other.2 < one.3;
                assert!(!meets, "{}: {one:?} {other:?}", history.title);
            }
        }
    }
}

/// The words at the marks, what pointing tells, the names where a row begins, and the page.
#[test]
fn bells_told_in_drawings() {
    let history = history(STRIP);
    let drawn = svg_file(&history, ONE_ROW);
    let told = |label: &str| drawn.matches(&format!(">{label}<")).count();
    assert_eq!((told("notify"), told("kind 7"), told("notified R1"), told("notified R2")), (2, 1, 1, 1), "{drawn}");
    assert_eq!((told("lease to clock 2"), told("lease forever"), told("expired")), (1, 1, 1), "{drawn}");
    assert_eq!((told("rung: 1 new"), told("rung: 2 new"), told("1 so far"), told("3 so far")), (1, 1, 1, 1), "{drawn}");
    for title in [
        "R1, registration of party 5: kind 7; lease to clock 2; 2 bells; expired in frame 9",
        "R2, registration of party 5: any; lease forever; 0 bells",
        "party 5: rung: 2 new, 3 so far, by registration 1; for entries 3, 4</title>",
    ] {
        assert!(drawn.contains(title), "{title}: {drawn}");
    }
    // Cut into rows, its name stands again where it goes on.
    let rows = svg_file(&history, 320.0);
    let names = [">R1 kind 7<", ">R1<"].map(|name| rows.matches(name).count());
    assert!(names.iter().sum::<usize>() > 1 && !drawn.contains(">R1 kind 7<"), "{rows}");
    let page = page::page(&history, "bells");
    assert!(page.contains("<b>R1</b> of party 5, kind 7, lease to clock 2, 3 so far</li>"), "{page}");
    assert!(page.contains("<li class=\"gone\"><s>R1</s></li>"), "{page}");
    assert!(page.contains("rung: this step has made so many matching entries public"), "the legend has the sign");
    let refused = svg_file(&crate::draw::history("repeat 9\nparty 1 notify any lease 5\nend\n"), ONE_ROW);
    assert!(refused.contains(">8 registrations live<"), "{refused}");
}

/// A tick that ends a registration is drawn by itself, though nothing else happens in it; quiet ones share a column.
#[test]
fn a_tick_that_ends_a_registration() {
    let drawn = svg(&history("party 1 notify any lease 7\nrepeat 14\ntick\nend\n"), ONE_ROW);
    let pills = drawn.with_class("column").into_iter();
    let spans: Vec<_> = pills.map(|pill| (pill.number("data-frame"), pill.number("data-last"))).collect();
    assert_eq!(spans, [(1.0, 1.0), (2.0, 7.0), (8.0, 8.0), (9.0, 15.0)]);
    let bar = drawn.with_class("registration");
    assert_eq!((bar.len(), bar[0].get("data-to")), (1, "8.0"));
}

/// A pane that listens sends nothing until its bell rings; one that has rung before lets it go on at once.
#[test]
fn panes_that_listen() {
    let text = "pane Camera party 1\nwrite 7 1 40 9 lease forever\n\
                pane Strip party 2\nn: notify kind 7 lease forever\nwrite 8 0 0 0 lease 0\nb: await bell\n\
                s: read kind 7 timeout 0\nlast: await bell\nwrite 9 0 0 0 lease 0\n\
                claim Strip never gets nothing\nclaim Strip always gets rung\nclaim Strip always gets rung at b\n\
                claim Strip never gets rung at last\nclaim Strip never gets rung at s\nclaim Camera never gets rung\n\
                claim nobody waits for ever\nclaim Strip always gets found at s\nclaim Strip always gets notified\n\
                claim when all have stopped no stored entry matches any\n";
    let (script, analysis) = analysed(text);
    let verdicts: Vec<_> = analysis.findings.iter().map(|finding| finding.verdict).collect();
    assert_eq!(verdicts, [Kept, Refuted, Refuted, Kept, Kept, Kept, Kept, Refuted, Kept, Kept]);
    // Three frames of the strip and one image: it comes first (no bell), before the write, or behind it.
    assert_eq!(analysis.histories.as_ref().unwrap().to_string(), "3");
    let shares = shares(&script, &analysis).unwrap();
    let told =
        |line: usize| shares[&(1, line)].iter().map(|(a, s)| (*a, s.times.to_string(), s.frames)).collect::<Vec<_>>();
    let row = |answer: Answer, times: &str, frames: usize| (answer, times.to_string(), frames);
    assert_eq!(told(2), [row(Answer::Done(RUNG), "2", 3), row(Answer::StillListens, "1", 3)]);
    assert_eq!(told(4), [row(Answer::StillListens, "2", 4)]);
    // Nothing is needed for what a step gives, not refutes; and a line that listens is never sent.
    assert!(needed(&script, &analysis, 1).is_none());
    let (script, analysis) = analysed(&text.replace("claim Strip never gets nothing", "claim Strip never gets found"));
    let needed = needed(&script, &analysis, 0).unwrap();
    assert_eq!((needed.lines, needed.not_needed), (vec![(0, 0), (1, 0), (1, 1), (1, 3)], vec![(1, 5)]));
}

/// A bell is no answer to a look-up that waits, and is kept for when the pane listens; of several one is.
#[test]
fn bells_while_a_pane_waits() {
    let text = "party 2 notify any lease forever\nparty 2 notify any lease forever\n\
                pane Camera party 1\nwrite 7 1 40 9 lease forever\nwrite 8 1 40 9 lease forever\n\
                pane Strip party 2\nw: take kind 8 timeout forever\nb: await bell\nc: await bell\n\
                d: write 9 0 0 0 lease 0\nclaim Strip always gets found at w\nclaim Strip never gets rung at w\n\
                claim Strip always gets rung at b\nclaim Strip always gets rung at c\n\
                claim Strip never gets written at d\nclaim Strip never gets nothing\n";
    let (_, analysis) = analysed(text);
    let verdicts: Vec<_> = analysis.findings.iter().map(|finding| finding.verdict).collect();
    // If the strip asks only when both images are there, their four bells are one to it, and none comes any more.
    assert_eq!(verdicts, [Kept, Kept, Kept, Refuted, Refuted, Kept]);
    // An exception that comes while it listens is one between two frames.
    let text = "pane A party 1\nafter exception go on at out\ncreate lease 1 as T\nb: await bell\nread any timeout 0\n\
                out: write 7 0 0 0 lease 0\nticks at most 1\nclaim A never gets written at out\n\
                claim A never gets nothing\n";
    let (_, analysis) = analysed(text);
    assert_eq!(analysis.findings.iter().map(|finding| finding.verdict).collect::<Vec<_>>(), [Refuted, Kept]);
}

/// What a registration has counted is part of a situation, and so is its end, also beyond the last tick.
#[test]
fn registrations_are_part_of_situations() {
    let same = "write 7 1 40 9 lease 0\n";
    let (_, analysis) = analysed(&format!("pane A party 1\nnotify any lease 1\npane B party 2\n{same}"));
    assert_eq!(analysis.explored.store.len(), 4, "an entry that is never stored is not heard of");
    let kept = same.replace("lease 0", "lease forever");
    let (_, analysis) = analysed(&format!("pane A party 1\nnotify any lease 1\npane B party 2\n{kept}"));
    assert_eq!((analysis.explored.store.len(), analysis.explored.ends.len()), (5, 2), "total 0 or 1");
    // Where the table is full, A asks again and again: time would make room, and then the write comes that B waits for.
    let full = |lease: &str| {
        let text = format!(
            "{}pane A party 1\nnotify any lease 1 after refusal start over\nwrite 7 1 40 9 lease forever\n\
             pane B party 2\ntake kind 7 timeout forever\nclaim B never waits for ever\n",
            format!("party 16 notify any lease {lease}\n").repeat(8)
        );
        analysed(&text).1.findings[0].verdict
    };
    assert_eq!((full("3"), full("forever")), (Open, Refuted));
}

#[test]
fn scripts_that_listen() {
    let bad = [
        ("await\n", "-:2: expected `bell`, the line ends"),
        ("await bells\n", "-:2: expected `bell`, found `bells`"),
        ("await bell as R\n", "-:2: expected the end of the line, found `as`"),
        ("notify any lease 3 as R\n", "-:2: expected the end of the line, found `as`"),
        ("notify any lease 3 in T\n", "-:2: expected the end of the line, found `in`"),
        ("notify any timeout 3\n", "-:2: expected `lease`, found `timeout`"),
        ("await bell then sleep\n", "-:2: expected what to do"),
        ("b: await bell\nclaim A never gets rung at c\n", "-:3: expected a label of pane A, found `c`"),
    ];
    for (lines, expected) in bad {
        let answer = tray(&["explore", "-"], &format!("pane A party 1\n{lines}"));
        assert!(answer.status == 2 && answer.err.contains(expected), "{lines}: {}", answer.err);
    }
    // A pane may listen first, and go round for ever.
    let text = "party 1 notify any lease forever\npane A party 1\nb: await bell\nread any timeout 0 then go on at b\n\
                pane B party 2\nrounds 3\nwrite 7 0 0 0 lease forever\nclaim A always gets found\n";
    let to = crate::common::scratch("bells").join("report.html");
    let answer = tray(&["explore", "-", "-o", to.to_str().unwrap()], text);
    assert!(answer.status == 0 && answer.out.contains("KEPT: A always gets found"), "{}", answer.out);
    let report = std::fs::read_to_string(&to).unwrap();
    assert!(crate::xml::parse(&report).is_ok() && report.contains("still listens at the end"), "{report}");
}
