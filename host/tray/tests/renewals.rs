//! Renewing a mark (document 02, T-05): operation 11 as text and bytes, numbers 18 to 20, record 12 and the writer in words,
//! in drawings and in scripts of panes.

use crate::common::{assembled, bad_lines, random_text, tray};
use crate::draw::{columns, histories, history, near, svg, ONE_ROW};
use crate::explore::analysed;
use std::collections::BTreeMap;
use tray::boundary::Space;
use tray::claim::Verdict::{Kept, Refuted};
use tray::draw::{page, svg_file};
use tray::frame::{operation_named, show, Request};
use tray::history::History;
use tray::record::{Record, REFUSED, RENEWED, WRITTEN};
use tray::text::parse;
use tray::words::{tables, End, Entry, Values, FOREVER};

fn renew(party: u8, entry: u32, lease: u32) -> Vec<u8> {
    let operation = operation_named("renew").unwrap();
    Request { entry, duration: lease, ..Request::new(operation, party) }.frame()
}

#[test]
fn a_renewal_as_text() {
    let bytes = [11, 3, 0, 0, 7, 0, 0, 0, 2, 1, 0, 0];
    assert_eq!(renew(3, 7, 258), bytes);
    for line in ["party 3 renew 7 lease 258", "party 16 renew 0 lease 0", "party 0 renew 4294967295 lease forever"] {
        assert_eq!(show(&assembled(line)), line);
    }
    assert_eq!(assembled("party 3 renew 7 lease 258"), bytes);
    let read = Request::of(&bytes).unwrap();
    assert_eq!((read.entry, read.transaction, read.duration, read.renews()), (7, 0, 258, true));
}

/// Frames of any other length, with a mask or with byte 3 have no words: they are shown byte by byte, and refused.
#[test]
fn odd_renewals_are_bytes() {
    for length in 1..=40 {
        let mut frame = renew(1, 1, 5);
        frame.resize(length, 0);
        let number = Space::default().step(&frame);
        assert_eq!(number, if length == 12 { 18 } else { 3 }, "{length} bytes");
        assert_eq!(show(&frame).starts_with("bytes "), length != 12, "{}", show(&frame));
        assert_eq!(assembled(&show(&frame)), frame);
    }
    for (at, byte) in [2, 3].into_iter().flat_map(|at| (1..=255u8).map(move |byte| (at, byte))) {
        let mut frame = renew(1, 1, 5);
        frame[at] = byte;
        assert_eq!(Space::default().step(&frame), 4, "byte {at} is {byte}");
        assert!(show(&frame).starts_with("bytes 0b "), "{}", show(&frame));
        assert_eq!(assembled(&show(&frame)), frame);
    }
    // What comes after 11 is no operation; 10 is, with another length.
    assert_eq!(Space::default().step(&[&[10], &renew(1, 1, 5)[1..]].concat()), 3);
    for operation in [0, 12, 13, 255] {
        let frame = [&[operation], &renew(1, 1, 5)[1..]].concat();
        assert_eq!(Space::default().step(&frame), 2, "operation {operation}");
        assert!(show(&frame).starts_with("bytes "));
    }
}

#[test]
fn bad_renewals() {
    bad_lines(&[
        ("party 1 renew lease 5", "an entry, found `lease`"),
        ("party 1 renew M lease 5", "an entry's number, found `M`"),
        ("party 1 renew 1", "`lease`, the line ends"),
        ("party 1 renew", "an entry, the line ends"),
        ("party 1 renew 1 lease", "a lease (a number of ticks"),
        ("party 1 renew 1 timeout 5", "`lease`, found `timeout`"),
        ("party 1 renew 1 lease 5 in 1", "the end of the line, found `in`"),
        ("party 1 write 7 1 40 9 lease 5 as M", "the end of the line, found `as`"),
    ]);
}

/// The numbers in their order: each frame lacks what all numbers behind it ask for.
#[test]
fn order_of_judgement() {
    let text =
        "tick\nparty 1 write 7 1 40 9 lease 5\nparty 2 create lease forever\nparty 2 read kind 7 timeout 0 in 1\n\
                party 1 write 8 1 40 9 lease 5\nparty 3 take kind 9 timeout forever\n";
    let mut space = Space::default();
    parse(text).unwrap().frames().for_each(|asked| assert_eq!(space.step(&asked.frame), 0));
    let (before, too_long) = (space.words, FOREVER - 1);
    let odd = |party: u8, entry: u32, mask: u8| {
        let mut frame = renew(party, entry, too_long);
        frame[2] = mask;
        frame
    };
    let judged = [
        (odd(0, 9, 1), 4),
        (odd(0, 9, 0), 5),
        (odd(17, 9, 0), 5),
        (odd(3, 9, 0), 6),
        (odd(2, 9, 0), 18),
        (odd(2, 1, 0), 19),
        (odd(1, 1, 0), 20),
        (odd(1, 2, 0), 10),
        (renew(1, 1, 0), 20),
        (renew(2, 2, 0), 19),
    ];
    for (frame, number) in judged {
        assert_eq!(space.step(&frame), number, "{}", show(&frame));
        assert!(space.words == before, "refused, and nothing changed");
    }
    assert_eq!(space.step(&renew(1, 2, too_long - 1)), 0);
    assert_eq!(tables(&space.words).entry(2).unwrap().end, End::At(too_long));
}

/// By frames and first records alone: who wrote each entry, and when it is to end.
#[derive(Default)]
struct Book {
    written: BTreeMap<u32, (u8, End)>,
}

impl Book {
    fn note(&mut self, request: Option<Request>, own: &Record, clock: u32) {
        let Some(request) = request.filter(|_| matches!(own.kind, WRITTEN | RENEWED)) else { return };
        let end = if request.duration == FOREVER { End::Never } else { End::At(clock + request.duration) };
        let writer = self.written.get(&own.entry).map_or(own.party, |&(writer, _)| writer);
        self.written.insert(own.entry, (writer, end));
    }

    fn says(&self, entry: &Entry) -> bool {
        self.written.get(&entry.number) == Some(&(entry.writer, entry.end))
    }
}

fn is_held(entry: &Entry) -> bool {
    entry.private_to != 0 || entry.taken_by != 0 || !entry.read_by.is_empty()
}

/// In random histories the tables have the writers and ends that frames and answers tell; each number comes where it
/// should, and a renewal changes one row's end, or removes the row.
#[test]
fn writers_and_ends() {
    let mut seen: BTreeMap<u8, usize> = BTreeMap::new();
    for seed in 1..150 {
        let text = parse(&random_text(seed, 80)).unwrap();
        let history = History::of(text.frames().cloned());
        let mut book = Book::default();
        for (place, step) in history.steps.iter().enumerate() {
            let (before, own, about) = (history.before(place), &step.records[0], format!("seed {seed}, frame {place}"));
            book.note(step.request(), own, before.clock);
            assert!(step.after.entries.iter().all(|entry| book.says(entry)), "{about}");
            let Some(request) = step.request().filter(|request| request.renews()) else { continue };
            *seen.entry(own.refusal).or_default() += 1;
            let named = before.entry(request.entry);
            match own.refusal {
                18 => assert!(named.is_none(), "{about}"),
                19 => assert!(named.is_some_and(|entry| entry.writer != request.party), "{about}"),
                20 => assert!(named.is_some_and(|e| e.writer == request.party && is_held(e)), "{about}"),
                _ => assert!(own.kind == REFUSED || named.is_some_and(|e| !is_held(e)), "{about}"),
            }
            if own.kind == RENEWED {
                assert_eq!((own.party, own.entry, own.transaction), (request.party, request.entry, 0), "{about}");
                assert_eq!((own.values(), step.records.len()), (Values::default(), 1), "{about}");
                let mut wanted = before.clone();
                wanted.entries.retain(|entry| entry.number != own.entry || request.duration != 0);
                let renewed = wanted.entries.iter_mut().find(|entry| entry.number == own.entry);
                renewed.into_iter().for_each(|entry| entry.end = End::of_lease(before.clock, request.duration));
                assert_eq!(step.after, wanted, "{about}");
            }
        }
    }
    for number in [0, 6, 10, 18, 19, 20] {
        assert!(seen.get(&number).is_some_and(|&times| times > 10), "{number}: {seen:?}");
    }
}

/// `lease 2` at clock 5, of a mark that would have ended at 6 and of one at 9: both end at 7. A place is freed by lease 0.
#[test]
fn counts_from_now_and_frees_a_place() {
    let text = "party 1 write 7 1 40 9 lease 6\nparty 1 write 7 1 40 9 lease 9\nrepeat 5\ntick\nend\n\
                party 1 renew 1 lease 2\nparty 1 renew 2 lease 2\n";
    let ends: Vec<End> = history(text).last().entries.iter().map(|entry| entry.end).collect();
    assert_eq!(ends, [End::At(7); 2]);
    let full = "repeat 64\nparty 1 write 7 1 40 9 lease 9\nend\nparty 2 write 7 1 40 9 lease 9\nexpect refused 11\n\
                party 1 renew 64 lease 0\nparty 2 write 7 1 40 9 lease 9\nexpect written 65\n";
    assert_eq!(tray(&["run", "-"], full).status, 0);
}

const HELD: &str = "party 1 write 7 1 40 9 lease 2\nparty 2 create lease 9\nparty 2 read kind 7 timeout 0 in 1\n\
    party 1 renew 1 lease 5\nexpect refused 20\nparty 2 renew 1 lease 5\nexpect refused 19\nparty 2 commit 1\n\
    party 1 renew 1 lease 4\nexpect party 1 renewed 1\nexpect no refused\ntick\nparty 1 renew 1 lease forever\n\
    party 1 renew 1 lease 0\nexpect renewed 1\nparty 1 renew 1 lease 3\nexpect refused 18\n";

#[test]
fn renewals_in_words() {
    let answer = tray(&["run", "--state", "-"], HELD);
    assert_eq!(answer.status, 0, "{}", answer.err);
    for line in [
        "| entry 1 of party 1: 7 1 40 9, committed, ends at clock 2",
        "4  clock 0   party 1 renew 1 lease 5",
        "party 1: refused 20: the entry is private or held; read by transaction 1 of party 2",
        "party 2: refused 19: another party wrote the entry; party 1 wrote it",
        "party 1: renewed entry 1; it ends at clock 4",
        "| entry 1 of party 1: 7 1 40 9, committed, ends at clock 4",
        "party 1: renewed entry 1; it never ends",
        "| entry 1 of party 1: 7 1 40 9, committed, never ends",
        "party 1: renewed entry 1; it is removed",
        "party 1: refused 18: no stored entry has that number",
    ] {
        assert!(answer.out.lines().any(|found| found.trim() == line), "{line}:\n{}", answer.out);
    }
    let wrong = tray(&["run", "-"], "party 1 write 7 1 40 9 lease 2\nparty 1 renew 1 lease 3\nexpect renewed 2\n");
    assert!(wrong.status == 4 && wrong.err.contains("came: party 1: renewed entry 1"), "{}", wrong.err);
    let raw = tray(&["run", "--raw", "-"], HELD).out;
    assert!(raw.lines().any(|line| line == "12 1 0 0 1 0 0 0 0"), "{raw}");
    let held = |how: &str, line: &str| {
        let text = format!("party 1 write 7 1 40 9 lease 9\nparty 2 create lease 9\n{line}\nparty 1 renew 1 lease 5\n");
        let out = tray(&["run", "-"], &text).out;
        assert!(out.contains(&format!("party 1: refused 20: the entry is private or held; {how}\n")), "{out}");
    };
    held("taken by transaction 1 of party 2", "party 2 take kind 7 timeout 0 in 1");
    let private = "party 1 create lease 9\nparty 1 write 7 1 40 9 lease 9 in 1\nparty 1 renew 1 lease 5\n";
    assert!(tray(&["run", "-"], private).out.contains("held; private to transaction 1 of party 1\n"));
}

/// A renewal neither answers a waiting look-up nor changes the list.
#[test]
fn renewals_and_the_waiting_list() {
    let start = "party 1 write 7 1 40 9 lease 9\nparty 1 write 8 1 40 9 lease 9\nparty 2 create lease 9\n\
                 party 2 take kind 7 timeout 0 in 1\nparty 3 takeIfExists kind 7 timeout forever\n\
                 party 4 take kind 9 timeout 3\n";
    let renewals = "party 1 renew 2 lease 1\nparty 1 renew 1 lease 3\nparty 1 renew 2 lease 0\n";
    let list = |text: &str| tray(&["waiting", "-"], text).out.lines().skip(1).collect::<Vec<_>>().join("\n");
    assert_eq!(list(&format!("{start}{renewals}")), list(start));
    assert!(list(start).contains("entry 1 (7 1 40 9): taken by transaction 1 of party 2"));
}

/// On the bar of the entry, in the renewal's column, a sign for each renewal that leaves it stored, with its new end; in
/// the party's lane a mark with the same sign, and a line from it up to the bar.
#[test]
fn renewals_are_drawn() {
    let mut seen = 0;
    for history in histories() {
        let drawn = svg(&history, ONE_ROW);
        let columns = columns(&drawn);
        let (signs, lines) = (drawn.with_class("renewal"), drawn.with_class("renews"));
        let mut wanted = Vec::new();
        for (place, step) in history.steps.iter().enumerate().filter(|(_, step)| step.records[0].kind == RENEWED) {
            let entry = step.records[0].entry;
            let line = lines.iter().find(|line| line.number("data-frame") as usize == place + 1).unwrap();
            assert!(near(line.child("line").number("x1"), columns[&(place + 1)]), "{}", history.title);
            assert_eq!(line.number("data-entry") as u32, entry);
            let end = step.after.entry(entry).map(|entry| match entry.end {
                End::At(clock) => format!("to clock {clock}"),
                End::Never => "forever".to_string(),
            });
            wanted.extend(end.map(|end| (place + 1, entry, end)));
        }
        let mut found = Vec::new();
        for sign in &signs {
            let frame = sign.number("data-frame") as usize;
            found.push((frame, sign.number("data-entry") as u32, sign.get("data-lease").to_string()));
            // The hourglass is drawn around its column: "M<left> <top>H<right>..".
            let d = sign.child("path").get("d").to_string();
            let left: f64 = d[1..].split(' ').next().unwrap().parse().unwrap();
            assert!(near(left + 5.0, columns[&frame]), "{} frame {frame}", history.title);
        }
        found.sort();
        assert_eq!(found, wanted, "{}", history.title);
        seen += wanted.len();
    }
    assert!(seen > 60, "{seen}");
}

/// The lease that stands in a bar's name is that of its write; where a row begins, that which it has by then.
#[test]
fn names_have_the_lease() {
    let text = "party 1 write 7 1 40 9 lease 5\nparty 1 renew 1 lease 8\nparty 2 read any timeout 0\n\
                party 2 read any timeout 0\nparty 2 read kind 7 timeout 0\nparty 1 renew 1 lease forever\n\
                party 3 read any timeout 0\nparty 3 read any timeout 0\nparty 3 read side 1 timeout 0\n";
    let history = history(text);
    let drawn = svg(&history, 320.0);
    let mut leases = Vec::new();
    for row in drawn.children.iter().filter(|child| child.name == "g") {
        let spans: Vec<String> = row.all().iter().filter(|e| e.name == "tspan").map(|e| e.text.clone()).collect();
        let first = *columns(row).keys().next().unwrap();
        let lease = match history.before(first - 1).entry(1).map(|entry| entry.end) {
            None => "lease to clock 5".to_string(),
            Some(End::At(clock)) => format!("lease to clock {clock}"),
            Some(End::Never) => "lease forever".to_string(),
        };
        assert_eq!(spans.join(" "), format!("E1 7 1 40 9 {lease}"), "from frame {first}");
        leases.push(lease);
    }
    leases.dedup();
    assert_eq!(leases, ["lease to clock 5", "lease to clock 8", "lease forever"]);
}

/// The words at the marks, what pointing tells, and the page.
#[test]
fn renewals_told_in_drawings() {
    let history = history(HELD);
    let drawn = svg_file(&history, ONE_ROW);
    let told = |label: &str| drawn.matches(&format!(">{label}<")).count();
    assert_eq!((told("renew E1"), told("renewed E1"), told("lease 0"), told("E1 removed")), (6, 3, 1, 1), "{drawn}");
    assert_eq!((told("E1: read hold T1"), told("E1 is another&#39;s") + told("E1 is another's")), (1, 1), "{drawn}");
    assert_eq!((told("E1 is not stored"), told("to clock 4"), told("forever")), (1, 1, 1), "{drawn}");
    assert!(
        drawn.contains("; lease to clock 2; renewed in frame 7: lease to clock 4; renewed in frame 9: lease forever")
    );
    assert!(drawn.contains("; removed in frame 10"), "{drawn}");
    // The old end is no longer its end: nothing is drawn there, and no lease is left over.
    assert!(!drawn.contains("class=\"lease\""), "{drawn}");
    let page = page::page(&history, "renewals");
    assert!(page.contains("<b>E1</b> of party 1, 7 1 40 9, committed, lease to clock 4</li>"), "{page}");
    assert!(page.contains("party 1: renewed entry 1; it is removed"), "{page}");
    assert!(page.contains("renewed: its lease now runs to that clock"), "the legend has the sign");
}

/// The tick of the old end goes by; the bar ends at the new one, or has it behind the last column.
#[test]
fn bars_end_at_the_new_end() {
    let text = "party 1 write 7 1 40 9 lease 1\nparty 1 renew 1 lease 3\ntick\ntick\n";
    let ahead = svg(&history(text), ONE_ROW);
    let marks = ahead.with_class("ahead");
    assert_eq!((marks.len(), marks[0].get("data-clock"), ahead.with_class("end").len()), (1, "3", 0));
    let ended = svg(&history(&format!("{text}tick\n")), ONE_ROW);
    let bar = ended.with_class("entry");
    assert_eq!((bar.len(), bar[0].get("data-to"), ended.with_class("expired").len()), (1, "5.0", 1));
    let taken = svg(&history(&format!("{text}party 2 take any timeout 0\ntick\n")), ONE_ROW);
    let lease = taken.with_class("lease");
    assert!(lease.len() == 1 && near(lease[0].child("line").number("x2"), columns(&taken)[&6]), "left over to clock 3");
}

/// A script names an entry by what it wrote or found, or by number.
#[test]
fn renewals_of_panes() {
    let text = "pane A party 1\nwrite 7 1 40 9 lease 1 as M\nr: renew M lease 3\nread kind 8 timeout 0 as N\n\
                z: renew N lease 0 after refusal stop\n\
                pane B party 2\nwrite 8 1 40 9 lease forever as M\nrenew 9 lease 1\nticks at most 1\n\
                claim A always gets renewed at r\nclaim A never gets refused 19\nclaim A never gets refused 18\n\
                claim A never gets refused 18 at z\nclaim B always gets refused 18\nclaim B never gets renewed\nclaim at the end exactly 1 stored entry matches 8\n";
    let (script, analysis) = analysed(&text.replace("matches 8", "matches kind 8"));
    let verdicts: Vec<_> = analysis.findings.iter().map(|finding| finding.verdict).collect();
    assert_eq!(verdicts, [Refuted, Refuted, Refuted, Refuted, Kept, Kept, Kept]);
    assert_eq!(script.panes[0].names, ["M", "N"]);
    let told = tray(&["explore", "-"], &text.replace("matches 8", "matches kind 8")).out;
    assert!(told.contains("party 1 renew 1 lease 3"), "{told}");
    // A name that got nothing is no entry's number.
    assert!(told.contains("party 1 renew 4294967295 lease 0"), "{told}");
    let bad = [
        ("renew M lease 3\n", "-:2: expected a name that a `write .. as` or a look-up's `as` gives, found `M`"),
        ("create lease 3 as M\nrenew M lease 3\n", "-:3: expected a name that a `write .. as` or a look-up's `as`"),
        ("write 7 1 40 9 lease 3 as M\ncommit M\n", "-:3: expected a name that a `create .. as` gives, found `M`"),
        ("renew 1 lease 3 as M\n", "-:2: expected the end of the line, found `as`"),
    ];
    for (lines, expected) in bad {
        let answer = tray(&["explore", "-"], &format!("pane A party 1\n{lines}"));
        assert!(answer.status == 2 && answer.err.contains(expected), "{lines}: {}", answer.err);
    }
}

/// Who wrote an entry is part of a situation: it decides who can renew it.
#[test]
fn writers_are_part_of_situations() {
    let same = "write 7 1 40 9 lease forever\n";
    let (_, analysis) = analysed(&format!("pane A party 1\n{same}pane B party 2\n{same}"));
    // Both orders end with the same marks, but their writers differ.
    assert_eq!((analysis.explored.store.len(), analysis.explored.ends.len()), (5, 2));
    let renews = "renew 1 lease 0\n";
    let (_, analysis) = analysed(&format!(
        "pane A party 1\n{same}{renews}pane B party 2\n{same}{renews}\
         claim A always gets renewed\nclaim B always gets renewed\nclaim at the end exactly 1 stored entry matches any\n"
    ));
    let verdicts: Vec<_> = analysis.findings.iter().map(|finding| finding.verdict).collect();
    assert_eq!(verdicts, [Refuted, Refuted, Kept]);
}
