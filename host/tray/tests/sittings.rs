//! `tray sittings`: sittings from files, the library's figures beside a count by the tables, and what is told of them.

use crate::common::{files, random_text, scratch, tray, Random};
use std::collections::{BTreeMap, BTreeSet};
use tray::boundary::REPORT;
use tray::frame::Class;
use tray::history::History;
use tray::record::{ABORTED, EXCEPTION, FOUND, NOTHING, REFUSED};
use tray::sittings::parse::parse;
use tray::sittings::tell::words;
use tray::sittings::{Figures, Report, Sitting, MOST_SITTINGS, PARTIES, TOO_MANY};
use tray::text;

fn sittings(text: &str) -> Vec<Sitting> {
    parse("made-up", text.as_bytes().to_vec()).unwrap_or_else(|fault| panic!("{}: {text}", fault.why))
}

fn report(sittings: &[Sitting]) -> Report {
    let report = Report::of(sittings);
    assert_eq!(report.faults(sittings), [""; 0]);
    report
}

/// What `tray sittings` prints of a text, with its status.
fn told(text: &str, status: i32) -> String {
    let answer = tray(&["sittings", "-"], text);
    assert_eq!((answer.status, answer.err.as_str()), (status, ""), "{text}");
    answer.out
}

/// The row of a party: its figures, as they are printed.
fn row(told: &str, party: usize) -> Vec<&str> {
    let table = told.lines().skip_while(|line| !line.starts_with("party "));
    let mut rows = table.map(|line| line.split_whitespace().collect::<Vec<&str>>());
    rows.find(|row| row.first() == Some(&party.to_string().as_str())).unwrap_or_default()
}

fn history(text: &str) -> History {
    History::of(text::parse(text).unwrap().frames().cloned())
}

/// The waits of a history, by the tables alone: a party waits from the frame after which it stands among the waiting
/// look-ups to the frame after which it does not, or to the last. With how each ended; 0: not at all.
fn waits(history: &History) -> Vec<(u8, u32, u8)> {
    let (mut since, mut waits) = (BTreeMap::new(), Vec::new());
    for step in &history.steps {
        let waiting: Vec<u8> = step.after.look_ups.iter().map(|look_up| look_up.party).collect();
        let over: Vec<u8> = since.keys().copied().filter(|party| !waiting.contains(party)).collect();
        for party in over {
            let closes = |kind: u8| [FOUND, NOTHING, ABORTED, EXCEPTION].contains(&kind);
            let closing = step.records.iter().rfind(|record| record.party == party && closes(record.kind));
            let ticks = step.after.clock - since.remove(&party).unwrap_or(0);
            waits.push((party, ticks, closing.map_or(REFUSED, |record| record.kind)));
        }
        waiting.into_iter().for_each(|party| _ = since.entry(party).or_insert(step.after.clock));
    }
    waits.extend(since.into_iter().map(|(party, clock)| (party, history.last().clock - clock, 0)));
    waits
}

/// The figures by these waits, and by the records of look-ups.
fn figures(history: &History) -> [Figures; PARTIES] {
    std::array::from_fn(|place| {
        let party = place as u8 + 1;
        let asked = |class: Class| matches!(class, Class::LookUp { .. });
        let asks = history.steps.iter().filter(|step| {
            step.request().is_some_and(|it| it.party == party && asked(it.operation.class))
                && step.records[0].kind != REFUSED
        });
        let records = history.steps.iter().flat_map(|step| &step.records);
        let own: Vec<u32> = waits(history).iter().filter(|wait| wait.0 == party).map(|wait| wait.1).collect();
        Figures {
            look_ups: asks.count() as u32,
            founds: records.filter(|record| (record.party, record.kind) == (party, FOUND)).count() as u32,
            longest: own.iter().copied().max().unwrap_or(0),
            ticks: own.iter().sum(),
            waits: own.len() as u32,
        }
    })
}

/// "Each figure equals its sum or maximum over the histories."
fn joined(all: &[[Figures; PARTIES]]) -> [Figures; PARTIES] {
    std::array::from_fn(|party| {
        let sum = |part: fn(&Figures) -> u32| all.iter().map(|figures| part(&figures[party])).sum();
        Figures {
            look_ups: sum(|it| it.look_ups),
            founds: sum(|it| it.founds),
            longest: all.iter().map(|figures| figures[party].longest).max().unwrap_or(0),
            ticks: sum(|it| it.ticks),
            waits: sum(|it| it.waits),
        }
    })
}

/// Over random lists of random sittings the library counts what the tables tell; and every end of a wait occurs.
#[test]
fn figures_are_those_of_the_tables() {
    let (mut random, mut ends, mut lengths) = (Random(14), BTreeMap::new(), BTreeMap::new());
    for seed in 0..500 {
        let count = random.below(7);
        let texts: Vec<String> = (0..count).map(|place| random_text(1000 * seed + place, 70)).collect();
        let histories: Vec<History> = texts.iter().map(|text| history(text)).collect();
        for (_, ticks, end) in histories.iter().flat_map(waits) {
            *ends.entry(end).or_insert(0) += 1;
            *lengths.entry(ticks.min(3)).or_insert(0) += 1;
        }
        let sittings: Vec<Sitting> = texts.iter().flat_map(|text| sittings(text)).collect();
        let (report, each) = (report(&sittings), histories.iter().map(figures).collect::<Vec<_>>());
        assert_eq!(report.figures(), joined(&each), "seed {seed}");
        assert_eq!(report.words[..2], [count as u32, 0]);
        for party in 0..PARTIES {
            let longest = report.figures()[party].longest;
            let first = each.iter().position(|of| of[party].waits > 0 && of[party].longest == longest);
            assert_eq!(report.longest_in(party), first, "seed {seed}, party {}", party + 1);
        }
    }
    assert_eq!(ends.keys().copied().collect::<Vec<u8>>(), [0, FOUND, NOTHING, ABORTED, EXCEPTION], "{ends:?}");
    assert!(
        lengths.len() == 4 && ends.values().chain(lengths.values()).all(|times| *times > 50),
        "{ends:?} {lengths:?}"
    );
}

/// "Only a look-up answered waiting has a wait. It runs from the look-up to its closing answer, or to the end of the
/// tray, and is the difference of the two clocks after those frames."
#[test]
fn waits_by_hand() {
    let take = "party 2 take kind 7 timeout";
    let inside = "party 2 create lease 3\nparty 2 take kind 7 timeout forever in 1";
    let write = "party 1 write 7 1 40 9 lease forever";
    // Look-ups, founds, did not wait, waits, ticks, mean, longest.
    for (text, wanted) in [
        (format!("{take} 0\ntick\n"), "1 0 1 0 0 - 0"),
        (format!("{write}\n{take} 5\ntick\n"), "1 1 1 0 0 - 0"),
        (format!("{take} 5\n{write}\ntick\n"), "1 1 0 1 0 0.0 0"),
        (format!("{take} 5\ntick\n{write}\ntick\n"), "1 1 0 1 1 1.0 1"),
        (format!("{take} 2\ntick\ntick\ntick\n"), "1 0 0 1 2 2.0 2"),
        (format!("{take} 5\n"), "1 0 0 1 0 0.0 0"),
        (format!("{take} 5\ntick\ntick\n"), "1 0 0 1 2 2.0 2"),
        (format!("{inside}\ntick\ntick\ntick\ntick\n"), "1 0 0 1 3 3.0 3"),
        (format!("{inside}\ntick\nparty 2 abort 1\ntick\n"), "1 0 0 1 1 1.0 1"),
        // Another's found does not close it; a look-up that is refused with 6 is none.
        (format!("{take} 5\ntick\n{write}\nparty 3 read any timeout 0\n{take} 5\n{take} 5\ntick\n"), "2 1 0 2 2 1.0 1"),
        // Its own exception of another transaction, too.
        (format!("party 2 create lease 1\n{take} 5\ntick\ntick\n"), "1 0 0 1 2 2.0 2"),
    ] {
        assert_eq!(row(&told(&text, 0), 2)[1..8].join(" "), wanted, "{text}");
    }
}

/// To a tenth of a tick, a half rounded up.
#[test]
fn means() {
    for (ticks, waits, wanted) in [
        (0, 0, None),
        (0, 3, Some(0)),
        (1, 3, Some(3)),
        (2, 3, Some(7)),
        (1, 20, Some(1)),
        (1, 21, Some(0)),
        (7, 4, Some(18)),
        (13, 4, Some(33)),
        (29, 3, Some(97)),
        (199, 20, Some(100)),
        (u32::MAX, 1, Some(42949672950)),
    ] {
        assert_eq!(Figures { ticks, waits, ..Figures::default() }.mean_in_tenths(), wanted, "{ticks} by {waits}");
    }
    // 1 tick in 4 waits is 0.25, told as 0.3.
    let quarter = "party 2 take kind 7 timeout 5\nparty 1 write 7 1 40 9 lease forever\n".repeat(3)
        + "party 2 take kind 7 timeout 5\ntick\nparty 1 write 7 1 40 9 lease forever\n";
    assert_eq!(row(&told(&quarter, 0), 2), ["2", "4", "4", "0", "4", "1", "0.3", "1", "standard", "input"]);
}

/// "Refused trays add only to their own count."
#[test]
fn refused_trays() {
    let take = "party 2 take kind 7 timeout 5\ntick\n";
    let short = "size 3\n";
    let bad = "pair 1 offset 0 length 28\n";
    let text = format!("sitting a\n{take}sitting b\n{take}{short}sitting c\n{take}{bad}sitting d\n{take}tick\n");
    let all = sittings(&text);
    let report = report(&all);
    assert_eq!((report.numbers.as_slice(), &report.words[..2]), (&[0, 15, 16, 0][..], &[4, 2][..]));
    assert_eq!(report.figures(), joined(&[figures(&history(take)), figures(&history(&format!("{take}tick\n")))]));
    let told = told(&text, 3);
    assert!(told.starts_with("2 of 4 sittings are in the figures\nsitting 2 (b) is refused 15: the tray is under 4"));
    assert!(told.contains("\nsitting 3 (c) is refused 16: a pair begins before"), "{told}");
    assert_eq!(row(&told, 2), ["2", "2", "0", "0", "2", "3", "1.5", "2", "d"]);
}

/// "25 when more than 64 trays are handed in": the figures are those of the first 64, refused ones among them.
#[test]
fn more_than_64() {
    let day = |place: usize| format!("sitting day {place}\nparty 2 take kind 7 timeout 99\n{}", "tick\n".repeat(place));
    let days = |count: usize| (1..=count).map(day).collect::<String>();
    assert_eq!(row(&told(&days(64), 0), 2)[1..], ["64", "0", "0", "64", "2080", "32.5", "64", "day", "64"]);
    let cases = [
        (65, "sitting 65 (day 65) is refused 25: 64 trays were handed in already"),
        (70, "sittings 65 to 70 (from day 65 on) are refused 25: 64 trays were handed in already"),
    ];
    for (count, wanted) in cases {
        let told = told(&days(count), 3);
        assert!(told.starts_with(&format!("64 of {count} sittings are in the figures\n{wanted}\n\nparty")), "{told}");
        assert_eq!(row(&told, 2)[1..], ["64", "0", "0", "64", "2080", "32.5", "64", "day", "64"]);
    }
    // A refused tray is one of the 64, and the 65th is refused with 25, whatever it is.
    let text = format!("sitting bad\nsize 3\n{}sitting bad, too\nsize 3\n", days(63));
    let report = report(&sittings(&text));
    assert_eq!((report.numbers[0], report.numbers[64], &report.words[..2]), (15, 25, &[64, 1][..]));
}

/// A tray's bytes are taken as its text is; files are sittings in the order in which they stand.
#[test]
fn bytes_and_texts() {
    let folder = scratch("sittings");
    let file = |name: &str, bytes: &[u8]| {
        let path = folder.join(name);
        std::fs::write(&path, bytes).unwrap();
        path.display().to_string()
    };
    let text = "party 2 take kind 7 timeout 5\ntick\n";
    let assembled = sittings(text).remove(0).tray;
    let (as_text, as_bytes) = (file("a.txt", text.as_bytes()), file("b.tray", &assembled));
    let several = file("c.sittings", format!("# Two days.\r\nsitting x # day\r\n{text}sitting y\r\n").as_bytes());
    for (files, rows) in [(vec![&as_text], 1), (vec![&as_bytes], 1), (vec![&as_bytes, &several, &as_text], 3)] {
        let arguments: Vec<&str> = ["sittings"].into_iter().chain(files.iter().map(|file| file.as_str())).collect();
        let answer = tray(&arguments, "");
        assert_eq!((answer.status, answer.err.as_str()), (0, ""), "{arguments:?}");
        let figures = [rows, 0, 0, rows, rows].map(|figure| figure.to_string());
        assert_eq!(row(&answer.out, 2)[1..6], figures, "{arguments:?}");
        assert!(answer.out.contains(&format!("  {}\n", files[0])), "the first one's name: {}", answer.out);
    }
    let names: Vec<String> =
        parse(&several, std::fs::read(&several).unwrap()).unwrap().into_iter().map(|it| it.name).collect();
    assert_eq!(names, ["x", "y"]);
    // A byte of 0 tells bytes from a text; so does what is no UTF-8. An empty text is a tray without frames.
    assert_eq!(parse("f", vec![0, 0]).unwrap()[0].tray, [0, 0]);
    assert_eq!(parse("f", vec![0xff]).unwrap()[0].tray, [0xff]);
    assert_eq!(sittings("\u{feff}")[0].tray, [0; 4]);
    let short = file("short.tray", &assembled[..11]);
    let answer = tray(&["sittings", &short], "");
    assert_eq!(answer.status, 3);
    assert!(answer.out.starts_with("0 of 1 sitting is in the figures\n"), "{}", answer.out);
    assert!(answer.out.contains(&format!("sitting 1 ({short}) is refused 15: ")), "{}", answer.out);
    assert!(answer.out.contains("\nnobody has looked up\n"), "{}", answer.out);
}

#[test]
fn bad_texts() {
    let lines = "expected a line that begins with `party`, `tick`";
    for (text, why) in [
        ("take 3\n", format!("1: {lines}")),
        ("sitting a\ntick\nsitting b\n\ntack\n", format!("5: {lines}")),
        ("# head\n\ntick\nsitting a\n", "3: expected `sitting NAME` before the first frame".to_string()),
        ("sitting\ntick\n", "1: expected a name for the sitting, the line ends".to_string()),
        ("sitting a\nrepeat 2\ntick\nsitting b\nend\n", "2: expected an `end` for this `repeat`".to_string()),
        ("sitting a\nsitting b\npair 1 offset 0 length 1\n", "3: expected a place inside the tray".to_string()),
        ("sitting a\nsitting b\ngap 16777216\ngap 1\n", "2: expected a tray of at most 16777216 bytes".to_string()),
    ] {
        let answer = tray(&["sittings", "-"], text);
        assert_eq!((answer.status, answer.out.as_str()), (2, ""), "{text}");
        assert!(answer.err.starts_with(&format!("tray: -:{why}")), "{text}: {}", answer.err);
    }
}

#[test]
fn the_verb() {
    let example = "../../examples/sittings-same-mean.sittings";
    let line = tray(&["sittings", "--words", example], "").out;
    let numbers: Vec<u32> = line.split_whitespace().map(|word| word.parse().unwrap()).collect();
    let all = sittings(&std::fs::read_to_string(example).unwrap());
    assert_eq!((numbers.len(), numbers.as_slice()), (REPORT, &report(&all).words[..]));
    // Parties 2 to 4.
    assert_eq!(numbers[..22], [3, 0, 0, 0, 0, 0, 0, 4, 4, 3, 12, 4, 5, 5, 9, 12, 4, 1, 1, 0, 0, 0]);
    assert_eq!(tray(&["sittings", "--words", "-"], &"sitting a\n".repeat(65)).status, 3);
    // Each sitting alone, as a text; no other verb takes several.
    for sitting in &all {
        let text = tray(&["sittings", example, "--show", &sitting.name], "").out;
        assert_eq!(sittings(&text)[0].tray, sitting.tray, "{text}");
        assert_eq!(tray(&["run", "-"], &text).status, 0, "{text}");
    }
    let several = tray(&["run", example], "").err;
    let why = "expected the text of one tray, found several sittings (`tray sittings --show` gives each)";
    assert_eq!(several, format!("tray: {example}:3: {why}\n"));
    for (arguments, status) in [
        (vec!["sittings"], 2),
        (vec!["sittings", "--words"], 2),
        (vec!["sittings", example, "--show"], 2),
        (vec!["sittings", example, "--show", "Sunday"], 2),
        (vec!["sittings", example, "--show", "Monday", "--words"], 2),
        (vec!["sittings", "-", "-"], 2),
        (vec!["sittings", example, "--raw"], 2),
        (vec!["sittings", example, "no/such/file"], 1),
    ] {
        let answer = tray(&arguments, "tick\n");
        assert_eq!((answer.status, answer.out.as_str()), (status, ""), "{arguments:?}: {}", answer.err);
    }
    let help = tray(&["sittings", "--help"], "").out;
    assert!(
        help.starts_with("tray sittings FILE.. [--words | --show NAME]\n") && help.contains("\n  sitting NAME "),
        "{help}"
    );
    assert!(tray(&["--help"], "").out.contains("\n  sittings  how long each party waited"));
}

/// Parties without a look-up are left out; what the figures do not say stands behind every table.
#[test]
fn what_is_told() {
    let told =
        told("party 1 write 7 1 40 9 lease 5\nparty 16 read any timeout 0\nparty 3 read any timeout 0 in 9\n", 0);
    let unsaid =
        "The figures do not say how a wait ended, nor how long one that its sitting's end cut short would have lasted.";
    let head = "party  look-ups  founds  did not wait  waits  ticks in all  mean wait  longest wait  in sitting";
    let row = "   16         1       1             1      0             0          -             0  -";
    assert_eq!(told, format!("1 sitting\n\n{head}\n{row}\n\n{unsaid}\n"));
    let none = words(&report(&[]), &[]);
    assert_eq!(none, format!("0 sittings\n\nnobody has looked up\n\n{unsaid}\n"));
}

/// Figures that no sound archive gives are told.
#[test]
fn what_the_proofs_exclude_is_told() {
    let all = sittings("sitting a\nparty 2 take kind 7 timeout 5\ntick\nsitting b\nsize 3\n");
    let sound = report(&all);
    // Of party 2 the words 7 to 11; the trays handed in and refused are 0 and 1, and 12 is of party 3.
    for place in [0, 1, 7, 8, 9, 10, 11, 12, 81] {
        let mut wrong = sound.clone();
        wrong.words[place] += 1;
        let told = match place {
            0 | 1 => "the trays are not counted as they were handed in".to_string(),
            _ => format!("the figures of party {} are not those of its frames", (place - 2) / 5 + 1),
        };
        assert_eq!(wrong.faults(&all), [told], "word {place}");
    }
    for numbers in [[0, 0], [0, 25]] {
        let mut wrong = sound.clone();
        wrong.numbers = numbers.to_vec();
        assert_eq!(wrong.faults(&all), ["the trays are not counted as they were handed in"], "{numbers:?}");
    }
}

/// Each example is what its name says.
#[test]
fn examples() {
    let mut names = BTreeSet::new();
    for file in files("examples", ".sittings") {
        let name = file.file_stem().unwrap().to_string_lossy().into_owned();
        let all = sittings(&std::fs::read_to_string(&file).unwrap());
        let report = report(&all);
        let refused: Vec<u8> = report.numbers.iter().copied().filter(|number| *number != 0).collect();
        let of = |party: usize| report.figures()[party - 1];
        match name.as_str() {
            "sittings-same-mean" => {
                assert_eq!(of(2).mean_in_tenths(), of(3).mean_in_tenths());
                assert!(of(3).longest >= 3 * of(2).longest);
            }
            "sittings-how-waits-end" => {
                let text = std::fs::read_to_string(&file).unwrap().replace("sitting all ways\n", "");
                let ends: BTreeSet<u8> = waits(&history(&text)).into_iter().map(|wait| wait.2).collect();
                assert_eq!(ends, BTreeSet::from([0, FOUND, NOTHING, ABORTED, EXCEPTION]));
            }
            "sittings-refused-trays" => assert_eq!(refused, [15, 16]),
            "sittings-refused-65" => assert_eq!((all.len(), refused.as_slice()), (MOST_SITTINGS + 1, &[25][..])),
            _ => panic!("{name}"),
        }
        names.insert(name);
    }
    assert_eq!(names.len(), 4, "{names:?}");
}

#[test]
fn the_header_says_the_same() {
    let header = std::fs::read_to_string("../space.h").unwrap();
    let said = |words: &str| assert!(header.contains(words), "{words}");
    said(&format!("#define SPACE_REPORT_MAX_TRAYS {MOST_SITTINGS} "));
    said(&format!("SPACE_REFUSAL_TOO_MANY_TRAYS = {TOO_MANY} "));
}
