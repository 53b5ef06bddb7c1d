//! `tray explore`: counts against known numbers and against plain enumeration, every form of claim, bounds, bad scripts.

use crate::common::{scratch, tray, Random};
use tray::big::Natural;
use tray::claim::{Form, Scope, Verdict};
use tray::explore::analysis::{analyse, Analysis};
use tray::explore::model::Model;
use tray::explore::shares::{needed, shares, Answer};
use tray::explore::situation::Situation;
use tray::explore::store::TICK;
use tray::explore::{Bounds, Cut};
use tray::panes::{parse, Script};
use tray::record::FOUND;

pub fn analysed(text: &str) -> (Script, Analysis) {
    let script = parse(text).unwrap_or_else(|fault| panic!("{}", fault.in_file("-")));
    let analysis = analyse(&script, Bounds::default());
    (script, analysis)
}

pub fn verdicts(text: &str) -> Vec<Verdict> {
    analysed(text).1.findings.iter().map(|finding| finding.verdict).collect()
}

const SIX: &str = "pane A party 1\nwrite 7 1 40 9 lease 2\n\
    pane B party 2\ncreate lease 3 as T\ntake kind 7 timeout 0 in T\nabort T\n\
    pane C party 3\ncreate lease 2 as T\nread kind 7 timeout 0 in T\ncommit T\n\
    pane D party 4\ntake kind 7 timeout 2\npane E party 5\nreadIfExists kind 7 timeout 1\n\
    pane F party 6\nread kind 7 timeout 0\nticks at most 3\n\
    claim what B took is there again after its abort\n\
    claim what B took is there again after its abort unless its lease has ended\n";

/// The figures of the design: every order of ten frames and three ticks.
#[test]
fn six_panes() {
    let (_, analysis) = analysed(SIX);
    assert_eq!(analysis.histories.as_ref().unwrap().to_string(), "28,828,800");
    assert_eq!(analysis.findings[0].verdict, Verdict::Refuted);
    assert_eq!(analysis.findings[0].refuting.as_ref().unwrap().to_string(), "882,180");
    assert_eq!(analysis.findings[0].shortest.as_ref().unwrap().len(), 6);
    assert_eq!(analysis.findings[1].verdict, Verdict::Kept);
    let without = SIX.replace("ticks at most 3", "ticks at most 0");
    let (_, analysis) = analysed(&without);
    assert_eq!(analysis.histories.as_ref().unwrap().to_string(), "100,800");
    assert_eq!(analysis.findings[0].verdict, Verdict::Kept);
}

/// The design's figures again: how often each request of these panes is answered so.
#[test]
fn answers_by_share() {
    let (script, analysis) = analysed(SIX);
    let shares = shares(&script, &analysis).unwrap();
    let told = |pane: usize, line: usize| -> Vec<(Answer, String, usize)> {
        let answers = shares[&(pane, line)].iter();
        answers.map(|(&answer, share)| (answer, share.times.to_string(), share.frames)).collect()
    };
    let row = |answer: Answer, times: &str, frames: usize| (answer, times.to_string(), frames);
    let take = [
        row(Answer::Done(FOUND), "4,332,276", 3),
        row(Answer::NothingStored, "22,034,220", 2),
        row(Answer::NothingThoughStored, "1,020,864", 5),
        row(Answer::Refused(7), "1,441,440", 5),
    ];
    assert_eq!(told(1, 1), take);
    let waits = [
        row(Answer::Done(FOUND), "7,497,828", 2),
        row(Answer::WaitsThenFound, "11,741,808", 2),
        row(Answer::StillWaits, "4,573,608", 13),
        row(Answer::WaitsThenNothing, "5,015,556", 3),
    ];
    assert_eq!(told(3, 0), waits);
    for answers in shares.values() {
        let mut sum = Natural::default();
        answers.values().for_each(|share| sum.add(&share.times));
        assert_eq!(Some(sum), analysis.histories, "each request is sent once in each history");
    }
    let needed = needed(&script, &analysis, 0).unwrap();
    assert_eq!((needed.lines, needed.ticks), (vec![(0, 0), (1, 0), (1, 1), (1, 2)], 2));
}

/// The printed page: well formed, each claim with its verdict, the shortest history drawn with the frames it has.
#[test]
fn the_report_is_a_page() {
    let to = scratch("explore").join("report.html");
    let answer = tray(&["explore", "-", "-o", to.to_str().unwrap()], SIX);
    assert_eq!(answer.status, 0);
    let page = std::fs::read_to_string(&to).unwrap();
    let root = crate::xml::parse(&page).unwrap_or_else(|why| panic!("{why}"));
    assert!(page.contains("28,828,800") && page.contains("882,180") && !page.contains("<script"));
    let verdicts: Vec<String> = root.with_class("verdict").iter().map(|verdict| verdict.text.clone()).collect();
    assert_eq!(verdicts, ["\u{2717} refuted", "\u{2713} kept"]);
    assert_eq!(root.with_class("column").len(), 6);
    assert_eq!(root.with_class("pointed").len(), 1);
    let pointed = root.with_class("pointed")[0].number("x");
    let last = root.with_class("column")[5].child("rect").number("x");
    assert!(pointed < last && last - pointed < 20.0);
    let scopes: Vec<&crate::xml::Element> = root.with_class("scopes");
    assert_eq!(scopes.len(), 1);
    assert_eq!(scopes[0].all().iter().filter(|element| element.name == "tr").count(), 1 + 4);
}

/// 36! / (6!)^6, which does not fit into 64 bits.
#[test]
fn a_number_beyond_a_word() {
    let frames = "write 1 1 1 1 lease 0\n".repeat(6);
    let text: String = (1..=6).map(|party| format!("pane P{party} party {party}\n{frames}")).collect();
    let (_, analysis) = analysed(&text);
    assert_eq!(analysis.histories.unwrap().to_string(), "2,670,177,736,637,149,247,308,800");
    assert_eq!(analysis.explored.store.len(), 7usize.pow(6));
}

/// What plain enumeration finds, history by history, nothing folded.
struct Enumerated {
    histories: u64,
    refuting: Vec<u64>,
    shortest: Vec<Option<usize>>,
}

struct Enumerator<'a> {
    script: &'a Script,
    model: Model<'a>,
    found: Enumerated,
}

impl Enumerator<'_> {
    fn from(&mut self, here: &Situation, concerned: u32, depth: usize) {
        let panes = (0..self.script.panes.len()).filter(|&pane| here.can_send(pane));
        let senders: Vec<usize> = panes.chain((here.ticks < self.script.ticks).then_some(TICK)).collect();
        if senders.is_empty() {
            self.end(here, concerned, depth);
        }
        for sender in senders {
            let mut next = here.clone();
            let step = self.model.step(here, sender, &mut next);
            for (place, claim) in self.script.claims.iter().enumerate() {
                if step >> place & 1 == 1 && !matches!(claim.form, Form::Always { .. }) {
                    self.shorten(place, depth + 1);
                }
            }
            self.from(&next, concerned | step, depth + 1);
        }
    }

    fn shorten(&mut self, claim: usize, depth: usize) {
        let shortest = &mut self.found.shortest[claim];
        *shortest = Some(shortest.map_or(depth, |known| known.min(depth)));
    }

    fn end(&mut self, here: &Situation, concerned: u32, depth: usize) {
        self.found.histories += 1;
        for (place, claim) in self.script.claims.iter().enumerate() {
            let seen = concerned >> place & 1 == 1;
            let refutes = match claim.form {
                Form::Always { .. } => !seen,
                Form::Count { scope: Scope::End, .. } => {
                    self.model.monitors.fails_here(&claim.form, &[Scope::End], here)
                }
                _ => seen,
            };
            if refutes {
                self.found.refuting[place] += 1;
                if !seen {
                    self.shorten(place, depth);
                }
            }
        }
    }
}

fn enumerate(script: &Script) -> Enumerated {
    let claims = script.claims.len();
    let found = Enumerated { histories: 0, refuting: vec![0; claims], shortest: vec![None; claims] };
    let mut enumerator = Enumerator { script, model: Model::new(script), found };
    let beginning = enumerator.model.beginning();
    enumerator.from(&beginning, 0, 0);
    enumerator.found
}

const CLAIMS: &str = "claim P1 never gets nothing\nclaim P1 always gets found\nclaim P2 always gets committed\n\
    claim P1 never gets refused 7\nclaim P1 and P2 never both find the same entry\n\
    claim P1 and P2 never both take the same entry\nclaim P1 and P2 never both hold the same entry\n\
    claim what P1 took is there again after its abort\nclaim P1 and P2 take turns at l0\n\
    claim P1 needs at most 0 ticks from c to l0\nclaim at the end exactly 2 committed entries match any\n\
    claim always at most 2 stored entries match any\nclaim P1 gets nothing only if no stored entry matches\n\
    claim P2 gets nothing only if no available entry matches\nclaim when all have stopped some committed any\n\
    claim P1 never gets renewed\nclaim P1 never gets rung\nclaim P2 always gets rung\n";

/// What the panes of a random script do besides.
#[derive(Clone, Copy, PartialEq)]
enum Besides {
    Nothing,
    Renew,
    Listen,
}

fn random_script(seed: u64, besides: Besides) -> String {
    let mut random = Random(seed);
    let mut text = "party 16 write 1 1 0 0 lease 2\nparty 16 write 2 1 0 blank lease forever\n".to_string();
    let panes = if besides == Besides::Listen { 2 } else { 2 + random.below(2) };
    for party in 1..=panes {
        text += &format!("pane P{party} party {party}\n");
        text += if party == 1 && random.below(4) == 0 { "rounds 2\n" } else { "" };
        if random.below(2) == 0 {
            text += random.pick(&["after exception stop\n", "after refusal stop\n", "after nothing stop\n"]);
        }
        if besides == Besides::Listen {
            let template = random.pick(&["any", "kind 3", "kind 3 side 1", "kind 1"]);
            text += &format!("notify {template} lease {}\n", random.pick(&["1", "2", "forever"]));
        }
        text += &format!("c: create lease {} as T\n", random.pick(&["1", "2", "forever"]));
        for line in 0..1 + random.below(2) {
            let look_up = random.pick(&["read", "take", "takeIfExists", "readIfExists"]);
            let template = random.pick(&["any", "kind 1", "kind 2", "kind 3", "place 0"]);
            let timeout = random.pick(&["0", "1", "forever"]);
            let inside = random.pick(&[" in T", " in T", ""]);
            text += &format!("l{line}: {look_up} {template} timeout {timeout}{inside}\n");
        }
        if random.below(2) == 0 {
            text += &format!("write 3 1 0 0 lease {} in T\n", random.pick(&["1", "2", "forever"]));
        }
        text += random.pick(&["commit T\n", "commit T\n", "abort T\n"]);
        if besides == Besides::Listen {
            text +=
                random.pick(&["await bell\n", "await bell\nread kind 3 timeout 0\n", "write 3 1 0 0 lease forever\n"]);
        }
        if besides == Besides::Renew && party < 3 {
            let lease = random.pick(&["0", "1", "forever"]);
            text += &format!("write 3 2 0 0 lease 1 as M\nr: renew M lease {lease}\nrenew 3 lease 2\n");
        }
    }
    text += &format!("ticks at most {}\n", 1 + random.below(2));
    text + CLAIMS
}

/// Folded or not, the same histories: their number, how many refute each claim, and the shortest.
#[test]
fn folding_changes_nothing() {
    let (mut refuted, mut compared, mut rung) = ([0; 18], 0, 0);
    let of = |seeds, besides: Besides| (1..=seeds).map(move |seed| (seed, besides));
    for (seed, besides) in of(120, Besides::Nothing).chain(of(80, Besides::Renew)).chain(of(80, Besides::Listen)) {
        let text = random_script(seed, besides);
        let (script, analysis) = analysed(&text);
        if analysis.histories > Some(Natural::from(40_000)) {
            continue;
        }
        compared += 1;
        rung += usize::from(besides == Besides::Listen);
        let plain = enumerate(&script);
        assert_eq!(analysis.histories, Some(Natural::from(plain.histories)), "{text}");
        for (place, finding) in analysis.findings.iter().enumerate() {
            let claim = &script.claims[place].text;
            let shortest = finding.shortest.as_ref().map(Vec::len);
            assert_eq!(finding.refuting, Some(Natural::from(plain.refuting[place])), "{claim}\n{text}");
            assert_eq!(shortest, plain.shortest[place], "{claim}\n{text}");
            refuted[place] += usize::from(finding.verdict == Verdict::Refuted);
        }
    }
    assert!(compared > 40 && rung > 20, "{compared} scripts, {rung} with bells");
    // Claim 13 is document 01's rule of nothing: it cannot be refuted. All others are, now and then.
    for (place, &times) in refuted.iter().enumerate() {
        assert_eq!(times == 0, place == 13, "claim {place} refuted {times} times");
    }
}

const DEADLOCK: &str = "party 16 write 7 1 0 0 lease forever\n\
    pane A party 1\ncreate lease D as T\nread kind 7 timeout 0 in T\ntake kind 7 timeout W in T\ncommit T\n\
    pane B party 2\ncreate lease D as T\nread kind 7 timeout 0 in T\ntake kind 7 timeout W in T\ncommit T\n\
    ticks at most N\nclaim nobody waits for ever\nclaim A never waits for ever\n";

fn deadlock(lease: &str, timeout: &str, ticks: &str) -> Vec<Verdict> {
    verdicts(&DEADLOCK.replace('D', lease).replace('W', timeout).replace('N', ticks))
}

#[test]
fn waiting_for_ever() {
    assert_eq!(deadlock("forever", "forever", "0"), [Verdict::Refuted; 2]);
    assert_eq!(deadlock("forever", "forever", "2"), [Verdict::Refuted; 2]);
    // A lease or a timeout ends it, also where it lies beyond the last tick that was allowed.
    assert_eq!(deadlock("3", "forever", "1"), [Verdict::Kept; 2]);
    assert_eq!(deadlock("forever", "3", "0"), [Verdict::Kept; 2]);
}

/// Nobody ever writes: the wait has no end, and other panes' leases do not change that.
#[test]
fn waiting_for_what_never_comes() {
    let text = "pane A party 1\ntake kind 1 timeout forever\npane B party 2\ncreate lease 2 as T\ncommit T\n\
                ticks at most 1\nclaim A never waits for ever\nclaim B never waits for ever\n";
    assert_eq!(verdicts(text), [Verdict::Refuted, Verdict::Kept]);
}

/// What is served only after the last tick, and by a pane that itself was waiting, counts as answered.
#[test]
fn answered_beyond_the_last_tick() {
    let text =
        "party 16 write 1 0 0 0 lease forever\npane H party 1\ncreate lease 5 as T\ntake kind 1 timeout 0 in T\n\
                pane M party 2\ntake kind 1 timeout forever\nwrite 2 0 0 0 lease forever\n\
                pane W party 3\ntake kind 2 timeout forever\nticks at most 1\nclaim nobody waits for ever\n";
    assert_eq!(verdicts(text), [Verdict::Kept]);
}

#[test]
fn going_round() {
    let text = "pane A party 1\ntake kind 1 timeout 0 after nothing start over\n\
                pane B party 2\nwrite 1 0 0 0 lease forever\nclaim A always gets found\nclaim B never gets refused\n";
    let (_, analysis) = analysed(text);
    assert!(analysis.histories.is_none() && analysis.explored.cut.is_none());
    assert_eq!(analysis.findings[0].verdict, Verdict::Open);
    assert_eq!(analysis.findings[1].verdict, Verdict::Kept);
    let out = tray(&["explore", "-"], text).out;
    assert!(out.contains("histories: without end") && out.contains("OPEN: A always gets found"), "{out}");
}

/// A pane that spins for ever does not make another one wait for ever, if a deadline ends that.
#[test]
fn waiting_beside_a_pane_that_goes_round() {
    let spin = "pane A party 1\ntake kind 1 timeout 0 after nothing start over\npane B party 2\n";
    let waits =
        |timeout: &str| format!("{spin}take kind 2 timeout {timeout}\nticks at most 1\nclaim nobody waits for ever\n");
    assert_eq!(verdicts(&waits("5")), [Verdict::Kept]);
    assert_eq!(verdicts(&waits("forever")), [Verdict::Refuted]);
    // Whether the end of another's lease would help is not told at once: open, not kept.
    let held = format!(
        "party 16 write 2 0 0 0 lease forever\nparty 16 create lease 9\nparty 16 take kind 2 timeout 0 in 1\n{}",
        waits("forever")
    );
    assert_eq!(verdicts(&held), [Verdict::Open]);
    // That is no doubt about the pane that does not wait.
    let of_a = held.replace("nobody waits", "A never waits");
    assert_eq!(verdicts(&of_a), [Verdict::Kept]);
}

/// A claim about the end is kept by the histories that end, and that is said.
#[test]
fn the_end_of_what_goes_round() {
    let text =
        "pane A party 1\nread any timeout 0 after nothing start over\npane B party 2\nwrite 1 0 0 0 lease forever\n\
                claim at the end exactly 1 committed entry matches any\n";
    let out = tray(&["explore", "-"], text).out;
    assert!(out.contains("KEPT") && out.contains("by all histories that end; some never do"), "{out}");
}

/// Bytes are sent as they are: refused with a number, answered as what they are, or waiting in another's name.
#[test]
fn bytes_of_a_pane() {
    let text = "pane A party 1\nbytes 01 02 ff after refusal go on\nx: bytes after refusal go on at last\n\
                write 1 0 0 0 lease forever\nlast: write 2 0 0 0 lease forever\n\
                pane B party 2\ntake kind 2 timeout forever\nticks at most 1\n\
                claim A always gets refused 3\nclaim A always gets refused 2 at x\nclaim B never gets refused\n\
                claim B always gets found\nclaim nobody waits for ever\nclaim at the end no stored entry matches any\n";
    let (script, analysis) = analysed(text);
    assert!(analysis.findings.iter().all(|finding| finding.verdict == Verdict::Kept));
    // Four frames of A's and B's and a tick: 5! / 3!.
    assert_eq!(analysis.histories.as_ref().unwrap().to_string(), "20");
    let refused = shares(&script, &analysis).unwrap();
    assert_eq!(refused[&(0, 0)].keys().collect::<Vec<_>>(), [&Answer::Refused(3)]);
    // A take of any, with timeout 1: of its own party it makes the pane wait, of another's not.
    let take = |party: u8| format!("bytes 03 0{party} 00 00 00 00 00 00 01 00 00 00{}", " 00".repeat(16));
    let sends =
        |party| format!("pane A party 1\n{}\nwrite 1 0 0 0 lease 0\nclaim A always gets written\n", take(party));
    assert_eq!(verdicts(&sends(1)), [Verdict::Refuted]);
    assert_eq!(verdicts(&sends(2)), [Verdict::Kept]);
    let report = scratch("explore").join("bytes.html");
    assert_eq!(tray(&["explore", "-", "-o", report.to_str().unwrap()], &sends(1)).status, 0);
}

/// An answer to a look-up of the starting frames moves no pane; and what is expected of them is checked.
#[test]
fn starting_frames() {
    let text = "party 1 take kind 1 timeout forever\nexpect waiting\npane A party 1\nread any timeout 0\n\
                write 2 0 0 0 lease forever\npane B party 2\nwrite 1 0 0 0 lease forever\nclaim A never gets found at x\n";
    let text = text.replace("read any", "x: read any");
    let (_, analysis) = analysed(&text);
    assert_eq!(analysis.findings[0].verdict, Verdict::Kept);
    assert_eq!(analysis.histories.unwrap().to_string(), "3");
    let wrong = text.replace("expect waiting", "expect found");
    let answer = tray(&["explore", "-"], &wrong);
    assert_eq!(answer.status, 4);
    assert!(answer.err.contains("tray: -:2: expected found of frame 1, came: party 1: waiting"), "{}", answer.err);
}

#[test]
fn rounds_labels_and_reactions() {
    let text = "pane A party 1\nrounds 3\nwrite 1 0 0 0 lease 0\n\
                pane B party 2\nread kind 9 timeout 0 after nothing go on at last\nread kind 8 timeout 0\n\
                last: write 2 0 0 0 lease 0 after refusal stop\n\
                claim A always gets written\nclaim B always gets nothing\nclaim B always gets written at last\n";
    let (_, analysis) = analysed(text);
    // Five frames, three of A and two of B: the read of kind 8 is passed over.
    assert_eq!(analysis.histories.unwrap().to_string(), "10");
    assert!(analysis.findings.iter().all(|finding| finding.verdict == Verdict::Kept));
    let text = "pane A party 1\nwrite 1 0 0 0 lease 0 then go on at last\nread any timeout 0\n\
                last: read any timeout 0 after nothing stop\nwrite 1 0 0 0 lease 0\nclaim A never gets refused\n";
    assert_eq!(analysed(text).1.explored.store.len(), 3);
}

/// A name that no transaction has got is no transaction: refused, not outside.
#[test]
fn a_name_without_a_transaction() {
    let text = "pane A party 1\ncreate lease 0 as T\nwrite 1 0 0 0 lease 9 in T\ncommit T\n\
                claim at the end no stored entry matches any\nclaim A always gets refused 9\nclaim A always gets refused 7\n";
    assert_eq!(verdicts(text), [Verdict::Kept; 3]);
}

#[test]
fn bounds_leave_claims_open() {
    for (option, value, word) in [("--situations", "64", "situations"), ("--memory", "1", "memory")] {
        let text = SIX.replace("ticks at most 3", "ticks at most 9");
        let answer = tray(&["explore", "-", option, value], &text);
        assert_eq!(answer.status, 0, "{}", answer.err);
        assert!(!answer.out.contains("KEPT"), "{}", answer.out);
        assert!(answer.out.contains(&format!("the bound on {word} was reached")), "{}", answer.out);
        assert!(answer.out.contains("histories: not counted"), "{}", answer.out);
    }
    // As many as there are is no bound.
    let (_, analysis) = analysed(SIX);
    let situations = analysis.explored.store.len();
    let cut = |most: usize| analyse(&parse(SIX).unwrap(), Bounds { situations: most, ..Bounds::default() }).explored;
    assert!(cut(situations).cut.is_none());
    assert_eq!((cut(situations - 1).cut, cut(10).store.looked_at()), (Some(Cut::Situations), 10));
}

#[test]
fn expectations() {
    let good = format!("{SIX}expect kept\nexpect 28,828,800 histories\n");
    assert_eq!(tray(&["explore", "-"], &good).status, 0);
    for wrong in ["expect refuted\n", "expect open\n", "expect 17 situations\n", "expect 1 steps\n"] {
        let answer = tray(&["explore", "-"], &format!("{SIX}{wrong}"));
        assert_eq!(answer.status, 4, "{wrong}");
        assert!(answer.err.contains("tray: -:20: expected") && answer.err.contains("came:"), "{}", answer.err);
    }
    let frames = SIX.replace(
        "claim what B took is there again after its abort unless",
        "expect refuted in 5 frames\nclaim what B took is there again after its abort unless",
    );
    let answer = tray(&["explore", "-"], &frames);
    assert_eq!(answer.status, 4);
    assert!(answer.err.contains("came: refuted in 6 frames"), "{}", answer.err);
}

#[test]
fn bad_scripts() {
    let bad = [
        ("", 0, "a pane"),
        ("frob", 1, "a starting frame"),
        ("pane 1 party 1", 1, "a name for the pane, found `1`"),
        ("pane A party 17", 1, "a party's number, 1 to 16, found `17`"),
        ("pane A party 1\npane B party 1", 2, "a party that no other pane has"),
        ("pane A party 1\nfrob", 2, "an operation"),
        ("pane A party 1\nwrite 1 2 3 4 lease 1 in T", 2, "a name that a `create .. as` gives, found `T`"),
        ("pane A party 1\ntake any timeout 0 after nothing go on at x", 2, "a label of pane A, found `x`"),
        ("pane A party 1\ntake any timeout 0 after lunch stop", 2, "an answer (found, nothing, exception, refusal)"),
        ("pane A party 1\ntake any timeout 0 after nothing sleep", 2, "what to do"),
        ("pane A party 1\nx: tick", 2, "an operation"),
        ("pane A party 1\nbytes 01 0x", 2, "a byte in base 16, found `0x`"),
        ("pane A party 1\nbytes 01 then sleep", 2, "what to do"),
        ("pane A party 1\nbytes 09 00 00 00", 2, "a frame that is no tick"),
        ("pane A party 1\nx: take any timeout 0\nx: take any timeout 0", 3, "a label that the pane does not have yet"),
        ("pane A party 1\nrounds 0", 2, "how often"),
        ("rounds 1", 1, "a `pane` before this line"),
        ("pane A party 1\nticks at most x", 2, "how many ticks"),
        ("pane A party 1\nticks at most 1\nticks at most 1", 3, "only once"),
        ("pane A party 1\nclaim B never gets found", 2, "a pane (A), found `B`"),
        ("pane A party 1\nclaim A never gets rich", 2, "an answer"),
        ("pane A party 1\nclaim A never gets found at x", 2, "a label of pane A, found `x`"),
        ("pane A party 1\nclaim A flies", 2, "what is claimed of the pane"),
        ("pane A party 1\nclaim at the end many committed any", 2, "how many"),
        ("pane A party 1\nclaim at the end no red any", 2, "`committed` or `stored`"),
        ("pane A party 1\nclaim nobody waits for ever today", 2, "the end of the line"),
        ("pane A party 1\nexpect kept", 2, "a claim before `expect`"),
        ("pane A party 1\nclaim nobody waits for ever\nexpect 5", 3, "`situations`, `steps` or `histories`"),
    ];
    for (text, line, expected) in bad {
        let answer = tray(&["explore", "-"], text);
        assert_eq!((answer.status, answer.out.as_str()), (2, ""), "{text}");
        let place = if line == 0 { "tray: -: ".to_string() } else { format!("tray: -:{line}: expected ") };
        assert!(answer.err.starts_with(&place), "{text}: {}", answer.err);
        assert!(answer.err.contains(expected), "{text}: {}", answer.err);
    }
    assert_eq!(tray(&["explore", "-", "--ticks", "x"], SIX).status, 2);
    assert_eq!(tray(&["explore", "-", "--memory"], SIX).status, 2);
    assert_eq!(tray(&["explore", "-", "--ticks", "1", "--ticks", "2"], SIX).status, 2);
    assert_eq!(tray(&["explore", "-", "-o", "report.svg"], SIX).status, 2);
    let nowhere = tray(&["explore", "-", "-o", "/no/such/folder/a.html"], SIX);
    assert_eq!((nowhere.status, nowhere.out.as_str()), (1, ""));
}
