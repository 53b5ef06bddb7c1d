//! What each request can be answered, by share of histories; and what every refuting history has done.

use super::analysis::Analysis;
use super::count::{ways_on, ways_to};
use super::model::{Got, Model};
use super::situation::Situation;
use super::store::{Store, TICK};
use crate::big::Natural;
use crate::claim::Form;
use crate::frame::Request;
use crate::oracle::Sought;
use crate::panes::Script;
use crate::record::{kind_of, EXCEPTION, FOUND, NOTHING, REFUSED, RUNG, WAITING};
use crate::words::tables;
use std::collections::BTreeMap;

/// Every step is taken again for this: not where there are very many.
const MOST_STEPS: usize = 20_000_000;

/// How a request is answered.
#[derive(Clone, Copy, PartialEq, Eq, PartialOrd, Ord, Debug)]
pub enum Answer {
    /// Found, written, created, committed, ..: the record's kind. Of a line that listens: rung.
    Done(u8),
    WaitsThenFound,
    StillWaits,
    StillListens,
    WaitsThenNothing,
    WaitsThenException,
    NothingStored,
    NothingThoughStored,
    Refused(u8),
}

impl Answer {
    pub fn words(self) -> String {
        match self {
            Answer::Done(kind) => kind_of(kind).map_or("", |kind| kind.name).to_string(),
            Answer::WaitsThenFound => "waits, then found".to_string(),
            Answer::StillWaits => "still waits at the end".to_string(),
            Answer::StillListens => "still listens at the end".to_string(),
            Answer::WaitsThenNothing => "waits, then nothing".to_string(),
            Answer::WaitsThenException => "waits, then exception".to_string(),
            Answer::NothingStored => "nothing, none stored".to_string(),
            Answer::NothingThoughStored => "nothing, though stored (held)".to_string(),
            Answer::Refused(number) => format!("refused {number}"),
        }
    }
}

/// How often an answer is given, counted over all histories, and the frames of the shortest that has it.
pub struct Share {
    pub times: Natural,
    pub frames: usize,
}

/// By pane and line.
pub type Shares = BTreeMap<(usize, usize), BTreeMap<Answer, Share>>;

fn distance(store: &Store, situation: usize) -> usize {
    store.way(situation).len()
}

struct Counter<'a> {
    script: &'a Script,
    store: &'a Store,
    model: Model<'a>,
    shares: Shares,
}

impl Counter<'_> {
    fn add(&mut self, pane: usize, line: usize, answer: Answer, times: Natural, frames: impl Fn() -> usize) {
        let answers = self.shares.entry((pane, line)).or_default();
        let share = answers.entry(answer).or_insert_with(|| Share { times: Natural::default(), frames: frames() });
        share.times.add(&times);
    }

    fn answer(&mut self, got: &Got, own: bool, after: &Situation) -> Option<Answer> {
        let request = self.script.panes[got.pane].sent[got.line?].request;
        Some(match (got.record.kind, own) {
            (WAITING, _) => return None,
            (REFUSED, _) => Answer::Refused(got.record.refusal),
            (FOUND, false) => Answer::WaitsThenFound,
            (NOTHING, false) => Answer::WaitsThenNothing,
            (EXCEPTION, _) => {
                // Only one that closes a look-up answers a request.
                return request.filter(Request::looks_up).map(|_| Answer::WaitsThenException);
            }
            (NOTHING, true) => {
                let sought = request.as_ref().and_then(Sought::of_request)?;
                let stored = self.model.monitors.matcher.matching(&sought.template, &tables(&after.words)).len();
                if stored > 0 {
                    Answer::NothingThoughStored
                } else {
                    Answer::NothingStored
                }
            }
            (kind, _) => Answer::Done(kind),
        })
    }
}

/// None where not all was looked at, the panes can go round, or there are too many steps to take again.
pub fn shares(script: &Script, analysis: &Analysis) -> Option<Shares> {
    let store = &analysis.explored.store;
    let order = analysis.order.as_ref().filter(|_| store.edges.len() <= MOST_STEPS)?;
    let (to, on) = (ways_to(store, order, |_| true), ways_on(store, order));
    let mut counter = Counter { script, store, model: Model::new(script), shares: Shares::new() };
    let (mut here, mut next) = (counter.model.blank(), counter.model.blank());
    for situation in 0..store.looked_at() {
        here.decode(store.bytes(situation));
        let ways = to.of(situation);
        for edge in store.steps(situation) {
            next.copy_from(&here);
            counter.model.step(&here, edge.sender(), &mut next);
            let got = counter.model.got.clone();
            let times = ways.times(&on.of(edge.to as usize));
            for (place, got) in got.iter().enumerate().filter(|(_, got)| got.pane < script.panes.len()) {
                let own = place == 0 && edge.sender() != TICK;
                // A bell has a line only where the pane listens.
                let closes = own || got.record.kind == RUNG || here.waits(got.pane) && !next.waits(got.pane);
                let Some(answer) = counter.answer(got, own, &next).filter(|_| closes) else { continue };
                let frames = || script.start.len() + distance(store, situation) + 1;
                counter.add(got.pane, got.line.unwrap_or(0), answer, times.clone(), frames);
            }
        }
    }
    for &(end, _) in &analysis.explored.ends {
        here.decode(store.bytes(end as usize));
        for pane in 0..script.panes.len() {
            let answer = match (here.waits(pane), here.listens(pane)) {
                (true, _) => Answer::StillWaits,
                (_, true) => Answer::StillListens,
                _ => continue,
            };
            let frames = || script.start.len() + distance(counter.store, end as usize);
            counter.add(pane, here.line(pane).unwrap_or(0), answer, to.of(end as usize), frames);
        }
    }
    Some(counter.shares)
}

/// What every history has done when it refutes a claim by a step: the lines that it needs, and the fewest ticks.
pub struct Needed {
    pub lines: Vec<(usize, usize)>,
    pub not_needed: Vec<(usize, usize)>,
    pub ticks: u32,
}

/// The line that each step sends; of a tick none. And the ticks of each situation.
fn senders_lines(script: &Script, store: &Store) -> (Vec<Option<usize>>, Vec<u32>) {
    let mut here = Model::new(script).blank();
    let (mut lines, mut ticks) = (Vec::with_capacity(store.edges.len()), Vec::with_capacity(store.len()));
    for situation in 0..store.looked_at() {
        here.decode(store.bytes(situation));
        ticks.push(here.ticks);
        let sent = |sender: usize| if sender == TICK { None } else { here.line(sender) };
        lines.extend(store.steps(situation).iter().map(|edge| sent(edge.sender())));
    }
    (lines, ticks)
}

/// Whether a refuting step can be reached without this line ever being sent.
fn refuted_without(store: &Store, lines: &[Option<usize>], claim: usize, without: (usize, usize)) -> bool {
    let mut seen = vec![false; store.len()];
    let mut stack = vec![0u32];
    seen[0] = true;
    while let Some(situation) = stack.pop() {
        let first = store.firsts[situation as usize] as usize;
        for (place, edge) in store.steps(situation as usize).iter().enumerate() {
            if edge.sender() == without.0 && lines[first + place] == Some(without.1) {
                continue;
            }
            if edge.concerns(claim) {
                return true;
            }
            if !std::mem::replace(&mut seen[edge.to as usize], true) {
                stack.push(edge.to);
            }
        }
    }
    false
}

/// For a claim that a step refutes; none where there are too many steps.
pub fn needed(script: &Script, analysis: &Analysis, claim: usize) -> Option<Needed> {
    let store = &analysis.explored.store;
    let steps = store.edges.len();
    // Steps concern such a claim when they give what it wants.
    if matches!(script.claims[claim].form, Form::Always { .. }) {
        return None;
    }
    if analysis.explored.cut.is_some() || steps > MOST_STEPS / 20 || !store.edges.iter().any(|e| e.concerns(claim)) {
        return None;
    }
    let (lines, ticks) = senders_lines(script, store);
    let all = script.panes.iter().enumerate().flat_map(|(pane, of)| (0..of.sent.len()).map(move |line| (pane, line)));
    let all = all.filter(|&(pane, line)| !script.panes[pane].sent[line].awaits_bell);
    let (not_needed, needed): (Vec<_>, Vec<_>) = all.partition(|&line| refuted_without(store, &lines, claim, line));
    let refuting = (0..store.looked_at()).flat_map(|from| store.steps(from).iter().map(move |edge| (from, edge)));
    let refuting = refuting.filter(|(_, edge)| edge.concerns(claim));
    let fewest = refuting.map(|(from, edge)| ticks[from] + u32::from(edge.sender() == TICK)).min();
    Some(Needed { lines: needed, not_needed, ticks: fewest.unwrap_or(0) })
}
