//! What the situations say of each claim: kept by all histories, refuted with the shortest history, or left open.

use super::count::{order, sum, ways_to};
use super::model::Model;
use super::waits::{hopes, Hopes};
use super::{explore, Bounds, Cut, Explored};
use crate::big::Natural;
use crate::claim::{Claim, Form, Scope, Verdict};
use crate::panes::Script;
use crate::text::Asked;
use std::cell::OnceCell;

/// What was found of a claim.
pub struct Finding {
    pub verdict: Verdict,
    /// By which histories it is kept, or why it is open. Of a refuted one, why a shorter history may refute it too.
    pub why: String,
    /// The senders of the shortest refuting history.
    pub shortest: Option<Vec<usize>>,
    /// How many histories refute it, where that was counted.
    pub refuting: Option<Natural>,
}

/// An exploration and what it says.
pub struct Analysis {
    pub explored: Explored,
    /// None if the panes can go round for ever, or not all was looked at.
    pub histories: Option<Natural>,
    pub order: Option<Vec<u32>>,
    pub findings: Vec<Finding>,
}

impl Finding {
    fn kept(why: &str) -> Finding {
        let refuting = Some(Natural::default());
        Finding { verdict: Verdict::Kept, why: why.to_string(), shortest: None, refuting }
    }

    fn open(why: &str) -> Finding {
        Finding { verdict: Verdict::Open, why: why.to_string(), shortest: None, refuting: None }
    }

    fn refuted(shortest: Vec<usize>, refuting: Option<Natural>) -> Finding {
        Finding { verdict: Verdict::Refuted, why: String::new(), shortest: Some(shortest), refuting }
    }

    /// Not everything was looked at: a shorter history may refute it too.
    fn doubted(self, why: Option<&str>) -> Finding {
        Finding { why: why.unwrap_or_default().to_string(), ..self }
    }
}

const BY_ALL: &str = "by all histories";
const NOT_ALL_BEYOND: &str = "what comes after the last tick was not all looked at";

pub fn cut_words(cut: Cut) -> &'static str {
    match cut {
        Cut::Situations => "not all was looked at: the bound on situations was reached",
        Cut::Memory => "not all was looked at: the bound on memory was reached",
    }
}

fn is_always(claim: &Claim) -> bool {
    matches!(claim.form, Form::Always { .. })
}

fn is_at_the_end(claim: &Claim) -> bool {
    matches!(claim.form, Form::Count { scope: Scope::End, .. })
}

struct Judge<'a> {
    script: &'a Script,
    explored: &'a Explored,
    order: Option<&'a [u32]>,
    histories: Option<&'a Natural>,
    /// For claims that nobody waits for ever.
    hopes: OnceCell<Hopes>,
}

impl Judge<'_> {
    fn if_kept(&self, by: &str) -> Finding {
        self.explored.cut.map_or_else(|| Finding::kept(by), |cut| Finding::open(cut_words(cut)))
    }

    /// Histories that never pass a step which the claim is concerned with.
    fn avoiding(&self, claim: usize) -> Option<Natural> {
        let order = self.order.filter(|_| self.histories.is_some())?;
        let ways = ways_to(&self.explored.store, order, |edge| !edge.concerns(claim));
        Some(sum(&ways, self.explored.ends.iter().map(|end| end.0)))
    }

    /// A claim that a single step can refute: the first such step, in order of distance.
    fn by_steps(&self, claim: usize) -> Finding {
        let store = &self.explored.store;
        if self.explored.at_once >> claim & 1 == 1 {
            return Finding::refuted(Vec::new(), self.histories.cloned());
        }
        for situation in 0..store.looked_at() {
            let Some(edge) = store.steps(situation).iter().find(|edge| edge.concerns(claim)) else { continue };
            let mut way = store.way(situation);
            way.push(edge.sender());
            let refuting = self.histories.zip(self.avoiding(claim)).map(|(all, good)| all.minus(&good));
            return Finding::refuted(way, refuting);
        }
        self.if_kept(BY_ALL)
    }

    fn at_the_end(&self, claim: usize) -> Finding {
        let bad = || self.explored.ends.iter().filter(|(_, failing)| failing >> claim & 1 == 1).map(|end| end.0);
        let by = if self.order.is_some() { BY_ALL } else { "by all histories that end; some never do" };
        let Some(first) = bad().next() else { return self.if_kept(by) };
        let refuting = self.order.filter(|_| self.histories.is_some()).map(|order| {
            let ways = ways_to(&self.explored.store, order, |_| true);
            sum(&ways, bad())
        });
        Finding::refuted(self.explored.store.way(first as usize), refuting)
    }

    /// The shortest complete history without a step that gives what is wanted.
    fn always(&self, claim: usize) -> Finding {
        let store = &self.explored.store;
        let mut from: Vec<Option<(u32, usize)>> = vec![None; store.len()];
        let (mut queue, mut next) = (vec![0u32], 0);
        let is_end: Vec<u32> = self.explored.ends.iter().map(|end| end.0).collect();
        while let Some(&situation) = queue.get(next) {
            next += 1;
            if is_end.binary_search(&situation).is_ok() {
                let mut way = Vec::new();
                let mut at = situation;
                while let Some((parent, sender)) = from[at as usize].filter(|_| at != 0) {
                    way.push(sender);
                    at = parent;
                }
                way.reverse();
                return Finding::refuted(way, self.avoiding(claim)).doubted(self.explored.cut.map(cut_words));
            }
            for edge in store.steps(situation as usize).iter().filter(|edge| !edge.concerns(claim)) {
                if edge.to != 0 && from[edge.to as usize].is_none() {
                    from[edge.to as usize] = Some((situation, edge.sender()));
                    queue.push(edge.to);
                }
            }
        }
        match self.order {
            None if self.explored.cut.is_none() => Finding::open("some histories never end: the panes can go round"),
            _ => self.if_kept(BY_ALL),
        }
    }
}

impl Judge<'_> {
    fn endless_wait(&self, panes: &[usize]) -> Finding {
        if let Some(cut) = self.explored.cut {
            return Finding::open(cut_words(cut));
        }
        let Hopes { of: hopes, unknown } =
            self.hopes.get_or_init(|| hopes(self.script, self.explored, self.order.is_none()));
        let mask = panes.iter().fold(0u16, |mask, pane| mask | 1 << pane);
        let store = &self.explored.store;
        let dead = |place: usize| store.waiting[place] & mask & !hopes[place] != 0;
        let unknown = Some(NOT_ALL_BEYOND).filter(|_| unknown & mask != 0);
        let Some(first) = (0..store.len()).find(|&place| dead(place)) else {
            return unknown.map_or_else(|| Finding::kept(BY_ALL), Finding::open);
        };
        let refuting = self.order.filter(|_| unknown.is_none()).map(|order| {
            let ways = ways_to(store, order, |_| true);
            let ends = self.explored.ends.iter().map(|end| end.0);
            sum(&ways, ends.filter(|&end| dead(end as usize)))
        });
        Finding::refuted(store.way(first), refuting).doubted(unknown)
    }

    fn finding(&self, place: usize, claim: &Claim) -> Finding {
        match &claim.form {
            Form::NoEndlessWait { panes } => self.endless_wait(panes),
            _ if is_always(claim) => self.always(place),
            _ if is_at_the_end(claim) => self.at_the_end(place),
            _ => self.by_steps(place),
        }
    }
}

/// Explores, counts and judges.
pub fn analyse(script: &Script, bounds: Bounds) -> Analysis {
    let explored = explore(script, bounds);
    let order = if explored.cut.is_none() { order(&explored.store) } else { None };
    let histories = order.as_ref().map(|order| {
        let ways = ways_to(&explored.store, order, |_| true);
        sum(&ways, explored.ends.iter().map(|end| end.0))
    });
    let judge = Judge {
        script,
        explored: &explored,
        order: order.as_deref(),
        histories: histories.as_ref(),
        hopes: OnceCell::new(),
    };
    let findings = script.claims.iter().enumerate().map(|(place, claim)| judge.finding(place, claim)).collect();
    Analysis { explored, histories, order, findings }
}

/// The frames of a history of the panes, the starting ones first.
pub fn frames(script: &Script, senders: &[usize]) -> Vec<Asked> {
    let mut model = Model::new(script);
    let mut here = model.beginning();
    let mut frames: Vec<Asked> = script.start.clone();
    for &sender in senders {
        frames.push(Asked::of(model.frame(&here, sender).to_vec()));
        let before = here.clone();
        model.step(&before, sender, &mut here);
    }
    frames
}
