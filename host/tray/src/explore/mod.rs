//! Every interleaving of panes: situations met in order of their distance from the beginning, each looked at once.

pub mod analysis;
pub mod count;
pub mod model;
pub mod monitor;
pub mod report;
pub mod shares;
pub mod situation;
pub mod store;
pub mod waits;

use crate::panes::Script;
use crate::tell::{tell, Progress};
use model::Model;
use situation::Situation;
use std::time::{Duration, Instant};
use store::{Edge, Store, TICK};

/// How far an exploration may go.
#[derive(Clone, Copy, Debug)]
pub struct Bounds {
    pub situations: usize,
    /// In bytes.
    pub memory: usize,
}

impl Default for Bounds {
    fn default() -> Bounds {
        Bounds { situations: usize::MAX, memory: 1 << 30 }
    }
}

/// Why not all was looked at.
#[derive(Clone, Copy, PartialEq, Eq, Debug)]
pub enum Cut {
    Situations,
    Memory,
}

/// All situations, or as many as the bounds allow.
pub struct Explored {
    pub store: Store,
    /// Where nothing more can happen, and a bit for each claim that fails there.
    pub ends: Vec<(u32, u32)>,
    pub cut: Option<Cut>,
    /// Claims that fail in the beginning already.
    pub at_once: u32,
    pub elapsed: Duration,
}

/// Situations have numbers of 32 bits; a step of each sender may still be met.
const MOST_SITUATIONS: usize = u32::MAX as usize - 64;
/// Counting takes memory besides: this much for a situation.
const COUNTING: usize = 32;
/// Situations looked at between two measurements of memory, and between two words about progress.
const BETWEEN_MEASUREMENTS: usize = 64;
const BETWEEN_TELLINGS: usize = 1 << 14;

struct Explorer<'a> {
    model: Model<'a>,
    explored: Explored,
    bounds: Bounds,
    begun: Instant,
    progress: Progress,
}

impl Explorer<'_> {
    fn out_of_bounds(&self, place: usize) -> Option<Cut> {
        let store = &self.explored.store;
        if place >= self.bounds.situations || store.len() >= MOST_SITUATIONS {
            return Some(Cut::Situations);
        }
        if !place.is_multiple_of(BETWEEN_MEASUREMENTS) {
            return None;
        }
        let memory = store.memory() + COUNTING * store.len();
        (memory >= self.bounds.memory || store.edges.len() >= u32::MAX as usize - 64).then_some(Cut::Memory)
    }

    fn tell(&mut self, place: usize) {
        if !self.progress.is_due() {
            return;
        }
        let store = &self.explored.store;
        let (steps, memory) = (store.edges.len(), store.memory() >> 20);
        let speed = steps as f64 / self.begun.elapsed().as_secs_f64();
        let left = store.len() - place;
        let found = store.len();
        tell(&format!("{found} situations, {left} to look at, {steps} steps, {speed:.0} steps/s, {memory} MB"));
    }

    /// All steps from one situation.
    fn look_at(&mut self, place: usize, here: &Situation, next: &mut Situation, bytes: &mut Vec<u8>) {
        let panes = self.model.script.panes.len();
        let ticks = here.ticks < self.model.script.ticks;
        let senders = (0..panes).filter(|&pane| here.can_send(pane)).chain(ticks.then_some(TICK));
        let mut moved = false;
        for sender in senders {
            next.copy_from(here);
            let claims = self.model.step(here, sender, next);
            next.encode(bytes);
            let (to, _) = self.explored.store.insert(bytes, (place as u32, sender as u8), next.waiting());
            self.explored.store.add(Edge::new(to, sender, claims));
            moved = true;
        }
        if !moved {
            let failing = failing(&mut self.model, here, &[crate::claim::Scope::End]);
            self.explored.ends.push((place as u32, failing));
        }
    }

    fn run(&mut self, beginning: &Situation) {
        let (mut here, mut next) = (beginning.clone(), beginning.clone());
        let mut bytes = Vec::new();
        beginning.encode(&mut bytes);
        self.explored.store.insert(&bytes, (0, 0), beginning.waiting());
        self.explored.store.begin();
        let mut place = 0;
        while place < self.explored.store.len() {
            self.explored.cut = self.out_of_bounds(place);
            if self.explored.cut.is_some() {
                break;
            }
            if place.is_multiple_of(BETWEEN_TELLINGS) {
                self.tell(place);
            }
            bytes.clear();
            bytes.extend_from_slice(self.explored.store.bytes(place));
            here.decode(&bytes);
            self.look_at(place, &here, &mut next, &mut bytes);
            self.explored.store.begin();
            place += 1;
        }
        self.explored.elapsed = self.begun.elapsed();
    }
}

fn failing(model: &mut Model, situation: &Situation, scopes: &[crate::claim::Scope]) -> u32 {
    let claims = model.script.claims.iter().enumerate();
    claims.fold(0, |failing, (place, claim)| {
        failing | u32::from(model.monitors.fails_here(&claim.form, scopes, situation)) << place
    })
}

/// Looks at every situation that the script's panes can get into.
pub fn explore(script: &Script, bounds: Bounds) -> Explored {
    let mut model = Model::new(script);
    let beginning = model.beginning();
    let scopes = [crate::claim::Scope::Always, crate::claim::Scope::Stopped];
    let at_once = failing(&mut model, &beginning, &scopes);
    let empty = Explored { store: Store::default(), ends: vec![], cut: None, at_once, elapsed: Duration::ZERO };
    let begun = Instant::now();
    let mut explorer = Explorer { model, explored: empty, bounds, begun, progress: Progress::default() };
    explorer.run(&beginning);
    explorer.explored
}
