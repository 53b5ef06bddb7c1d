//! How many histories the situations stand for, exactly: ways through the steps, counted in an order in which every
//! step leads forward.

use super::store::{Edge, Store};
use crate::big::{add_limbs, Natural};

/// The situations in an order in which every step leads forward; none if the panes can go round for ever.
pub fn order(store: &Store) -> Option<Vec<u32>> {
    let mut before = vec![0u32; store.len()];
    for edge in &store.edges {
        before[edge.to as usize] += 1;
    }
    if before.first() != Some(&0) {
        return None; // a step leads back to the beginning
    }
    let mut order = Vec::with_capacity(store.len());
    order.push(0);
    let mut next = 0;
    while let Some(&situation) = order.get(next) {
        next += 1;
        for edge in store.steps(situation as usize) {
            before[edge.to as usize] -= 1;
            if before[edge.to as usize] == 0 {
                order.push(edge.to);
            }
        }
    }
    (order.len() == store.len()).then_some(order)
}

/// A number for each situation, of so many limbs each.
pub struct Ways {
    limbs: usize,
    numbers: Vec<u64>,
}

impl Ways {
    fn zero(situations: usize, limbs: usize) -> Ways {
        Ways { limbs, numbers: vec![0; situations * limbs] }
    }

    fn limbs_of(&self, situation: usize) -> &[u64] {
        &self.numbers[situation * self.limbs..(situation + 1) * self.limbs]
    }

    pub fn of(&self, situation: usize) -> Natural {
        Natural::of_limbs(self.limbs_of(situation))
    }

    /// Adds one situation's number to another's; gives whether it still fits.
    fn add(&mut self, to: usize, from: usize) -> bool {
        let limbs = self.limbs;
        let (a, b) = (to * limbs, from * limbs);
        if a < b {
            let (low, high) = self.numbers.split_at_mut(b);
            !add_limbs(&mut low[a..a + limbs], &high[..limbs])
        } else {
            let (low, high) = self.numbers.split_at_mut(a);
            !add_limbs(&mut high[..limbs], &low[b..b + limbs])
        }
    }
}

/// Tries with more and more limbs until every number fits.
fn fitting(attempt: impl Fn(usize) -> Option<Ways>) -> Ways {
    let mut limbs = 1;
    loop {
        if let Some(ways) = attempt(limbs) {
            return ways;
        }
        limbs *= 2;
    }
}

/// The ways from the beginning to each situation over the steps that pass.
pub fn ways_to(store: &Store, order: &[u32], passes: impl Fn(Edge) -> bool) -> Ways {
    fitting(|limbs| {
        let mut ways = Ways::zero(store.len(), limbs);
        ways.numbers[0] = 1;
        for &situation in order {
            for &edge in store.steps(situation as usize).iter().filter(|&&edge| passes(edge)) {
                if !ways.add(edge.to as usize, situation as usize) {
                    return None;
                }
            }
        }
        Some(ways)
    })
}

/// The ways from each situation to an end.
pub fn ways_on(store: &Store, order: &[u32]) -> Ways {
    fitting(|limbs| {
        let mut ways = Ways::zero(store.len(), limbs);
        for &situation in order.iter().rev() {
            let steps = store.steps(situation as usize);
            if steps.is_empty() {
                ways.numbers[situation as usize * limbs] = 1;
            }
            for edge in steps {
                if !ways.add(situation as usize, edge.to as usize) {
                    return None;
                }
            }
        }
        Some(ways)
    })
}

pub fn sum(ways: &Ways, situations: impl Iterator<Item = u32>) -> Natural {
    let mut sum = Natural::default();
    situations.for_each(|situation| sum.add(&ways.of(situation as usize)));
    sum
}
