//! Seeded random setups: panes that compete, that feed each other, that wait, hold and run out of time; and words that
//! are refused.

use super::{words_of, Case};
use crate::random::Random;
use reference::frame::{FOREVER, LAST_CLOCK};
use reference::trial::{Pane, Setup, Starting, COUNTS, MOST_PANES, MOST_ROUNDS, MOST_STARTING};

/// Mostly as many as a round or a few need, so that ends meet other things; sometimes none, long, or without end.
fn duration(random: &mut Random) -> u32 {
    match random.below(20) {
        0 => 0,
        1..=9 => random.between(1, 6),
        10..=13 => random.between(4, 14),
        14..=15 => random.between(15, 60),
        16..=18 => FOREVER,
        _ => beyond(random),
    }
}

/// About the greatest that a duration may be at clocks from 0 on.
fn beyond(random: &mut Random) -> u32 {
    LAST_CLOCK - random.pick(&[0, 0, 1, 2, 3, 5, 8, 40])
}

fn hold(random: &mut Random) -> u32 {
    match random.below(20) {
        0..=5 => 0,
        6..=9 => 1,
        10..=12 => 2,
        13..=17 => random.between(3, 7),
        18 => random.between(8, 60),
        _ => random.pick(&[999, 1000, FOREVER - 1, FOREVER]),
    }
}

fn rounds(random: &mut Random) -> u32 {
    match random.below(100) {
        0..=1 => 0,
        2..=4 => 1,
        5..=50 => random.between(2, 20),
        51..=96 => random.between(20, 80),
        97 => MOST_ROUNDS - random.pick(&[0, 0, 0, 1]),
        98 => MOST_ROUNDS + random.pick(&[1, 1, 2, 1000]),
        _ => random.pick(&[MOST_ROUNDS + 1, 65536, FOREVER]),
    }
}

/// Two or three kinds, all different.
fn kinds(random: &mut Random) -> Vec<u32> {
    let mut kinds = vec![random.pick(&[7, 7, 7, 0]), 8, random.pick(&[9, 9, 9, FOREVER])];
    kinds.truncate(2 + random.below(2));
    kinds
}

/// Whom the panes take from and write for.
#[derive(Clone, Copy)]
enum Plan {
    /// All take one kind; what they write is of that kind or another.
    Compete,
    /// Each takes what the one before it writes.
    Ring,
    Any,
}

/// The kinds that the pane at this place takes and writes.
fn taken_and_written(random: &mut Random, plan: Plan, place: usize, kinds: &[u32]) -> (u32, u32) {
    let any = random.pick(kinds);
    match plan {
        Plan::Compete => (kinds[0], if random.percent(70) { kinds[0] } else { any }),
        Plan::Ring => (kinds[place % kinds.len()], kinds[(place + 1) % kinds.len()]),
        Plan::Any => (any, random.pick(kinds)),
    }
}

/// How the panes' numbers fit each other.
#[derive(Clone, Copy)]
enum Manner {
    /// Leases outlast what is done in them.
    Lasting,
    /// Just so, if not much is waited for.
    Tight,
    Any,
}

fn pane(random: &mut Random, manner: Manner, (takes, writes): (u32, u32)) -> Pane {
    let long = |random: &mut Random| if random.percent(60) { FOREVER } else { random.between(8, 40) };
    let (lease, timeout, hold) = match manner {
        Manner::Lasting => (long(random), duration(random), hold(random)),
        Manner::Tight => (random.between(5, 10), random.between(1, 5), random.between(0, 4)),
        Manner::Any => (duration(random), duration(random), hold(random)),
    };
    let lasts = !matches!(manner, Manner::Any) || random.percent(40);
    Pane { lease, timeout, takes, written_lease: if lasts { long(random) } else { duration(random) }, writes, hold }
}

fn panes(random: &mut Random, kinds: &[u32]) -> Vec<Pane> {
    let plan = random.pick(&[Plan::Compete, Plan::Compete, Plan::Ring, Plan::Ring, Plan::Any]);
    let manner = random.pick(&[Manner::Lasting, Manner::Tight, Manner::Tight, Manner::Any, Manner::Any, Manner::Any]);
    let count = if random.percent(15) { 1 } else { 2 + random.below(MOST_PANES - 1) };
    let at = |place| {
        let kinds = taken_and_written(random, plan, place, kinds);
        pane(random, manner, kinds)
    };
    (0..count).map(at).collect()
}

/// Mostly of kinds that panes take; few more than there are panes, so that these are short of them.
fn starting(random: &mut Random, kinds: &[u32], panes: usize) -> Vec<Starting> {
    let count = match random.below(10) {
        0 => 0,
        1 => MOST_STARTING,
        2..=7 => 1 + random.below(panes),
        _ => random.below(MOST_STARTING + 1),
    };
    let entry = |_| {
        let other = |random: &mut Random| random.pick(&[0, 0, 1, 40, FOREVER]);
        let kind = if random.percent(60) { kinds[0] } else { random.pick(kinds) };
        let fields = [kind, other(random), other(random), other(random)];
        Starting { fields, lease: if random.percent(60) { FOREVER } else { duration(random) } }
    };
    (0..count).map(entry).collect()
}

/// Beyond a limit: no pane or more than four, more than eight starting entries.
fn stretch(random: &mut Random, setup: &mut Setup) {
    let (pane, entry) = (setup.panes[0], Starting { fields: [7, 0, 0, 0], lease: FOREVER });
    match random.below(3) {
        0 => setup.panes.clear(),
        1 => setup.panes.resize(MOST_PANES + 1 + random.below(3), pane),
        _ => setup.starting.resize(MOST_STARTING + 1 + random.below(3), entry),
    }
}

const HUGE: [u32; 5] = [256, 65536, 1 << 31, FOREVER - 1, FOREVER];

/// Cut off, gone on with, or with other numbers of panes or starting entries than there are.
fn damage(random: &mut Random, words: &mut Vec<u32>) {
    match random.below(6) {
        0 => words.truncate(random.below(words.len())),
        1 => words.truncate(words.len() - 1),
        2 => words.extend((0..=random.below(3)).map(|_| random.between(0, 3))),
        3 => words.truncate(random.below(3)),
        4 => words[1 + random.below(2)] = random.between(0, 9),
        _ => words[1 + random.below(2)] = random.pick(&HUGE),
    }
}

/// A setup, and room for its counts: mostly as much as it needs, or more; too little in some cases.
pub fn any_setup(random: &mut Random) -> Case {
    let kinds = kinds(random);
    let panes = panes(random, &kinds);
    let starting = starting(random, &kinds, panes.len());
    let mut setup = Setup { rounds: rounds(random), panes, starting };
    if random.percent(4) {
        stretch(random, &mut setup);
    }
    let mut words = words_of(&setup);
    if random.percent(6) {
        damage(random, &mut words);
    }
    let needed = COUNTS * setup.panes.len();
    let room = match random.below(20) {
        0 if needed > 0 => random.below(needed),
        1..=12 => needed,
        _ => needed + 1 + random.below(6),
    };
    Case { words, room }
}
