//! Seeded random exports: with orders and without, whole and damaged.

use super::{words_of, Case};
use crate::random::Random;
use reference::order::{Action, Transaction, MOST_ACTIONS, MOST_TRANSACTIONS};

/// Numbers of entries, all different: small ones, and those about the ends of 32 bits.
fn numbers(random: &mut Random) -> Vec<u32> {
    let most = (MOST_TRANSACTIONS + 3) * (MOST_ACTIONS + 4);
    let first = random.pick(&[0, 1, 1, 100, 65530, u32::MAX - most as u32]);
    let step = if first < 100 { random.pick(&[1, 1, 7, 65536]) } else { 1 };
    let mut numbers: Vec<u32> = (1..=most as u32).map(|i| first + step * i).collect();
    if first == 0 {
        numbers[0] = 0;
    }
    shuffle(random, &mut numbers);
    numbers
}

fn shuffle<T>(random: &mut Random, list: &mut [T]) {
    for last in (1..list.len()).rev() {
        list.swap(last, random.below(last + 1));
    }
}

/// How many transactions, and actions in one: mostly few, often as many as there may be.
fn sizes(random: &mut Random) -> (usize, usize) {
    let transactions = if random.percent(40) { MOST_TRANSACTIONS } else { random.below(MOST_TRANSACTIONS + 1) };
    let actions = if random.percent(30) { MOST_ACTIONS } else { 1 + random.below(4) };
    (transactions, actions)
}

/// A look-up of a number that is there, or a write of a new one, carried out on the set.
fn played_action(random: &mut Random, set: &mut Vec<u32>, fresh: &mut Vec<u32>) -> Action {
    if set.is_empty() || random.percent(45) {
        let number = fresh.pop().expect("there are numbers for all actions");
        set.push(number);
        return Action::Write(number);
    }
    let place = random.below(set.len());
    match random.percent(50) {
        true => Action::Read(set[place]),
        false => Action::Take(set.swap_remove(place)),
    }
}

/// A serial run that succeeds, as it was played.
fn played(random: &mut Random, fresh: &mut Vec<u32>) -> Vec<Transaction> {
    let (transactions, most) = sizes(random);
    let full = random.percent(30);
    let mut set = Vec::new();
    let mut transaction = || {
        let actions = if full { most } else { random.below(most + 1) };
        (0..actions).map(|_| played_action(random, &mut set, fresh)).collect()
    };
    (0..transactions).map(|_| transaction()).collect()
}

/// Each transaction takes what the one before it wrote; closed to a ring, no order succeeds.
fn chain(random: &mut Random, fresh: &[u32]) -> Vec<Transaction> {
    let transactions = 2 + random.below(MOST_TRANSACTIONS - 1);
    let ring = random.percent(30);
    let link = |place: usize| match place {
        0 if !ring => vec![Action::Write(fresh[0])],
        0 => vec![Action::Take(fresh[transactions - 1]), Action::Write(fresh[0])],
        _ => vec![Action::Take(fresh[place - 1]), Action::Write(fresh[place])],
    };
    (0..transactions).map(link).collect()
}

/// Each number is written once at most, by anyone, and looked up by anyone.
fn scattered(random: &mut Random, fresh: &[u32]) -> Vec<Transaction> {
    let (transactions, most) = sizes(random);
    let mut written = Vec::new();
    let known = 1 + random.below(most + 2);
    let mut action = || {
        let number = fresh[random.below(known)];
        match random.below(3) {
            0 if !written.contains(&number) => {
                written.push(number);
                Action::Write(number)
            }
            0 | 1 => Action::Read(number),
            _ => Action::Take(number),
        }
    };
    (0..transactions).map(|_| (0..most).map(|_| action()).collect()).collect()
}

/// One action is changed: its kind, its number, or both.
fn spoil(random: &mut Random, transactions: &mut [Transaction]) {
    let numbers: Vec<u32> = transactions.iter().flatten().map(|action| action.number()).collect();
    let Some(actions) = transactions.iter_mut().filter(|actions| !actions.is_empty()).last() else { return };
    let place = random.below(actions.len());
    let number = random.pick(&numbers);
    actions[place] = match random.below(5) {
        0 => Action::Write(number),
        1 => Action::Read(actions[place].number()),
        2 => Action::Take(actions[place].number()),
        3 => Action::Read(number.wrapping_add(1)),
        _ => Action::Take(number),
    };
}

/// Beyond a limit, or at it: more transactions, more actions, a number written again.
fn stretch(random: &mut Random, transactions: &mut Vec<Transaction>, fresh: &mut Vec<u32>) {
    let one = random.below(transactions.len().max(1));
    match random.below(3) {
        0 => transactions.resize(MOST_TRANSACTIONS + 1 + random.below(3), Vec::new()),
        1 if !transactions.is_empty() => {
            let wanted = MOST_ACTIONS + 1 + random.below(4);
            let write = |_| Action::Write(fresh.pop().expect("there are numbers for all actions"));
            let more = (transactions[one].len()..wanted).map(write);
            let more: Vec<Action> = more.collect();
            transactions[one].extend(more);
        }
        _ => {
            let written = |action: &&Action| matches!(action, Action::Write(_));
            let writes: Vec<Action> = transactions.iter().flatten().filter(written).copied().collect();
            if !writes.is_empty() {
                transactions[one].truncate(MOST_ACTIONS - 1);
                transactions[one].push(random.pick(&writes));
            }
        }
    }
}

fn list(random: &mut Random) -> Vec<Transaction> {
    let mut fresh = numbers(random);
    let mut transactions = match random.below(10) {
        0..=4 => played(random, &mut fresh),
        5..=6 => chain(random, &fresh),
        _ => scattered(random, &fresh),
    };
    if random.percent(25) {
        spoil(random, &mut transactions);
    }
    if random.percent(8) {
        stretch(random, &mut transactions, &mut fresh);
    }
    match random.below(4) {
        0 => {}
        1 => transactions.reverse(),
        _ => shuffle(random, &mut transactions),
    }
    transactions
}

/// Where the kinds of the actions stand among the words.
fn kinds(transactions: &[Transaction]) -> Vec<usize> {
    let (mut at, mut kinds) = (1, Vec::new());
    for actions in transactions {
        kinds.extend((0..actions.len()).map(|place| at + 1 + 2 * place));
        at += 1 + 2 * actions.len();
    }
    kinds
}

const HUGE: [u32; 6] = [256, 65536, 1 << 31, (1 << 31) + 1, u32::MAX - 1, u32::MAX];

/// Cut off, gone on with, or with a word changed.
fn damage(random: &mut Random, words: &mut Vec<u32>, kinds: &[usize]) {
    let place = random.below(words.len());
    match random.below(6) {
        0 => words.truncate(place),
        1 => words.extend((0..=random.below(3)).map(|_| random.between(0, 3))),
        2 => words[place] = random.between(0, 9),
        3 => words[0] = random.pick(&HUGE),
        4 if words.len() > 1 => words[1] = random.pick(&HUGE),
        5 if !kinds.is_empty() => words[random.pick(kinds)] = random.pick(&[0, 0, 4, 4, 5, 256, 257, u32::MAX]),
        _ => words[place] = random.pick(&HUGE),
    }
}

/// An export, and room for its order: mostly as much as it needs, or more; too little in some cases.
pub fn export(random: &mut Random) -> Case {
    let transactions = list(random);
    let (count, mut words) = (transactions.len(), words_of(&transactions));
    if random.percent(12) {
        damage(random, &mut words, &kinds(&transactions));
    }
    let room = match random.below(10) {
        0 if count > 0 => random.below(count),
        1..=5 => count,
        _ => count + 1 + random.below(6),
    };
    Case { words, room }
}
