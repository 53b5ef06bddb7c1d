//! An order that accounts for these (document 02, T-12): every order is tried, by a serial run of its own.

use crate::frame::Refusal;
use std::collections::BTreeSet;

pub const MOST_TRANSACTIONS: usize = 6;
pub const MOST_ACTIONS: usize = 8;

/// "write of a number, found read, found take"
#[derive(Clone, Copy, PartialEq, Eq, Debug)]
pub enum Action {
    Write(u32),
    Read(u32),
    Take(u32),
}

impl Action {
    /// A kind and a number.
    fn of(kind: u32, number: u32) -> Option<Action> {
        match kind {
            1 => Some(Action::Write(number)),
            2 => Some(Action::Read(number)),
            3 => Some(Action::Take(number)),
            _ => None,
        }
    }

    pub fn number(self) -> u32 {
        match self {
            Action::Write(number) | Action::Read(number) | Action::Take(number) => number,
        }
    }
}

pub type Transaction = Vec<Action>;

/// One transaction, and the words behind it; none if the words do not begin with one.
fn transaction(words: &[u32]) -> Option<(Transaction, &[u32])> {
    let (&count, rest) = words.split_first()?;
    let (pairs, rest) = rest.split_at_checked((count as usize).checked_mul(2)?)?;
    let actions: Option<Transaction> = pairs.chunks_exact(2).map(|pair| Action::of(pair[0], pair[1])).collect();
    Some((actions?, rest))
}

/// The transactions that the words stand for; none if they stand for no list of these.
pub fn transactions(words: &[u32]) -> Option<Vec<Transaction>> {
    let (&count, mut rest) = words.split_first()?;
    let mut transactions = Vec::new();
    for _ in 0..count {
        let (next, behind) = transaction(rest)?;
        transactions.push(next);
        rest = behind;
    }
    rest.is_empty().then_some(transactions)
}

/// "22 when more than 6 transactions, more than 8 actions, or a number written twice is handed in"
fn is_accepted(transactions: &[Transaction]) -> bool {
    let mut written = BTreeSet::new();
    transactions.len() <= MOST_TRANSACTIONS
        && transactions.iter().all(|actions| actions.len() <= MOST_ACTIONS)
        && transactions.iter().flatten().all(|action| match action {
            Action::Write(number) => written.insert(number),
            Action::Read(_) | Action::Take(_) => true,
        })
}

/// What is handed in, if it is accepted.
pub fn judge(words: &[u32]) -> Result<Vec<Transaction>, Refusal> {
    transactions(words).filter(|transactions| is_accepted(transactions)).ok_or(Refusal::Export)
}

/// The serial run of transactions in this order, "leases and fields not considered": whether it succeeds.
pub fn succeeds(transactions: &[Transaction], order: &[usize]) -> bool {
    let mut set = BTreeSet::new();
    order.iter().flat_map(|&position| &transactions[position]).all(|action| match action {
        Action::Write(number) => set.insert(number),
        Action::Read(number) => set.contains(number),
        Action::Take(number) => set.remove(number),
    })
}

/// The order that comes next, "when orders .. are compared place by place"; false behind the last.
pub fn next_order(order: &mut [usize]) -> bool {
    let Some(place) = (1..order.len()).rev().find(|&place| order[place - 1] < order[place]) else { return false };
    let greater = (place..order.len()).rev().find(|&other| order[other] > order[place - 1]);
    order.swap(place - 1, greater.unwrap_or(place));
    order[place..].reverse();
    true
}

/// "of several, the one first"
pub fn first_order(transactions: &[Transaction]) -> Option<Vec<usize>> {
    let mut order: Vec<usize> = (0..transactions.len()).collect();
    while !succeeds(transactions, &order) {
        if !next_order(&mut order) {
            return None;
        }
    }
    Some(order)
}

/// As the host gets it: 1 and the positions in front of `order`, 0, or 65,536 × 22.
pub fn find_order(words: &[u32], order: &mut [u8]) -> u64 {
    let found = match judge(words) {
        Ok(transactions) if transactions.len() <= order.len() => first_order(&transactions),
        _ => return 65536 * Refusal::Export as u64,
    };
    match found {
        Some(positions) => {
            order.iter_mut().zip(positions).for_each(|(byte, position)| *byte = position as u8);
            1
        }
        None => 0,
    }
}
