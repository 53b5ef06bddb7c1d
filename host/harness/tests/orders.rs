//! The comparison of searches finds wrong ones, shows each in as little as it needs, and the reference is right where
//! that can be told by hand.

use harness::orders::{compare, words_of, Coverage, Discrepancy, Search};
use reference::order::{find_order, first_order, judge, next_order, succeeds, transactions};
use reference::order::{Action, Transaction, MOST_ACTIONS, MOST_TRANSACTIONS};
use std::collections::{BTreeMap, BTreeSet};
use tray::order::parse;

const REFUSED: u64 = 65536 * 22;

/// The order that `choose` makes of what is handed in.
fn answer(words: &[u32], order: &mut [u8], choose: impl Fn(&[Transaction]) -> Option<Vec<usize>>) -> u64 {
    match judge(words) {
        Ok(transactions) if transactions.len() <= order.len() => put(choose(&transactions), order),
        _ => REFUSED,
    }
}

fn put(found: Option<Vec<usize>>, order: &mut [u8]) -> u64 {
    let Some(positions) = found else { return 0 };
    order.iter_mut().zip(positions).for_each(|(byte, position)| *byte = position as u8);
    1
}

/// All orders, the first in front.
fn orders(count: usize) -> Vec<Vec<usize>> {
    let mut orders = vec![(0..count).collect::<Vec<usize>>()];
    let mut next = orders[0].clone();
    while next_order(&mut next) {
        orders.push(next.clone());
    }
    orders
}

/// The first order that is good by another rule: how often each number is there, and what an action makes of it; none
/// where that fails.
fn first_by(transactions: &[Transaction], rule: impl Fn(Action, i32) -> Option<i32>) -> Option<Vec<usize>> {
    orders(transactions.len()).into_iter().find(|order| {
        let mut set: BTreeMap<u32, i32> = BTreeMap::new();
        order.iter().flat_map(|&position| &transactions[position]).all(|&action| {
            let present = set.entry(action.number()).or_default();
            rule(action, *present).map(|after| *present = after).is_some()
        })
    })
}

/// The rule of the serial run.
fn right(action: Action, present: i32) -> Option<i32> {
    match action {
        Action::Write(_) => Some(present + 1),
        Action::Read(_) => (present > 0).then_some(present),
        Action::Take(_) => (present > 0).then_some(present - 1),
    }
}

fn of_each(transactions: &[Transaction], change: impl Fn(&Transaction) -> Transaction) -> Vec<Transaction> {
    transactions.iter().map(change).collect()
}

/// The look-ups first, or the writes.
fn sorted(actions: &Transaction, writes_first: bool) -> Transaction {
    let is_first = |action: &&Action| matches!(action, Action::Write(_)) == writes_first;
    let (first, then): (Vec<Action>, Vec<Action>) = actions.iter().partition(is_first);
    [first, then].concat()
}

/// With what is written twice written once only.
fn once(transactions: &[Transaction]) -> Vec<Transaction> {
    let mut written = BTreeSet::new();
    let mut keep = |action: &&Action| !matches!(action, Action::Write(_)) || written.insert(action.number());
    transactions.iter().map(|actions| actions.iter().filter(&mut keep).copied().collect()).collect()
}

/// An answer to other words.
fn with_words(words: &[u32], order: &mut [u8], change: impl Fn(&mut Vec<u32>)) -> u64 {
    let mut words = words.to_vec();
    change(&mut words);
    find_order(&words, order)
}

/// A limit is not kept to: what is beyond it is left out.
fn beyond(words: &[u32], order: &mut [u8], cut: impl Fn(&mut Vec<Transaction>)) -> u64 {
    with_words(words, order, |words| {
        if let Some(mut list) = transactions(words) {
            cut(&mut list);
            *words = words_of(&list);
        }
    })
}

/// One kind is read as another.
fn take_kind_for(words: &mut [u32], kind: u32, other: u32) {
    let mut at = 1;
    while at < words.len() {
        let behind = words.len().min(at + 1 + 2 * words[at] as usize);
        words[at + 1..behind].iter_mut().step_by(2).filter(|word| **word == kind).for_each(|word| *word = other);
        at = behind;
    }
}

fn found<S: Search>() -> Discrepancy {
    let mut coverage = Coverage::default();
    let found = (1..3000).find_map(|seed| compare::<S>(seed, &mut coverage).err());
    found.unwrap_or_else(|| panic!("{} is not found", S::NAME))
}

/// The case that is shown differs, nothing can be left out of it, and if it is a list, then its text stands for it.
fn shows<S: Search>() {
    let discrepancy = found::<S>();
    let (case, text) = (&discrepancy.case, discrepancy.to_string());
    assert!(discrepancy.ours != discrepancy.theirs && case.differs::<S>(), "{}:\n{text}", S::NAME);
    assert!(!case.shorter().iter().any(|shorter| shorter.differs::<S>()), "{}:\n{text}", S::NAME);
    let list = transactions(&case.words).is_some();
    assert!(!list || parse(&text).unwrap().words() == case.words, "{}:\n{text}", S::NAME);
    println!("{}:\n{text}", S::NAME);
}

/// A wrong search: its name, and what it answers.
macro_rules! wrong {
    ($($name:ident: |$words:ident, $order:ident| $answer:expr;)*) => {
        $(
            struct $name;
            impl Search for $name {
                const NAME: &'static str = stringify!($name);
                fn find_order($words: &[u32], $order: &mut [u8]) -> u64 {
                    $answer
                }
            }
        )*
        #[test]
        fn wrong_searches_are_found() {
            $(shows::<$name>();)*
        }
    };
}

wrong! {
    TheLastOrder: |words, order| answer(words, order, |transactions| {
        orders(transactions.len()).into_iter().rev().find(|order| succeeds(transactions, order))
    });
    ByTheLastPlaceFirst: |words, order| answer(words, order, |transactions| {
        let mut good: Vec<Vec<usize>> = orders(transactions.len());
        good.retain(|order| succeeds(transactions, order));
        good.into_iter().min_by_key(|order| order.iter().rev().copied().collect::<Vec<usize>>())
    });
    TakeBeforeItsWrite: |words, order| answer(words, order, |transactions| first_by(transactions, |action, present| {
        match action {
            Action::Take(_) => Some(present - 1),
            _ => right(action, present),
        }
    }));
    ReadBeforeItsWrite: |words, order| answer(words, order, |transactions| first_by(transactions, |action, present| {
        match action {
            Action::Read(_) => Some(present),
            _ => right(action, present),
        }
    }));
    TakesKeep: |words, order| answer(words, order, |transactions| first_by(transactions, |action, present| {
        match action {
            Action::Take(number) => right(Action::Read(number), present),
            _ => right(action, present),
        }
    }));
    ReadsTake: |words, order| answer(words, order, |transactions| first_by(transactions, |action, present| {
        match action {
            Action::Read(number) => right(Action::Take(number), present),
            _ => right(action, present),
        }
    }));
    OwnWritesUnseen: |words, order| answer(words, order, |transactions| {
        first_order(&of_each(transactions, |actions| sorted(actions, false)))
    });
    OwnActionsInAnyOrder: |words, order| answer(words, order, |transactions| {
        first_order(&of_each(transactions, |actions| sorted(actions, true)))
    });
    WrittenTwiceAccepted: |words, order| match transactions(words) {
        Some(list) if list.iter().all(|actions| actions.len() <= MOST_ACTIONS) => {
            find_order(&words_of(&once(&list)), order)
        }
        _ => find_order(words, order),
    };
    WrittenTwiceInOneAccepted: |words, order| match transactions(words) {
        Some(list) => find_order(&words_of(&of_each(&list, |actions| once(&[actions.clone()]).remove(0))), order),
        None => REFUSED,
    };
    NoneThoughOneSucceeds: |words, order| answer(words, order, |transactions| {
        first_order(transactions).filter(|order| order.len() < MOST_TRANSACTIONS || order[0] < MOST_TRANSACTIONS - 1)
    });
    GivesUpAtTheFirst: |words, order| answer(words, order, |transactions| {
        first_order(transactions).filter(|order| order.first().is_none_or(|&first| first == 0))
    });
    UnwrittenRefused: |words, order| match judge(words) {
        Ok(list) => {
            let all: Vec<Action> = list.into_iter().flatten().collect();
            match all.iter().all(|action| all.contains(&Action::Write(action.number()))) {
                true => find_order(words, order),
                false => REFUSED,
            }
        }
        Err(_) => REFUSED,
    };
    BytesBehindTouched: |words, order| {
        let returned = find_order(words, order);
        order.iter_mut().skip(words.first().map_or(0, |&count| count as usize)).for_each(|byte| *byte = 0);
        returned
    };
    TouchedByNone: |words, order| {
        let returned = find_order(words, order);
        order.iter_mut().take(usize::from(returned == 0)).for_each(|byte| *byte = 0);
        returned
    };
    TouchedByARefusal: |words, order| {
        let returned = find_order(words, order);
        order.iter_mut().take(usize::from(returned > 1)).for_each(|byte| *byte = 0);
        returned
    };
    CountedFromOne: |words, order| {
        let returned = find_order(words, order);
        let count = if returned == 1 { words[0] as usize } else { 0 };
        order.iter_mut().take(count).for_each(|byte| *byte += 1);
        returned
    };
    NothingIsNone: |words, order| if words == [0] { 0 } else { find_order(words, order) };
    SevenAccepted: |words, order| beyond(words, order, |list| list.truncate(MOST_TRANSACTIONS));
    NineAccepted: |words, order| beyond(words, order, |list| {
        list.iter_mut().for_each(|actions| actions.truncate(MOST_ACTIONS));
    });
    SixRefused: |words, order| if words.first() > Some(&5) { REFUSED } else { find_order(words, order) };
    LeftOverAccepted: |words, order| match (0..=words.len()).find(|&end| transactions(&words[..end]).is_some()) {
        Some(end) => find_order(&words[..end], order),
        None => REFUSED,
    };
    ShortWordsAccepted: |words, order| with_words(words, order, |words| {
        if words.len() == 1 {
            words.resize(1 + words[0].min(6) as usize, 0);
        }
    });
    KindZeroIsARead: |words, order| with_words(words, order, |words| take_kind_for(words, 0, 2));
    KindFourIsATake: |words, order| with_words(words, order, |words| take_kind_for(words, 4, 3));
    KindByItsLowByte: |words, order| with_words(words, order, |words| take_kind_for(words, 257, 1));
    ShortOrderFilled: |words, order| {
        let mut whole = [0; MOST_TRANSACTIONS];
        let returned = find_order(words, &mut whole);
        if returned == 1 {
            order.iter_mut().zip(whole).take(words[0] as usize).for_each(|(byte, position)| *byte = position);
        }
        returned
    };
    LongerOrderWanted: |words, order| match words.first() {
        Some(&count) if count as usize == order.len() => REFUSED,
        _ => find_order(words, order),
    };
}

#[test]
fn the_reference_is_right_by_hand() {
    let order = |text: &str| first_order(&judge(&parse(text).unwrap().words()).unwrap());
    let first = |text: &str| order(text).unwrap();
    assert_eq!(first("take 7, write 9\nread 9\nwrite 7\nread 7\nwrite 11"), [2, 3, 0, 1, 4]);
    assert_eq!(first(""), [0; 0]);
    assert_eq!(first("nothing\nnothing"), [0, 1]);
    assert_eq!(first("read 1\nwrite 1\nread 1"), [1, 0, 2]);
    assert_eq!(first("take 1\nwrite 1\nread 1"), [1, 2, 0]);
    assert_eq!(first("write 1, read 1, take 1"), [0]);
    for none in ["read 1", "write 1, take 1, read 1", "read 1, write 1", "write 1, read 2\nwrite 2, read 1"] {
        assert_eq!(order(none), None, "{none}");
    }
}

/// The orders come place by place, each once.
#[test]
fn all_orders_are_tried_in_turn() {
    for (count, all) in [(0, 1), (1, 1), (2, 2), (3, 6), (6, 720)] {
        let orders = orders(count);
        assert_eq!(orders.len(), all);
        assert!(orders.windows(2).all(|two| two[0] < two[1]), "{count}");
        assert!(orders.iter().all(|order| order.iter().collect::<BTreeSet<_>>().len() == count));
    }
}
