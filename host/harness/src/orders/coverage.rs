//! How often each thing that can occur with exports has occurred.

use super::{Answer, Case};
use crate::seeds::{self, Situations};
use reference::order::{next_order, succeeds, transactions};
use reference::order::{Action, Transaction, MOST_ACTIONS, MOST_TRANSACTIONS};

const SITUATIONS: [&str; 60] = [
    "found",
    "none",
    "refused",
    "0 transactions, found",
    "1 transaction, found",
    "2 transactions, found",
    "3 transactions, found",
    "4 transactions, found",
    "5 transactions, found",
    "6 transactions, found",
    "1 transaction, none",
    "2 transactions, none",
    "3 transactions, none",
    "4 transactions, none",
    "5 transactions, none",
    "6 transactions, none",
    "6 transactions of 8 actions, found",
    "6 transactions of 8 actions, none",
    "a transaction without actions",
    "every order succeeds",
    "several orders succeed, not all",
    "one of many orders succeeds",
    "the first order succeeds",
    "the last order alone succeeds",
    "none: the first transactions succeed",
    "none: no transaction can be the first",
    "read of another's",
    "take of another's",
    "read of its own",
    "take of its own",
    "read before its own write",
    "take before its own write",
    "read after its own take",
    "take after its own take",
    "read of one that two read",
    "take of one that another takes",
    "read of one that another takes",
    "read of one that nobody writes",
    "take of one that nobody writes",
    "number 0",
    "number 4294967295",
    "order of 0 bytes, 0 transactions",
    "order as long as needed",
    "order longer, found",
    "order longer, none",
    "order too short, else found",
    "order too short, else none",
    "refused: 7 transactions or more",
    "refused: 9 actions or more",
    "refused: written twice in one",
    "refused: written twice in two",
    "refused: two of these",
    "refused: no words",
    "refused: words too few",
    "refused: words left over",
    "refused: kind 0",
    "refused: kind 4",
    "refused: a kind above 255",
    "refused: a huge number of transactions",
    "refused: a huge number of actions",
];

pub struct Coverage {
    pub exports: u64,
    situations: Situations,
}

impl Default for Coverage {
    fn default() -> Coverage {
        Coverage { exports: 0, situations: Situations::of(&SITUATIONS) }
    }
}

impl seeds::Coverage for Coverage {
    fn situations(&self) -> &Situations {
        &self.situations
    }
}

/// A number's writer, and how often a transaction other than this one reads and takes it.
struct Others {
    writer: Option<usize>,
    reads: usize,
    takes: usize,
}

fn others(transactions: &[Transaction], position: usize, number: u32) -> Others {
    let written = |actions: &Transaction| actions.contains(&Action::Write(number));
    let count = |wanted: Action| {
        let others = transactions.iter().enumerate().filter(|(at, _)| *at != position);
        others.filter(|(_, actions)| actions.contains(&wanted)).count()
    };
    let writer = transactions.iter().position(written);
    Others { writer, reads: count(Action::Read(number)), takes: count(Action::Take(number)) }
}

impl Coverage {
    fn note(&mut self, situation: &str, holds: bool) {
        self.situations.note(situation, holds);
    }

    /// An export, the reference's answer, and its transactions if they are accepted.
    pub fn count(&mut self, case: &Case, answer: &Answer, accepted: Option<&[Transaction]>) {
        self.exports += 1;
        let told = match answer.returned {
            1 => "found",
            0 => "none",
            _ => "refused",
        };
        self.note(told, true);
        match accepted {
            Some(transactions) if told == "refused" => self.too_short(transactions),
            Some(transactions) => self.answered(case, transactions, told),
            None => self.refused(&case.words),
        }
    }

    fn too_short(&mut self, transactions: &[Transaction]) {
        let found = reference::order::first_order(transactions).is_some();
        self.note("order too short, else found", found);
        self.note("order too short, else none", !found);
    }

    fn answered(&mut self, case: &Case, transactions: &[Transaction], told: &str) {
        let (count, room) = (transactions.len(), case.room);
        let many = if count == 1 { "transaction" } else { "transactions" };
        self.note(&format!("{count} {many}, {told}"), true);
        if count == MOST_TRANSACTIONS && transactions.iter().all(|actions| actions.len() == MOST_ACTIONS) {
            self.note(&format!("6 transactions of 8 actions, {told}"), true);
        }
        self.note("a transaction without actions", transactions.iter().any(Vec::is_empty));
        self.note("order of 0 bytes, 0 transactions", count == 0 && room == 0);
        self.note("order as long as needed", count == room);
        if count < room {
            self.note(&format!("order longer, {told}"), true);
        }
        for (position, actions) in transactions.iter().enumerate() {
            (0..actions.len()).for_each(|place| self.action(transactions, position, place));
        }
        // All orders are gone through for some exports only, since that takes long.
        if count < 5 || self.exports % 16 == 0 {
            self.orders(transactions);
        }
    }

    fn orders(&mut self, transactions: &[Transaction]) {
        let mut order: Vec<usize> = (0..transactions.len()).collect();
        let (mut all, mut good, mut last) = (1, 0, succeeds(transactions, &order));
        let first = last;
        good += usize::from(first);
        while next_order(&mut order) {
            last = succeeds(transactions, &order);
            (all, good) = (all + 1, good + usize::from(last));
        }
        self.note("every order succeeds", all > 1 && good == all);
        self.note("several orders succeed, not all", 1 < good && good < all);
        self.note("one of many orders succeeds", all > 20 && good == 1);
        self.note("the first order succeeds", all > 1 && first);
        self.note("the last order alone succeeds", all > 1 && good == 1 && last);
        let begins = |position: usize| succeeds(transactions, &[position]);
        let (none, count) = (good == 0, transactions.len());
        self.note("none: the first transactions succeed", none && (0..count).any(begins));
        self.note("none: no transaction can be the first", none && !(0..count).any(begins));
    }

    fn action(&mut self, transactions: &[Transaction], position: usize, place: usize) {
        let actions = &transactions[position];
        let (earlier, action) = (&actions[..place], actions[place]);
        let number = action.number();
        self.note("number 0", number == 0);
        self.note("number 4294967295", number == u32::MAX);
        let name = match action {
            Action::Write(_) => return,
            Action::Read(_) => "read",
            Action::Take(_) => "take",
        };
        let others = others(transactions, position, number);
        let own = others.writer == Some(position);
        let written = earlier.contains(&Action::Write(number));
        let taken = earlier.contains(&Action::Take(number));
        self.note(&format!("{name} of another's"), others.writer.is_some_and(|writer| writer != position));
        self.note(&format!("{name} of its own"), own && written && !taken);
        self.note(&format!("{name} before its own write"), own && !written);
        self.note(&format!("{name} after its own take"), taken);
        self.note(&format!("{name} of one that nobody writes"), others.writer.is_none());
        self.note(&format!("{name} of one that another takes"), others.takes > 0);
        if name == "read" {
            self.note("read of one that two read", others.reads > 0);
        }
    }

    /// Words that stand for no list, or for one that is not accepted.
    fn refused(&mut self, words: &[u32]) {
        match transactions(words) {
            Some(list) => self.not_accepted(&list),
            None => self.no_list(words),
        }
    }

    fn not_accepted(&mut self, transactions: &[Transaction]) {
        let (mut one, mut two) = (false, false);
        for (position, actions) in transactions.iter().enumerate() {
            for (place, &action) in actions.iter().enumerate().filter(|(_, action)| matches!(action, Action::Write(_)))
            {
                one |= actions[..place].contains(&action);
                two |= transactions[..position].iter().any(|earlier| earlier.contains(&action));
            }
        }
        let many = transactions.len() > MOST_TRANSACTIONS;
        let long = transactions.iter().any(|actions| actions.len() > MOST_ACTIONS);
        self.note("refused: 7 transactions or more", many);
        self.note("refused: 9 actions or more", long);
        self.note("refused: written twice in one", one);
        self.note("refused: written twice in two", two);
        self.note("refused: two of these", [many, long, one, two].iter().filter(|&&holds| holds).count() > 1);
    }

    fn no_list(&mut self, words: &[u32]) {
        self.note("refused: no words", words.is_empty());
        self.note("refused: a huge number of transactions", words.first().is_some_and(|&count| count > 255));
        let (mut at, mut behind) = (1, words.first().map_or(0, |&count| u64::from(count)));
        while behind > 0 && at < words.len() {
            let count = words[at] as usize;
            self.note("refused: a huge number of actions", count > 255);
            let Some(pairs) = words.get(at + 1..).filter(|rest| rest.len() >= 2 * count) else { break };
            for kind in pairs[..2 * count].iter().step_by(2) {
                self.note("refused: kind 0", *kind == 0);
                self.note("refused: kind 4", *kind == 4);
                self.note("refused: a kind above 255", *kind > 255);
            }
            (at, behind) = (at + 1 + 2 * count, behind - 1);
        }
        self.note("refused: words too few", behind > 0 && !words.is_empty());
        self.note("refused: words left over", behind == 0 && at < words.len());
    }
}
