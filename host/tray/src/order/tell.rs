//! The order of an export in words: the run, transaction by transaction; or why there is none; or why it is refused.

use super::{line_of, Action, Export, Found, Kind};
use crate::prose::refusal_words;
use std::collections::BTreeSet;

pub const MOST_TRANSACTIONS: usize = 6;
pub const MOST_ACTIONS: usize = 8;
const BAD_EXPORT: u64 = 22;

/// As the program prints it.
pub fn raw(found: &Found) -> String {
    match found {
        Found::Order(order) => positions(order) + "\n",
        Found::None => "none\n".to_string(),
        Found::Refused(number) => format!("refused {number}\n"),
    }
}

fn positions(order: &[usize]) -> String {
    order.iter().map(usize::to_string).collect::<Vec<String>>().join(" ")
}

/// The set of the serial run.
#[derive(Default)]
struct Set(BTreeSet<u32>);

impl Set {
    /// The action whose entry is missing, if one is.
    fn carry_out<'a>(&mut self, actions: &'a [Action]) -> Option<&'a Action> {
        actions.iter().find(|action| match action.kind {
            Kind::Write => !self.0.insert(action.number),
            Kind::Read => !self.0.contains(&action.number),
            Kind::Take => !self.0.remove(&action.number),
        })
    }

    fn words(&self) -> String {
        match self.0.is_empty() {
            true => "nothing".to_string(),
            false => self.0.iter().map(u32::to_string).collect::<Vec<String>>().join(", "),
        }
    }
}

/// What the proofs exclude: an order that is none or does not succeed, and a refusal or an acceptance without a reason.
pub fn fault(export: &Export, found: &Found) -> Option<&'static str> {
    let refused = !refusals(export).is_empty();
    match found {
        Found::Refused(number) if *number != BAD_EXPORT || !refused => Some("it is refused without a reason"),
        Found::Order(_) | Found::None if refused => Some("it is not refused"),
        Found::Order(order) if !accounts(export, order) => Some("the order does not account for it"),
        _ => None,
    }
}

fn accounts(export: &Export, order: &[usize]) -> bool {
    let (mut set, mut sorted) = (Set::default(), order.to_vec());
    sorted.sort_unstable();
    sorted == (0..export.transactions.len()).collect::<Vec<usize>>()
        && order.iter().all(|&position| set.carry_out(&export.transactions[position]).is_none())
}

/// The answer in words.
pub fn words(export: &Export, found: &Found) -> String {
    match found {
        Found::Order(order) if order.is_empty() => "order: there are no transactions\n".to_string(),
        Found::Order(order) => format!("order: {}\n{}", positions(order), run(export, order).0),
        Found::None => none(export),
        Found::Refused(number) => {
            let reasons = refusals(export).into_iter().map(|reason| format!("  {reason}\n")).collect::<String>();
            format!("{}\n{reasons}", refusal_words(u8::try_from(*number).unwrap_or(u8::MAX)))
        }
    }
}

/// The transactions at these positions, each with what is in the set then.
fn run(export: &Export, order: &[usize]) -> (String, Set) {
    let (mut set, mut words) = (Set::default(), String::new());
    for &position in order {
        let actions = &export.transactions[position];
        set.carry_out(actions);
        words += &format!("{position:>4}  {}\n        in the set: {}\n", line_of(actions), set.words());
    }
    (words, set)
}

/// Why no order succeeds, and how far one gets.
fn none(export: &Export) -> String {
    let reasons: String = reasons(export).into_iter().map(|reason| format!("  {reason}\n")).collect();
    let begun = export.longest_beginning();
    let (ran, set) = run(export, &begun);
    let all = export.transactions.len();
    let how_far = match begun.len() {
        0 => "no transaction can be the first:\n".to_string(),
        some => format!(
            "the longest beginning that succeeds has {some} of {all} transactions:\n{ran}no other can follow:\n"
        ),
    };
    let others = (0..all).filter(|position| !begun.contains(position));
    let others: String = others.map(|position| cannot_follow(export, position, &set)).collect();
    format!("no order succeeds\n{reasons}{how_far}{others}")
}

fn cannot_follow(export: &Export, position: usize, set: &Set) -> String {
    let actions = &export.transactions[position];
    let missing = Set(set.0.clone()).carry_out(actions);
    let missing = missing.map_or(String::new(), |action| format!("{} finds nothing", action.text()));
    format!("{position:>4}  {}\n        {missing}\n", line_of(actions))
}

/// What alone excludes every order, told from the export: an entry that nobody writes; a transaction that looks for an
/// entry before it writes it itself, or after it has taken it, or that the one who wrote it has taken itself; an entry
/// that two transactions take.
fn reasons(export: &Export) -> Vec<String> {
    let mut reasons = Vec::new();
    for (position, actions) in export.transactions.iter().enumerate() {
        for (place, action) in actions.iter().enumerate().filter(|(_, action)| action.kind != Kind::Write) {
            reasons.extend(reason(export, position, &actions[..place], action));
        }
    }
    reasons.dedup();
    reasons
}

fn reason(export: &Export, position: usize, earlier: &[Action], action: &Action) -> Option<String> {
    let Action { kind, number } = *action;
    let has = |actions: &[Action], kind: Kind| actions.contains(&Action { kind, number });
    let who = |kind: Kind| export.transactions.iter().position(|actions| has(actions, kind));
    let does = format!("transaction {position} {}s {number}", kind.name());
    match (who(Kind::Write), who(Kind::Take)) {
        (None, _) => Some(format!("{does}, which no transaction writes")),
        (Some(writer), _) if writer == position && !has(earlier, Kind::Write) => {
            Some(format!("{does} before it writes it, and no other writes it"))
        }
        _ if has(earlier, Kind::Take) => Some(format!("{does} after it has taken it")),
        (Some(writer), _) if writer != position && has(&export.transactions[writer], Kind::Take) => {
            Some(format!("{does}, which transaction {writer} writes and takes itself"))
        }
        (_, Some(other)) if kind == Kind::Take && other < position => {
            Some(format!("transactions {other} and {position} both take {number}"))
        }
        _ => None,
    }
}

/// "22 when more than 6 transactions, more than 8 actions, or a number written twice is handed in"
fn refusals(export: &Export) -> Vec<String> {
    let (mut reasons, mut written) = (Vec::new(), Vec::new());
    let count = export.transactions.len();
    if count > MOST_TRANSACTIONS {
        reasons.push(format!("{count} transactions: {MOST_TRANSACTIONS} at most"));
    }
    for (position, actions) in export.transactions.iter().enumerate() {
        if actions.len() > MOST_ACTIONS {
            reasons.push(format!("transaction {position} has {} actions: {MOST_ACTIONS} at most", actions.len()));
        }
        for Action { number, .. } in actions.iter().filter(|action| action.kind == Kind::Write) {
            match written.iter().find(|(_, earlier)| earlier == number) {
                Some((by, _)) if *by == position => {
                    reasons.push(format!("transaction {position} writes {number} twice"))
                }
                Some((by, _)) => reasons.push(format!("transactions {by} and {position} both write {number}")),
                None => written.push((position, *number)),
            }
        }
    }
    reasons
}
