//! Study exports as text and as words, and the order that accounts for one (document 02, T-12). Which order that is,
//! the library says (`boundary`); `tell` words it.

pub mod tell;

use crate::boundary::find_order;
use crate::line::{Fault, Line};

#[derive(Clone, Copy, PartialEq, Eq, Debug)]
pub enum Kind {
    Write = 1,
    Read = 2,
    Take = 3,
}

const KINDS: [(Kind, &str); 3] = [(Kind::Write, "write"), (Kind::Read, "read"), (Kind::Take, "take")];

impl Kind {
    pub fn name(self) -> &'static str {
        KINDS[self as usize - 1].1
    }
}

/// A write of an entry, or a read or a take that found it.
#[derive(Clone, Copy, PartialEq, Eq, Debug)]
pub struct Action {
    pub kind: Kind,
    pub number: u32,
}

impl Action {
    /// "take 3"
    pub fn text(&self) -> String {
        format!("{} {}", self.kind.name(), self.number)
    }
}

pub type Transaction = Vec<Action>;

/// The line of a transaction without actions.
const NOTHING: &str = "nothing";
const ACTION: &str = "`write N`, `read N` or `take N`, more of these behind commas, or `nothing` for a transaction \
                      without actions";

/// "write 1, read 2, take 3"; "nothing"
pub fn line_of(actions: &Transaction) -> String {
    match actions.is_empty() {
        true => NOTHING.to_string(),
        false => actions.iter().map(Action::text).collect::<Vec<String>>().join(", "),
    }
}

fn action(mut part: Line) -> Result<Action, Fault> {
    let named = KINDS.into_iter().find(|(_, name)| part.passes(name));
    let (kind, name) = named.ok_or_else(|| match part.peek() {
        Some("party" | "tick" | "bytes") => {
            Fault::new(part.number, "expected an export, found the text of a tray (`tray run` runs it)")
        }
        _ => part.expected(ACTION),
    })?;
    let number = part.number(&format!("the number of an entry, 0 to {}, behind `{name}`", u32::MAX))?;
    match part.peek() {
        None => Ok(Action { kind, number }),
        Some(_) => Err(part.expected("a comma or the end of the line")),
    }
}

/// A transaction to a line; empty lines and comments are passed over.
pub fn parse(text: &str) -> Result<Export, Fault> {
    let mut transactions = Vec::new();
    for (place, whole) in text.lines().enumerate() {
        let line = Line::new(place + 1, whole);
        match line.text {
            "" => {}
            NOTHING => transactions.push(Vec::new()),
            text => transactions
                .push(text.split(',').map(|part| action(Line::new(place + 1, part))).collect::<Result<_, _>>()?),
        }
    }
    Ok(Export { transactions })
}

/// What the library says.
#[derive(Clone, PartialEq, Eq, Debug)]
pub enum Found {
    Order(Vec<usize>),
    None,
    Refused(u64),
}

#[derive(Clone, PartialEq, Eq, Debug)]
pub struct Export {
    pub transactions: Vec<Transaction>,
}

impl Export {
    /// As the library wants it.
    pub fn words(&self) -> Vec<u32> {
        let mut words = vec![self.transactions.len() as u32];
        for actions in &self.transactions {
            words.push(actions.len() as u32);
            words.extend(actions.iter().flat_map(|action| [action.kind as u32, action.number]));
        }
        words
    }

    /// As the program `study_order` reads it.
    pub fn bytes(&self) -> Vec<u8> {
        self.words().into_iter().flat_map(u32::to_le_bytes).collect()
    }

    pub fn find(&self) -> Found {
        let mut order = vec![0; self.transactions.len()];
        match find_order(&self.words(), &mut order) {
            0 => Found::None,
            1 => Found::Order(order.into_iter().map(usize::from).collect()),
            returned => Found::Refused(returned / 65536),
        }
    }

    /// The transactions at these positions alone.
    fn part(&self, positions: &[usize]) -> Export {
        Export { transactions: positions.iter().map(|&position| self.transactions[position].clone()).collect() }
    }

    /// The longest beginning that succeeds; of several the first, place by place. Empty if nothing can be the first.
    pub fn longest_beginning(&self) -> Vec<usize> {
        let count = self.transactions.len();
        let chosen = |bits: u32| -> Vec<usize> { (0..count).filter(|position| bits >> position & 1 == 1).collect() };
        let ordered = (0..1u32 << count).filter_map(|bits| {
            let positions = chosen(bits);
            match self.part(&positions).find() {
                Found::Order(order) => Some(order.into_iter().map(|place| positions[place]).collect()),
                _ => None,
            }
        });
        let further = |best: Vec<usize>, next: Vec<usize>| match next.len().cmp(&best.len()).then(best.cmp(&next)) {
            std::cmp::Ordering::Greater => next,
            _ => best,
        };
        ordered.fold(Vec::new(), further)
    }
}
