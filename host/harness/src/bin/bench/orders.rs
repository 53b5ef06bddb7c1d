//! Times of the search for an order (document 02, T-12): the library's, the reference's, which tries every order, and a
//! tuned one.

use crate::table::{line, Form};
use crate::times::{rows, Row, Spread};
use harness::orders::words_of;
use reference::order::{Action, Transaction, MOST_ACTIONS, MOST_TRANSACTIONS};
use std::path::PathBuf;
use std::time::Instant;
use Action::{Read, Take, Write};

type Find = fn(&[u32], &mut [u8]) -> u64;
type Each<T> = [T; 3];

const HERE: usize = 0;
const PLAIN: usize = 1;
const TUNED: usize = 2;

const CONTENDERS: Each<Find> = [tray::boundary::find_order, reference::order::find_order, tuned::order::find_order];

/// Turns in a row of a run; the median of their times counts.
const TURNS: usize = 31;
/// ns that a turn takes at least: a call is repeated so often.
const TURN: f64 = 20_000.0;

const ABOUT: &str = "\
here: the proved library; plain: host/reference, which tries every order; tuned: host/tuned, place by place with the set
as bits. The code of each program lies elsewhere in memory. A run is a process that times each load, the three in turn.
A ratio is taken within a run. By placement: the least and the greatest of the programs' own medians of the ratio.";

/// Six transactions, and what is to come of them.
struct Load {
    name: &'static str,
    words: Vec<u32>,
    returned: u64,
    order: Order,
}

type Order = [u8; MOST_TRANSACTIONS];
const UNTOUCHED: Order = [9; MOST_TRANSACTIONS];
const FIRST: (u64, Order) = (1, [0, 1, 2, 3, 4, 5]);
const LAST_ALONE: (u64, Order) = (1, [5, 4, 3, 2, 1, 0]);
const NONE: (u64, Order) = (0, UNTOUCHED);
const REFUSED: (u64, Order) = (65536 * 22, UNTOUCHED);

fn load(name: &'static str, (returned, order): (u64, Order), transaction: impl Fn(u32) -> Transaction) -> Load {
    let transactions: Vec<Transaction> = (0..MOST_TRANSACTIONS as u32).map(transaction).collect();
    Load { name, words: words_of(&transactions), returned, order }
}

/// So many numbers of its own.
fn writes(position: u32, count: usize) -> Transaction {
    (0..count as u32).map(|place| Write(100 * position + place)).collect()
}

const LAST: u32 = MOST_TRANSACTIONS as u32 - 1;
const NOBODYS: u32 = 9999;
const FULL: usize = MOST_ACTIONS;

/// Seven writes, and a take of what the transaction behind it wrote first: only the last order succeeds.
fn backwards(position: u32) -> Transaction {
    let mut actions = writes(position, FULL - 1);
    actions.push(if position == LAST { Read(100 * position) } else { Take(100 * (position + 1)) });
    actions
}

/// The same, with the take in front.
fn backwards_at_once(position: u32) -> Transaction {
    let mut actions = backwards(position);
    if position < LAST {
        actions.rotate_right(1);
    }
    actions
}

/// Writes, but for one transaction, whose last action finds nothing.
fn failing(at: u32) -> impl Fn(u32) -> Transaction {
    move |position| match position == at {
        true => [writes(position, FULL - 1), vec![Take(NOBODYS)]].concat(),
        false => writes(position, FULL),
    }
}

/// Two writes, and look-ups of its own and of what the one before wrote; one of that is taken.
fn dense(position: u32) -> Transaction {
    let own = 100 * position;
    let other = own.saturating_sub(100);
    let taken = if position == 0 { Read(own + 1) } else { Take(other + 1) };
    vec![Write(own), Write(own + 1), Read(own), Read(other), Read(own + 1), taken, Read(other), Read(own)]
}

/// The same numbers, each needing what comes behind it too: a ring.
fn dense_ring(position: u32) -> Transaction {
    let mut actions = dense(position);
    actions[FULL - 1] = Read(100 * ((position + 1) % MOST_TRANSACTIONS as u32));
    actions
}

#[rustfmt::skip]
fn loads() -> Vec<Load> {
    vec![
        load("6 × 1, the first order succeeds", FIRST, |position| writes(position, 1)),
        load("6 × 8, the first order succeeds", FIRST, |position| writes(position, FULL)),
        load("6 × 8, dense, the first order alone", FIRST, dense),
        load("6 × 8, the last order alone, others fail at once", LAST_ALONE, backwards_at_once),
        load("6 × 8, the last order alone, others fail late", LAST_ALONE, backwards),
        load("6 × 8, none: nothing can be the first", NONE, |_| vec![Read(NOBODYS); FULL]),
        load("6 × 8, none: dense, a ring", NONE, dense_ring),
        load("6 × 8, none: the first transaction alone fails", NONE, failing(0)),
        load("6 × 8, none: the last transaction alone fails", NONE, failing(LAST)),
        load("6 × 8, refused: the last action writes again", REFUSED, |position| match position {
            LAST => [writes(position, FULL - 1), vec![Write(0)]].concat(),
            _ => writes(position, FULL),
        }),
    ]
}

fn timed(find: Find, words: &[u32], calls: usize) -> f64 {
    let mut order = UNTOUCHED;
    let begin = Instant::now();
    for _ in 0..calls {
        std::hint::black_box(find(std::hint::black_box(words), std::hint::black_box(&mut order)));
    }
    begin.elapsed().as_nanos() as f64 / calls as f64
}

/// All three give what is to come.
fn check(load: &Load) {
    for find in CONTENDERS {
        let mut order = UNTOUCHED;
        let returned = find(&load.words, &mut order);
        assert_eq!((returned, order), (load.returned, load.order), "{}", load.name);
    }
}

/// ns a call of each, in turn.
fn time(words: &[u32]) -> Each<f64> {
    let calls = CONTENDERS.map(|find| (TURN / timed(find, words, 3).max(1.0)).ceil() as usize);
    let mut times: Each<Vec<f64>> = Default::default();
    for _ in 0..TURNS {
        for (place, times) in times.iter_mut().enumerate() {
            times.push(timed(CONTENDERS[place], words, calls[place]));
        }
    }
    times.map(|times| Spread::of(times.into_iter()).median)
}

/// One run: a line for each load, with the ns of each.
pub fn run() {
    for load in loads() {
        check(&load);
        println!("{}", time(&load.words).map(|time| time.to_string()).join(" "));
    }
}

pub fn print(form: Form, runs: usize, programs: &[PathBuf]) {
    let loads = loads();
    let rows = rows("run-order", loads.len(), runs, programs);
    println!("ns a call, medians over {runs} runs of each of {} programs [quartiles].\n{ABOUT}", programs.len());
    let columns = ["here", "plain", "here / plain", "by placement", "tuned", "here / tuned", "by placement"];
    let mut lines = vec![line("transactions × actions", columns.map(str::to_string).to_vec())];
    lines.extend(loads.iter().zip(&rows).map(|(load, row)| line(load.name, cells(row))));
    form.print_table(&lines);
}

fn cells(row: &Row<{ CONTENDERS.len() }>) -> Vec<String> {
    let mut cells = vec![row.over_all(|run| run[HERE]).shown(0)];
    for place in [PLAIN, TUNED] {
        let ratio = |run: &Each<f64>| run[HERE] / run[place];
        cells.push(format!("{:.0}", row.over_all(|run| run[place]).median));
        cells.extend([row.over_all(ratio).shown(2), row.by_program(ratio)]);
    }
    cells
}
