//! The trays that are timed.

use harness::frames::{create_frame, ending_frame, long_frame, tick_frame};
use harness::random::Random;
use reference::frame::{Fields, FOREVER, NONE};
use reference::space::Space;

/// How full the tables are kept. With sixteen look-ups waiting every party waits, and only ticks are carried out.
struct Fill {
    name: &'static str,
    entries: u32,
    transactions: u8,
    waiting: u8,
}

const FILLS: [Fill; 2] = [
    Fill { name: "a quarter: 16 stored, 2 live, 4 waiting", entries: 16, transactions: 2, waiting: 4 },
    Fill { name: "full: 64 stored, 8 live, 12 waiting", entries: 64, transactions: 8, waiting: 12 },
];

pub struct Load {
    pub group: String,
    pub name: String,
    /// Frames that fill the tables; their time is taken off.
    pub setup: Vec<Vec<u8>>,
    pub frames: Vec<Vec<u8>>,
}

/// Every row of the table.
pub fn all_loads() -> Vec<Load> {
    let mut loads: Vec<Load> = FILLS.iter().map(mix).collect();
    loads.extend(FILLS.iter().flat_map(singles));
    loads.extend([10, 20, 50, 100, 200, 500, 1000, 2000].map(rounds));
    loads
}

/// The party that sends single frames; it never waits and owns transaction 1.
const SENDER: u8 = 1;
/// A kind that no stored entry has.
const ABSENT: Fields = [99, 0, 0, 0];

fn write(party: u8, transaction: u32, lease: u32, fields: Fields) -> Vec<u8> {
    long_frame(1, party, 0, transaction, lease, fields)
}

/// A look-up by kind.
fn look_up(operation: u8, party: u8, transaction: u32, timeout: u32, kind: u32) -> Vec<u8> {
    long_frame(operation, party, 1, transaction, timeout, [kind, 0, 0, 0])
}

/// Entry k has kind k. Each transaction but the first has read one entry, and one entry is private.
fn filled(fill: &Fill, entries: u32, transactions: u8) -> Vec<Vec<u8>> {
    let mut frames: Vec<Vec<u8>> = (1..=entries).map(|k| write(SENDER, NONE, FOREVER, [k, k % 2, 40, k])).collect();
    for number in 1..=transactions {
        let owner = if number == 1 { SENDER } else { 17 - number };
        frames.push(create_frame(owner, FOREVER));
        if number > 1 {
            frames.push(look_up(2, owner, u32::from(number), 0, u32::from(number)));
        }
    }
    for party in 2..2 + fill.waiting {
        let kind = 100 + u32::from(party);
        frames.push(look_up(2 + party % 2, party, NONE, FOREVER, kind));
    }
    frames
}

fn repeated(frames: &[Vec<u8>], count: usize) -> Vec<Vec<u8>> {
    frames.iter().cloned().cycle().take(count).collect()
}

/// Each of the single kinds at this fill.
fn singles(fill: &Fill) -> Vec<Load> {
    let n = fill.entries;
    let full = filled(fill, n, fill.transactions);
    let one_less = filled(fill, n - 1, fill.transactions);
    let one_less_live = filled(fill, n, fill.transactions - 1);
    let first = u32::from(fill.transactions);
    let pairs = |operation: u8| -> Vec<Vec<u8>> {
        (0..700).flat_map(|k| [create_frame(SENDER, 5), ending_frame(operation, SENDER, first + k)]).collect()
    };
    let many = |frames: &[Vec<u8>]| repeated(frames, 1500);
    let group = format!("single kinds, {}", fill.name);
    let load = |name: &str, setup: &Vec<Vec<u8>>, frames| Load {
        group: group.clone(),
        name: name.to_string(),
        setup: setup.clone(),
        frames,
    };
    vec![
        load("refused: length (3)", &full, many(&[vec![1, 1, 0]])),
        load("refused: transaction not live (7)", &full, many(&[ending_frame(7, SENDER, 5000)])),
        load("read, the last entry found", &full, many(&[look_up(2, SENDER, NONE, 0, n)])),
        load("read inside, the last entry found", &full, many(&[look_up(2, SENDER, 1, 0, n)])),
        load("read, nothing", &full, many(&[long_frame(2, SENDER, 1, NONE, 0, ABSENT)])),
        load("takeIfExists with a timeout, nothing", &full, many(&[long_frame(5, SENDER, 1, NONE, 5, ABSENT)])),
        load(
            "write, take (by turns)",
            &one_less,
            many(&[write(SENDER, NONE, 9, ABSENT), look_up(3, SENDER, NONE, 0, 99)]),
        ),
        load(
            "write, take inside (by turns)",
            &one_less,
            many(&[write(SENDER, 1, 9, ABSENT), look_up(3, SENDER, 1, 0, 99)]),
        ),
        load(
            "take waits, write serves it (by turns)",
            &one_less,
            many(&[look_up(3, 16, NONE, 5, 99), write(SENDER, NONE, 9, ABSENT)]),
        ),
        load("create, commit (by turns)", &one_less_live, pairs(7)),
        load("create, abort (by turns)", &one_less_live, pairs(8)),
        load("tick, nothing ends", &full, many(&[tick_frame()])),
        load("write with lease 1, tick (by turns)", &one_less, many(&[write(SENDER, NONE, 1, ABSENT), tick_frame()])),
    ]
}

/// Writes, look-ups in and out of transactions, waits, ticks, commits and aborts, with the tables kept at this fill.
fn mix(fill: &Fill) -> Load {
    let mut random = Random::new(1);
    let mut space = Space::new();
    let mut scratch = vec![0; 700];
    let (mut setup, mut frames) = (Vec::new(), Vec::new());
    while frames.len() < 1400 {
        let frame = mixed_frame(&mut random, &space, fill);
        space.step(&frame, &mut scratch);
        if setup.len() < 300 {
            setup.push(frame);
        } else {
            frames.push(frame);
        }
    }
    Load { group: "mix".to_string(), name: fill.name.to_string(), setup, frames }
}

fn mixed_frame(random: &mut Random, space: &Space, fill: &Fill) -> Vec<u8> {
    let free: Vec<u8> = (1..=16).filter(|&party| !space.waiting.iter().any(|w| w.party == party)).collect();
    let party = random.pick(&free);
    let own: Vec<u32> = space.transactions.iter().filter(|t| t.owner == party).map(|t| t.number).collect();
    let inside = if own.is_empty() || random.percent(40) { NONE } else { random.pick(&own) };
    let kind = random.between(1, 20);
    let fields = [kind, kind % 2, 40, 9];
    let template = |operation: u8, timeout: u32, mask: u8| {
        let asked = std::array::from_fn(|i| if mask >> i & 1 == 1 { fields[i] } else { 0 });
        long_frame(operation, party, mask, inside, timeout, asked)
    };
    let mask = random.pick(&[1, 1, 3, 5, 7, 9, 15]);
    let lease = random.pick(&[30, 100, FOREVER]);
    let stored = space.entries.len() as u32;
    match random.below(100) {
        // kept at the fill: a write below it, a take at it
        0..=34 if stored < fill.entries => write(party, inside, lease, fields),
        0..=34 => template(3, 0, mask),
        35..=54 => template(random.pick(&[2, 4]), 0, mask),
        55..=69 => template(random.pick(&[3, 5]), 0, mask),
        70..=77 if (space.waiting.len() as u8) < fill.waiting => {
            look_up(random.pick(&[2, 3]), party, inside, random.between(2, 20), 21 + kind)
        }
        70..=77 => write(party, NONE, 1, [21 + kind, 0, 0, 0]),
        78..=89 if (space.transactions.len() as u8) < fill.transactions => create_frame(party, random.between(5, 40)),
        78..=89 => {
            let ended = random.pick(&space.transactions.iter().map(|t| (t.owner, t.number)).collect::<Vec<_>>());
            ending_frame(random.pick(&[7, 7, 8]), ended.0, ended.1)
        }
        _ => tick_frame(),
    }
}

/// A round that leaves the space as empty as it was, repeated; so a frame costs the same wherever it stands.
fn rounds(frames: usize) -> Load {
    let round = |k: u32| {
        [
            write(1, NONE, FOREVER, [1, 0, 0, 0]),
            write(1, NONE, FOREVER, [2, 0, 0, 0]),
            create_frame(2, FOREVER),
            look_up(2, 2, k, 0, 1),
            look_up(3, 2, k, 0, 1),
            look_up(3, 3, NONE, FOREVER, 1),
            look_up(4, 4, NONE, 0, 2),
            tick_frame(),
            ending_frame(8, 2, k),
            look_up(5, 5, NONE, 0, 2),
        ]
    };
    let group = "one round of 10 frames, repeated: a whole tray".to_string();
    let frames: Vec<Vec<u8>> = (1..).flat_map(round).take(frames).collect();
    Load { group, name: format!("{} frames", frames.len()), setup: Vec::new(), frames }
}
