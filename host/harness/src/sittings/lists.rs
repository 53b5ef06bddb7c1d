//! Seeded random lists of trays: none to more than may be handed in, damaged ones and empty ones among them, long ones
//! where there are few.

use crate::frames::{create_frame, ending_frame, long_frame, tick_frame};
use crate::generate::Generator;
use crate::random::Random;
use reference::answer::STEP;
use reference::frame::{FOREVER, NONE};
use reference::sittings::MOST_TRAYS;
use reference::space::Space;
use reference::tray::{LONGEST_TRAY, MOST_FRAMES};
use tray::bytes::tray_of;

/// A frame of panes that wait again and again, many of them inside transactions, all for one kind of mark.
fn waiting_frame(random: &mut Random, guide: &Space, party: u8) -> Vec<u8> {
    let own = guide.transactions.iter().find(|live| live.owner == party).map(|live| live.number);
    let (inside, kind) = (own.unwrap_or(NONE), [1, 0, 0, 0]);
    let duration = if random.percent(20) { FOREVER } else { random.between(1, 6) };
    if guide.waiting.iter().any(|look_up| look_up.party == party) {
        return if random.percent(25) { ending_frame(8, party, inside) } else { tick_frame() };
    }
    match random.below(10) {
        0..=3 => long_frame(random.between(2, 5) as u8, party, 1, inside, duration, kind),
        4 | 5 => long_frame(1, party, 0, inside, duration, kind),
        6 | 7 if own.is_none() => create_frame(party, duration),
        6 => ending_frame(7, party, inside),
        7 => ending_frame(8, party, inside),
        _ => tick_frame(),
    }
}

fn waiting_tray(random: &mut Random, frames: usize) -> Vec<u8> {
    let parties = random.pick(&[2, 3, 5, 16]);
    let (mut guide, mut scratch) = (Space::new(), [0; STEP]);
    let next = |_| {
        let party = random.between(1, parties) as u8;
        let frame = waiting_frame(random, &guide, party);
        guide.step(&frame, &mut scratch);
        frame
    };
    tray_of(&(0..frames).map(next).collect::<Vec<Vec<u8>>>())
}

/// A sound tray, made too long, or cut off by a byte.
fn refused_tray(random: &mut Random, frames: usize) -> Vec<u8> {
    let mut tray = waiting_tray(random, frames);
    let length = if random.percent(30) { LONGEST_TRAY + 1 } else { tray.len() - 1 };
    tray.resize(length, 0);
    tray
}

/// A tray of at most so many frames.
pub fn any_tray(random: &mut Random, most: usize) -> Vec<u8> {
    let mut generator = Generator::new(random.number());
    let frames = if random.percent(60) { most } else { random.below(most + 1) };
    match random.below(20) {
        0 => tray_of(&[]),
        1 => refused_tray(random, frames),
        2 | 3 => {
            let tray = generator.sound_tray(frames);
            generator.damage(tray)
        }
        4..=11 => waiting_tray(random, frames),
        _ => generator.sound_tray(frames),
    }
}

/// How many trays, and how many frames each has at most.
fn sizes(random: &mut Random) -> (usize, usize) {
    let most = MOST_TRAYS as usize;
    match random.below(40) {
        0 => (0, 0),
        1 => (1, MOST_FRAMES as usize),
        2..=5 => (1 + random.below(3), 400),
        6..=9 => (most - 1 + random.below(4), 6),
        10..=14 => (8 + random.below(most - 9), 20),
        _ => (1 + random.below(7), random.pick(&[4, 12, 40, 100])),
    }
}

pub fn any_list(random: &mut Random) -> Vec<Vec<u8>> {
    let (trays, most) = sizes(random);
    let tray = if random.percent(4) { refused_tray } else { any_tray };
    (0..trays).map(|_| tray(random, most)).collect()
}
