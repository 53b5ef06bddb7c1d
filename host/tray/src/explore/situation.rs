//! A situation: the words of the space, the ticks so far, the place of each pane, and what the claims remember.

use crate::words::{Words, HEAD_WORDS, TABLES, WORDS};

/// Where a pane is: the line that it sends next, waits or listens on, the round, whether a bell has come since it last
/// listened, the transactions and entries it has names for.
pub const PLACE: usize = 0;
pub const ROUND: usize = 1;
pub const RANG: usize = 2;
pub const NAMES: usize = 3;

/// A pane that has stopped.
pub const STOPPED: u32 = 0;

#[derive(Clone)]
pub struct Situation {
    pub words: Words,
    pub ticks: u32,
    /// For each pane, one behind the other: place, round, bell, transactions and entries by name.
    states: Vec<u32>,
    /// Words of a pane's state.
    stride: usize,
    /// For each claim.
    pub memory: Vec<Vec<u32>>,
}

/// What a pane does at its line: it sends it next, its look-up waits, or it listens for a bell.
#[derive(Clone, Copy, PartialEq, Eq, Debug)]
pub enum Doing {
    Sends = 0,
    Waits = 1,
    Listens = 2,
}

const DOING_BITS: u32 = 2;

/// A place's word: the line counted from 1, and what the pane does there.
pub fn place(line: usize, doing: Doing) -> u32 {
    (line as u32 + 1) << DOING_BITS | doing as u32
}

impl Situation {
    /// For so many panes, with so many names at most.
    pub fn new(panes: usize, names: usize, claims: usize) -> Situation {
        let stride = NAMES + names;
        Situation { words: [0; WORDS], ticks: 0, states: vec![0; panes * stride], stride, memory: vec![vec![]; claims] }
    }

    fn panes(&self) -> usize {
        self.states.len() / self.stride
    }

    pub fn pane(&self, pane: usize) -> &[u32] {
        &self.states[pane * self.stride..(pane + 1) * self.stride]
    }

    pub fn pane_mut(&mut self, pane: usize) -> &mut [u32] {
        &mut self.states[pane * self.stride..(pane + 1) * self.stride]
    }

    pub fn copy_from(&mut self, other: &Situation) {
        self.words[..HEAD_WORDS].copy_from_slice(&other.words[..HEAD_WORDS]);
        for table in TABLES {
            let used = table.used(&other.words);
            self.words[used.clone()].copy_from_slice(&other.words[used]);
        }
        self.ticks = other.ticks;
        self.states.copy_from_slice(&other.states);
        self.memory.clone_from(&other.memory);
    }

    /// The line that the pane sends next, waits or listens on; none if it has stopped.
    pub fn line(&self, pane: usize) -> Option<usize> {
        match self.pane(pane)[PLACE] {
            STOPPED => None,
            place => Some((place >> DOING_BITS) as usize - 1),
        }
    }

    fn does(&self, pane: usize, doing: Doing) -> bool {
        let place = self.pane(pane)[PLACE];
        place != STOPPED && place % (1 << DOING_BITS) == doing as u32
    }

    pub fn waits(&self, pane: usize) -> bool {
        self.does(pane, Doing::Waits)
    }

    pub fn listens(&self, pane: usize) -> bool {
        self.does(pane, Doing::Listens)
    }

    pub fn can_send(&self, pane: usize) -> bool {
        self.does(pane, Doing::Sends)
    }

    pub fn waiting(&self) -> u16 {
        (0..self.panes()).fold(0, |mask, pane| mask | u16::from(self.waits(pane)) << pane)
    }

    pub fn all_stopped(&self) -> bool {
        self.states.chunks_exact(self.stride).all(|pane| pane[PLACE] == STOPPED)
    }

    pub fn stop(&mut self, pane: usize) {
        // What a stopped pane knew does not matter any more.
        self.pane_mut(pane).fill(0);
    }

    /// As bytes: equal situations have equal bytes. Rows not in use mean nothing and are left out.
    pub fn encode(&self, to: &mut Vec<u8>) {
        to.clear();
        self.words[..HEAD_WORDS].iter().for_each(|&word| put(to, word));
        for table in TABLES {
            self.words[table.used(&self.words)].iter().for_each(|&word| put(to, word));
        }
        put(to, self.ticks);
        self.states.iter().for_each(|&word| put(to, word));
        for memory in &self.memory {
            put(to, memory.len() as u32);
            memory.iter().for_each(|&word| put(to, word));
        }
    }

    pub fn decode(&mut self, bytes: &[u8]) {
        let mut bytes = bytes.iter();
        for word in &mut self.words[..HEAD_WORDS] {
            *word = get(&mut bytes);
        }
        for table in TABLES {
            let used = table.used(&self.words);
            for word in &mut self.words[used] {
                *word = get(&mut bytes);
            }
        }
        self.ticks = get(&mut bytes);
        for word in &mut self.states {
            *word = get(&mut bytes);
        }
        for memory in &mut self.memory {
            let length = get(&mut bytes);
            memory.clear();
            memory.extend((0..length).map(|_| get(&mut bytes)));
        }
    }
}

/// Seven bits to a byte, of the word plus one: FOREVER takes one byte, as small numbers do.
#[inline]
fn put(to: &mut Vec<u8>, word: u32) {
    let mut left = word.wrapping_add(1);
    while left >= 128 {
        to.push(left as u8 | 128);
        left >>= 7;
    }
    to.push(left as u8);
}

#[inline]
fn get(bytes: &mut std::slice::Iter<u8>) -> u32 {
    let (mut word, mut shift) = (0u32, 0);
    for &byte in bytes {
        word |= u32::from(byte & 127) << shift;
        if byte < 128 {
            break;
        }
        shift += 7;
    }
    word.wrapping_sub(1)
}
