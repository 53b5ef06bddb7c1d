//! The situations met so far, as bytes, each once; and the steps between them.

const CHUNK: usize = 1 << 20;

/// A step from a situation: where it leads, who sent, which claims it concerns.
#[derive(Clone, Copy)]
pub struct Edge {
    pub to: u32,
    /// The pane's place, or TICK, in the low byte; then a bit for each claim.
    meta: u32,
}

pub const TICK: usize = 255;

impl Edge {
    pub fn new(to: u32, sender: usize, claims: u32) -> Edge {
        Edge { to, meta: sender as u32 | claims << 8 }
    }

    pub fn sender(self) -> usize {
        (self.meta & 255) as usize
    }

    pub fn concerns(self, claim: usize) -> bool {
        self.meta >> (8 + claim) & 1 == 1
    }
}

#[derive(Default)]
pub struct Store {
    chunks: Vec<Vec<u8>>,
    /// Of each situation: chunk, place in it, length.
    spans: Vec<(u32, u32, u32)>,
    /// Situation plus one and a part of its hash, in a table of twice as many places at least.
    table: Vec<(u32, u32)>,
    /// The situation from which each was met first, and who sent.
    pub parents: Vec<(u32, u8)>,
    /// The panes that wait, a bit for each.
    pub waiting: Vec<u16>,
    /// Where each situation's steps begin; one more than situations that were looked at.
    pub firsts: Vec<u32>,
    pub edges: Vec<Edge>,
}

fn hash(bytes: &[u8]) -> u64 {
    const FACTOR: u64 = 0x9e37_79b9_7f4a_7c15;
    let mut sum = bytes.len() as u64;
    let mut chunks = bytes.chunks_exact(8);
    for chunk in &mut chunks {
        let word = u64::from_le_bytes(chunk.try_into().unwrap_or_default());
        sum = (sum ^ word).wrapping_mul(FACTOR);
        sum ^= sum >> 29;
    }
    for &byte in chunks.remainder() {
        sum = (sum ^ u64::from(byte)).wrapping_mul(FACTOR);
        sum ^= sum >> 31;
    }
    sum = sum.wrapping_mul(FACTOR);
    sum ^ sum >> 32
}

/// Makes room a quarter at a time: doubling would take more than is needed.
fn room<T>(list: &mut Vec<T>) {
    if list.len() == list.capacity() {
        list.reserve_exact(list.len() / 4 + 1024);
    }
}

impl Store {
    pub fn len(&self) -> usize {
        self.spans.len()
    }

    pub fn is_empty(&self) -> bool {
        self.spans.is_empty()
    }

    pub fn bytes(&self, situation: usize) -> &[u8] {
        let (chunk, at, length) = self.spans[situation];
        &self.chunks[chunk as usize][at as usize..(at + length) as usize]
    }

    /// Bytes in use.
    pub fn memory(&self) -> usize {
        self.chunks.len() * CHUNK
            + self.spans.capacity() * 12
            + self.table.len() * 8
            + self.parents.capacity() * 8
            + self.waiting.capacity() * 2
            + self.firsts.capacity() * 4
            + self.edges.capacity() * 8
    }

    fn grow_table(&mut self) {
        let places = (self.table.len() * 2).max(1 << 12);
        let mut table = vec![(0u32, 0u32); places];
        for situation in 0..self.len() {
            let full = hash(self.bytes(situation));
            let mut at = full as usize & (places - 1);
            while table[at].0 != 0 {
                at = (at + 1) & (places - 1);
            }
            table[at] = (situation as u32 + 1, (full >> 32) as u32);
        }
        self.table = table;
    }

    fn push_bytes(&mut self, bytes: &[u8]) {
        if self.chunks.last().is_none_or(|chunk| chunk.len() + bytes.len() > CHUNK) {
            self.chunks.push(Vec::with_capacity(CHUNK.max(bytes.len())));
        }
        let place = self.chunks.len() - 1;
        let chunk = &mut self.chunks[place];
        room(&mut self.spans);
        self.spans.push((place as u32, chunk.len() as u32, bytes.len() as u32));
        chunk.extend_from_slice(bytes);
    }

    /// The situation with these bytes, and whether it is new.
    pub fn insert(&mut self, bytes: &[u8], parent: (u32, u8), waiting: u16) -> (u32, bool) {
        if 2 * (self.len() + 1) > self.table.len() {
            self.grow_table();
        }
        let full = hash(bytes);
        let (mask, tag) = (self.table.len() - 1, (full >> 32) as u32);
        let mut at = full as usize & mask;
        while self.table[at].0 != 0 {
            let (known, known_tag) = self.table[at];
            if known_tag == tag && self.bytes(known as usize - 1) == bytes {
                return (known - 1, false);
            }
            at = (at + 1) & mask;
        }
        let new = self.len() as u32;
        self.table[at] = (new + 1, tag);
        self.push_bytes(bytes);
        room(&mut self.parents);
        self.parents.push(parent);
        room(&mut self.waiting);
        self.waiting.push(waiting);
        (new, true)
    }

    /// The steps of the next situation begin here.
    pub fn begin(&mut self) {
        room(&mut self.firsts);
        self.firsts.push(self.edges.len() as u32);
    }

    pub fn add(&mut self, edge: Edge) {
        room(&mut self.edges);
        self.edges.push(edge);
    }

    /// Situations that were looked at.
    pub fn looked_at(&self) -> usize {
        self.firsts.len().saturating_sub(1)
    }

    /// The steps from a situation; none of one that was not looked at.
    pub fn steps(&self, situation: usize) -> &[Edge] {
        match (self.firsts.get(situation), self.firsts.get(situation + 1)) {
            (Some(&begin), Some(&end)) => &self.edges[begin as usize..end as usize],
            _ => &[],
        }
    }

    /// The senders on the way from the beginning to a situation.
    pub fn way(&self, mut situation: usize) -> Vec<usize> {
        let mut way = Vec::new();
        while situation != 0 {
            let (parent, sender) = self.parents[situation];
            way.push(sender as usize);
            situation = parent as usize;
        }
        way.reverse();
        way
    }
}
