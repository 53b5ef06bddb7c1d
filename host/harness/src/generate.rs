//! Seeded random frames and trays that make deep histories: several panes, few distinct kinds, short leases, ticks
//! anywhere, full tables, steps that set several entries free, blanks, renewals, registrations, arcs, garbled frames,
//! trays that reach their bounds, damaged trays, answers areas of odd lengths.

use crate::frames::{arc_word, create_frame, ending_frame, long_frame, notify_frame, renew_frame, tick_frame};
use crate::random::Random;
use reference::answer::{RECORD, STEP};
use reference::clock_face::{Arc, PLACES};
use reference::frame::{asks_arc, word, Fields, Mark, FOREVER, LAST_CLOCK, NONE, PLACE};
use reference::space::{End, Entry, Space};
use reference::tray::{LONGEST_TRAY, MOST_FRAMES};
use tray::bytes::tray_of;

/// What a history leans to.
#[derive(Clone, Copy)]
struct Lean {
    parties: u32,
    kinds: u32,
    longest: u32,
    /// Percentages.
    forever: usize,
    inside: usize,
    /// Of writes, in some live transaction, so that a commit brings several entries at once.
    gathered: usize,
    /// Of writes, with blanks.
    blank: usize,
    /// Of templates, with an arc; if there are any, marks are all over the clock face.
    arcs: usize,
    timeout_0: usize,
    if_exists: usize,
    takes: usize,
    commits: usize,
    stray: usize,
    /// Of frames, where somebody waits: one of those who wait tries to get out.
    escapes: usize,
    /// Of frames: renewals, notifies.
    renews: usize,
    notifies: usize,
    garbled: usize,
    /// Shares of write, look-up, create, commit or abort, tick.
    shares: [usize; 5],
}

impl Lean {
    fn draw(random: &mut Random) -> Lean {
        let mixed = Lean {
            parties: random.pick(&[2, 4, 6, 16]),
            kinds: random.pick(&[1, 2, 4]),
            longest: random.pick(&[2, 5, 20]),
            forever: random.pick(&[0, 10, 40]),
            inside: random.pick(&[0, 40, 80]),
            gathered: 0,
            blank: random.pick(&[0, 20, 60]),
            arcs: random.pick(&[0, 0, 0, 20, 60]),
            timeout_0: random.pick(&[10, 40, 80]),
            if_exists: random.pick(&[20, 50, 90]),
            takes: random.pick(&[20, 50, 80]),
            commits: random.pick(&[30, 60]),
            stray: random.pick(&[0, 2, 10]),
            escapes: random.pick(&[0, 3, 15]),
            renews: random.pick(&[0, 4, 15]),
            notifies: random.pick(&[0, 2, 8]),
            garbled: random.pick(&[0, 2, 15]),
            shares: [random.between(2, 8) as usize, random.between(2, 8) as usize, 2, 2, random.between(1, 4) as usize],
        };
        match random.below(10) {
            // many entries stored
            0 => Lean { forever: 80, takes: 15, timeout_0: 90, shares: [10, 4, 1, 1, 1], ..mixed },
            // many transactions live, with holds
            1 => Lean { parties: 16, longest: 40, inside: 80, timeout_0: 60, shares: [4, 8, 4, 1, 1], ..mixed },
            // many look-ups waiting
            2 => {
                Lean { parties: 16, kinds: 4, forever: 60, timeout_0: 3, takes: 80, shares: [1, 10, 1, 1, 1], ..mixed }
            }
            // several entries set free in one step, for look-ups that wait
            3 => Lean {
                parties: 16,
                kinds: random.pick(&[1, 2]),
                longest: 20,
                forever: 10,
                inside: random.pick(&[10, 40]),
                gathered: 95,
                timeout_0: 5,
                shares: [8, 6, 1, 1, 2],
                ..mixed
            },
            // IfExists look-ups that wait for what few transactions hold, and those end in every way
            4 => Lean {
                parties: 16,
                kinds: 4,
                longest: 8,
                inside: 60,
                gathered: 60,
                timeout_0: 20,
                if_exists: 95,
                escapes: 15,
                shares: [4, 8, 2, 2, 1],
                ..mixed
            },
            // marks that are renewed again and again, while others come, go and are held
            5 => {
                Lean { longest: 8, forever: 10, takes: 30, timeout_0: 60, renews: 40, shares: [4, 4, 1, 1, 4], ..mixed }
            }
            // registrations that come and go, while entries become public and are put back in every way
            6 => Lean {
                longest: 8,
                forever: random.pick(&[5, 40]),
                inside: 60,
                gathered: 40,
                timeout_0: 50,
                renews: 4,
                notifies: 20,
                shares: [8, 6, 2, 3, 3],
                ..mixed
            },
            // arcs, for marks at their ends and beside them
            7 => Lean {
                kinds: random.pick(&[1, 2]),
                longest: 20,
                gathered: random.pick(&[0, 40]),
                blank: random.pick(&[0, 20]),
                arcs: 90,
                timeout_0: random.pick(&[10, 40]),
                notifies: 6,
                shares: [6, 8, 1, 2, 1],
                ..mixed
            },
            _ => mixed,
        }
    }
}

pub struct Generator {
    pub random: Random,
    lean: Lean,
    /// Frames that come first, last one first.
    script: Vec<Vec<u8>>,
}

impl Generator {
    pub fn new(seed: u64) -> Generator {
        let mut random = Random::new(seed);
        let lean = Lean::draw(&mut random);
        let script = match random.below(25) {
            0 => longest_step(&mut random),
            1 | 2 => longest_ringing(&mut random),
            3 => fullest(&mut random),
            _ => Vec::new(),
        };
        Generator { random, lean, script }
    }

    /// The next frame; `guide` is a space that has been fed the frames before it.
    pub fn frame(&mut self, guide: &Space) -> Vec<u8> {
        if let Some(frame) = self.script.pop() {
            return frame;
        }
        let frame = match guide.waiting.len() {
            _ if self.random.percent(self.lean.renews) => self.renewal_frame(guide),
            _ if self.random.percent(self.lean.notifies) => self.registering_frame(guide),
            0 => self.sound_frame(guide),
            waiting if self.random.percent(self.lean.escapes) => {
                let look_up = &guide.waiting[self.random.below(waiting)];
                self.escape_frame(guide, look_up.party, look_up.transaction)
            }
            _ => self.sound_frame(guide),
        };
        if self.random.percent(self.lean.garbled) {
            self.garble(frame)
        } else {
            frame
        }
    }

    fn sound_frame(&mut self, guide: &Space) -> Vec<u8> {
        let Lean { shares, commits, .. } = self.lean;
        let Some(party) = self.party(guide) else { return tick_frame() };
        let mut draw = self.random.below(shares.iter().sum());
        let mut operation = 0;
        while draw >= shares[operation] {
            draw -= shares[operation];
            operation += 1;
        }
        match operation {
            0 => self.write_frame(guide, party),
            1 => self.look_up_frame(guide, party),
            2 => create_frame(party, self.duration(guide)),
            3 => {
                let ending = if self.random.percent(commits) { 7 } else { 8 };
                let live = guide.transactions.len();
                if live == 0 || self.random.percent(self.lean.stray) {
                    return ending_frame(ending, party, self.stray_transaction(guide));
                }
                let chosen = &guide.transactions[self.random.below(live)];
                ending_frame(ending, chosen.owner, chosen.number)
            }
            _ => tick_frame(),
        }
    }

    /// A party that waits ends a transaction: mostly the one that it waits in, or none; else another of its own, one of
    /// another's, or any.
    fn escape_frame(&mut self, guide: &Space, party: u8, inside: u32) -> Vec<u8> {
        let ending = if self.random.percent(90) { 8 } else { 7 };
        let own = self.random.percent(50);
        let others: Vec<u32> = guide
            .transactions
            .iter()
            .filter(|live| (live.owner == party) == own && live.number != inside)
            .map(|live| live.number)
            .collect();
        let transaction = match self.random.below(10) {
            0 => self.stray_transaction(guide),
            1..=4 if !others.is_empty() => self.random.pick(&others),
            _ => inside,
        };
        ending_frame(ending, party, transaction)
    }

    /// Of the marks with blanks a few are spoilt: a field that is not 0 where its bit says blank, or a mask above 15.
    fn write_frame(&mut self, guide: &Space, party: u8) -> Vec<u8> {
        let ((party, transaction), mut lease) = (self.writer(guide, party), self.duration(guide));
        let Mark { mut fields, blanks } = self.mark(guide);
        let mut mask = blanks;
        if blanks != 0 && self.random.percent(6) {
            if self.random.percent(50) {
                mask |= self.random.pick(&[16, 32, 64, 128]);
            } else {
                let field = self.random.pick(&fields_in(blanks));
                fields[field] = self.random.pick(&[1, 256, 1 << 31, u32::MAX]);
            }
            if self.random.percent(25) {
                lease = 0;
            }
        }
        long_frame(1, party, mask, transaction, lease, fields)
    }

    fn look_up_frame(&mut self, guide: &Space, party: u8) -> Vec<u8> {
        let Lean { takes, if_exists, .. } = self.lean;
        let operation = 2 + u8::from(self.random.percent(takes)) + 2 * u8::from(self.random.percent(if_exists));
        let transaction = self.transaction(guide, party);
        let timeout = self.timeout(guide);
        let (mask, fields) = self.template(guide);
        let frame = long_frame(operation, party, mask, transaction, timeout, fields);
        self.worsened(guide, frame)
    }

    /// Often one that a stored entry matches: mask and fields.
    fn template(&mut self, guide: &Space) -> (u8, Fields) {
        let mut mask = if self.random.percent(60) { 1 } else { self.random.below(16) as u8 };
        let like = match guide.entries.len() {
            0 => self.mark(guide),
            _ if self.random.percent(40) => self.mark(guide),
            stored => guide.entries[self.random.below(stored)].mark,
        };
        if self.random.percent(60) {
            mask &= !like.blanks; // else it may ask 0 of a blank
        }
        if self.random.percent(self.lean.arcs) {
            return self.arc_template(mask, like.fields);
        }
        (mask, cleared(like.fields, !mask))
    }

    /// The same, with an arc about the place. A few are spoilt: off the face, with bit 3 or one that no mask has, or
    /// with a field that is not asked for.
    fn arc_template(&mut self, mask: u8, like: Fields) -> (u8, Fields) {
        let mut mask = if self.random.percent(40) { 16 } else { mask & 7 | 16 };
        let mut fields = cleared(like, !mask);
        let mut arc = self.arc(like[PLACE]);
        let off = |random: &mut Random| random.pick(&[PLACES, PLACES, PLACES + 1, 1024, 65535]);
        match self.random.below(40) {
            0 => arc.start = off(&mut self.random),
            1 => arc.length = off(&mut self.random),
            2 => (arc.start, arc.length) = (off(&mut self.random), off(&mut self.random)),
            3 => mask |= self.random.pick(&[8, 8, 32, 64, 128]),
            4 => fields[self.random.below(PLACE)] = 1,
            _ => {}
        }
        fields[PLACE] = arc_word(arc);
        (mask, fields)
    }

    /// An arc about a place: it lies at an end, or just beside it, or anywhere.
    fn arc(&mut self, place: u32) -> Arc {
        let length = match self.random.below(8) {
            0 => 0,
            1 => PLACES - 1,
            2 => self.random.pick(&[1, PLACES - 2]),
            3 | 4 => self.random.below(PLACES as usize) as u32,
            _ => self.random.between(1, 60),
        };
        let behind = match self.random.below(8) {
            0 | 1 => 0,
            2 | 3 => length,
            4 => length + 1,
            5 => PLACES - 1, // just before the start
            _ => self.random.below(PLACES as usize) as u32,
        };
        Arc { start: (place % PLACES + PLACES - behind) % PLACES, length }
    }

    /// If a frame's arc is off the face, often something else is wrong as well: the order of the refusals matters then.
    fn worsened(&mut self, guide: &Space, mut frame: Vec<u8>) -> Vec<u8> {
        if !asks_arc(frame[2]) || Arc::of(word(&frame, 24)).judge().is_ok() {
            return frame;
        }
        match self.random.below(10) {
            0 => frame[1] = self.random.pick(&[0, 17, 255]),
            1..=3 if !guide.waiting.is_empty() => {
                frame[1] = guide.waiting[self.random.below(guide.waiting.len())].party
            }
            4 | 5 if frame[0] != 10 => frame[4..8].copy_from_slice(&self.stray_transaction(guide).to_le_bytes()),
            6 => frame[8..12].copy_from_slice(&self.random.pick(&[0, LAST_CLOCK]).to_le_bytes()),
            7 => frame[3] = 1,
            _ => {}
        }
        frame
    }

    /// A party renews an entry: mostly its own that nobody holds, else any that is stored, or none.
    fn renewal_frame(&mut self, guide: &Space) -> Vec<u8> {
        let waits = |party: u8| guide.waiting.iter().any(|look_up| look_up.party == party);
        let free = |entry: &&Entry| entry.private_to == NONE && entry.taken_by == NONE && entry.read_by.is_empty();
        let tame = self.random.percent(60);
        let stored = guide.entries.iter().filter(|entry| !tame || free(entry) && !waits(entry.writer));
        let stored: Vec<(u8, u32)> = stored.map(|entry| (entry.writer, entry.number)).collect();
        let (writer, number) = match stored.len() {
            0 => (1, self.stray_entry(guide)),
            _ if self.random.percent(12) => (self.random.between(1, 16) as u8, self.stray_entry(guide)),
            _ => self.random.pick(&stored),
        };
        let party = if self.random.percent(85) { writer } else { self.random.between(1, self.lean.parties) as u8 };
        renew_frame(party, number, self.odd_lease(guide))
    }

    /// A lease, more often than elsewhere of 0, for good, or about the latest end that is allowed.
    fn odd_lease(&mut self, guide: &Space) -> u32 {
        match self.random.below(20) {
            0 | 1 => 0,
            2 => (LAST_CLOCK - guide.clock).saturating_add(2).saturating_sub(self.random.below(4) as u32),
            3 => FOREVER,
            _ => self.duration(guide),
        }
    }

    /// A notify. A few are spoilt: they name a transaction, have one more bit in the mask, or a field that it does not
    /// ask for.
    fn registering_frame(&mut self, guide: &Space) -> Vec<u8> {
        let party = match self.party(guide) {
            Some(party) if self.random.percent(92) => party,
            _ => self.random.between(1, 16) as u8,
        };
        let (mask, fields) = self.template(guide);
        let mut frame = notify_frame(party, mask, self.odd_lease(guide), fields);
        match self.random.below(40) {
            0 => frame[4..8].copy_from_slice(&self.stray_transaction(guide).to_le_bytes()),
            1 if mask < 15 => frame[12 + 4 * self.random.pick(&fields_in(!mask))] = 1,
            2 => frame[2] |= self.random.pick(&[16, 32, 64, 128]),
            _ => {}
        }
        self.worsened(guide, frame)
    }

    /// Perhaps the number of an entry that is there no more, or not yet.
    fn stray_entry(&mut self, guide: &Space) -> u32 {
        match self.random.below(8) {
            0 => self.random.number() as u32,
            1 => self.random.between(0, 20),
            2 => guide.next_entry.saturating_add(self.random.below(3) as u32),
            _ => guide.next_entry.saturating_sub(1 + self.random.below(30) as u32),
        }
    }

    /// A party that does not wait, or a stray one; none if all wait.
    fn party(&mut self, guide: &Space) -> Option<u8> {
        if self.random.percent(self.lean.stray) {
            return Some(self.random.between(1, 16) as u8);
        }
        let waits = |party: &u8| guide.waiting.iter().any(|look_up| look_up.party == *party);
        let free: Vec<u8> = (1..=self.lean.parties as u8).filter(|party| !waits(party)).collect();
        if free.is_empty() {
            return None;
        }
        Some(self.random.pick(&free))
    }

    /// Who writes, and in which transaction: this party, or the owner of a live transaction who does not wait.
    fn writer(&mut self, guide: &Space, party: u8) -> (u8, u32) {
        let waits = |party: u8| guide.waiting.iter().any(|look_up| look_up.party == party);
        let gathers = self.random.percent(self.lean.gathered);
        let live = guide.transactions.iter().filter(|live| gathers && !waits(live.owner));
        let live: Vec<(u8, u32)> = live.map(|live| (live.owner, live.number)).collect();
        match live.len() {
            0 => (party, self.transaction(guide, party)),
            _ => self.random.pick(&live),
        }
    }

    fn transaction(&mut self, guide: &Space, party: u8) -> u32 {
        if self.random.percent(self.lean.stray) {
            return self.stray_transaction(guide);
        }
        let own: Vec<u32> =
            guide.transactions.iter().filter(|live| live.owner == party).map(|live| live.number).collect();
        if own.is_empty() || !self.random.percent(self.lean.inside) {
            return NONE;
        }
        self.random.pick(&own)
    }

    /// Perhaps another party's, ended, not made yet, or none.
    fn stray_transaction(&mut self, guide: &Space) -> u32 {
        match self.random.below(4) {
            0 => self.random.number() as u32,
            1 => NONE,
            2 if !guide.transactions.is_empty() => {
                guide.transactions[self.random.below(guide.transactions.len())].number
            }
            _ => self.random.between(0, guide.next_transaction.min(40)),
        }
    }

    /// A lease or a timeout.
    fn duration(&mut self, guide: &Space) -> u32 {
        if self.random.percent(self.lean.forever) {
            return FOREVER;
        }
        match self.random.below(60) {
            0 | 1 => 0,
            // about the latest end that is allowed
            2 => (LAST_CLOCK - guide.clock).saturating_add(2).saturating_sub(self.random.below(4) as u32),
            _ => self.random.between(1, self.lean.longest),
        }
    }

    /// The last party that does not wait forever does not begin to, so that histories go on.
    fn timeout(&mut self, guide: &Space) -> u32 {
        if self.random.percent(self.lean.timeout_0) {
            return 0;
        }
        let forever = guide.waiting.iter().filter(|look_up| look_up.deadline == End::Never).count();
        match self.duration(guide) {
            FOREVER if forever + 1 >= self.lean.parties as usize => self.random.between(1, self.lean.longest),
            timeout => timeout,
        }
    }

    fn fields(&mut self, guide: &Space) -> Fields {
        [
            self.random.between(1, self.lean.kinds),
            self.random.below(2) as u32,
            self.random.pick(&[0, 0, 1]),
            if self.lean.arcs == 0 { self.random.pick(&[0, 0, 0, u32::MAX]) } else { self.place(guide) },
        ]
    }

    /// A place of the clock face, often at an end of an arc that somebody asks for, or just beside it. A few are
    /// larger: the same place by 720 or by 16 bits, or any.
    fn place(&mut self, guide: &Space) -> u32 {
        let waiting = guide.waiting.iter().map(|look_up| look_up.template);
        let templates = waiting.chain(guide.registrations.iter().map(|registration| registration.template));
        let arcs: Vec<Arc> = templates.filter_map(|template| template.arc()).collect();
        let place = match self.random.below(8) {
            0..=3 if !arcs.is_empty() => {
                let Arc { start, length } = self.random.pick(&arcs);
                self.random.pick(&[start, start + PLACES - 1, start + length, start + length + 1]) % PLACES
            }
            4 | 5 => self.random.pick(&[0, 1, PLACES - 1]),
            _ => self.random.below(PLACES as usize) as u32,
        };
        match self.random.below(12) {
            0 => place + self.random.pick(&[PLACES, PLACES, 2 * PLACES, 65536]),
            1 => self.random.pick(&[PLACES, u32::MAX - PLACES, u32::MAX]),
            _ => place,
        }
    }

    /// Often only the place is blank.
    fn mark(&mut self, guide: &Space) -> Mark {
        let blanks = match self.random.percent(self.lean.blank) {
            false => 0,
            true if self.random.percent(50) => 8,
            true => self.random.between(1, 15) as u8,
        };
        Mark { fields: cleared(self.fields(guide), blanks), blanks }
    }

    fn garble(&mut self, mut frame: Vec<u8>) -> Vec<u8> {
        let random = &mut self.random;
        match random.below(10) {
            0 => frame.truncate(random.below(frame.len() + 1)),
            1 => frame.extend((0..random.between(1, 3)).map(|_| 0)),
            2 => frame[0] = random.pick(&[0, 10, 11, 12, 255]),
            3 => frame[3] = random.byte(),
            4 => frame[2] = random.byte(),
            5 => frame[2] = random.below(32) as u8,
            6 => frame[1] = random.pick(&[0, 1, 16, 17, 255]),
            7 => frame = (0..random.below(40)).map(|_| random.byte()).collect(),
            8 if frame.len() > 4 => {
                let at = random.between(4, 7) as usize;
                frame[at] = random.byte();
            }
            _ => {
                let at = random.below(frame.len());
                frame[at] = random.byte();
            }
        }
        frame
    }

    /// A tray of at most so many frames, its bytes as document 01 wants them.
    pub fn sound_tray(&mut self, most: usize) -> Vec<u8> {
        let mut guide = Space::new();
        let mut scratch = vec![0; STEP];
        let mut frames: Vec<Vec<u8>> = Vec::new();
        let mut bytes = 4;
        while frames.len() < most {
            let frame = self.frame(&guide);
            bytes += 8 + frame.len();
            if bytes > LONGEST_TRAY {
                break;
            }
            guide.step(&frame, &mut scratch);
            frames.push(frame);
        }
        if self.random.percent(80) {
            return tray_of(&frames);
        }
        self.with_gaps(&frames)
    }

    /// Bytes of no frame stand before some of the frames and behind the last.
    fn with_gaps(&mut self, frames: &[Vec<u8>]) -> Vec<u8> {
        let mut tray = tray_of(frames);
        let mut room = LONGEST_TRAY - tray.len();
        let mut offset = 4 + 8 * frames.len();
        let pairs_end = offset;
        let mut body = Vec::new();
        for (i, frame) in frames.iter().enumerate() {
            let gap = if self.random.percent(30) { self.random.below(9).min(room) } else { 0 };
            room -= gap;
            body.extend((0..gap).map(|_| self.random.byte()));
            offset += gap;
            tray[4 + 8 * i..8 + 8 * i].copy_from_slice(&(offset as u32).to_le_bytes());
            body.extend(frame);
            offset += frame.len();
        }
        tray.truncate(pairs_end);
        tray.extend(body);
        tray.extend((0..self.random.below(4).min(room)).map(|_| 0));
        tray
    }

    /// A tray, damaged in some cases; a damaged one may happen to be sound. What comes first may be all that comes.
    pub fn tray(&mut self) -> Vec<u8> {
        let most = self.random.pick(&[0, 1, 4, 30, 200, 700, 2000, 2000]);
        let scripted = !self.script.is_empty() && self.random.percent(50);
        let tray = self.sound_tray(if scripted { self.script.len() } else { most });
        if self.random.percent(30) {
            self.damage(tray)
        } else {
            tray
        }
    }

    /// It may happen to stay sound.
    pub fn damage(&mut self, mut tray: Vec<u8>) -> Vec<u8> {
        let random = &mut self.random;
        let count = u32::from_le_bytes([tray[0], tray[1], tray[2], tray[3]]) as usize;
        let odd = [random.number() as u32 % 65536, u32::MAX, random.number() as u32, 4, 0];
        match random.below(11) {
            0 => tray.truncate(random.below(tray.len() + 1)),
            1 => tray.truncate(random.below(4)),
            2 => tray.resize(LONGEST_TRAY + random.below(3), 0),
            3 => {
                let wrong = random.pick(&[count as u32 + 1, (count as u32).saturating_sub(1), u32::MAX, 2001, 8191]);
                tray[0..4].copy_from_slice(&wrong.to_le_bytes());
            }
            4 => {
                let ticks = MOST_FRAMES as usize + random.below(2);
                tray = tray_of(&vec![tick_frame(); ticks]);
            }
            5 | 6 if count > 0 => {
                let at = 4 + 4 * random.below(2 * count);
                tray[at..at + 4].copy_from_slice(&random.pick(&odd).to_le_bytes());
            }
            7 | 8 if count > 0 => {
                let at = 4 + 4 * random.below(2 * count);
                let old = u32::from_le_bytes([tray[at], tray[at + 1], tray[at + 2], tray[at + 3]]);
                let new = if random.percent(50) { old.wrapping_add(1) } else { old.wrapping_sub(1) };
                tray[at..at + 4].copy_from_slice(&new.to_le_bytes());
            }
            9 if count > 1 => {
                let at = 4 + 8 * random.below(count - 1);
                let (first, second) = tray[at..at + 16].split_at_mut(8);
                first.swap_with_slice(second);
            }
            _ => {
                let at = random.below(tray.len());
                tray[at] = random.byte();
            }
        }
        tray
    }

    /// A length for the answers area of a tray of so many frames.
    pub fn area_length(&mut self, frames: usize) -> usize {
        let random = &mut self.random;
        match random.below(8) {
            0 => random.below(STEP + 2),
            1 => random.pick(&[0, 27, 28, STEP - 1, STEP, STEP + 1, STEP + RECORD - 1, STEP + RECORD]),
            2 | 3 => STEP + random.below(RECORD * (frames + 2)),
            4 => LONGEST_TRAY,
            5 => random.below(LONGEST_TRAY),
            _ => 3 * LONGEST_TRAY,
        }
    }
}

/// The fields whose bit is 1.
fn fields_in(mask: u8) -> Vec<usize> {
    (0..4).filter(|i| mask >> i & 1 == 1).collect()
}

/// Fields with 0 where the bit is 1.
fn cleared(mut fields: Fields, mask: u8) -> Fields {
    for i in fields_in(mask) {
        fields[i] = 0;
    }
    fields
}

/// The frames of a history, last one first, whose last step writes 25 records: eight transactions hold sixteen
/// entries that all sixteen parties wait for, and end together.
fn longest_step(random: &mut Random) -> Vec<Vec<u8>> {
    let lease = random.between(1, 3);
    let kind = [77, 0, 0, 0];
    let blanks = random.pick(&[0, 14]);
    let mut frames: Vec<Vec<u8>> = (0..16).map(|_| long_frame(1, 1, blanks, NONE, FOREVER, kind)).collect();
    frames.extend((1..=8).map(|party| create_frame(party, lease)));
    for party in 1..=8 {
        frames.push(long_frame(3, party, 1, u32::from(party), 0, kind));
        frames.push(long_frame(5, party, 1, u32::from(party), 0, kind));
    }
    let timeout = random.pick(&[lease, lease + 1, FOREVER]);
    frames.extend((1..=16).map(|party| long_frame(3 + party % 2 * 2, party, 1, NONE, timeout, kind)));
    frames.extend((0..lease).map(|_| tick_frame()));
    frames.reverse();
    frames
}

/// The same, and the last step writes 24: its own, one for each of the fifteen parties that wait, and eight bells.
fn longest_ringing(random: &mut Random) -> Vec<Vec<u8>> {
    let kind = [77, 0, 0, 0];
    let mask = random.pick(&[0, 1, 16]); // or an arc that has the one place 0
    let mut frames: Vec<Vec<u8>> =
        (9..=16).map(|party| notify_frame(party, mask, FOREVER, cleared(kind, !mask))).collect();
    if random.percent(50) {
        // one entry, which all read
        frames.extend((2..=16).map(|party| long_frame(2, party, 1, NONE, FOREVER, kind)));
        frames.push(long_frame(1, 1, 0, NONE, FOREVER, kind));
    } else {
        // so many entries; who takes none of them gets nothing, since all conflicts are gone
        frames.push(create_frame(1, FOREVER));
        frames.extend((0..random.between(1, 15)).map(|_| long_frame(1, 1, 0, 1, FOREVER, kind)));
        frames.extend((2..=16).map(|party| long_frame(5, party, 1, NONE, FOREVER, kind)));
        frames.push(ending_frame(7, 1, 1));
    }
    frames.reverse();
    frames
}

/// The same, and every frame gives all the records that it may (document 02, T-10): registrations hear of all that
/// becomes public behind them, look-ups wait, and transactions end in the last tick, if the first is not committed. No
/// entry goes before the last is written.
fn fullest(random: &mut Random) -> Vec<Vec<u8>> {
    let write = |transaction, kind| long_frame(1, 1, 0, transaction, FOREVER, [kind, 0, 0, 0]);
    let lease = random.between(1, 3);
    let mut frames = vec![create_frame(1, lease), write(1, 78)]; // what IfExists look-ups wait for
    for party in 1..=random.between(0, 10) as u8 {
        frames.extend((0..random.below(4)).map(|_| write(NONE, 77)));
        frames.push(notify_frame(party, 0, FOREVER, [0; 4]));
    }
    frames.extend((0..random.below(3)).map(|bytes| vec![255; bytes])); // of no operation
    frames.extend((2..=random.between(1, 8) as u8).map(|party| create_frame(party, lease)));
    frames.extend((0..random.below(20)).map(|_| write(NONE, 77)));
    for party in 2..=random.between(1, 16) as u8 {
        frames.push(long_frame(random.between(2, 5) as u8, party, 1, NONE, lease, [78, 0, 0, 0]));
    }
    frames.push(write(NONE, 78));
    if random.percent(30) {
        frames.push(ending_frame(7, 1, 1));
    }
    frames.extend((0..lease).map(|_| tick_frame()));
    frames.reverse();
    frames
}
