//! Entries as columns of 64 words; which rows are in use, private, take-held and read-held are masks of 64 bits. What
//! makes it fast:
//!
//! - The first field asked for is compared with a whole column, further fields only in the rows that have it. A blank
//!   is kept as 0; of the rows that have all that is asked for, those with blanks are looked at once more; and all, if
//!   an arc is asked for.
//! - A commit, an abort and the end of a lease are a few operations on masks, and no row moves.
//! - Service, ends and waiting parties as in `rows`.
//!
//! A write takes the first free row, so rows are not by number: of several available entries the numbers are compared.

use crate::answer::{Answers, ABORTED, COMMITTED, EXCEPTION, NOTHING, WAITING};
use crate::arcs::lies;
use crate::common::{Common, BELLS, NO_SLOT, SLOTS};
use crate::frame::{asked, decode, decode_arc, decode_notify, decode_renewal, is_notify, is_renewal};
use crate::frame::{Fields, Long, Renewal, Request, FOREVER};
use crate::tray;

const ENTRIES: usize = 64;
const WAITS: usize = 16;

/// Words of a column that are compared at once.
const BLOCK: usize = 16;

/// The place of no transaction among the masks by slot; it has 0 there, always.
const NONE: usize = NO_SLOT as usize;

type Column = [u32; ENTRIES];

#[derive(Clone, Copy, PartialEq)]
struct LookUp {
    party: u8,
    takes: bool,
    if_exists: bool,
    mask: u8,
    is_arc: bool,
    slot: u8,
    transaction: u32,
    deadline: u32,
    fields: Fields,
}

impl LookUp {
    #[inline(always)]
    fn slot(&self) -> usize {
        usize::from(self.slot).min(NONE)
    }
}

/// The words of the first so many blocks that equal x, as bits. A block without any is told by one reduction.
#[inline(always)]
fn equal(column: &Column, x: u32, blocks: usize) -> u64 {
    let mut rows = 0;
    for (b, block) in column.chunks_exact(BLOCK).take(blocks).enumerate() {
        let block: &[u32; BLOCK] = block.try_into().expect("a whole block");
        if block.iter().fold(false, |any, &word| any | (word == x)) {
            let bits = block.iter().enumerate().fold(0, |bits, (i, &word)| bits | u32::from(word == x) << i);
            rows |= u64::from(bits) << (BLOCK * b);
        }
    }
    rows
}

#[derive(Clone, PartialEq)]
pub struct Space {
    common: Common,
    used: u64,
    /// Rows that the latest write or commit has made public, till bells ring for them.
    public: u64,
    /// Rows in use with blanks, and perhaps free ones.
    blank: u64,
    /// Private to some transaction; take-held by one.
    private: u64,
    taken: u64,
    /// The same by slot, and read-held.
    own: [u64; SLOTS + 1],
    held: [u64; SLOTS + 1],
    read: [u64; SLOTS + 1],
    /// Bit p: party p waits. BELLS: registrations live.
    waiting: u32,
    /// Bit p: the look-up with which party p waits, or waited last, is of an IfExists kind. BELLS is always set.
    if_exists: u32,
    wait_count: usize,
    /// By arrival.
    waits: [LookUp; WAITS],
    fields: [Column; 4],
    numbers: Column,
    ends: Column,
    blanks: [u8; ENTRIES],
    /// The party that wrote it.
    writers: [u8; ENTRIES],
}

impl crate::Space for Space {
    const NAME: &'static str = "the tuned columns";

    fn beginning(clock: u32, next: [u32; 3]) -> Space {
        let (takes, if_exists) = (false, false);
        let (mask, is_arc, slot) = (0, false, NO_SLOT);
        let (transaction, deadline, fields) = (0, 0, [0; 4]);
        let wait = LookUp { party: 0, takes, if_exists, mask, is_arc, slot, transaction, deadline, fields };
        Space {
            common: Common::beginning(clock, next),
            used: 0,
            public: 0,
            blank: 0,
            private: 0,
            taken: 0,
            own: [0; SLOTS + 1],
            held: [0; SLOTS + 1],
            read: [0; SLOTS + 1],
            waiting: 0,
            if_exists: BELLS,
            wait_count: 0,
            waits: [wait; WAITS],
            fields: [[0; ENTRIES]; 4],
            numbers: [0; ENTRIES],
            ends: [0; ENTRIES],
            blanks: [0; ENTRIES],
            writers: [0; ENTRIES],
        }
    }

    #[inline]
    fn step(&mut self, frame: &[u8], answers: &mut [u8]) -> u64 {
        let Some(mut answers) = Answers::new(answers) else { return 65536 };
        if is_renewal(frame) {
            return self.rare(frame, answers);
        }
        match decode(frame).and_then(|request| self.perform(request, &mut answers)) {
            Ok(()) => self.finish(&mut answers),
            Err(2) if is_notify(frame) => self.rare(frame, answers),
            Err(4) => self.by_arc(frame, answers),
            Err(number) => answers.refused(frame, number),
        }
    }

    fn run_tray(tray: &[u8], answers: &mut [u8]) -> u64 {
        tray::run::<Space>(tray, answers)
    }
}

impl Space {
    #[inline(always)]
    fn finish(&mut self, answers: &mut Answers) -> u64 {
        if self.waiting & self.if_exists != 0 {
            self.close_waits(answers);
            if self.waiting & BELLS != 0 {
                self.ring(answers);
            }
        }
        answers.count as u64
    }

    /// A step by a look-up that asks for an arc, or by a frame that 4 refuses.
    #[cold]
    #[inline(never)]
    fn by_arc(&mut self, frame: &[u8], mut answers: Answers) -> u64 {
        match decode_arc(frame).and_then(|long| self.look_up(frame[0], &long, &mut answers)) {
            Ok(()) => self.finish(&mut answers),
            Err(number) => answers.refused(frame, number),
        }
    }

    /// Carries out the request, or gives the first of refusals 6 to 13 that applies and changes nothing.
    #[inline(always)]
    fn perform(&mut self, request: Request, answers: &mut Answers) -> Result<(), u8> {
        match request {
            Request::Write(long) => self.write(&long, answers),
            Request::LookUp { operation, long } => self.look_up(operation, &long, answers),
            Request::Create { party, lease } => {
                self.check_party(party)?;
                self.common.create(party, lease, answers)
            }
            Request::End { commits, party, transaction } => {
                let waits = self.waiting >> party & 1 == 1;
                if waits && (commits || !self.waits_inside(party, transaction)) {
                    return Err(6);
                }
                let slot = usize::from(self.common.slot(party, transaction)?);
                answers.plain(if commits { COMMITTED } else { ABORTED }, party, transaction);
                let fresh = if commits { self.commit(slot) } else { self.abort(slot) };
                if waits {
                    self.keep_waits(|look_up| look_up.party != party);
                }
                self.serve(fresh & self.used, answers);
                Ok(())
            }
            Request::Tick => self.tick(answers),
        }
    }

    /// 6
    #[inline(always)]
    fn check_party(&self, party: u8) -> Result<(), u8> {
        if self.waiting >> party & 1 == 1 {
            return Err(6);
        }
        Ok(())
    }

    /// Whether the party's look-up waits inside the transaction: an abort of it withdraws the look-up.
    fn waits_inside(&self, party: u8, transaction: u32) -> bool {
        let mut waits = self.waits[..self.wait_count.min(WAITS)].iter();
        transaction != 0 && waits.any(|look_up| look_up.party == party && look_up.transaction == transaction)
    }

    #[inline(always)]
    fn write(&mut self, long: &Long, answers: &mut Answers) -> Result<(), u8> {
        self.check_party(long.party)?;
        let slot = usize::from(self.common.slot_or_none(long.party, long.transaction)?);
        let end = self.common.end_of(long.duration)?;
        if long.duration != 0 && self.used == u64::MAX {
            return Err(11);
        }
        let number = self.common.entry_number()?;
        answers.written(long.party, long.transaction, number);
        if long.duration == 0 {
            return Ok(());
        }
        let row = (!self.used).trailing_zeros() as usize & 63;
        let bit = 1 << row;
        self.used |= bit;
        self.numbers[row] = number;
        self.ends[row] = end;
        self.blanks[row] = long.mask;
        self.writers[row] = long.party;
        self.blank = self.blank & !bit | u64::from(long.mask != 0) << row;
        for (column, field) in self.fields.iter_mut().zip(long.fields) {
            column[row] = field;
        }
        self.common.next_end = self.common.next_end.min(end);
        if slot != NONE {
            self.private |= bit;
            self.own[slot] |= bit;
        } else {
            self.public = bit;
            if self.wait_count != 0 {
                self.serve(bit, answers);
            }
        }
        Ok(())
    }

    /// A step by a notify or a renewal. Its own record is all of the answer: nobody is served, and a look-up that waits
    /// for a conflicting entry keeps it, since what is renewed is private to nobody and not held.
    #[cold]
    #[inline(never)]
    fn rare(&mut self, frame: &[u8], mut answers: Answers) -> u64 {
        let done = if is_notify(frame) { self.notify(frame, &mut answers) } else { self.renew(frame, &mut answers) };
        match done {
            Ok(()) => 1,
            Err(number) => answers.refused(frame, number),
        }
    }

    /// Registers, or gives the first of refusals 3 to 5, 21, 6, 9, 10, 17, 13 that applies and changes nothing.
    fn notify(&mut self, frame: &[u8], answers: &mut Answers) -> Result<(), u8> {
        let long = decode_notify(frame)?;
        self.check_party(long.party)?;
        answers.notified(long.party, self.common.notify(&long)?);
        self.waiting |= BELLS;
        self.public = 0;
        Ok(())
    }

    #[cold]
    #[inline(never)]
    fn end_registrations(&mut self) {
        if self.common.end_registrations() {
            self.waiting &= !BELLS;
        }
    }

    /// Carries out the renewal, or gives the first of refusals 3 to 6, 18, 19, 20, 10 that applies and changes nothing.
    /// An end that is put off leaves `next_end` as it is: then one tick too many is looked at.
    fn renew(&mut self, frame: &[u8], answers: &mut Answers) -> Result<(), u8> {
        let renewal = decode_renewal(frame)?;
        let Renewal { party, entry: number, lease } = renewal;
        self.check_party(party)?;
        let bit = self.used & equal(&self.numbers, number, ENTRIES / BLOCK);
        if bit == 0 {
            return Err(18);
        }
        let row = bit.trailing_zeros() as usize & 63;
        if self.writers[row] != party {
            return Err(19);
        }
        if (self.private | self.taken | self.read_by_others(NONE)) & bit != 0 {
            return Err(20);
        }
        let end = self.common.end_of(lease)?;
        if lease == 0 {
            self.used &= !bit;
        } else {
            self.ends[row] = end;
            self.common.next_end = self.common.next_end.min(end);
        }
        answers.renewed(&renewal);
        Ok(())
    }

    #[inline(always)]
    fn look_up(&mut self, operation: u8, long: &Long, answers: &mut Answers) -> Result<(), u8> {
        let Long { party, mask, transaction, fields, is_arc, .. } = *long;
        self.check_party(party)?;
        let slot = usize::from(self.common.slot_or_none(party, transaction)?);
        let deadline = self.common.end_of(long.duration)?;
        let (takes, if_exists) = (operation & 1 == 1, operation >= 4);
        let hits = self.matching(self.open(takes, slot), mask, &fields);
        let hits = if is_arc { self.placed(hits, fields[3]) } else { hits };
        if hits != 0 {
            self.hand_out(self.oldest(hits), party, takes, slot, transaction, answers);
            return Ok(());
        }
        if long.duration == 0 || if_exists && !self.any_conflict(takes, slot, mask, &fields, is_arc) {
            answers.plain(NOTHING, party, transaction);
            return Ok(());
        }
        answers.plain(WAITING, party, transaction);
        let slot = slot as u8;
        self.waits[self.wait_count] =
            LookUp { party, takes, if_exists, mask, is_arc, slot, transaction, deadline, fields };
        self.wait_count += 1;
        self.waiting |= 1 << party;
        self.if_exists = self.if_exists & !(1 << party) | u32::from(if_exists) << party;
        self.common.next_end = self.common.next_end.min(deadline);
        Ok(())
    }

    #[inline(always)]
    fn read_by_others(&self, slot: usize) -> u64 {
        (0..SLOTS).fold(0, |rows, other| rows | if other == slot { 0 } else { self.read[other] })
    }

    /// The rows that are available as far as holds go.
    #[inline(always)]
    fn open(&self, takes: bool, slot: usize) -> u64 {
        let visible = self.used & !self.taken & (!self.private | self.own[slot]);
        if takes {
            visible & !self.read_by_others(slot)
        } else {
            visible
        }
    }

    #[inline(always)]
    fn any_conflict(&self, takes: bool, slot: usize, mask: u8, fields: &Fields, is_arc: bool) -> bool {
        let mut others = self.private & !self.own[slot] | self.taken & !self.held[slot];
        if takes {
            others |= self.read_by_others(slot);
        }
        if others != 0 {
            others = self.matching(others, mask, fields);
        }
        others != 0 && (!is_arc || self.placed(others, fields[3]) != 0)
    }

    /// Of these rows, those that match: by the column of the first field asked for, then row by row.
    #[inline(always)]
    fn matching(&self, rows: u64, mask: u8, fields: &Fields) -> u64 {
        if mask == 0 {
            return rows;
        }
        let blocks = (ENTRIES + BLOCK - 1 - rows.leading_zeros() as usize) / BLOCK;
        let first = mask.trailing_zeros() as usize & 3;
        let hits = rows & equal(&self.fields[first], fields[first], blocks);
        if mask & (mask - 1) == 0 {
            self.filled(hits, mask)
        } else {
            self.matching_few(hits, mask, fields)
        }
    }

    /// The same, row by row: for few rows.
    #[inline(always)]
    fn matching_few(&self, rows: u64, mask: u8, fields: &Fields) -> u64 {
        let asked = asked(mask);
        let (mut left, mut hits) = (rows, 0);
        while left != 0 {
            let row = left.trailing_zeros() as usize & 63;
            let differs = (0..4).fold(0, |bits, i| bits | (self.fields[i][row] ^ fields[i]) & asked[i]);
            hits |= u64::from(differs == 0) << row;
            left &= left - 1;
        }
        self.filled(hits, mask)
    }

    /// Of these rows, those with no blank that is asked for.
    #[inline(always)]
    fn filled(&self, rows: u64, mask: u8) -> u64 {
        if rows == 0 {
            return 0;
        }
        let (mut left, mut filled) = (rows & self.blank, rows);
        while left != 0 {
            let row = left.trailing_zeros() as usize & 63;
            filled &= !(u64::from(self.blanks[row] & mask != 0) << row);
            left &= left - 1;
        }
        filled
    }

    /// Of these rows, those that lie in the arc.
    #[cold]
    #[inline(never)]
    fn placed(&self, rows: u64, arc: u32) -> u64 {
        let (mut left, mut hits) = (rows, 0);
        while left != 0 {
            let row = left.trailing_zeros() as usize & 63;
            hits |= u64::from(lies(arc, self.blanks[row], self.fields[3][row])) << row;
            left &= left - 1;
        }
        hits
    }

    /// Of these rows, the one with the lowest number.
    #[inline(always)]
    fn oldest(&self, rows: u64) -> usize {
        let mut oldest = rows.trailing_zeros() as usize & 63;
        let mut left = rows & (rows - 1);
        while left != 0 {
            let row = left.trailing_zeros() as usize & 63;
            if self.numbers[row] < self.numbers[oldest] {
                oldest = row;
            }
            left &= left - 1;
        }
        oldest
    }

    /// Answers found, and does to the entry what the look-up does.
    #[inline(always)]
    fn hand_out(&mut self, row: usize, party: u8, takes: bool, slot: usize, transaction: u32, answers: &mut Answers) {
        let fields = self.fields.each_ref().map(|column| column[row]);
        answers.found(party, transaction, self.numbers[row], self.blanks[row], fields);
        let bit = 1 << row;
        if takes {
            if slot == NONE {
                self.used &= !bit;
            } else if self.own[slot] & bit != 0 {
                self.used &= !bit;
                self.private &= !bit;
                self.own[slot] &= !bit;
            } else {
                self.taken |= bit;
                self.held[slot] |= bit;
                self.read[slot] &= !bit;
            }
        } else if slot != NONE {
            self.read[slot] |= bit & !self.own[slot];
        }
    }

    /// The bells of a step while registrations live. What service has removed stands in its row still.
    #[cold]
    #[inline(never)]
    fn ring(&mut self, answers: &mut Answers) {
        for row in (0..ENTRIES).filter(|row| self.public >> row & 1 == 1) {
            let fields = self.fields.each_ref().map(|column| column[row]);
            self.common.bells.count(&fields, self.blanks[row]);
        }
        self.public = 0;
        self.common.bells.ring(answers);
    }

    /// Gives the rows set free.
    #[inline(always)]
    fn commit(&mut self, slot: usize) -> u64 {
        self.public = self.own[slot];
        self.used &= !self.held[slot];
        let fresh = self.own[slot] | self.read[slot];
        self.end_transaction(slot);
        fresh
    }

    /// Gives the rows set free.
    #[inline(always)]
    fn abort(&mut self, slot: usize) -> u64 {
        self.used &= !self.own[slot];
        let fresh = self.held[slot] | self.read[slot];
        self.end_transaction(slot);
        fresh
    }

    #[inline(always)]
    fn end_transaction(&mut self, slot: usize) {
        self.private &= !self.own[slot];
        self.taken &= !self.held[slot];
        (self.own[slot], self.held[slot], self.read[slot]) = (0, 0, 0);
        self.common.numbers[slot] = 0;
    }

    /// The waiting look-ups once, in order of arrival; each with an available entry among the fresh is answered found,
    /// with the lowest number of these. A hand-out makes no entry available, so no row becomes fresh on the way.
    fn serve(&mut self, fresh: u64, answers: &mut Answers) {
        if fresh == 0 {
            return;
        }
        let mut kept = 0;
        for i in 0..self.wait_count.min(WAITS) {
            let look_up = self.waits[i];
            let slot = look_up.slot();
            let rows = fresh & self.open(look_up.takes, slot);
            let hits = if rows.count_ones() <= 4 {
                self.matching_few(rows, look_up.mask, &look_up.fields)
            } else {
                self.matching(rows, look_up.mask, &look_up.fields)
            };
            let hits = if hits != 0 && look_up.is_arc { self.placed(hits, look_up.fields[3]) } else { hits };
            if hits != 0 {
                let row = self.oldest(hits);
                self.waiting &= !(1 << look_up.party);
                self.hand_out(row, look_up.party, look_up.takes, slot, look_up.transaction, answers);
                continue;
            }
            if kept != i {
                self.waits[kept & 15] = look_up;
            }
            kept += 1;
        }
        self.wait_count = kept;
    }

    #[inline(always)]
    fn tick(&mut self, answers: &mut Answers) -> Result<(), u8> {
        if self.common.tick(answers)? {
            let fresh = self.end_transactions(answers);
            self.end_entries();
            self.serve(fresh & self.used, answers);
            self.close_waits(answers);
            self.common.next_end = self.least_end();
            if self.waiting & BELLS != 0 {
                self.end_registrations();
            }
        }
        Ok(())
    }

    /// Aborts the transactions that end now, by number. Gives the rows set free.
    fn end_transactions(&mut self, answers: &mut Answers) -> u64 {
        let mut ended = 0;
        for slot in 0..SLOTS {
            let ends = self.common.numbers[slot] != 0 && self.common.ends[slot] == self.common.clock;
            ended |= u8::from(ends) << slot;
        }
        let mut fresh = 0;
        while ended != 0 {
            let slot = self.common.oldest(ended);
            ended &= !(1 << slot);
            answers.plain(EXCEPTION, self.common.owners[slot], self.common.numbers[slot]);
            fresh |= self.abort(slot);
            self.keep_waits(|look_up| usize::from(look_up.slot) != slot);
        }
        fresh
    }

    /// Removes the entries that end now.
    fn end_entries(&mut self) {
        let over = self.used & equal(&self.ends, self.common.clock, ENTRIES / BLOCK);
        if over != 0 {
            self.used &= !over;
            self.private &= !over;
            self.taken &= !over;
            for slot in 0..SLOTS {
                self.own[slot] &= !over;
                self.held[slot] &= !over;
                self.read[slot] &= !over;
            }
        }
    }

    /// What has gone may leave behind an end that is still to come: then one tick too many is looked at.
    fn least_end(&self) -> u32 {
        let clock = self.common.clock;
        let later = |end: u32| if end > clock { end } else { FOREVER };
        let mut least = FOREVER;
        for &end in &self.ends {
            least = least.min(later(end));
        }
        for &end in &self.common.ends {
            least = least.min(later(end));
        }
        for look_up in &self.waits[..self.wait_count.min(WAITS)] {
            least = least.min(look_up.deadline);
        }
        least
    }

    /// Gives nothing, in order of arrival, to the look-ups whose deadline is reached, and to those of an IfExists kind
    /// with no conflicting entry left.
    fn close_waits(&mut self, answers: &mut Answers) {
        let mut over = 0u32;
        for look_up in &self.waits[..self.wait_count.min(WAITS)] {
            let &LookUp { takes, mask, ref fields, is_arc, .. } = look_up;
            let conflicts = || self.any_conflict(takes, look_up.slot(), mask, fields, is_arc);
            if look_up.deadline == self.common.clock || look_up.if_exists && !conflicts() {
                answers.plain(NOTHING, look_up.party, look_up.transaction);
                over |= 1 << look_up.party;
            }
        }
        if over != 0 {
            self.keep_waits(|look_up| over >> look_up.party & 1 == 0);
        }
    }

    fn keep_waits(&mut self, keep: impl Fn(&LookUp) -> bool) {
        let mut kept = 0;
        for i in 0..self.wait_count.min(WAITS) {
            let look_up = self.waits[i];
            if keep(&look_up) {
                self.waits[kept & 15] = look_up;
                kept += 1;
            } else {
                self.waiting &= !(1 << look_up.party);
            }
        }
        self.wait_count = kept;
    }
}
