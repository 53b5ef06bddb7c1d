//! Entries as rows of 32 bytes, by number. What makes it fast:
//!
//! - A write appends, removing moves rows down. So the first available row is the entry with the lowest number, and no
//!   numbers are compared.
//! - Between steps no waiting look-up has an available entry, so service looks only at the rows that the step has set
//!   free (`fresh`, a mask of 64 rows), the lowest bit first: of all available entries it meets the lowest number.
//! - The least end is kept, so that a tick at which nothing ends is one comparison.
//! - A bit tells whether a party waits, whether with an IfExists look-up (only then a step looks for those who wait in
//!   vain), and whether a transaction has written, read or taken anything.
//! - The four fields are compared as two words of 64 bits.

use crate::answer::{Answers, ABORTED, COMMITTED, EXCEPTION, NOTHING, WAITING};
use crate::arcs::lies;
use crate::common::{Common, BELLS, NO_SLOT, SLOTS};
use crate::frame::{asked, decode, decode_arc, decode_notify, decode_renewal, is_notify, is_renewal};
use crate::frame::{Fields, Long, Renewal, Request, FOREVER};
use crate::tray;

const ENTRIES: usize = 64;
const WAITS: usize = 16;

#[derive(Clone, Copy, PartialEq)]
struct Entry {
    /// kind and side; image and place
    pairs: [u64; 2],
    number: u32,
    end: u32,
    /// Slots, or NO_SLOT.
    private: u8,
    taken: u8,
    /// Bit p: the transaction in slot p has a read hold.
    readers: u8,
    blanks: u8,
    /// The party that wrote it; a word, so that a row is copied whole.
    writer: u32,
}

#[derive(Clone, Copy, PartialEq)]
struct LookUp {
    asks: [u64; 2],
    pairs: [u64; 2],
    transaction: u32,
    deadline: u32,
    party: u8,
    takes: bool,
    if_exists: bool,
    slot: u8,
    /// The bit of its slot.
    bit: u8,
    mask: u8,
    is_arc: bool,
}

#[inline(always)]
fn paired(fields: Fields) -> [u64; 2] {
    let [kind, side, image, place] = fields.map(u64::from);
    [kind | side << 32, image | place << 32]
}

/// None for NO_SLOT.
#[inline(always)]
fn bit_of(slot: u8) -> u8 {
    (1u32 << slot) as u8
}

impl Entry {
    #[inline(always)]
    fn fields(&self) -> Fields {
        let [a, b] = self.pairs;
        [a as u32, (a >> 32) as u32, b as u32, (b >> 32) as u32]
    }

    /// Most entries differ in the first pair, so a branch is cheaper than both comparisons. A blank is kept as 0, so
    /// blanks matter only where all that is asked for is there.
    #[inline(always)]
    fn matches(&self, look_up: &LookUp) -> bool {
        let differs = |i: usize| (self.pairs[i] ^ look_up.pairs[i]) & look_up.asks[i] != 0;
        !differs(0) && !differs(1) && self.blanks & look_up.mask == 0
    }

    /// Of an entry that is available, or conflicts, wherever it lies: whether it lies in the arc, if one is asked for.
    #[inline(always)]
    fn placed(&self, look_up: &LookUp) -> bool {
        let place = |pairs: [u64; 2]| (pairs[1] >> 32) as u32;
        !look_up.is_arc || lies(place(look_up.pairs), self.blanks, place(self.pairs))
    }

    #[inline(always)]
    fn read_by_other(&self, look_up: &LookUp) -> bool {
        look_up.takes && self.readers & !look_up.bit != 0
    }

    #[inline(always)]
    fn available(&self, look_up: &LookUp) -> bool {
        self.matches(look_up)
            && self.taken == NO_SLOT
            && (self.private == NO_SLOT || self.private == look_up.slot)
            && !self.read_by_other(look_up)
    }

    /// Of an entry that is not available.
    #[inline(always)]
    fn conflicts(&self, look_up: &LookUp) -> bool {
        let others = |slot: u8| slot != NO_SLOT && slot != look_up.slot;
        self.matches(look_up) && (others(self.private) || others(self.taken) || self.read_by_other(look_up))
    }
}

#[derive(Clone, PartialEq)]
pub struct Space {
    common: Common,
    /// Bit p: the transaction in slot p has written, read or taken something.
    active: u8,
    /// Bit p: party p waits. BELLS: registrations live.
    waiting: u32,
    /// Bit p: the look-up with which party p waits, or waited last, is of an IfExists kind. BELLS is always set.
    if_exists: u32,
    wait_count: usize,
    entry_count: usize,
    /// By arrival.
    waits: [LookUp; WAITS],
    /// By number, always.
    entries: [Entry; ENTRIES],
}

impl crate::Space for Space {
    const NAME: &'static str = "the tuned rows";

    fn beginning(clock: u32, next: [u32; 3]) -> Space {
        let (asks, pairs) = ([0; 2], [0; 2]);
        let (takes, if_exists) = (false, false);
        let (transaction, deadline, party) = (0, 0, 0);
        let (slot, bit, mask, is_arc) = (NO_SLOT, 0, 0, false);
        let wait = LookUp { asks, pairs, transaction, deadline, party, takes, if_exists, slot, bit, mask, is_arc };
        let (private, taken) = (NO_SLOT, NO_SLOT);
        let entry = Entry { pairs, number: 0, end: 0, private, taken, readers: 0, blanks: 0, writer: 0 };
        Space {
            common: Common::beginning(clock, next),
            active: 0,
            waiting: 0,
            if_exists: BELLS,
            wait_count: 0,
            entry_count: 0,
            waits: [wait; WAITS],
            entries: [entry; ENTRIES],
        }
    }

    #[inline]
    fn step(&mut self, frame: &[u8], answers: &mut [u8]) -> u64 {
        let Some(mut answers) = Answers::new(answers) else { return 65536 };
        match decode(frame).and_then(|request| self.perform(request, &mut answers)) {
            Ok(()) => self.finish(&mut answers),
            Err(2) if is_notify(frame) || is_renewal(frame) => self.rare(frame, answers),
            Err(4) => self.by_arc(frame, answers),
            Err(number) => answers.refused(frame, number),
        }
    }

    fn run_tray(tray: &[u8], answers: &mut [u8]) -> u64 {
        tray::run::<Space>(tray, answers)
    }
}

impl Space {
    #[inline(always)]
    fn finish(&mut self, answers: &mut Answers) -> u64 {
        if self.waiting & self.if_exists != 0 {
            self.close_waits(answers);
            if self.waiting & BELLS != 0 {
                self.common.bells.ring(answers);
            }
        }
        answers.count as u64
    }

    /// A step by a look-up that asks for an arc, or by a frame that 4 refuses.
    #[cold]
    #[inline(never)]
    fn by_arc(&mut self, frame: &[u8], mut answers: Answers) -> u64 {
        match decode_arc(frame).and_then(|long| self.look_up::<true>(frame[0], &long, &mut answers)) {
            Ok(()) => self.finish(&mut answers),
            Err(number) => answers.refused(frame, number),
        }
    }

    /// Carries out the request, or gives the first of refusals 6 to 13 that applies and changes nothing.
    #[inline(always)]
    fn perform(&mut self, request: Request, answers: &mut Answers) -> Result<(), u8> {
        match request {
            Request::Write(long) => self.write(&long, answers),
            Request::LookUp { operation, long } => self.look_up::<false>(operation, &long, answers),
            Request::Create { party, lease } => {
                self.check_party(party)?;
                self.common.create(party, lease, answers)
            }
            Request::End { commits, party, transaction } => {
                let waits = self.waiting >> party & 1 == 1;
                if waits && (commits || !self.waits_inside(party, transaction)) {
                    return Err(6);
                }
                let slot = self.common.slot(party, transaction)?;
                answers.plain(if commits { COMMITTED } else { ABORTED }, party, transaction);
                let fresh = self.end_transaction(commits, slot, 0);
                if waits {
                    self.keep_waits(|look_up| look_up.party != party);
                }
                self.serve(fresh, answers);
                Ok(())
            }
            Request::Tick => self.tick(answers),
        }
    }

    /// 6
    #[inline(always)]
    fn check_party(&self, party: u8) -> Result<(), u8> {
        if self.waiting >> party & 1 == 1 {
            return Err(6);
        }
        Ok(())
    }

    /// Whether the party's look-up waits inside the transaction: an abort of it withdraws the look-up.
    fn waits_inside(&self, party: u8, transaction: u32) -> bool {
        let mut waits = self.waits[..self.wait_count.min(WAITS)].iter();
        transaction != 0 && waits.any(|look_up| look_up.party == party && look_up.transaction == transaction)
    }

    #[inline(always)]
    fn write(&mut self, long: &Long, answers: &mut Answers) -> Result<(), u8> {
        self.check_party(long.party)?;
        let private = self.common.slot_or_none(long.party, long.transaction)?;
        let end = self.common.end_of(long.duration)?;
        let row = self.entry_count;
        if long.duration != 0 && row >= ENTRIES {
            return Err(11);
        }
        let number = self.common.entry_number()?;
        answers.written(long.party, long.transaction, number);
        if long.duration == 0 {
            return Ok(());
        }
        let (pairs, blanks, writer) = (paired(long.fields), long.mask, u32::from(long.party));
        self.entries[row & 63] = Entry { pairs, number, end, private, taken: NO_SLOT, readers: 0, blanks, writer };
        self.entry_count = row + 1;
        self.common.next_end = self.common.next_end.min(end);
        self.active |= bit_of(private);
        if private == NO_SLOT && self.waiting != 0 {
            if self.waiting & BELLS != 0 {
                self.count_public(1 << row);
            }
            self.serve(1 << row, answers);
        }
        Ok(())
    }

    /// A step by a notify or a renewal. Its own record is all of the answer: nobody is served, and a look-up that waits
    /// for a conflicting entry keeps it, since what is renewed is private to nobody and not held.
    #[cold]
    #[inline(never)]
    fn rare(&mut self, frame: &[u8], mut answers: Answers) -> u64 {
        let done = if is_notify(frame) { self.notify(frame, &mut answers) } else { self.renew(frame, &mut answers) };
        match done {
            Ok(()) => 1,
            Err(number) => answers.refused(frame, number),
        }
    }

    /// Registers, or gives the first of refusals 3 to 5, 21, 6, 9, 10, 17, 13 that applies and changes nothing.
    fn notify(&mut self, frame: &[u8], answers: &mut Answers) -> Result<(), u8> {
        let long = decode_notify(frame)?;
        self.check_party(long.party)?;
        answers.notified(long.party, self.common.notify(&long)?);
        self.waiting |= BELLS;
        Ok(())
    }

    #[cold]
    #[inline(never)]
    fn end_registrations(&mut self) {
        if self.common.end_registrations() {
            self.waiting &= !BELLS;
        }
    }

    /// Carries out the renewal, or gives the first of refusals 3 to 6, 18, 19, 20, 10 that applies and changes nothing.
    /// An end that is put off leaves `next_end` as it is: then one tick too many is looked at.
    fn renew(&mut self, frame: &[u8], answers: &mut Answers) -> Result<(), u8> {
        let renewal = decode_renewal(frame)?;
        let Renewal { party, entry: number, lease } = renewal;
        self.check_party(party)?;
        let row = self.rows().binary_search_by_key(&number, |entry| entry.number).map_err(|_| 18)?;
        let Entry { writer, private, taken, readers, .. } = self.entries[row & 63];
        if writer != u32::from(party) {
            return Err(19);
        }
        if private != NO_SLOT || taken != NO_SLOT || readers != 0 {
            return Err(20);
        }
        let end = self.common.end_of(lease)?;
        if lease == 0 {
            self.remove(row);
        } else {
            self.entries[row & 63].end = end;
            self.common.next_end = self.common.next_end.min(end);
        }
        answers.renewed(&renewal);
        Ok(())
    }

    /// IS_ARC is `long.is_arc`, so that a look-up without an arc is compiled without any trace of it.
    #[inline(always)]
    fn look_up<const IS_ARC: bool>(&mut self, operation: u8, long: &Long, answers: &mut Answers) -> Result<(), u8> {
        let &Long { party, mask, transaction, .. } = long;
        self.check_party(party)?;
        let slot = self.common.slot_or_none(party, transaction)?;
        let deadline = self.common.end_of(long.duration)?;
        let (asks, pairs) = (paired(asked(mask)), paired(long.fields));
        let (takes, if_exists) = (operation == 3 || operation == 5, operation >= 4);
        let (bit, is_arc) = (bit_of(slot), IS_ARC);
        let look_up = LookUp { asks, pairs, transaction, deadline, party, takes, if_exists, slot, bit, mask, is_arc };
        let found = |entry: &Entry| entry.available(&look_up) && entry.placed(&look_up);
        if let Some(row) = self.rows().iter().position(found) {
            self.hand_out(row, &look_up, answers);
            return Ok(());
        }
        if long.duration == 0 || if_exists && !self.any_conflict(&look_up) {
            answers.plain(NOTHING, party, transaction);
            return Ok(());
        }
        answers.plain(WAITING, party, transaction);
        self.waits[self.wait_count] = look_up;
        self.wait_count += 1;
        self.waiting |= 1 << party;
        self.if_exists = self.if_exists & !(1 << party) | u32::from(if_exists) << party;
        self.common.next_end = self.common.next_end.min(deadline);
        Ok(())
    }

    #[inline(always)]
    fn rows(&self) -> &[Entry] {
        &self.entries[..self.entry_count.min(ENTRIES)]
    }

    #[inline(always)]
    fn any_conflict(&self, look_up: &LookUp) -> bool {
        self.active != 0 && self.rows().iter().any(|entry| entry.conflicts(look_up) && entry.placed(look_up))
    }

    /// Answers found, and does to the entry what the look-up does; whether its row is removed.
    #[inline(always)]
    fn hand_out(&mut self, row: usize, look_up: &LookUp, answers: &mut Answers) -> bool {
        let entry = &mut self.entries[row & 63];
        answers.found(look_up.party, look_up.transaction, entry.number, entry.blanks, entry.fields());
        // committed, outside transactions; or private to the look-up's own
        let unmarked = entry.private == look_up.slot;
        if look_up.takes {
            if unmarked {
                self.remove(row);
                return true;
            }
            entry.taken = look_up.slot;
            entry.readers &= !look_up.bit;
            self.active |= look_up.bit;
        } else if !unmarked {
            entry.readers |= look_up.bit;
            self.active |= look_up.bit;
        }
        false
    }

    fn remove(&mut self, row: usize) {
        let count = self.entry_count.min(ENTRIES);
        if row < count {
            self.entries.copy_within(row + 1..count, row);
            self.entry_count = count - 1;
        }
    }

    /// Commits or aborts. Gives the rows set free, with those that are fresh already (`before`) at their new places.
    fn end_transaction(&mut self, commits: bool, slot: u8, before: u64) -> u64 {
        self.common.numbers[usize::from(slot) & 7] = 0;
        let bit = bit_of(slot);
        if self.active & bit == 0 {
            return before;
        }
        self.active &= !bit;
        if commits && self.waiting & BELLS != 0 {
            self.count_public(self.private_to(slot));
        }
        let (mut fresh, mut kept) = (0, 0);
        for row in 0..self.entry_count.min(ENTRIES) {
            let entry = self.entries[row];
            let goes = if commits { entry.taken == slot } else { entry.private == slot };
            if goes {
                continue;
            }
            let touched = entry.private == slot || entry.taken == slot || entry.readers & bit != 0;
            if touched || kept != row {
                let freed = |held: u8| if held == slot { NO_SLOT } else { held };
                let (private, taken) = (freed(entry.private), freed(entry.taken));
                self.entries[kept & 63] = Entry { private, taken, readers: entry.readers & !bit, ..entry };
            }
            fresh |= (u64::from(touched) | before >> row & 1) << kept;
            kept += 1;
        }
        self.entry_count = kept;
        fresh
    }

    /// The rows that a commit is about to make public.
    fn private_to(&self, slot: u8) -> u64 {
        self.rows().iter().enumerate().fold(0, |rows, (row, entry)| rows | u64::from(entry.private == slot) << row)
    }

    /// These rows become public while registrations live.
    #[cold]
    #[inline(never)]
    fn count_public(&mut self, rows: u64) {
        for row in (0..ENTRIES).filter(|row| rows >> row & 1 == 1) {
            let entry = &self.entries[row];
            self.common.bells.count(&entry.fields(), entry.blanks);
        }
    }

    /// The waiting look-ups once, in order of arrival; each with an available entry among the fresh is answered found,
    /// with the lowest number of these. A hand-out makes no entry available, so no row becomes fresh on the way.
    fn serve(&mut self, mut fresh: u64, answers: &mut Answers) {
        if fresh == 0 {
            return;
        }
        let mut kept = 0;
        'waiting: for i in 0..self.wait_count.min(WAITS) {
            let look_up = self.waits[i];
            let mut left = fresh;
            while left != 0 {
                let row = left.trailing_zeros() as usize & 63;
                if self.entries[row].available(&look_up) && self.entries[row].placed(&look_up) {
                    self.waiting &= !(1 << look_up.party);
                    if self.hand_out(row, &look_up, answers) {
                        let below = (1u64 << row) - 1;
                        fresh = fresh & below | fresh >> 1 & !below;
                    }
                    continue 'waiting;
                }
                left &= left - 1;
            }
            if kept != i {
                self.waits[kept & 15] = look_up;
            }
            kept += 1;
        }
        self.wait_count = kept;
    }

    #[inline(always)]
    fn tick(&mut self, answers: &mut Answers) -> Result<(), u8> {
        if self.common.tick(answers)? {
            self.common.next_end = FOREVER;
            let fresh = self.end_transactions(answers);
            let fresh = self.end_entries(fresh);
            self.serve(fresh, answers);
            self.close_waits(answers);
            for look_up in &self.waits[..self.wait_count.min(WAITS)] {
                self.common.next_end = self.common.next_end.min(look_up.deadline);
            }
            if self.waiting & BELLS != 0 {
                self.end_registrations();
            }
        }
        Ok(())
    }

    /// Aborts the transactions that end now, by number. Gives the rows set free.
    fn end_transactions(&mut self, answers: &mut Answers) -> u64 {
        let mut ended = 0u8;
        for slot in (0..SLOTS).filter(|&slot| self.common.numbers[slot] != 0) {
            if self.common.ends[slot] == self.common.clock {
                ended |= 1 << slot;
            } else {
                self.common.next_end = self.common.next_end.min(self.common.ends[slot]);
            }
        }
        let mut fresh = 0;
        while ended != 0 {
            let slot = self.common.oldest(ended);
            ended &= !(1 << slot);
            answers.plain(EXCEPTION, self.common.owners[slot], self.common.numbers[slot]);
            fresh = self.end_transaction(false, slot as u8, fresh);
            self.keep_waits(|look_up| usize::from(look_up.slot) != slot);
        }
        fresh
    }

    /// Removes the entries that end now. Gives the fresh rows at their new places.
    fn end_entries(&mut self, before: u64) -> u64 {
        let (mut fresh, mut kept) = (0, 0);
        for row in 0..self.entry_count.min(ENTRIES) {
            let entry = self.entries[row];
            if entry.end != self.common.clock {
                if kept != row {
                    self.entries[kept & 63] = entry;
                }
                fresh |= (before >> row & 1) << kept;
                kept += 1;
                self.common.next_end = self.common.next_end.min(entry.end);
            }
        }
        self.entry_count = kept;
        fresh
    }

    /// Gives nothing, in order of arrival, to the look-ups whose deadline is reached, and to those of an IfExists kind
    /// with no conflicting entry left.
    fn close_waits(&mut self, answers: &mut Answers) {
        let mut over = 0u32;
        for look_up in &self.waits[..self.wait_count.min(WAITS)] {
            if look_up.deadline == self.common.clock || look_up.if_exists && !self.any_conflict(look_up) {
                answers.plain(NOTHING, look_up.party, look_up.transaction);
                over |= 1 << look_up.party;
            }
        }
        if over != 0 {
            self.keep_waits(|look_up| over >> look_up.party & 1 == 0);
        }
    }

    fn keep_waits(&mut self, keep: impl Fn(&LookUp) -> bool) {
        let mut kept = 0;
        for i in 0..self.wait_count.min(WAITS) {
            let look_up = self.waits[i];
            if keep(&look_up) {
                if kept != i {
                    self.waits[kept & 15] = look_up;
                }
                kept += 1;
            } else {
                self.waiting &= !(1 << look_up.party);
            }
        }
        self.wait_count = kept;
    }
}
