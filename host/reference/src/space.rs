//! The space: who holds what, what each frame does, and the refusals that depend on the space.

use crate::answer::{Answers, Kind, Record, STEP};
use crate::frame::{decode, LookUpKind, Mark, Refusal, Request, Template, FOREVER, LAST_CLOCK, NONE};

pub const MOST_ENTRIES: usize = 64;
pub const MOST_TRANSACTIONS: usize = 8;
pub const MOST_WAITING: usize = 16;
pub const MOST_REGISTRATIONS: usize = 8;

/// When a lease or a wait is over.
#[derive(Clone, Copy, PartialEq, Eq, Debug)]
pub enum End {
    At(u32),
    Never,
}

impl End {
    pub fn after(clock: u32, duration: u32) -> End {
        if duration == FOREVER {
            End::Never
        } else {
            End::At(clock + duration)
        }
    }

    pub fn reached(self, clock: u32) -> bool {
        match self {
            End::At(end) => end <= clock,
            End::Never => false,
        }
    }
}

#[derive(Clone, PartialEq, Eq, Debug)]
pub struct Entry {
    pub number: u32,
    /// The party that wrote it.
    pub writer: u8,
    pub mark: Mark,
    pub end: End,
    /// The transaction it is private to, or NONE for a committed entry.
    pub private_to: u32,
    /// The transaction with a take hold on it, or NONE.
    pub taken_by: u32,
    /// The transactions with a read hold on it.
    pub read_by: Vec<u32>,
}

#[derive(Clone, PartialEq, Eq, Debug)]
pub struct Transaction {
    pub number: u32,
    pub owner: u8,
    pub end: End,
}

#[derive(Clone, PartialEq, Eq, Debug)]
pub struct LookUp {
    pub party: u8,
    pub transaction: u32,
    pub kind: LookUpKind,
    pub template: Template,
    pub deadline: End,
}

#[derive(Clone, PartialEq, Eq, Debug)]
pub struct Registration {
    pub number: u32,
    pub party: u8,
    pub template: Template,
    pub end: End,
    /// The matching entries made public since.
    pub total: u32,
    /// Those of them made public in this step; 0 between steps.
    pub count: u32,
}

impl Entry {
    fn read_by_other(&self, transaction: u32) -> bool {
        self.read_by.iter().any(|&reader| reader != transaction)
    }

    /// "private or held", by whichever transaction.
    fn in_use(&self) -> bool {
        self.private_to != NONE || self.taken_by != NONE || !self.read_by.is_empty()
    }

    fn private_to_other(&self, transaction: u32) -> bool {
        self.private_to != NONE && self.private_to != transaction
    }

    #[inline]
    pub fn available(&self, look_up: &LookUp) -> bool {
        look_up.template.matches(&self.mark)
            && self.taken_by == NONE
            && !self.private_to_other(look_up.transaction)
            && !(look_up.kind.takes && self.read_by_other(look_up.transaction))
    }

    pub fn conflicts(&self, look_up: &LookUp) -> bool {
        let own_take_hold = self.taken_by != NONE && self.taken_by == look_up.transaction;
        look_up.template.matches(&self.mark)
            && !self.available(look_up)
            && !own_take_hold
            && (self.private_to_other(look_up.transaction)
                || self.taken_by != NONE
                || look_up.kind.takes && self.read_by_other(look_up.transaction))
    }
}

/// What a step returns: records written, and the refusal's number or 0.
#[derive(Clone, Copy, PartialEq, Eq, Debug)]
pub struct Outcome {
    pub records: usize,
    pub number: u8,
}

#[derive(Clone, PartialEq, Eq, Debug)]
pub struct Space {
    pub clock: u32,
    pub next_entry: u32,
    pub next_transaction: u32,
    pub next_registration: u32,
    /// By number.
    pub entries: Vec<Entry>,
    /// By number.
    pub transactions: Vec<Transaction>,
    /// By arrival.
    pub waiting: Vec<LookUp>,
    /// By number.
    pub registrations: Vec<Registration>,
}

impl Default for Space {
    fn default() -> Space {
        Space::new()
    }
}

impl Space {
    pub fn new() -> Space {
        Space {
            clock: 0,
            next_entry: 1,
            next_transaction: 1,
            next_registration: 1,
            entries: Vec::with_capacity(MOST_ENTRIES),
            transactions: Vec::with_capacity(MOST_TRANSACTIONS),
            waiting: Vec::with_capacity(MOST_WAITING),
            registrations: Vec::with_capacity(MOST_REGISTRATIONS),
        }
    }

    pub fn step(&mut self, frame: &[u8], area: &mut [u8]) -> Outcome {
        if area.len() < STEP {
            return Outcome { records: 0, number: Refusal::AreaTooSmall as u8 };
        }
        let mut answers = Answers::new(area);
        let number = match decode(frame).and_then(|request| self.perform(request, &mut answers)) {
            Ok(()) => {
                self.close_waits(&mut answers);
                self.ring(&mut answers);
                0
            }
            Err(refusal) => {
                let party = frame.get(1).copied().unwrap_or(0);
                let number = refusal as u8;
                answers.put(Record { refusal: number, ..Record::new(Kind::Refused, party, NONE) });
                number
            }
        };
        Outcome { records: answers.records, number }
    }

    /// Carries out the request, or gives the first of refusals 6 to 13 and 17 to 20 that applies and changes nothing.
    fn perform(&mut self, request: Request, answers: &mut Answers) -> Result<(), Refusal> {
        match request {
            Request::Write { party, transaction, lease, mark } => {
                self.check_party(party)?;
                self.check_transaction(party, transaction)?;
                self.check_duration(lease)?;
                self.write(party, transaction, lease, mark, answers)?;
            }
            Request::LookUp { party, transaction, timeout, kind, template } => {
                self.check_party(party)?;
                self.check_transaction(party, transaction)?;
                self.check_duration(timeout)?;
                let deadline = End::after(self.clock, timeout);
                let look_up = LookUp { party, transaction, kind, template, deadline };
                self.look_up(look_up, timeout, answers);
            }
            Request::Create { party, lease } => {
                self.check_party(party)?;
                self.create(party, lease, answers)?;
            }
            Request::Commit { party, transaction } => {
                self.check_party(party)?;
                self.check_ending(party, transaction)?;
                answers.put(Record::new(Kind::Committed, party, transaction));
                self.commit(transaction);
                self.serve(answers);
            }
            Request::Abort { party, transaction } => {
                self.check_leaving(party, transaction)?;
                self.check_ending(party, transaction)?;
                answers.put(Record::new(Kind::Aborted, party, transaction));
                self.abort(transaction);
                self.serve(answers);
            }
            Request::Tick => self.tick(answers)?,
            Request::Notify { party, lease, template } => {
                self.check_party(party)?;
                self.notify(party, lease, template, answers)?;
            }
            Request::Renew { party, entry, lease } => {
                self.check_party(party)?;
                self.renew(party, entry, lease, answers)?;
            }
        }
        Ok(())
    }

    /// 6
    fn check_party(&self, party: u8) -> Result<(), Refusal> {
        if self.waiting.iter().any(|look_up| look_up.party == party) {
            return Err(Refusal::PartyWaits);
        }
        Ok(())
    }

    /// 6, for an abort. Document 02: "An abort of the transaction in which the party's own look-up waits is now
    /// carried out"; "6 remains for every other frame of that party".
    fn check_leaving(&self, party: u8, transaction: u32) -> Result<(), Refusal> {
        match self.waiting.iter().find(|look_up| look_up.party == party) {
            Some(look_up) if transaction == NONE || look_up.transaction != transaction => Err(Refusal::PartyWaits),
            _ => Ok(()),
        }
    }

    /// 7 and 8, for a frame that may name no transaction
    fn check_transaction(&self, party: u8, transaction: u32) -> Result<(), Refusal> {
        if transaction == NONE {
            return Ok(());
        }
        self.check_ending(party, transaction)
    }

    /// 7 and 8, for commit and abort
    fn check_ending(&self, party: u8, transaction: u32) -> Result<(), Refusal> {
        match self.transactions.iter().find(|live| live.number == transaction) {
            None => Err(Refusal::NotLive),
            Some(live) if live.owner != party => Err(Refusal::AnothersTransaction),
            Some(_) => Ok(()),
        }
    }

    /// 18 to 20; the place of the entry with this number
    fn check_entry(&self, party: u8, number: u32) -> Result<usize, Refusal> {
        let place = self.entries.iter().position(|entry| entry.number == number).ok_or(Refusal::NoEntry)?;
        let entry = &self.entries[place];
        if entry.writer != party {
            return Err(Refusal::AnothersEntry);
        }
        if entry.in_use() {
            return Err(Refusal::EntryHeld);
        }
        Ok(place)
    }

    /// 9 and 10, for create and notify
    fn check_lease(&self, lease: u32) -> Result<(), Refusal> {
        if lease == 0 {
            return Err(Refusal::WithoutLease);
        }
        self.check_duration(lease)
    }

    /// 10, for a lease or a timeout
    fn check_duration(&self, duration: u32) -> Result<(), Refusal> {
        if duration != FOREVER && u64::from(self.clock) + u64::from(duration) > u64::from(LAST_CLOCK) {
            return Err(Refusal::TooLate);
        }
        Ok(())
    }

    fn write(
        &mut self,
        party: u8,
        transaction: u32,
        lease: u32,
        mark: Mark,
        answers: &mut Answers,
    ) -> Result<(), Refusal> {
        if lease != 0 && self.entries.len() >= MOST_ENTRIES {
            return Err(Refusal::EntriesFull);
        }
        if self.next_entry == FOREVER {
            return Err(Refusal::NumbersUsedUp);
        }
        let number = self.next_entry;
        self.next_entry += 1;
        if lease != 0 {
            let end = End::after(self.clock, lease);
            let read_by = Vec::new();
            let (writer, private_to, taken_by) = (party, transaction, NONE);
            self.entries.push(Entry { number, writer, mark, end, private_to, taken_by, read_by });
        }
        answers.put(Record { entry: number, ..Record::new(Kind::Written, party, transaction) });
        if transaction == NONE {
            if lease != 0 {
                made_public(&mut self.registrations, &mark);
            }
            self.serve(answers);
        }
        Ok(())
    }

    /// Document 02: "the entry then ends at clock + lease, or never for FOREVER. Lease 0 removes it in this step."
    /// Nothing becomes available by it, so no service follows.
    fn renew(&mut self, party: u8, entry: u32, lease: u32, answers: &mut Answers) -> Result<(), Refusal> {
        let place = self.check_entry(party, entry)?;
        self.check_duration(lease)?;
        if lease == 0 {
            self.entries.remove(place);
        } else {
            self.entries[place].end = End::after(self.clock, lease);
        }
        answers.put(Record { entry, ..Record::new(Kind::Renewed, party, NONE) });
        Ok(())
    }

    /// Document 02: "is answered by kind 10 with a registration number, counted from 1, in the entry place"; "17 when
    /// eight registrations live, after 12".
    fn notify(&mut self, party: u8, lease: u32, template: Template, answers: &mut Answers) -> Result<(), Refusal> {
        self.check_lease(lease)?;
        if self.registrations.len() >= MOST_REGISTRATIONS {
            return Err(Refusal::RegistrationsFull);
        }
        if self.next_registration == FOREVER {
            return Err(Refusal::NumbersUsedUp);
        }
        let (number, end) = (self.next_registration, End::after(self.clock, lease));
        self.next_registration += 1;
        self.registrations.push(Registration { number, party, template, end, total: 0, count: 0 });
        answers.put(Record { entry: number, ..Record::new(Kind::Notified, party, NONE) });
        Ok(())
    }

    fn look_up(&mut self, look_up: LookUp, timeout: u32, answers: &mut Answers) {
        if let Some(place) = self.oldest_available(&look_up) {
            self.hand_out(&look_up, place, answers);
            return;
        }
        let waits = timeout != 0 && (!look_up.kind.if_exists || self.entries.iter().any(|e| e.conflicts(&look_up)));
        if !waits {
            answers.put(Record::new(Kind::Nothing, look_up.party, look_up.transaction));
            return;
        }
        answers.put(Record::new(Kind::Waiting, look_up.party, look_up.transaction));
        self.waiting.push(look_up);
    }

    /// The place of the entry that is handed out, if one is. Document 02: "Where several entries are available, found
    /// now hands out the one with the lowest entry number", "for immediate and served look-ups alike". It stands first,
    /// since entries are kept by number.
    fn oldest_available(&self, look_up: &LookUp) -> Option<usize> {
        self.entries.iter().position(|entry| entry.available(look_up))
    }

    /// Answers found with the entry at this place, and does to it what the look-up does.
    fn hand_out(&mut self, look_up: &LookUp, place: usize, answers: &mut Answers) {
        let entry = &mut self.entries[place];
        answers.put(Record {
            entry: entry.number,
            mark: entry.mark,
            ..Record::new(Kind::Found, look_up.party, look_up.transaction)
        });
        let committed = entry.private_to == NONE;
        if look_up.kind.takes {
            if look_up.transaction != NONE && committed {
                entry.taken_by = look_up.transaction;
                entry.read_by.retain(|&reader| reader != look_up.transaction);
            } else {
                self.entries.remove(place);
            }
        } else if look_up.transaction != NONE && committed && !entry.read_by.contains(&look_up.transaction) {
            entry.read_by.push(look_up.transaction);
        }
    }

    fn create(&mut self, party: u8, lease: u32, answers: &mut Answers) -> Result<(), Refusal> {
        self.check_lease(lease)?;
        if self.transactions.len() >= MOST_TRANSACTIONS {
            return Err(Refusal::TransactionsFull);
        }
        if self.next_transaction == FOREVER {
            return Err(Refusal::NumbersUsedUp);
        }
        let number = self.next_transaction;
        self.next_transaction += 1;
        self.transactions.push(Transaction { number, owner: party, end: End::after(self.clock, lease) });
        answers.put(Record::new(Kind::Created, party, number));
        Ok(())
    }

    fn commit(&mut self, transaction: u32) {
        self.transactions.retain(|live| live.number != transaction);
        self.entries.retain_mut(|entry| {
            if entry.private_to == transaction {
                entry.private_to = NONE;
                made_public(&mut self.registrations, &entry.mark);
            }
            entry.read_by.retain(|&reader| reader != transaction);
            entry.taken_by != transaction
        });
    }

    /// What the transaction has done is undone; a look-up that waits inside is closed by the exception, or withdrawn.
    fn abort(&mut self, transaction: u32) {
        self.transactions.retain(|live| live.number != transaction);
        self.waiting.retain(|look_up| look_up.transaction != transaction);
        self.entries.retain_mut(|entry| {
            if entry.taken_by == transaction {
                entry.taken_by = NONE;
            }
            entry.read_by.retain(|&reader| reader != transaction);
            entry.private_to != transaction
        });
    }

    /// The waiting look-ups once, in order of arrival; each with an available entry is answered found.
    fn serve(&mut self, answers: &mut Answers) {
        let mut at = 0;
        while at < self.waiting.len() {
            match self.oldest_available(&self.waiting[at]) {
                Some(place) => {
                    let look_up = self.waiting.remove(at);
                    self.hand_out(&look_up, place, answers);
                }
                None => at += 1,
            }
        }
    }

    fn tick(&mut self, answers: &mut Answers) -> Result<(), Refusal> {
        if self.clock >= LAST_CLOCK {
            return Err(Refusal::TooLate);
        }
        self.clock += 1;
        let clock = self.clock;
        answers.put(Record::new(Kind::Ticked, 0, NONE));

        while let Some(ended) = self.transactions.iter().find(|live| live.end.reached(clock)).cloned() {
            self.abort(ended.number);
            answers.put(Record::new(Kind::Exception, ended.owner, ended.number));
        }
        self.registrations.retain(|registration| !registration.end.reached(clock));
        self.entries.retain(|entry| !entry.end.reached(clock));
        self.serve(answers);
        Ok(())
    }

    /// Nothing, in order of arrival, for each waiting look-up whose deadline is reached, and, by document 02 "after
    /// every frame that is not refused, once service is over", for each "waiting IfExists look-up with no conflicting
    /// entry left".
    fn close_waits(&mut self, answers: &mut Answers) {
        let (clock, entries) = (self.clock, &self.entries);
        self.waiting.retain(|look_up| {
            let in_vain = look_up.kind.if_exists && !entries.iter().any(|entry| entry.conflicts(look_up));
            let over = look_up.deadline.reached(clock) || in_vain;
            if over {
                answers.put(Record::new(Kind::Nothing, look_up.party, look_up.transaction));
            }
            !over
        });
    }

    /// Document 02: "each registration that matches some gives one record of kind 11 to its party, after all others, by
    /// number: registration number in the entry place, count in this step in kind, total so far in side".
    fn ring(&mut self, answers: &mut Answers) {
        for registration in self.registrations.iter_mut().filter(|registration| registration.count != 0) {
            registration.total += registration.count;
            let fields = [registration.count, registration.total, 0, 0];
            registration.count = 0;
            answers.put(Record {
                entry: registration.number,
                mark: Mark { fields, blanks: 0 },
                ..Record::new(Kind::Rung, registration.party, NONE)
            });
        }
    }
}

/// A stored entry has become committed, "by a write or commit": each registration that matches counts it. "Put-backs do
/// not count." Not inlined, so that a commit's pass over the entries stays fast.
#[inline(never)]
fn made_public(registrations: &mut [Registration], mark: &Mark) {
    for registration in registrations.iter_mut().filter(|registration| registration.template.matches(mark)) {
        registration.count += 1;
    }
}
