//! The spaces that are compared with the reference.

use crate::view::view;
use reference::space::Space;
use tray::boundary;
use tray::words::{Words, WORDS, WORD_WAITING_COUNT};
use tray::words::{WORD_CLOCK, WORD_NEXT_ENTRY, WORD_NEXT_REGISTRATION, WORD_NEXT_TRANSACTION};

/// Where a history begins: nothing is stored, live or waiting, and so many ticks, writes with lease 0, transactions and
/// registrations lie behind.
#[derive(Clone, Copy, PartialEq, Eq, Debug)]
pub struct Beginning {
    pub clock: u32,
    pub next_entry: u32,
    pub next_transaction: u32,
    pub next_registration: u32,
}

impl Beginning {
    /// The empty space.
    pub const EMPTY: Beginning = Beginning { clock: 0, next_entry: 1, next_transaction: 1, next_registration: 1 };

    pub fn of_reference(self) -> Space {
        let Beginning { clock, next_entry, next_transaction, next_registration } = self;
        Space { clock, next_entry, next_transaction, next_registration, ..Space::new() }
    }
}

/// A space that is compared with the reference. Two are equal if nothing of their states differs.
pub trait Subject: Clone + PartialEq {
    const NAME: &'static str;

    fn begin(at: Beginning) -> Self;

    /// Records + 65,536 × number.
    fn step(&mut self, frame: &[u8], area: &mut [u8]) -> u64;

    /// Frames + 65,536 × records + 4,294,967,296 × number.
    fn run_tray(tray: &[u8], area: &mut [u8]) -> u64;

    /// Entries + 65,536 × records + 4,294,967,296 × number, from the tray alone; none if it gives no bounds.
    fn tray_bounds(_tray: &[u8]) -> Option<u64> {
        None
    }

    /// Its tables, with read holds by number; none if it does not show them.
    fn tables(&self) -> Option<Space>;

    /// How many look-ups wait, by its own count; none if it does not show it.
    fn waiting(&self) -> Option<usize> {
        self.tables().map(|space| space.waiting.len())
    }
}

/// The proved space.
#[derive(Clone, PartialEq)]
pub struct Proved(Words);

impl Subject for Proved {
    const NAME: &'static str = "the space";

    fn begin(at: Beginning) -> Proved {
        let mut words = [0xa5a5_a5a5; WORDS];
        boundary::empty(&mut words);
        if at != Beginning::EMPTY {
            words[WORD_CLOCK] = at.clock;
            words[WORD_NEXT_ENTRY] = at.next_entry;
            words[WORD_NEXT_TRANSACTION] = at.next_transaction;
            words[WORD_NEXT_REGISTRATION] = at.next_registration;
        }
        Proved(words)
    }

    fn step(&mut self, frame: &[u8], area: &mut [u8]) -> u64 {
        boundary::step(&mut self.0, frame, area)
    }

    fn run_tray(tray: &[u8], area: &mut [u8]) -> u64 {
        boundary::run_tray(tray, area)
    }

    fn tray_bounds(tray: &[u8]) -> Option<u64> {
        Some(boundary::tray_bounds(tray))
    }

    fn tables(&self) -> Option<Space> {
        Some(view(&self.0))
    }

    fn waiting(&self) -> Option<usize> {
        Some(self.0[WORD_WAITING_COUNT] as usize)
    }
}

/// A tuned peer.
#[derive(Clone, PartialEq)]
pub struct Tuned<S>(S);

impl<S: tuned::Space> Subject for Tuned<S> {
    const NAME: &'static str = S::NAME;

    fn begin(at: Beginning) -> Tuned<S> {
        Tuned(S::beginning(at.clock, [at.next_entry, at.next_transaction, at.next_registration]))
    }

    fn step(&mut self, frame: &[u8], area: &mut [u8]) -> u64 {
        self.0.step(frame, area)
    }

    fn run_tray(tray: &[u8], area: &mut [u8]) -> u64 {
        S::run_tray(tray, area)
    }

    fn tables(&self) -> Option<Space> {
        None
    }
}
