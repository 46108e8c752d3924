//! Which request comes next in a random session of the manager: sizes in bytes, on both sides of a
//! page, with few enough small buffers.

use super::{rounded, State};
use crate::{bounds::ADDRESSES_END, choose::Chooser, random::Random, session::Call, words::Words};

/// The layer's table of small buffers holds so many.
pub const SMALLS: usize = 128;

pub enum Chosen {
    Call(Call),
    ResetHighest,
}

pub struct ManagerChooser {
    pool: Chooser,
    random: Random,
    words: Words,
    /// Sessions ebb and flow here too: the chance that a small buffer is given back, and calls until
    /// it is another.
    ebb: u64,
    tide: u64,
    /// Pointers that were freed: unknown now, unless the card has given them again.
    freed: Vec<u64>,
}

impl ManagerChooser {
    pub fn new(seed: u64, words: Words) -> Self {
        Self {
            pool: Chooser::new(seed, words),
            random: Random::new(seed.rotate_left(32)),
            words,
            ebb: 0,
            tide: 0,
            freed: Vec::new(),
        }
    }

    pub fn next(&mut self, state: &State) -> Chosen {
        if self.random.percent(2) {
            return Chosen::ResetHighest;
        }
        if self.words.config.page_size > 1 && self.random.percent(self.words.small) {
            return Chosen::Call(self.small(state));
        }
        Chosen::Call(match self.pool.next(&state.tables) {
            Call::Malloc { bytes, stream } => Call::Malloc {
                bytes: self.bytes(bytes),
                stream,
            },
            call => call,
        })
    }

    fn small(&mut self, state: &State) -> Call {
        if self.tide == 0 {
            self.tide = 1 + self.random.below(60);
            self.ebb = self.random.pick(&[5, 35, 65]);
        }
        self.tide -= 1;
        let full = state.small.len() >= SMALLS;
        if !state.small.is_empty() && (full || self.random.percent(self.ebb)) {
            return Call::Free {
                address: self.address(state),
            };
        }
        let below = self.words.config.page_size - 1;
        let some = 1 + self.random.below(below);
        Call::Malloc {
            bytes: self.random.pick(&[1, below, some, some]),
            stream: self.pool.stream(),
        }
    }

    /// Mostly of a small buffer. The one behind it, and one freed before, may be unknown, another's, or
    /// a buffer of the pool.
    fn address(&mut self, state: &State) -> u64 {
        let pointer = self.random.pick(&state.small).pointer;
        match self.random.below(100) {
            0..4 => pointer.wrapping_add(1),
            4..9 if !self.freed.is_empty() => self.random.pick(&self.freed),
            _ => {
                self.freed.push(pointer);
                pointer
            }
        }
    }

    /// A size that is rounded up to this one, or one that is far beyond any reservation.
    fn bytes(&mut self, bytes: u64) -> u64 {
        let page_size = self.words.config.page_size;
        if !self.random.percent(self.words.odd) {
            return bytes;
        }
        if self.random.percent(2) {
            let largest = ADDRESSES_END / page_size * page_size;
            let below = page_size * self.random.below(3) + self.random.below(page_size);
            return largest - below;
        }
        let least = (bytes - page_size + 1).max(page_size);
        let some = least + self.random.below(bytes - least + 1);
        let odd = self.random.pick(&[least, bytes - 1, some]).max(least);
        debug_assert_eq!(rounded(odd, page_size), bytes);
        odd
    }
}
