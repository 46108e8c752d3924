//! A credible driver of random mood, for sessions that the Rust itself drives.

use std::collections::BTreeMap;

use original::driver::{Answer, Answers, Record, Word};

use crate::{
    bounds::{Config, ADDRESSES_END},
    random::Random,
    words::{Failure, Words},
};

/// What the session is at. The Rust panics where an opening or a close fails, so there nothing does.
#[derive(Clone, Copy, Debug, PartialEq, Eq)]
pub enum Mood {
    Opening,
    Ordinary,
    /// The call that the words name fails as soon as it comes.
    Failing,
    Closing,
}

pub struct RandomCard {
    random: Random,
    words: Words,
    pub mood: Mood,
    roots: Vec<u64>,
    /// Pages created and not released.
    held: u64,
    released: Vec<u64>,
    next_handle: u64,
    /// For each event recorded, its stream.
    events: Vec<u64>,
    /// For each stream, the events below this id are complete: a stream is done in order.
    done: BTreeMap<u64, u64>,
    /// The handle created last, while it waits for its map.
    fresh: Option<u64>,
    /// The last map moved a page.
    moving: bool,
    /// Small buffers: pointer and size of those held, and pointers given back.
    small: BTreeMap<u64, u64>,
    dropped: Vec<u64>,
    /// Tells cards apart where no number is to be drawn.
    seed: u64,
}

const SUCCESS: Answer = Answer { code: 0, value: 0 };
const OUT_OF_MEMORY: i32 = 2;
const CODES: [i32; 6] = [1, 2, 3, 700, 999, i32::MAX];
const FIRST_HANDLES: [u64; 5] = [0, 1, 71, 1 << 32, u64::MAX - 20];

impl RandomCard {
    pub fn new(seed: u64, words: Words) -> Self {
        let mut random = Random::new(!seed);
        let next_handle = random.pick(&FIRST_HANDLES);
        Self {
            random,
            words,
            mood: Mood::Opening,
            roots: Vec::new(),
            held: 0,
            released: Vec::new(),
            next_handle,
            events: Vec::new(),
            done: BTreeMap::new(),
            fresh: None,
            moving: false,
            small: BTreeMap::new(),
            dropped: Vec::new(),
            seed,
        }
    }

    fn failed(&mut self) -> Answer {
        Answer {
            code: self.random.pick(&CODES),
            value: 0,
        }
    }

    fn fails(&mut self, chance: u64) -> bool {
        matches!(self.mood, Mood::Ordinary | Mood::Failing) && self.random.percent(chance)
    }

    /// The call that ends the session by 14.
    fn is_the_failure(&self, call: Failure) -> bool {
        self.mood == Mood::Failing && self.words.fail == call
    }

    fn reserve(&mut self) -> Answer {
        if self.fails(self.words.refuse) {
            return self.failed();
        }
        let value = self.base();
        self.roots.push(value);
        Answer { code: 0, value }
    }

    fn base(&mut self) -> u64 {
        let va_size = self.words.config.va_size;
        if self.words.high && self.roots.is_empty() {
            let page_size = self.words.config.page_size;
            return ADDRESSES_END / page_size * page_size - va_size;
        }
        if !self.roots.is_empty() && self.random.percent(self.words.touch) {
            let root = self.random.pick(&self.roots);
            let below = root.wrapping_sub(va_size);
            let base = if self.random.percent(50) {
                below
            } else {
                root + va_size
            };
            if self.is_credible(base) {
                return base;
            }
        }
        self.base_anywhere()
    }

    /// A few reservations' worth of addresses, so that some touch by chance too.
    fn base_anywhere(&mut self) -> u64 {
        let va_size = self.words.config.va_size;
        loop {
            let base = va_size * (1 + self.random.below(100))
                + self.words.config.page_size * self.random.below(3);
            if self.is_credible(base) {
                return base;
            }
        }
    }

    fn is_credible(&self, base: u64) -> bool {
        let va_size = self.words.config.va_size;
        (1..=ADDRESSES_END - va_size).contains(&base)
            && self.roots.iter().all(|root| root.abs_diff(base) >= va_size)
    }

    fn create(&mut self) -> Answer {
        if self.is_the_failure(Failure::Create) {
            return Answer {
                code: self.random.pick(&[1, 3, 700]),
                value: 0,
            };
        }
        // A card that is to fail has memory enough to get there.
        let full = self.mood != Mood::Failing && self.held >= self.words.memory;
        if full || self.fails(self.words.oom) {
            return Answer {
                code: OUT_OF_MEMORY,
                value: 0,
            };
        }
        let value = self.handle();
        self.held += 1;
        self.fresh = Some(value);
        Answer { code: 0, value }
    }

    fn handle(&mut self) -> u64 {
        if !self.released.is_empty() && self.random.percent(60) {
            let place = self.random.below(self.released.len() as u64);
            return self.released.swap_remove(place as usize);
        }
        let handle = self.next_handle;
        self.next_handle = self.next_handle.wrapping_add(1);
        handle
    }

    fn map(&mut self, handle: u64) -> Answer {
        self.moving = self.fresh.take() != Some(handle);
        let call = if self.moving {
            Failure::Move
        } else {
            Failure::Map
        };
        self.end_if(call)
    }

    fn access(&mut self) -> Answer {
        let call = if self.moving {
            Failure::Moved
        } else {
            Failure::Access
        };
        self.end_if(call)
    }

    fn end_if(&mut self, call: Failure) -> Answer {
        if self.is_the_failure(call) {
            self.failed()
        } else {
            SUCCESS
        }
    }

    /// A handle whose release failed is gone all the same, but never comes again.
    fn release(&mut self, handle: u64) -> Answer {
        self.held -= 1;
        if self.fails(self.words.releasefail) {
            return self.failed();
        }
        self.released.push(handle);
        SUCCESS
    }

    fn asked(&mut self, id: u64) -> Answer {
        if self.fails(self.words.askfail) {
            return Answer {
                code: self.random.pick(&[1, 600, 700, i32::MAX]),
                value: self.random.below(2),
            };
        }
        let stream = self.events[id as usize];
        let chance = self.words.done;
        let done = self.done.entry(stream).or_default();
        if id >= *done && self.random.percent(chance) {
            *done = id + 1;
        }
        Answer {
            code: 0,
            value: (id < *done) as u64,
        }
    }

    fn small(&mut self, size: u64) -> Answer {
        if self.fails(self.words.smallfail) {
            return self.failed();
        }
        let value = self.small_pointer();
        self.small.insert(value, size);
        Answer { code: 0, value }
    }

    /// Outside every root, though one reserved later may come to lie there.
    fn small_pointer(&mut self) -> u64 {
        let Config {
            page_size, va_size, ..
        } = self.words.config;
        for _ in 0..8 {
            let root = self.random.pick(&self.roots);
            let pointer = match self.random.below(7) {
                0 => va_size * (1 + self.random.below(100)) + page_size * self.random.below(3),
                1 => self.random.below(va_size * 100),
                2 => root - 1,
                3 => root + va_size,
                4 => u64::MAX - self.random.below(300),
                5 if !self.dropped.is_empty() => self.random.pick(&self.dropped),
                _ => ADDRESSES_END + 256 * self.random.below(1000),
            };
            if self.is_credible_small(pointer) {
                return pointer;
            }
        }
        let mut above = (1..).map(|place| ADDRESSES_END + 512 * place);
        (above.find(|pointer| self.is_credible_small(*pointer))).expect("few are held")
    }

    fn is_credible_small(&self, pointer: u64) -> bool {
        let va_size = self.words.config.va_size;
        let is_inside = |root: &u64| (*root..root + va_size).contains(&pointer);
        pointer != 0 && !self.small.contains_key(&pointer) && !self.roots.iter().any(is_inside)
    }

    /// In a close the pointer alone says whether it fails: the Rust has an order of its own there.
    fn drop_small(&mut self, pointer: u64) -> Answer {
        let failed = if self.mood == Mood::Closing {
            let mut own = Random::new(self.seed ^ pointer);
            (own.percent(self.words.dropfail)).then(|| own.pick(&CODES))
        } else {
            (self.fails(self.words.dropfail)).then(|| self.random.pick(&CODES))
        };
        if let Some(code) = failed {
            return Answer { code, value: 0 };
        }
        self.small.remove(&pointer);
        self.dropped.push(pointer);
        SUCCESS
    }
}

impl Answers for RandomCard {
    fn small_size(&self, pointer: u64) -> u64 {
        self.small.get(&pointer).copied().unwrap_or_default()
    }

    fn lend(&mut self, wanted: Record) -> Answer {
        match wanted.word {
            Word::Reserve => self.reserve(),
            Word::Create => self.create(),
            Word::Map => self.map(wanted.second),
            Word::Access => self.access(),
            Word::Unmap if self.fails(self.words.unmapfail) => self.failed(),
            Word::Release => self.release(wanted.first),
            Word::Record => {
                self.events.push(wanted.second);
                SUCCESS
            }
            Word::Asked => self.asked(wanted.first),
            Word::Wait => self.end_if(Failure::Wait),
            Word::Sync => {
                self.done.insert(wanted.first, self.events.len() as u64);
                SUCCESS
            }
            Word::Unmap | Word::Giveback => SUCCESS,
            Word::Small => self.small(wanted.second),
            Word::DropSmall => self.drop_small(wanted.first),
        }
    }
}
