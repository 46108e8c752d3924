//! Which call comes next in a random session: credible, and within the ceilings.

use original::tables::{Range, Tables};

use crate::{
    bounds::{missing, HOLES_AND_ZOMBIES, PAGES, ROOTS, SPANS, ZOMBIES},
    random::Random,
    session::Call,
    words::Words,
};

pub struct Chooser {
    random: Random,
    words: Words,
    streams: Vec<u64>,
    /// Sessions ebb and flow: calls until the tide turns, and the chance of a free until then.
    tide: u64,
    free: u64,
}

impl Chooser {
    pub fn new(seed: u64, words: Words) -> Self {
        let mut random = Random::new(seed);
        // The initial stream, 0, can be named only where the pool has none of its own.
        let first = (words.config.initial_pages > 0) as u64;
        let mut streams: Vec<u64> = (first..first + words.streams).collect();
        if random.percent(25) {
            *streams.last_mut().expect("at least one stream") = u64::MAX;
        }
        Self {
            random,
            words,
            streams,
            tide: 0,
            free: 0,
        }
    }

    pub fn stream(&mut self) -> u64 {
        self.random.pick(&self.streams)
    }

    pub fn next(&mut self, tables: &Tables) -> Call {
        self.turn_the_tide();
        if self.random.percent(self.words.bogus) {
            return self.bogus_free(tables);
        }
        if self.random.percent(self.free) && !tables.live.is_empty() {
            return self.free(tables);
        }
        for _ in 0..8 {
            let bytes = self.bytes(tables);
            let stream = self.stream();
            if self.is_within_ceilings(bytes, stream, tables) {
                return Call::Malloc { bytes, stream };
            }
        }
        self.free(tables)
    }

    fn turn_the_tide(&mut self) {
        if self.tide == 0 {
            self.tide = 1 + self.random.below(24);
            let free = self.words.free;
            self.free = self
                .random
                .pick(&[free, free.saturating_sub(25), free + 25]);
        }
        self.tide -= 1;
    }

    fn free(&mut self, tables: &Tables) -> Call {
        if tables.live.is_empty() {
            return self.bogus_free(tables);
        }
        Call::Free {
            address: self.random.pick(&tables.live).range.address,
        }
    }

    /// 0, the highest number, or a place in a buffer, free region or zombie that is no live start.
    fn bogus_free(&mut self, tables: &Tables) -> Call {
        let live = tables.live.iter().map(|live| live.range.address + 1);
        let free = tables.free.iter().map(|free| free.range.address);
        let zombies = tables.zombies.iter().map(|zombie| zombie.range.address);
        let known: Vec<u64> = [0, u64::MAX]
            .into_iter()
            .chain(live)
            .chain(free)
            .chain(zombies)
            .collect();
        let address = self.random.pick(&known);
        if tables.live.iter().any(|live| live.range.address == address) {
            return Call::Free { address: 0 };
        }
        Call::Free { address }
    }

    fn bytes(&mut self, tables: &Tables) -> u64 {
        let Words {
            config,
            whole,
            above,
            largest,
            ..
        } = self.words;
        let page = config.page_size;
        let pages = config.va_size / page;
        if self.random.percent(above) {
            return self.bytes_above(tables);
        }
        if self.random.percent(whole) {
            return config.va_size;
        }
        let free: u64 = tables.free.iter().map(|free| free.range.size).sum();
        let holes: Vec<Range> = (tables.holes.iter().copied())
            .filter(|hole| hole.size <= free)
            .collect();
        let some = 1 + self.random.below(largest);
        // Sizes of regions make exact fits and ties; sizes of holes and of all that is free, moves.
        let wanted = match self.random.below(10) {
            0 | 1 if free > 0 => self.random.pick(&tables.free).range.size / page,
            2 if !holes.is_empty() => self.random.pick(&holes).size / page,
            3 => free / page,
            4 => free / page + some,
            _ => some,
        };
        wanted.clamp(1, pages) * page
    }

    /// Above va_size, and if a region merged over roots is that large, mostly within it.
    fn bytes_above(&mut self, tables: &Tables) -> u64 {
        let config = self.words.config;
        let over = |range: Range| range.size.saturating_sub(config.va_size) / config.page_size;
        let most = tables.free.iter().map(|free| over(free.range)).max();
        let most = most.unwrap_or(0);
        let pages = if most > 0 && self.random.percent(80) {
            most
        } else {
            config.va_size / config.page_size
        };
        config.va_size + config.page_size * (1 + self.random.below(pages))
    }

    /// On the safe side: cleanup turns zombies into holes and lets no more be refused.
    fn is_within_ceilings(&self, bytes: u64, stream: u64, tables: &Tables) -> bool {
        let config = self.words.config;
        if tables.free.len() + tables.live.len() >= SPANS {
            return false;
        }
        let fits =
            (tables.free.iter()).any(|free| free.stream == stream && free.range.size >= bytes);
        if fits || bytes > config.va_size {
            return true;
        }
        let retired = tables.zombies.len() + tables.free.len();
        let pages = tables.pages.len() as u64 + missing(bytes, tables) / config.page_size;
        let a_hole_suffices = tables.holes.iter().any(|hole| hole.size >= bytes);
        pages <= PAGES
            && retired <= ZOMBIES
            && retired + tables.holes.len() < HOLES_AND_ZOMBIES
            && (a_hole_suffices || tables.roots.len() < ROOTS)
    }
}
