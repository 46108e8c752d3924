//! Where the rules answer by a number that the Rust has nothing like. Such a call must not be
//! printed as if the Rust had agreed, so it is told before the pool runs, or in the driver.

use original::{
    driver::{Record, Word},
    tables::{Range, Tables},
};

use crate::session::Call;

pub const PAGES: u64 = 256;
pub const SPANS: usize = 128;
pub const ZOMBIES: usize = 128;
pub const HOLES_AND_ZOMBIES: usize = 512;
pub const ROOTS: usize = 16;
pub const LARGEST_VA_SIZE: u64 = 1 << 46;
pub const ADDRESSES_END: u64 = 1 << 63;
const COUNTER_END: u64 = 1 << 62;

#[derive(Clone, Copy, Debug, Default, PartialEq, Eq)]
pub struct Config {
    pub page_size: u64,
    pub va_size: u64,
    pub initial_pages: u64,
}

impl Config {
    /// What the rules answer with 19 where it does not hold.
    pub fn is_good(self) -> bool {
        self.page_size > 0
            && self.va_size > 0
            && self.va_size.is_multiple_of(self.page_size)
            && self.va_size <= LARGEST_VA_SIZE
            && self.initial_pages <= PAGES
            && self.initial_pages <= self.va_size / self.page_size
    }
}

/// The number by which the rules refuse an opened pool's call at entry, where the Rust panics
/// or goes on. `tables` is `None` for a closed pool.
pub fn refusal_at_entry(call: Call, config: Config, tables: Option<&Tables>) -> Option<u64> {
    let Some(tables) = tables else {
        return Some(1);
    };
    let spans = tables.free.len() + tables.live.len();
    let counter_is_used_up = tables.counter >= COUNTER_END;
    match call {
        Call::Malloc { .. } | Call::Free { .. } if counter_is_used_up => Some(5),
        Call::Malloc { bytes, .. } if bytes == 0 || bytes % config.page_size != 0 => Some(6),
        Call::Malloc { .. } if spans >= SPANS => Some(7),
        _ => None,
    }
}

/// Bytes that a malloc of `bytes` lacks: neither cleanup nor a fit that fails changes free regions.
pub fn missing(bytes: u64, tables: &Tables) -> u64 {
    let free: u64 = tables.free.iter().map(|free| free.range.size).sum();
    bytes.saturating_sub(free)
}

/// Free regions that a malloc asks for a fit: all that are large enough, unless one is its own.
pub fn asked_for_fit(bytes: u64, stream: u64, tables: &Tables) -> usize {
    let candidates = || tables.free.iter().filter(|free| free.range.size >= bytes);
    if candidates().any(|free| free.stream == stream) {
        0
    } else {
        candidates().count()
    }
}

/// Ranges of one kind put together, touching ones as one, by ascending address.
pub fn joined(ranges: impl IntoIterator<Item = Range>) -> Vec<Range> {
    let mut ranges: Vec<Range> = ranges.into_iter().collect();
    ranges.sort_by_key(|range| range.address);
    let mut joined: Vec<Range> = Vec::new();
    for range in ranges {
        match joined.last_mut() {
            Some(last) if last.end() == range.address => last.size += range.size,
            _ => joined.push(range),
        }
    }
    joined
}

/// Follows one call's driver calls, from the tables at its entry.
#[derive(Default)]
pub struct Watch {
    config: Config,
    entry: Tables,
    missing: u64,
    /// Asks still to come from cleanup and fit.
    asks: usize,
    /// Zombies that cleanup has unmapped.
    cleaned: Vec<Range>,
    making_room: bool,
    created: Vec<u64>,
}

impl Watch {
    pub fn new(call: Call, config: Config, tables: Option<&Tables>) -> Self {
        let entry = tables.cloned().unwrap_or_default();
        let (missing, asks) = match call {
            Call::Malloc { bytes, stream } => (
                missing(bytes, &entry),
                entry.zombies.len() + asked_for_fit(bytes, stream, &entry),
            ),
            _ => (0, 0),
        };
        Self {
            config,
            entry,
            missing,
            asks,
            cleaned: Vec::new(),
            making_room: false,
            created: Vec::new(),
        }
    }

    /// Before an answer is lent: 9, 10 and 11, met where malloc begins to make room.
    pub fn before(&mut self, wanted: Record) -> Option<u64> {
        match wanted.word {
            Word::Asked if self.asks > 0 => {
                self.asks -= 1;
                None
            }
            Word::Asked | Word::Create | Word::Map | Word::Wait => self.make_room(),
            Word::Reserve => self.make_room().or_else(|| self.reserve()),
            Word::Unmap if !self.making_room => {
                self.cleaned.push(Range::new(wanted.first, wanted.second));
                None
            }
            _ => None,
        }
    }

    /// After an answer of code 0: 15.
    pub fn after(&mut self, record: Record) -> Option<u64> {
        let credible = match record.word {
            Word::Reserve => self.base_is_credible(record.first),
            Word::Create => self.handle_is_credible(record.first),
            _ => true,
        };
        (!credible).then_some(15)
    }

    fn make_room(&mut self) -> Option<u64> {
        if std::mem::replace(&mut self.making_room, true) {
            return None;
        }
        let entry = &self.entry;
        if entry.pages.len() as u64 + self.missing / self.config.page_size > PAGES {
            return Some(9);
        }
        let retired = entry.zombies.len() - self.cleaned.len() + entry.free.len();
        let holes = joined(entry.holes.iter().chain(&self.cleaned).copied());
        (retired > ZOMBIES || retired + holes.len() >= HOLES_AND_ZOMBIES).then_some(10)
    }

    fn reserve(&self) -> Option<u64> {
        (self.entry.roots.len() >= ROOTS).then_some(11)
    }

    fn base_is_credible(&self, base: u64) -> bool {
        let va_size = self.config.va_size;
        base != 0
            && base.is_multiple_of(self.config.page_size)
            && base <= ADDRESSES_END - va_size
            && self
                .entry
                .roots
                .iter()
                .all(|root| root.abs_diff(base) >= va_size)
    }

    fn handle_is_credible(&mut self, handle: u64) -> bool {
        let held = self.entry.pages.iter().any(|page| page.handle == handle)
            || self.created.contains(&handle);
        self.created.push(handle);
        !held
    }
}

#[cfg(test)]
mod tests {
    use super::*;

    #[test]
    fn touching_ranges_are_joined() {
        let ranges = [(20, 4), (8, 4), (12, 4), (0, 4), (24, 1)];
        let joined = joined(ranges.map(|(address, size)| Range::new(address, size)));
        let wanted = [(0, 4), (8, 8), (20, 5)];
        assert_eq!(
            joined,
            wanted.map(|(address, size)| Range::new(address, size))
        );
    }
}
