//! What the driver and the callers hold at a line, and the rules R1 to R10.

use std::collections::{BTreeMap, BTreeSet};

use super::{Fault, Size};
use crate::bounds::ADDRESSES_END;

#[derive(Clone, Copy)]
struct Live {
    size: u64,
    stream: u64,
}

/// Effects come after the rule, sizes after the effect.
#[derive(Clone, Default)]
pub struct Held {
    page_size: u64,
    va_size: u64,
    /// Their bases; each is of `va_size` bytes.
    reservations: BTreeSet<u64>,
    handles: BTreeSet<u64>,
    /// The handle at each mapped page's address.
    mapped: BTreeMap<u64, u64>,
    /// By address. All their pages are mapped, each to a handle that no other has.
    live: BTreeMap<u64, Live>,
    last_event: Option<u64>,
}

fn rule(number: u64, kept: bool) -> Result<(), Fault> {
    if kept {
        Ok(())
    } else {
        Err(Fault::Rule(number))
    }
}

fn size(size: Size, held: usize) -> Result<(), Fault> {
    if held <= size.limit() {
        Ok(())
    } else {
        Err(Fault::Size(size))
    }
}

impl Held {
    pub fn new(page_size: u64, va_size: u64) -> Self {
        Self {
            page_size,
            va_size,
            ..Self::default()
        }
    }

    /// R1.
    pub fn reserve(&mut self, base: u64, bytes: u64) -> Result<(), Fault> {
        rule(
            1,
            bytes == self.va_size && self.is_pages(bytes) && self.is_credible(base),
        )?;
        self.reservations.insert(base);
        size(Size::Reservations, self.reservations.len())
    }

    fn is_credible(&self, base: u64) -> bool {
        base != 0
            && base.is_multiple_of(self.page_size)
            && self.va_size <= ADDRESSES_END
            && base <= ADDRESSES_END - self.va_size
            && (self.reservations.iter()).all(|other| other.abs_diff(base) >= self.va_size)
    }

    /// R2.
    pub fn create(&mut self, handle: u64) -> Result<(), Fault> {
        rule(2, self.handles.insert(handle))?;
        size(Size::Handles, self.handles.len())
    }

    /// R3.
    pub fn map(&mut self, address: u64, handle: u64) -> Result<(), Fault> {
        rule(
            3,
            address.is_multiple_of(self.page_size)
                && self.is_reserved(address)
                && !self.mapped.contains_key(&address)
                && self.handles.contains(&handle),
        )?;
        self.mapped.insert(address, handle);
        size(Size::Mapped, self.mapped.len())
    }

    /// Of an aligned page: as bases and `va_size` are aligned, its start tells.
    fn is_reserved(&self, page: u64) -> bool {
        let base = self.reservations.range(..=page).next_back();
        base.is_some_and(|base| page - base < self.va_size)
    }

    /// R4.
    pub fn unmap(&mut self, address: u64, bytes: u64) -> Result<(), Fault> {
        rule(
            4,
            self.is_mapped(address, bytes) && !self.meets_live(address, bytes),
        )?;
        self.mapped
            .retain(|page, _| !(address..address + bytes).contains(page));
        Ok(())
    }

    /// R5.
    pub fn release(&mut self, handle: u64) -> Result<(), Fault> {
        rule(5, !self.mapped.values().any(|mapped| *mapped == handle))?;
        rule(5, self.handles.remove(&handle))
    }

    /// R6.
    pub fn access(&self, address: u64, bytes: u64) -> Result<(), Fault> {
        rule(6, self.is_mapped(address, bytes))
    }

    /// R7, at a malloc's result.
    pub fn malloc(
        &mut self,
        asked: u64,
        stream: u64,
        address: u64,
        bytes: u64,
    ) -> Result<(), Fault> {
        rule(
            7,
            bytes == asked
                && self.is_mapped(address, bytes)
                && !self.meets_live(address, bytes)
                && self.has_own_handles(address, bytes),
        )?;
        let live = Live {
            size: bytes,
            stream,
        };
        self.live.insert(address, live);
        size(Size::Live, self.live.len())
    }

    /// No handle is twice in these mapped pages, and none is in a live buffer.
    fn has_own_handles(&self, address: u64, bytes: u64) -> bool {
        let mut seen: BTreeSet<u64> = (self.live.iter())
            .flat_map(|(address, live)| self.handles_in(*address, live.size))
            .collect();
        self.handles_in(address, bytes)
            .all(|handle| seen.insert(handle))
    }

    /// R8, at a free's result.
    pub fn free(&mut self, address: u64, bytes: u64, stream: u64) -> Result<(), Fault> {
        let live = self.live.get(&address);
        rule(
            8,
            live.is_some_and(|live| live.size == bytes && live.stream == stream),
        )?;
        self.live.remove(&address);
        Ok(())
    }

    /// R9 of a record.
    pub fn record(&mut self, event: u64) -> Result<(), Fault> {
        rule(9, self.last_event.is_none_or(|last| last < event))?;
        self.last_event = Some(event);
        Ok(())
    }

    /// R9 of an asked or a wait.
    pub fn is_recorded(&self, event: u64) -> Result<(), Fault> {
        rule(9, self.last_event.is_some_and(|last| event <= last))
    }

    /// R10.
    pub fn give_back(&mut self, base: u64, bytes: u64) -> Result<(), Fault> {
        rule(
            10,
            bytes == self.va_size
                && self.reservations.contains(&base)
                && self.handles_in(base, bytes).next().is_none(),
        )?;
        self.reservations.remove(&base);
        Ok(())
    }

    pub fn end_all_live(&mut self) {
        self.live.clear();
    }

    /// One or more whole pages' worth.
    fn is_pages(&self, bytes: u64) -> bool {
        bytes != 0 && bytes.is_multiple_of(self.page_size)
    }

    /// One or more whole pages, all of them mapped.
    fn is_mapped(&self, address: u64, bytes: u64) -> bool {
        address.is_multiple_of(self.page_size)
            && self.is_pages(bytes)
            && address.checked_add(bytes).is_some()
            && self.handles_in(address, bytes).count() as u64 == bytes / self.page_size
    }

    /// The handles mapped in a range that does not wrap.
    fn handles_in(&self, address: u64, bytes: u64) -> impl Iterator<Item = u64> + '_ {
        (self.mapped.range(address..address + bytes)).map(|(_, handle)| *handle)
    }

    /// Of a range that does not wrap.
    fn meets_live(&self, address: u64, bytes: u64) -> bool {
        let end = address + bytes;
        (self.live.iter()).any(|(start, live)| *start < end && address < start + live.size)
    }
}
