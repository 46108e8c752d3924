
// ============================================================================
// Appended by compare/original/build.rs: a reader of the private tables.
// ============================================================================

impl VirtualMemoryPool {
    pub(super) fn tables(&self) -> crate::tables::Tables {
        use crate::{driver, tables::*};

        let mut live: Vec<Live> = (self.malloc_regions.iter())
            .map(|(&address, record)| Live {
                range: Range::new(address, record.size as u64),
                stream: driver::stream_number(record.stream.as_raw()),
            })
            .collect();
        live.sort_by_key(|live| live.range.address);
        let mut pages: Vec<Page> = (self.active_pages.iter())
            .map(|(&address, &handle)| Page { address, handle })
            .collect();
        pages.sort_by_key(|page| page.address);
        Tables {
            free: self.free_regions.iter().map(free_entry).collect(),
            live,
            holes: (self.unmapped_regions.iter())
                .map(|(&address, &size)| Range::new(address, size as u64))
                .collect(),
            zombies: (self.zombie_regions.iter())
                .map(|zombie| Zombie {
                    range: Range::new(zombie.ptr, zombie.size as u64),
                    event: driver::event_id(zombie.event.as_raw()),
                })
                .collect(),
            pages,
            roots: self.roots.clone(),
            counter: self.free_num as u64,
        }
    }
}

/// One number stands for a region's event and its id, so they must agree.
fn free_entry((&address, region): (&CUdeviceptr, &FreeRegionMeta)) -> crate::tables::Free {
    use crate::{driver, tables::*};

    let id = region.id as u64;
    let event = driver::event_id(region.event.as_raw());
    assert_eq!(event, id, "the event of the free region at {address} is another than its id");
    Free {
        range: Range::new(address, region.size as u64),
        stream: driver::stream_number(region.stream.as_raw()),
        id,
    }
}
