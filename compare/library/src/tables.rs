//! The library's pool value, as the tables that the Rust shows.

use caldarimpu::ffi::Pool;
use original::tables::{Free, Live, Page, Range, Tables, Zombie};

pub fn tables_of(pool: &Pool) -> Tables {
    let free = pool.free.entries().iter().map(|free| Free {
        range: Range::new(free.start, free.size),
        stream: free.stream,
        id: free.id,
    });
    let live = pool.live.entries().iter().map(|live| Live {
        range: Range::new(live.start, live.size),
        stream: live.stream,
    });
    let holes = (pool.holes.entries().iter()).map(|hole| Range::new(hole.start, hole.size));
    let zombies = pool.zombies.entries().iter().map(|zombie| Zombie {
        range: Range::new(zombie.start, zombie.size),
        event: zombie.id,
    });
    let pages = pool.pages.entries().iter().map(|page| Page {
        address: page.start,
        handle: page.handle,
    });
    Tables {
        free: free.collect(),
        live: live.collect(),
        holes: holes.collect(),
        zombies: zombies.collect(),
        pages: pages.collect(),
        roots: pool.roots.entries().to_vec(),
        counter: pool.counter,
    }
}
