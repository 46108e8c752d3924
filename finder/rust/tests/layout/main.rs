//! The package's structs against the library's. Rattle tells no offsets, so the library has to show
//! them: pools made by hand go in, of numbers that stand nowhere else, and those that come out in
//! the log, the answer and the pool say which words were read and written. What differs is named.

mod manager;
mod places;

use caldarimpu::ffi::{
    self, state, FreeRegion, Hole, LiveBuffer, Page, Pool, Reply, Zombie, HOLES, LOG, PAGES,
    POOL_WORDS, REPLY_WORDS, ROOTS, SPANS, ZOMBIES,
};
use places::{leaves, mark, name, place, plain, reads, REPLY, SHAPES};

struct Desk {
    log: Vec<u64>,
}

/// Enough for any call: every driver call succeeds, no event is complete.
static ANSWERS: [u64; 2 * LOG] = [0; 2 * LOG];

impl Desk {
    fn new() -> Self {
        Self {
            log: vec![0; 4 * LOG],
        }
    }

    /// A record as kind, first, second, code.
    fn record(&self, at: usize) -> [u64; 4] {
        [0, 1, 2, 3].map(|cell| self.log[4 * at + cell])
    }

    fn malloc(&mut self, pool: &Pool, bytes: u64, stream: u64, answers: &[u64]) -> Reply {
        ffi::malloc(pool, bytes, stream, answers, &mut self.log)
    }

    fn free(&mut self, pool: &Pool, address: u64) -> Reply {
        ffi::free(pool, address, &ANSWERS, &mut self.log)
    }

    fn close(&mut self, pool: &Pool, answers: &[u64]) -> Reply {
        ffi::close(pool, answers, &mut self.log)
    }
}

const MAP: u64 = 3;
const RESERVE: u64 = 1;

/// An open pool with one root and nothing in it.
fn opened() -> Pool {
    let mut pool = Pool::closed();
    pool.state = state::OPEN;
    pool.page = 64;
    pool.va = pool.page * 4096;
    pool.counter = 5000;
    pool.roots.cells[0] = pool.va;
    pool.roots.count = 1;
    pool
}

/// Pages under a range, each with a handle of its own.
fn add_pages(pool: &mut Pool, start: u64, size: u64) {
    for page in (0..size).step_by(pool.page as usize) {
        let place = pool.pages.count;
        let handle = 900_000 + place as u64;
        pool.pages.cells[place] = Page {
            start: start + page,
            handle,
        };
        pool.pages.count += 1;
    }
}

#[test]
fn every_word_has_a_name_of_its_own() {
    let names: std::collections::BTreeSet<String> = (0..REPLY_WORDS).map(name).collect();
    assert_eq!(names.len(), REPLY_WORDS);
    assert!(
        !names.iter().any(|name| name.starts_with("word")),
        "{names:?}"
    );
}

#[test]
fn the_state_is_read() {
    for (number, answer) in [(state::CLOSED, 1), (state::STOPPED, 2), (3, 3)] {
        let mut words = [0; POOL_WORDS];
        words[plain("state")] = number;
        let reply = Desk::new().malloc(&Pool::from_words(words), 1, 1, &[]);
        assert_eq!(reply.answer, answer, "state {number}");
    }
}

/// Of a stopped pool only the counts are tested.
#[test]
fn counts_are_read() {
    for shape in &SHAPES {
        for (count, answer) in [(shape.cells, 0), (shape.cells + 1, 3)] {
            let mut words = [0; POOL_WORDS];
            words[plain("state")] = state::STOPPED;
            words[shape.count] = count as u64;
            let reply = Desk::new().close(&Pool::from_words(words), &ANSWERS);
            assert_eq!(reply.answer, answer, "{}.count of {count}", shape.name);
        }
    }
}

/// A stopped pool may hold any numbers, and its close names those of zombies, pages and roots.
#[test]
fn a_close_reads_zombies_pages_and_roots() {
    let mut words: [u64; POOL_WORDS] = std::array::from_fn(mark);
    words[plain("state")] = state::STOPPED;
    for shape in &SHAPES {
        let named = ["zombies", "pages", "roots"].contains(&shape.name);
        words[shape.count] = if named { shape.cells as u64 } else { 0 };
    }
    let mut desk = Desk::new();
    let reply = desk.close(&Pool::from_words(words), &ANSWERS);
    assert_eq!(
        (reply.answer, reply.records),
        (0, 1 + ZOMBIES + 2 * PAGES + ROOTS)
    );
    // Behind the sync: unmap; unmap and release; giveback.
    let mut lines = (1..reply.records).map(|at| desk.record(at));
    let mut next = || lines.next().expect("a line");
    for cell in 0..ZOMBIES {
        let [_, start, size, _] = next();
        reads(place("zombies", cell, "start"), start);
        reads(place("zombies", cell, "size"), size);
    }
    for cell in 0..PAGES {
        let ([_, start, page, _], [_, handle, ..]) = (next(), next());
        reads(place("pages", cell, "start"), start);
        reads(place("pages", cell, "handle"), handle);
        reads(plain("page"), page);
    }
    for cell in 0..ROOTS {
        let [_, base, va, _] = next();
        reads(place("roots", cell, ""), base);
        reads(plain("va"), va);
    }
}

#[test]
fn frees_read_live_buffers_and_write_free_regions() {
    let mut pool = opened();
    let mut start = pool.va;
    for cell in 0..SPANS {
        let size = pool.page * (1 + cell as u64 % 2);
        let stream = mark(place("live", cell, "stream"));
        pool.live.cells[cell] = LiveBuffer {
            start,
            size,
            stream,
        };
        pool.live.count += 1;
        add_pages(&mut pool, start, size);
        start += size;
    }
    let mut desk = Desk::new();
    for cell in 0..SPANS {
        let LiveBuffer {
            start,
            size,
            stream,
        } = pool.live.cells[0];
        let reply = desk.free(&pool, start);
        let what = format!("live buffer {cell}: answer, size");
        assert_eq!((reply.answer, reply.first), (0, size), "{what}");
        reads(place("live", cell, "stream"), reply.second);
        assert_eq!(desk.record(0)[1], pool.counter, "counter");
        let id = pool.counter;
        pool.counter += 1;
        pool.live.cells.rotate_left(1);
        pool.live.cells[SPANS - 1] = LiveBuffer::default();
        pool.live.count -= 1;
        pool.free.cells[cell] = FreeRegion {
            start,
            size,
            stream,
            id,
        };
        pool.free.count += 1;
        leaves(&pool, &reply.pool);
    }
}

/// A region of its own stream is handed out; on another stream each is asked for.
#[test]
fn mallocs_read_free_regions_and_write_live_buffers() {
    let mut pool = opened();
    let mut start = pool.va;
    for cell in 0..SPANS - 1 {
        let size = pool.page * (1 + cell as u64 % 2);
        pool.free.cells[cell] = FreeRegion {
            start,
            size,
            stream: mark(cell),
            id: 5 * cell as u64 + 1,
        };
        pool.free.count += 1;
        add_pages(&mut pool, start, size);
        start += size;
    }
    let mut desk = Desk::new();
    for cell in 0..pool.free.count {
        let FreeRegion {
            start,
            size,
            stream,
            ..
        } = pool.free.cells[cell];
        let mut after = pool;
        after.free.cells[cell..].rotate_left(1);
        after.free.cells[SPANS - 1] = FreeRegion::default();
        after.free.count -= 1;
        after.live.cells[0] = LiveBuffer {
            start,
            size,
            stream,
        };
        after.live.count = 1;
        let reply = desk.malloc(&pool, size, stream, &[]);
        let what = format!("free region {cell}: answer, start, size");
        assert_eq!(
            (reply.answer, reply.first, reply.second),
            (0, start, size),
            "{what}"
        );
        leaves(&after, &reply.pool);
    }
    desk.malloc(&pool, pool.page, 1, &ANSWERS[..2 * pool.free.count]);
    for (at, free) in pool.free.entries().iter().enumerate() {
        assert_eq!(
            desk.record(at)[1],
            free.id,
            "{}",
            name(place("free", at, "id"))
        );
    }
    assert_eq!(desk.record(pool.free.count)[0], RESERVE, "free.count");
}

#[test]
fn mallocs_ask_for_zombies() {
    let mut pool = opened();
    for cell in 0..ZOMBIES {
        pool.zombies.cells[cell] = Zombie {
            start: pool.va + cell as u64 * pool.page,
            size: pool.page,
            id: 5 * cell as u64 + 2,
        };
        pool.zombies.count += 1;
    }
    let mut desk = Desk::new();
    desk.malloc(&pool, pool.page, 1, &ANSWERS);
    for (at, zombie) in pool.zombies.entries().iter().enumerate() {
        assert_eq!(
            desk.record(at)[1],
            zombie.id,
            "{}",
            name(place("zombies", at, "id"))
        );
    }
}

/// Holes of one page but for one, which a malloc of two pages takes.
#[test]
fn mallocs_take_holes() {
    let mut pool = opened();
    let page = pool.page;
    for cell in 0..HOLES - 1 {
        let start = pool.va + 3 * page * cell as u64;
        pool.holes.cells[cell] = Hole { start, size: page };
        pool.holes.count += 1;
    }
    let mut desk = Desk::new();
    for cell in 0..pool.holes.count {
        pool.holes.cells[cell].size += page;
        desk.malloc(&pool, 2 * page, 1, &ANSWERS);
        let start = pool.holes.cells[cell].start;
        assert_eq!(
            desk.record(1)[..2],
            [MAP, start],
            "{}",
            name(place("holes", cell, "start"))
        );
        pool.holes.cells[cell].size -= page;
    }
    desk.malloc(&pool, 2 * page, 1, &ANSWERS);
    assert_eq!(
        desk.record(0)[0],
        RESERVE,
        "holes.count: none is large enough"
    );
}

/// The session of docs/RULES.md 9, A to F, after which every table but the free regions has an entry.
#[test]
fn calls_write_every_table() {
    let mut desk = Desk::new();
    let opened = ffi::open(4, 0, 40, 0, 0, &[0, 1000], &mut desk.log);
    let mut pool = opened.pool;
    let mut malloc = |pool: &Pool, bytes, stream, handles: &[u64]| {
        let pages = handles.iter().flat_map(|handle| [0, *handle, 0, 0]);
        let answers: Vec<u64> = pages.chain([0; 16]).collect();
        desk.malloc(pool, bytes, stream, &answers).pool
    };
    pool = malloc(&pool, 8, 1, &[71, 72]);
    pool = malloc(&pool, 4, 2, &[73]);
    pool = malloc(&pool, 4, 1, &[74]);
    pool = Desk::new().free(&pool, 1000).pool;
    pool = Desk::new().free(&pool, 1012).pool;
    pool = Desk::new().malloc(&pool, 12, 1, &ANSWERS).pool;
    leaves(&after_f(), &pool);
}

fn after_f() -> Pool {
    let mut pool = Pool::closed();
    (pool.state, pool.page, pool.va, pool.counter) = (state::OPEN, 4, 40, 6);
    let live = [(1008, 4, 2), (1016, 12, 1)];
    for (cell, (start, size, stream)) in live.into_iter().enumerate() {
        pool.live.cells[cell] = LiveBuffer {
            start,
            size,
            stream,
        };
    }
    let zombies = [(1000, 8, 3), (1012, 4, 4)];
    for (cell, (start, size, id)) in zombies.into_iter().enumerate() {
        pool.zombies.cells[cell] = Zombie { start, size, id };
    }
    let pages = [(1008, 73), (1016, 71), (1020, 72), (1024, 74)];
    for (cell, (start, handle)) in pages.into_iter().enumerate() {
        pool.pages.cells[cell] = Page { start, handle };
    }
    pool.holes.cells[0] = Hole {
        start: 1028,
        size: 12,
    };
    pool.roots.cells[0] = 1000;
    (pool.live.count, pool.zombies.count, pool.pages.count) = (2, 2, 4);
    (pool.holes.count, pool.roots.count) = (1, 1);
    pool
}

/// Numbers of a reply that differ from each other and from all around them.
#[test]
fn replies_are_written() {
    let mut pool = opened();
    pool.zombies.cells[0] = Zombie {
        start: pool.va,
        size: pool.page,
        id: 2,
    };
    pool.zombies.count = 1;
    let mut desk = Desk::new();
    let wrote = |reply: Reply, field: &str, number: u64| {
        let word = REPLY.iter().find(|(name, _)| *name == field);
        let word = word.expect("a field of the reply").1;
        let wrote = reply.words()[word];
        assert_eq!(wrote, number, "{field} is at word {word} of the reply here");
    };
    // Two answers short of the third record: sync, unmap, giveback.
    let short = desk.close(&pool, &ANSWERS[..4]);
    wrote(short, "answer", 17);
    wrote(short, "records", 3);
    wrote(short, "taken", 2);
    leaves(&pool, &short.pool);
    let large = desk.malloc(&pool, 2 * pool.va, 1, &ANSWERS);
    wrote(large, "answer", 8);
    wrote(large, "first", 2 * pool.va);
    wrote(large, "second", pool.va);
    // The log's length lies behind the pool where arguments are on the stack.
    let cut = ffi::malloc(&pool, 64, 1, &ANSWERS, &mut desk.log[..4 * LOG - 1]);
    wrote(cut, "answer", 4);
}
