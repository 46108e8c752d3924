//! Each driver word failing once, wherever a call makes it: what the call answers, whether the pool
//! goes on, and that the driver saw the calls of the trace and no others.

use caldarimpu::{Card, Config, Pool, Record, Refusal, Word};

const PAGE: u64 = 4;
const VA: u64 = 40;
const BASE: u64 = 2 * VA;
const CODE: u64 = 700;
const OUT_OF_MEMORY: u64 = 2;

/// A pool on its card.
struct Desk {
    card: Card,
    pool: Pool,
}

impl Desk {
    fn open() -> Self {
        let mut card = Card::new();
        let pool = Pool::open(&mut card, Config::new(PAGE, VA)).expect("an opening");
        Self { card, pool }
    }

    fn malloc(&mut self, bytes: u64, stream: u64) -> Result<u64, Refusal> {
        let buffer = self.pool.malloc(&mut self.card, bytes, stream)?;
        assert_eq!(buffer.size, bytes);
        Ok(buffer.address)
    }

    fn free(&mut self, address: u64) -> Result<(u64, u64), Refusal> {
        let freed = self.pool.free(&mut self.card, address)?;
        Ok((freed.size, freed.stream))
    }

    /// Three buffers, the first and the last of them free again on stream 1.
    fn fragmented() -> Self {
        let mut desk = Self::open();
        assert_eq!(desk.malloc(8, 1), Ok(BASE));
        assert_eq!(desk.malloc(4, 2), Ok(BASE + 8));
        assert_eq!(desk.malloc(4, 1), Ok(BASE + 12));
        assert_eq!(desk.free(BASE), Ok((8, 1)));
        assert_eq!(desk.free(BASE + 12), Ok((4, 1)));
        desk
    }

    /// The same, with the free pages moved to a third place: their old places are zombies.
    fn with_zombies() -> Self {
        let mut desk = Self::fragmented();
        assert_eq!(desk.malloc(12, 1), Ok(BASE + 16));
        assert_eq!(desk.pool.value().zombies.count, 2);
        desk
    }

    /// The failure was met, and the pool serves calls; then it closes without a failure.
    fn goes_on(mut self, word: Word, code: u64) {
        assert_seen(&self.card, word, code);
        assert!(!self.pool.is_stopped());
        let address = self.malloc(4, 9).expect("the pool goes on");
        assert_eq!(self.free(address), Ok((4, 9)));
        assert_eq!(self.pool.close(&mut self.card), Ok(0));
        assert_traced(&self.card);
    }

    /// The failure was met, and stopped the pool.
    fn stops(self, word: Word, code: u64) {
        assert_seen(&self.card, word, code);
        self.refuses();
    }

    /// Everything but close is refused, without a driver call.
    fn refuses(mut self) {
        assert!(self.pool.is_stopped());
        let before = self.card.seen().len();
        assert_eq!(self.malloc(4, 1), Err(Refusal::PoolStopped));
        assert_eq!(self.free(BASE), Err(Refusal::PoolStopped));
        assert_eq!(self.card.seen().len(), before);
        assert_eq!(self.pool.close(&mut self.card), Ok(0));
        assert_traced(&self.card);
    }
}

/// Of 14 in a malloc or free: the last driver call is the one that failed.
#[track_caller]
fn failed(card: &Card) -> Refusal {
    let record = *card.seen().last().expect("a driver call");
    assert_eq!(record.code, CODE);
    let opening = false;
    Refusal::DriverFailed { record, opening }
}

/// Of 15 in a malloc.
#[track_caller]
fn incredible(card: &Card, word: Word, given: u64) -> Refusal {
    let record = *card.seen().last().expect("a driver call");
    assert_eq!((record.word, record.first, record.code), (word, given, 0));
    let opening = false;
    Refusal::Incredible { record, opening }
}

#[track_caller]
fn assert_seen(card: &Card, word: Word, code: u64) -> Record {
    let met = |record: &&Record| record.word == word && record.code == code;
    let records: Vec<&Record> = card.seen().iter().filter(met).collect();
    let [record] = records[..] else {
        panic!("not one {} with code {code}: {records:?}", word.name());
    };
    *record
}

/// The driver's own notes are the trace's driver lines, each once and in order.
#[track_caller]
fn assert_traced(card: &Card) {
    let names = Word::ALL.map(Word::name);
    let is_driver_line = |line: &&str| names.contains(&line.split('\t').next().unwrap_or_default());
    let traced: Vec<&str> = card.trace().lines().filter(is_driver_line).collect();
    let seen: Vec<String> = (card.seen().iter())
        .map(|record| {
            let name = record.word.name();
            format!(
                "{name}\t{}\t{}\t{}",
                record.first, record.second, record.code
            )
        })
        .collect();
    assert_eq!(traced, seen);
}

fn reserve_failed() -> Refusal {
    Refusal::ReserveFailed {
        va_size: VA,
        page_size: PAGE,
    }
}

#[test]
fn a_reserve_of_an_opening() {
    let mut card = Card::new();
    card.fail(Word::Reserve, 0, CODE);
    let opened = Pool::open(&mut card, Config::new(PAGE, VA));
    assert_eq!(opened.err(), Some(reserve_failed()));
    assert_eq!(
        card.trace(),
        "open\t4\t40\t0\nreserve\t0\t40\t700\nresult\t40\t4\t12\n"
    );
    assert_traced(&card);
}

#[test]
fn a_reserve_of_a_malloc() {
    let mut desk = Desk::open();
    desk.malloc(8, 1).expect("room");
    desk.card.fail(Word::Reserve, 0, CODE);
    assert_eq!(desk.malloc(36, 1), Err(reserve_failed()));
    desk.goes_on(Word::Reserve, CODE);
}

#[test]
fn a_create_without_memory() {
    let mut desk = Desk::open();
    desk.card.fail(Word::Create, 2, OUT_OF_MEMORY);
    let refusal = Refusal::OutOfMemory {
        missing: 12,
        created: 8,
    };
    assert_eq!(desk.malloc(12, 1), Err(refusal));
    desk.goes_on(Word::Create, OUT_OF_MEMORY);
}

#[test]
fn another_create() {
    let mut desk = Desk::open();
    desk.card.fail(Word::Create, 1, CODE);
    assert_eq!(desk.malloc(12, 1), Err(failed(&desk.card)));
    desk.stops(Word::Create, CODE);
}

#[test]
fn a_map_and_an_access() {
    for word in [Word::Map, Word::Access] {
        let mut desk = Desk::open();
        desk.card.fail(word, 0, CODE);
        assert_eq!(desk.malloc(12, 1), Err(failed(&desk.card)));
        desk.stops(word, CODE);
    }
}

#[test]
fn a_map_and_an_access_of_moved_pages() {
    for (word, after) in [(Word::Map, 2), (Word::Access, 0)] {
        let mut desk = Desk::fragmented();
        desk.card.fail(word, after, CODE);
        assert_eq!(desk.malloc(12, 1), Err(failed(&desk.card)));
        desk.stops(word, CODE);
    }
}

#[test]
fn an_unmap_and_a_release_of_a_rollback() {
    for word in [Word::Unmap, Word::Release] {
        let mut desk = Desk::open();
        desk.card.fail(Word::Create, 2, OUT_OF_MEMORY);
        desk.card.fail(word, 1, CODE);
        let refusal = desk.malloc(12, 1).expect_err("no memory");
        assert_eq!(refusal.number(), Some(13));
        desk.goes_on(word, CODE);
    }
}

#[test]
fn an_unmap_of_a_zombie() {
    let mut desk = Desk::with_zombies();
    desk.card.finish_below(desk.pool.value().counter);
    desk.card.fail(Word::Unmap, 0, CODE);
    desk.malloc(4, 3).expect("room");
    assert_eq!(desk.pool.value().zombies.count, 0);
    desk.goes_on(Word::Unmap, CODE);
}

#[test]
fn an_asked_is_not_complete() {
    let mut desk = Desk::with_zombies();
    desk.card.finish_below(desk.pool.value().counter);
    desk.card.fail(Word::Asked, 0, CODE);
    desk.malloc(4, 3).expect("room");
    assert_eq!(desk.pool.value().zombies.count, 1);
    desk.goes_on(Word::Asked, CODE);
}

#[test]
fn a_record() {
    let mut desk = Desk::open();
    desk.card.fail(Word::Record, 0, CODE);
    assert_eq!(desk.malloc(4, 1), Err(failed(&desk.card)));
    desk.stops(Word::Record, CODE);

    let mut desk = Desk::open();
    let address = desk.malloc(4, 1).expect("room");
    desk.card.fail(Word::Record, 0, CODE);
    assert_eq!(desk.free(address), Err(failed(&desk.card)));
    desk.stops(Word::Record, CODE);
}

#[test]
fn a_wait() {
    let mut desk = Desk::fragmented();
    desk.card.fail(Word::Wait, 1, CODE);
    assert_eq!(desk.malloc(12, 2), Err(failed(&desk.card)));
    desk.stops(Word::Wait, CODE);
}

/// An opening that fails after its first reservation gives back what it took.
#[test]
fn the_initial_pages() {
    let config = Config {
        initial_pages: 2,
        initial_stream: 7,
        ..Config::new(PAGE, VA)
    };
    for word in [
        Word::Create,
        Word::Map,
        Word::Access,
        Word::Record,
        Word::Sync,
    ] {
        let mut card = Card::new();
        card.fail(word, 0, CODE);
        let refusal = Pool::open(&mut card, config).expect_err("a failure");
        let record = assert_seen(&card, word, CODE);
        let opening = true;
        assert_eq!(refusal, Refusal::DriverFailed { record, opening });
        assert!(card
            .trace()
            .ends_with("giveback\t80\t40\t0\nresult\t0\t0\t0\n"));
        assert_traced(&card);
    }
}

/// A close goes on and counts.
#[test]
fn lines_of_a_close() {
    for word in [Word::Sync, Word::Unmap, Word::Release, Word::Giveback] {
        let Desk { mut card, pool } = Desk::with_zombies();
        card.fail(word, 0, CODE);
        assert_eq!(pool.close(&mut card), Ok(1));
        assert_seen(&card, word, CODE);
        assert_traced(&card);
    }
}

/// Bases that a driver can't have given.
#[test]
fn incredible_bases() {
    for base in [0, BASE + 2, 1 << 63, u64::MAX] {
        let mut card = Card::new();
        card.give(Word::Reserve, base);
        let opened = Pool::open(&mut card, Config::new(PAGE, VA));
        let opening = true;
        let record = card.seen()[0];
        assert_eq!((record.word, record.first), (Word::Reserve, base));
        let refusal = Refusal::Incredible { record, opening };
        assert_eq!(opened.err(), Some(refusal));
        assert_traced(&card);
    }
    for base in [BASE, BASE + 4, BASE - 4] {
        let mut desk = Desk::open();
        desk.malloc(8, 1).expect("room");
        desk.card.give(Word::Reserve, base);
        let refusal = desk.malloc(36, 1);
        assert_eq!(refusal, Err(incredible(&desk.card, Word::Reserve, base)));
        desk.refuses();
    }
}

/// The handle of a page in use, and of one created in the same call.
#[test]
fn incredible_handles() {
    let mut desk = Desk::open();
    desk.malloc(8, 1).expect("room");
    desk.card.give(Word::Create, 1);
    let refusal = desk.malloc(12, 2);
    assert_eq!(refusal, Err(incredible(&desk.card, Word::Create, 1)));
    desk.refuses();

    let mut desk = Desk::open();
    desk.card.give(Word::Create, 2);
    let refusal = desk.malloc(12, 2);
    assert_eq!(refusal, Err(incredible(&desk.card, Word::Create, 2)));
    desk.refuses();
}

/// A driver may give the very handles that are guessed; that only costs a run.
#[test]
fn handles_that_are_guessed() {
    for place in 0..12 {
        let mut desk = Desk::open();
        desk.card.give(Word::Create, (1 << 63) + place);
        assert_eq!(desk.malloc(12, 1), Ok(BASE));
        assert_eq!(desk.pool.value().pages.cells[0].handle, (1 << 63) + place);
        desk.card.give(Word::Create, (1 << 63) + place + 1);
        assert_eq!(desk.malloc(16, 2), Ok(BASE + 12));
        assert_eq!(desk.pool.close(&mut desk.card), Ok(0));
        assert_traced(&desk.card);
    }
}
