//! A driver that panics in the middle of a call: the pool is poisoned, and its close is served.

use std::panic::{catch_unwind, AssertUnwindSafe};

use caldarimpu::{Answers, Call, Card, Code, Config, Happened, Pool, Record, Refusal, Word};

const PAGE: u64 = 4;
const VA: u64 = 40;
const BASE: u64 = 2 * VA;

/// A card that panics once, after so many calls of a word.
#[derive(Default)]
struct Fragile {
    card: Card,
    breaks: Option<(Word, u64)>,
    breaks_when_told: bool,
    told: u64,
    /// Of the call that was told last.
    runs: u64,
}

impl Answers for Fragile {
    fn answer(&mut self, wanted: Record) -> Result<u64, Code> {
        match &mut self.breaks {
            Some((word, 0)) if *word == wanted.word => {
                self.breaks = None;
                panic!("the driver breaks");
            }
            Some((word, left)) if *word == wanted.word => *left -= 1,
            _ => {}
        }
        self.card.answer(wanted)
    }

    fn told(&mut self, call: &Happened) {
        self.told += 1;
        self.runs = call.runs;
        assert!(!self.breaks_when_told, "the driver breaks");
        self.card.told(call);
    }
}

/// A pool with two buffers, at its base and behind it.
fn desk() -> (Fragile, Pool) {
    let mut driver = Fragile::default();
    let mut pool = Pool::open(&mut driver, Config::new(PAGE, VA)).expect("an opening");
    for address in [BASE, BASE + 8] {
        let buffer = pool.malloc(&mut driver, 8, 1).expect("room");
        assert_eq!(buffer.address, address);
    }
    (driver, pool)
}

/// The driver panics in the call.
#[track_caller]
fn break_off<T>(call: impl FnOnce() -> T) {
    let ended = catch_unwind(AssertUnwindSafe(call));
    assert!(ended.is_err(), "the driver does not panic");
}

/// The pool is as it was, tells what was made in the call, and serves a close alone.
#[track_caller]
fn assert_poisoned(driver: &mut Fragile, mut pool: Pool, call: Call) {
    let (driver_before, before) = desk();
    assert!(*pool.value() == *before.value(), "the pool has changed");
    let records = driver.card.seen()[driver_before.card.seen().len()..].to_vec();
    let told = driver.told;
    for _ in 0..2 {
        assert_eq!(pool.malloc(driver, 4, 1), Err(Refusal::Poisoned));
        assert_eq!(pool.free(driver, BASE), Err(Refusal::Poisoned));
        let interrupted = pool.interrupted().expect("a call");
        assert_eq!(interrupted.call, call);
        assert_eq!(interrupted.records, records);
    }
    let seen = driver_before.card.seen().len() + records.len();
    assert_eq!((driver.card.seen().len(), driver.told), (seen, told));
    assert!(!pool.is_stopped());
    assert_closes(driver, pool);
}

/// The trace goes on with a close, and it is that of the pool before the call.
#[track_caller]
fn assert_closes(driver: &mut Fragile, pool: Pool) {
    assert_eq!(pool.close(driver), Ok(0));
    let (mut other, pool) = desk();
    assert_eq!(pool.close(&mut other), Ok(0));
    assert_eq!(driver.card.trace(), other.card.trace());
    assert_eq!(driver.runs, other.runs);
}

#[test]
fn a_malloc_is_broken_off() {
    let (bytes, stream) = (12, 2);
    for (word, after, answered) in [
        (Word::Create, 0, 0),
        (Word::Create, 1, 2),
        (Word::Map, 0, 1),
        (Word::Map, 2, 5),
        (Word::Access, 0, 6),
        (Word::Record, 0, 7),
    ] {
        let (mut driver, mut pool) = desk();
        driver.breaks = Some((word, after));
        break_off(|| pool.malloc(&mut driver, bytes, stream));
        let interrupted = pool.interrupted().expect("a call");
        assert_eq!(interrupted.records.len(), answered, "{}", word.name());
        assert_poisoned(&mut driver, pool, Call::Malloc { bytes, stream });
    }
}

#[test]
fn a_free_is_broken_off() {
    let (mut driver, mut pool) = desk();
    driver.breaks = Some((Word::Record, 0));
    break_off(|| pool.free(&mut driver, BASE + 8));
    let address = BASE + 8;
    assert_poisoned(&mut driver, pool, Call::Free { address });
}

/// The close guesses anew where the call had a create that failed: that costs it no run.
#[test]
fn answers_are_forgotten() {
    let (mut driver, mut pool) = desk();
    driver.card.fail(Word::Create, 1, 2);
    driver.breaks = Some((Word::Release, 0));
    break_off(|| pool.malloc(&mut driver, 12, 2));
    let (bytes, stream) = (12, 2);
    assert_poisoned(&mut driver, pool, Call::Malloc { bytes, stream });
}

/// There is no pool then, and nothing is given back.
#[test]
fn an_opening_is_broken_off() {
    let mut driver = Fragile {
        breaks: Some((Word::Create, 0)),
        ..Fragile::default()
    };
    let config = Config {
        initial_pages: 2,
        ..Config::new(PAGE, VA)
    };
    break_off(|| Pool::open(&mut driver, config));
    let words: Vec<Word> = driver.card.seen().iter().map(|seen| seen.word).collect();
    assert_eq!(words, [Word::Reserve]);
    assert_eq!(driver.told, 0);
}

/// A call that has ended is not taken back: the pool goes on, with the buffer in its table.
#[test]
fn a_panic_when_told_poisons_nothing() {
    let (mut driver, mut pool) = desk();
    driver.breaks_when_told = true;
    break_off(|| pool.malloc(&mut driver, 4, 2));
    driver.breaks_when_told = false;
    assert_eq!(pool.interrupted(), None);
    let buffer = pool.value().live.entries()[2];
    assert_eq!(
        (buffer.start, buffer.size, buffer.stream),
        (BASE + 16, 4, 2)
    );
    let freed = pool.free(&mut driver, buffer.start).expect("a live buffer");
    assert_eq!((freed.size, freed.stream), (4, 2));
    assert_eq!(pool.close(&mut driver), Ok(0));
}

#[test]
fn the_refusal_is_the_packages_own() {
    let refusal = Refusal::Poisoned;
    assert_eq!((refusal.number(), refusal.orphan()), (None, None));
    assert!(!refusal.stops());
    assert_eq!(
        refusal.to_string(),
        "the driver panicked in an earlier call: close the pool"
    );
}
