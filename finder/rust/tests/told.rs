//! Failures that end no call: the driver is told of each, once, and of no other.

use caldarimpu::{Answers, Card, Code, Config, Happened, Pool, Record, Word};

const PAGE: u64 = 4;
const VA: u64 = 40;
const BASE: u64 = 2 * VA;
const CODE: u64 = 700;
const OUT_OF_MEMORY: u64 = 2;

/// A card that notes what it is told, in order.
#[derive(Default)]
struct Listener {
    card: Card,
    /// Since the last call was told.
    passed_over: Vec<Record>,
    told: Vec<Vec<Record>>,
}

impl Answers for Listener {
    fn answer(&mut self, wanted: Record) -> Result<u64, Code> {
        self.card.answer(wanted)
    }

    fn told(&mut self, call: &Happened) {
        let failures: Vec<Record> = call.failures().copied().collect();
        assert_eq!(failures, self.passed_over);
        self.told.push(std::mem::take(&mut self.passed_over));
    }

    fn warned(&mut self, failed: Record) {
        self.passed_over.push(failed);
    }
}

fn failed(word: Word, first: u64, second: u64) -> Record {
    Record {
        word,
        first,
        second,
        code: CODE,
    }
}

impl Listener {
    /// What the last call passed over; nothing is told behind it.
    fn last(&self) -> &[Record] {
        assert_eq!(self.passed_over, []);
        self.told.last().expect("a call")
    }

    fn open(&mut self) -> Pool {
        Pool::open(self, Config::new(PAGE, VA)).expect("an opening")
    }

    /// A pool with two pages in use at one place, and zombies where they were.
    fn with_zombies(&mut self) -> Pool {
        let mut pool = self.open();
        let [low, _, high] = [4, 4, 4].map(|bytes| pool.malloc(self, bytes, 1).expect("room"));
        for buffer in [low, high] {
            pool.free(self, buffer.address).expect("a live buffer");
        }
        pool.malloc(self, 8, 1).expect("room");
        assert_eq!(pool.value().zombies.count, 2);
        pool
    }
}

/// The create that is answered is not passed over.
#[test]
fn a_rollback() {
    for (word, first, second) in [(Word::Unmap, BASE + 4, PAGE), (Word::Release, 2, 0)] {
        let mut driver = Listener::default();
        let mut pool = driver.open();
        driver.card.fail(Word::Create, 2, OUT_OF_MEMORY);
        driver.card.fail(word, 1, CODE);
        let refusal = pool.malloc(&mut driver, 12, 1).expect_err("no memory");
        assert_eq!(refusal.number(), Some(13));
        assert_eq!(driver.last(), [failed(word, first, second)]);
        assert_eq!(pool.close(&mut driver), Ok(0));
        assert_eq!(driver.last(), []);
    }
}

#[test]
fn a_cleanup() {
    for (word, first, second) in [(Word::Unmap, BASE, PAGE), (Word::Asked, 3, 0)] {
        let mut driver = Listener::default();
        let mut pool = driver.with_zombies();
        driver.card.finish_below(pool.value().counter);
        driver.card.fail(word, 0, CODE);
        pool.malloc(&mut driver, 4, 1).expect("room");
        assert_eq!(driver.last(), [failed(word, first, second)]);
        assert_eq!(pool.close(&mut driver), Ok(0));
    }
}

/// As many as it counts.
#[test]
fn a_close() {
    let mut driver = Listener::default();
    let pool = driver.with_zombies();
    driver.card.fail(Word::Sync, 0, CODE);
    driver.card.fail(Word::Unmap, 2, CODE);
    driver.card.fail(Word::Release, 0, CODE);
    driver.card.fail(Word::Giveback, 0, CODE);
    assert_eq!(pool.close(&mut driver), Ok(4));
    let passed_over = [
        failed(Word::Sync, 0, 0),
        failed(Word::Unmap, BASE + 4, PAGE),
        failed(Word::Release, 2, 0),
        failed(Word::Giveback, BASE, VA),
    ];
    assert_eq!(driver.last(), passed_over);
}

/// The opening's own failure is its answer; those of the close behind it are passed over.
#[test]
fn an_opening_that_is_given_up() {
    for word in [Word::Access, Word::Sync] {
        let mut driver = Listener::default();
        driver.card.fail(word, 0, CODE);
        driver.card.fail(Word::Release, 1, CODE);
        let config = Config {
            initial_pages: 2,
            ..Config::new(PAGE, VA)
        };
        let refusal = Pool::open(&mut driver, config).expect_err("a failure");
        assert_eq!(refusal.number(), Some(14));
        assert_eq!(driver.told, [vec![], vec![failed(Word::Release, 2, 0)]]);
    }
}

/// Failures that a call answers.
#[test]
fn answers_are_not_passed_over() {
    for (word, number) in [
        (Word::Reserve, 12),
        (Word::Create, 14),
        (Word::Map, 14),
        (Word::Access, 14),
        (Word::Record, 14),
    ] {
        let mut driver = Listener::default();
        let mut pool = driver.open();
        pool.malloc(&mut driver, 8, 1).expect("room");
        driver.card.fail(word, 0, CODE);
        let refusal = pool.malloc(&mut driver, 36, 1).expect_err("a failure");
        assert_eq!(refusal.number(), Some(number));
        assert_eq!(driver.last(), []);
        assert_eq!(pool.close(&mut driver), Ok(0));
    }
}

/// The made-up driver notes them.
#[test]
fn a_card() {
    let mut card = Card::new();
    let pool = Pool::open(&mut card, Config::new(PAGE, VA)).expect("an opening");
    card.fail(Word::Giveback, 0, CODE);
    assert_eq!(pool.close(&mut card), Ok(1));
    assert_eq!(card.failures(), [failed(Word::Giveback, BASE, VA)]);
}
