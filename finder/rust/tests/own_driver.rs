//! A driver written out, with what it need not say left as it is: which sync it is asked for, small
//! buffers, and what is said of failures that end no call.

use std::{env, fs::File, process::Command};

use caldarimpu::{Answers, Card, Code, Config, Driver, Manager, Pool, Record, Refusal, Word};

const PAGE: u64 = 4;
const VA: u64 = 40;
const CODE: u64 = 700;

#[derive(Clone, Copy, Debug, PartialEq, Eq)]
enum Synced {
    Stream(u64),
    Card,
}

/// Passes every driver call on to a card, and says no more than it must.
#[derive(Default)]
struct Own {
    card: Card,
    synced: Vec<Synced>,
}

impl Driver for Own {
    fn reserve(&mut self, va_size: u64) -> Result<u64, Code> {
        self.card.reserve(va_size)
    }

    fn create(&mut self, page_size: u64) -> Result<u64, Code> {
        self.card.create(page_size)
    }

    fn map(&mut self, address: u64, handle: u64) -> Result<(), Code> {
        self.card.map(address, handle)
    }

    fn access(&mut self, address: u64, bytes: u64) -> Result<(), Code> {
        self.card.access(address, bytes)
    }

    fn unmap(&mut self, address: u64, bytes: u64) -> Result<(), Code> {
        self.card.unmap(address, bytes)
    }

    fn release(&mut self, handle: u64) -> Result<(), Code> {
        self.card.release(handle)
    }

    fn record(&mut self, id: u64, stream: u64) -> Result<(), Code> {
        self.card.record(id, stream)
    }

    fn asked(&mut self, id: u64) -> Result<bool, Code> {
        self.card.asked(id)
    }

    fn wait(&mut self, id: u64, stream: u64) -> Result<(), Code> {
        self.card.wait(id, stream)
    }

    fn sync(&mut self, stream: u64) -> Result<(), Code> {
        self.synced.push(Synced::Stream(stream));
        self.card.sync(stream)
    }

    fn sync_card(&mut self) -> Result<(), Code> {
        self.synced.push(Synced::Card);
        self.card.sync_card()
    }

    fn giveback(&mut self, base: u64, va_size: u64) -> Result<(), Code> {
        self.card.giveback(base, va_size)
    }
}

/// The same in one function.
struct OwnAnswers(Card);

impl Answers for OwnAnswers {
    fn answer(&mut self, wanted: Record) -> Result<u64, Code> {
        self.0.answer(wanted)
    }
}

/// Whatever number the stream of the opening has, a close is of the card.
#[test]
fn an_opening_syncs_its_stream_and_a_close_the_card() {
    for initial_stream in [0, 7] {
        let mut driver = Own::default();
        let config = Config {
            initial_pages: 2,
            initial_stream,
            ..Config::new(PAGE, VA)
        };
        let pool = Pool::open(&mut driver, config).expect("an opening");
        assert_eq!(driver.synced, [Synced::Stream(initial_stream)]);
        assert_eq!(pool.close(&mut driver), Ok(0));
        assert_eq!(
            driver.synced,
            [Synced::Stream(initial_stream), Synced::Card]
        );
        let records = driver.card.seen().iter();
        let synced = records.filter(|record| record.word == Word::Sync);
        let numbers: Vec<u64> = synced.map(|record| record.first).collect();
        assert_eq!(numbers, [initial_stream, 0]);
    }
}

#[test]
fn without_initial_pages_an_opening_syncs_nothing() {
    let mut driver = Own::default();
    let pool = Pool::open(&mut driver, Config::new(PAGE, VA)).expect("an opening");
    assert_eq!(driver.synced, []);
    assert_eq!(pool.close(&mut driver), Ok(0));
    assert_eq!(driver.synced, [Synced::Card]);
}

/// Also where the sync of its stream is what failed.
#[test]
fn an_opening_that_is_given_up_syncs_the_card() {
    let mut driver = Own::default();
    driver.card.fail(Word::Sync, 0, CODE);
    let config = Config {
        initial_pages: 2,
        ..Config::new(PAGE, VA)
    };
    let refusal = Pool::open(&mut driver, config).expect_err("a failure");
    assert_eq!(refusal.number(), Some(14));
    assert_eq!(driver.synced, [Synced::Stream(0), Synced::Card]);
}

/// A driver for the plain pool needs no more for a manager, but it has no small buffers.
#[test]
fn without_small_buffers() {
    let mut driver = Own::default();
    assert_eq!(driver.drop_small(1, 2, 3).map_err(Code::get), Err(801));
    let mut manager = Manager::open(&mut driver, Config::new(PAGE, VA)).expect("an opening");
    let refusal = manager.malloc(&mut driver, 3, 1).expect_err("a failure");
    let record = Record {
        word: Word::Small,
        first: 0,
        second: 3,
        code: 801,
    };
    let opening = false;
    assert_eq!(refusal, Refusal::DriverFailed { record, opening });
    let buffer = manager.malloc(&mut driver, 5, 1).expect("room");
    assert_eq!((buffer.address, buffer.size), (2 * VA, 8));
    assert_eq!(manager.close(&mut driver), Ok(0));
}

/// One in one function is asked for them as for all else.
#[test]
fn small_buffers_in_one_function() {
    let mut driver = OwnAnswers(Card::new());
    let mut manager = Manager::open(&mut driver, Config::new(PAGE, VA)).expect("an opening");
    let buffer = manager.malloc(&mut driver, 3, 1).expect("a small buffer");
    manager
        .free(&mut driver, buffer.address)
        .expect("a small buffer");
    let words: Vec<Word> = driver.0.seen().iter().map(|seen| seen.word).collect();
    assert_eq!(words, [Word::Reserve, Word::Small, Word::DropSmall]);
    assert_eq!(manager.close(&mut driver), Ok(0));
}

/// The last test, in a process of its own.
fn writing() -> Command {
    let mut command = Command::new(env::current_exe().expect("this program"));
    command.args(["--exact", "writes", "--ignored", "--nocapture", "--quiet"]);
    command
}

#[test]
fn failures_are_written_to_standard_error() {
    let ran = writing().output().expect("a process");
    assert!(ran.status.success(), "{ran:?}");
    let said = String::from_utf8(ran.stderr).expect("text");
    assert_eq!(
        said,
        "caldarimpu: passed over: unmap 80 4, code 700\n\
         caldarimpu: passed over: giveback 80 40, code 9\n\
         caldarimpu: passed over: sync 0 0, code 8\n"
    );
}

#[test]
fn a_line_that_is_not_taken_ends_nothing() {
    let full = File::create("/dev/full").expect("a device that takes nothing");
    let ran = writing().stderr(full).output().expect("a process");
    assert!(ran.status.success(), "{ran:?}");
}

#[test]
#[ignore = "for the two tests above"]
fn writes() {
    let mut driver = Own::default();
    let mut pool = Pool::open(&mut driver, Config::new(PAGE, VA)).expect("an opening");
    driver.card.fail(Word::Create, 1, 2);
    driver.card.fail(Word::Unmap, 0, CODE);
    driver.card.fail(Word::Giveback, 0, 9);
    let refusal = pool.malloc(&mut driver, 8, 1).expect_err("no memory");
    assert_eq!(refusal.number(), Some(13));
    assert_eq!(pool.close(&mut driver), Ok(1));

    let mut driver = OwnAnswers(Card::new());
    let pool = Pool::open(&mut driver, Config::new(PAGE, VA)).expect("an opening");
    driver.0.fail(Word::Sync, 0, 8);
    assert_eq!(pool.close(&mut driver), Ok(1));
}
