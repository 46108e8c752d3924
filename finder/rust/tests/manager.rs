//! Sizes in bytes: what the pool is asked for and what the driver, on which stream, what is held,
//! what is traced, and what refusals leave.

use std::panic::{catch_unwind, AssertUnwindSafe};

use caldarimpu::{
    ffi::{SmallBuffer, SMALLS},
    Answers, Call, Card, Code, Config, Happened, Manager, Record, Refusal, Word,
};

const PAGE: u64 = 4;
const VA: u64 = 40;
const BASE: u64 = 2 * VA;
const CODE: u64 = 700;

/// The pointer of the card's n-th small buffer.
const fn small(n: u64) -> u64 {
    (1 << 63) + 256 * n
}

/// A manager on its card.
struct Desk {
    card: Card,
    manager: Manager,
    /// How much of the trace was looked at.
    looked_at: usize,
}

impl Desk {
    fn open() -> Self {
        let mut card = Card::new();
        let manager = Manager::open(&mut card, Config::new(PAGE, VA)).expect("an opening");
        assert_eq!(manager.page_size(), PAGE);
        let looked_at = card.trace().len();
        Self {
            card,
            manager,
            looked_at,
        }
    }

    /// Address and size.
    fn malloc(&mut self, bytes: u64, stream: u64) -> Result<(u64, u64), Refusal> {
        let buffer = self.manager.malloc(&mut self.card, bytes, stream)?;
        Ok((buffer.address, buffer.size))
    }

    /// Size and stream.
    fn free(&mut self, address: u64) -> Result<(u64, u64), Refusal> {
        let freed = self.manager.free(&mut self.card, address)?;
        Ok((freed.size, freed.stream))
    }

    /// The lines since it was last asked.
    fn traced(&mut self) -> String {
        let lines = self.card.trace()[self.looked_at..].to_string();
        self.looked_at = self.card.trace().len();
        lines
    }

    #[track_caller]
    fn assert_holds(&self, current: u64, highest: u64, small: usize) {
        let held = self.manager.value().small.count;
        let told = (self.manager.current(), self.manager.highest(), held);
        assert_eq!(told, (current, highest, small), "current, highest, small");
    }

    /// The card that is left.
    #[track_caller]
    fn close(self, failures: u64) -> Card {
        let Self {
            mut card, manager, ..
        } = self;
        assert_eq!(manager.close(&mut card), Ok(failures));
        card
    }
}

fn record(word: Word, first: u64, second: u64, code: u64) -> Record {
    Record {
        word,
        first,
        second,
        code,
    }
}

#[test]
fn whole_pages_are_the_pools_and_small_ones_the_drivers() {
    let mut desk = Desk::open();
    assert_eq!(desk.malloc(5, 1), Ok((BASE, 8)));
    desk.assert_holds(8, 8, 0);
    assert_eq!(
        desk.traced(),
        "malloc\t8\t1\t0\ncreate\t1\t4\t0\nmap\t80\t1\t0\ncreate\t2\t4\t0\nmap\t84\t2\t0\n\
         access\t80\t8\t0\nrecord\t0\t1\t0\nresult\t80\t8\t0\n"
    );
    assert_eq!(desk.malloc(3, 6), Ok((small(1), 3)));
    desk.assert_holds(11, 11, 1);
    assert_eq!(desk.traced(), format!("small\t{}\t3\t0\n", small(1)));
    assert_eq!(desk.malloc(1, 7), Ok((small(2), 1)));
    desk.traced();
    assert_eq!(desk.free(small(1)), Ok((3, 6)));
    desk.assert_holds(9, 12, 1);
    assert_eq!(desk.traced(), format!("dropsmall\t{}\t3\t0\n", small(1)));
    assert_eq!(desk.free(BASE), Ok((8, 1)));
    desk.assert_holds(1, 12, 1);
    assert_eq!(
        desk.traced(),
        "free\t80\t0\t0\nrecord\t1\t1\t0\nresult\t8\t1\t0\n"
    );
    desk.manager.reset_highest();
    desk.assert_holds(1, 1, 1);
    assert_eq!(desk.malloc(PAGE, 1), Ok((BASE, 4)));
    desk.assert_holds(5, 5, 1);
    assert_eq!(desk.card.small_streams(), [6, 7, 6]);
    let card = desk.close(0);
    // Each on its own stream, in a close too.
    assert_eq!(card.small_streams(), [6, 7, 6, 7]);
}

#[test]
fn an_address_that_nobody_holds_is_the_pools() {
    let mut desk = Desk::open();
    desk.malloc(3, 1).expect("a small buffer");
    assert_eq!(desk.free(small(1)), Ok((3, 1)));
    desk.traced();
    let address = small(1);
    assert_eq!(desk.free(address), Err(Refusal::InvalidPointer { address }));
    assert_eq!(
        desk.traced(),
        format!("free\t{address}\t0\t0\nresult\t{address}\t0\t16\n")
    );
    desk.close(0);
}

/// A refusal of the manager's own has no line, and no driver call is made.
#[test]
fn sizes_that_are_refused() {
    let mut desk = Desk::open();
    let seen = desk.card.seen().len();
    for size in [0, (1 << 63) + 1, u64::MAX] {
        assert_eq!(desk.malloc(size, 1), Err(Refusal::BadSize { size }));
    }
    assert_eq!(desk.traced(), "");
    let (size, va_size) = (1 << 63, VA);
    let refusal = Refusal::RequestedExceedsVa { size, va_size };
    assert_eq!(desk.malloc((1 << 63) - 3, 1), Err(refusal));
    assert_eq!(
        desk.traced(),
        format!("malloc\t{size}\t1\t0\nresult\t{size}\t40\t8\n")
    );
    assert_eq!(desk.card.seen().len(), seen);
    desk.assert_holds(0, 0, 0);
    desk.close(0);

    assert_eq!(
        Refusal::BadSize { size: 0 }.to_string(),
        "0 bytes: ask for some"
    );
    assert_eq!(
        Refusal::BadSize { size: u64::MAX }.to_string(),
        "18446744073709551615 bytes: ask a pool for a multiple of the page size, a manager for at \
         most 2^63"
    );
}

#[test]
fn as_many_small_buffers_as_there_may_be() {
    let mut desk = Desk::open();
    for n in 1..=SMALLS as u64 {
        assert_eq!(desk.malloc(2, n), Ok((small(n), 2)));
    }
    desk.assert_holds(256, 256, SMALLS);
    desk.traced();
    let seen = desk.card.seen().len();
    let refusal = desk.malloc(2, 1).expect_err("129 small buffers");
    assert_eq!(refusal, Refusal::SmallsFull);
    assert_eq!((refusal.number(), refusal.stops()), (Some(20), false));
    assert_eq!(
        refusal.to_string(),
        "128 small buffers: free one, or ask for at least a page"
    );
    assert_eq!(desk.malloc(0, 1), Err(Refusal::BadSize { size: 0 }));
    assert_eq!(
        (desk.traced(), desk.card.seen().len()),
        (String::new(), seen)
    );

    // Neither table is in the other's way.
    assert_eq!(desk.malloc(PAGE, 1), Ok((BASE, 4)));
    assert_eq!(desk.free(small(5)), Ok((2, 5)));
    assert_eq!(desk.malloc(3, 9), Ok((small(129), 3)));
    desk.assert_holds(261, 261, SMALLS);

    // In the order in which they came, each on its own stream.
    let before = desk.card.seen().len();
    let card = desk.close(0);
    let dropped = &card.seen()[before..before + SMALLS];
    let rest = (1..=128).filter(|n| *n != 5);
    let wanted: Vec<Record> = rest
        .clone()
        .map(|n| record(Word::DropSmall, small(n), 2, 0))
        .chain([record(Word::DropSmall, small(129), 3, 0)])
        .collect();
    assert_eq!(dropped, wanted);
    assert_eq!(card.seen()[before + SMALLS].word, Word::Sync);
    let streams = &card.small_streams()[card.small_streams().len() - SMALLS..];
    let wanted: Vec<u64> = rest.chain([9]).collect();
    assert_eq!(streams, wanted);
}

/// 128 buffers of the pool refuse one more of its own, and no small one.
#[test]
fn a_full_pool_serves_small_buffers() {
    let mut card = Card::new();
    let config = Config::new(PAGE, 200 * PAGE);
    let mut manager = Manager::open(&mut card, config).expect("an opening");
    for _ in 0..128 {
        manager.malloc(&mut card, PAGE, 1).expect("room");
    }
    let refusal = manager.malloc(&mut card, PAGE, 1);
    assert_eq!(refusal, Err(Refusal::SpansFull));
    manager.malloc(&mut card, PAGE - 1, 1).expect("a small one");
    assert_eq!(manager.current(), 128 * PAGE + 3);
    assert_eq!(manager.close(&mut card), Ok(0));
}

/// 14 of a small buffer: nothing has changed, and nothing is to be closed.
#[test]
fn failures_of_small_buffers_stop_nothing() {
    let mut desk = Desk::open();
    desk.malloc(3, 5).expect("a small buffer");
    let before = *desk.manager.value();
    desk.traced();
    desk.card.fail(Word::Small, 0, CODE);
    desk.card.fail(Word::DropSmall, 0, CODE);
    let made = desk.malloc(2, 1).expect_err("a failure");
    assert_eq!(desk.traced(), "small\t0\t2\t700\n");
    let dropped = desk.free(small(1)).expect_err("a failure");
    assert_eq!(desk.traced(), format!("dropsmall\t{}\t3\t700\n", small(1)));
    for (refusal, record, text) in [
        (
            made,
            record(Word::Small, 0, 2, CODE),
            "a driver call failed (small 0 2, code 700): nothing has changed, go on".to_string(),
        ),
        (
            dropped,
            record(Word::DropSmall, small(1), 3, CODE),
            format!(
                "a driver call failed (dropsmall {} 3, code 700): nothing has changed, go on",
                small(1)
            ),
        ),
    ] {
        let opening = false;
        assert_eq!(refusal, Refusal::DriverFailed { record, opening });
        assert_eq!((refusal.number(), refusal.stops()), (Some(14), false));
        assert_eq!((refusal.orphan(), refusal.to_string()), (None, text));
    }
    assert!(*desk.manager.value() == before, "the manager has changed");
    assert!(!desk.manager.is_stopped());
    // A failure that a call answers is not passed over.
    assert_eq!(desk.card.failures(), []);
    assert_eq!(desk.malloc(PAGE, 1), Ok((BASE, 4)));
    assert_eq!(desk.free(small(1)), Ok((3, 5)));
    desk.close(0);
}

/// A failure of the pool's own driver calls stops the manager, and current stays as it was.
#[test]
fn failures_of_the_pool_stop_the_manager() {
    let mut desk = Desk::open();
    desk.malloc(3, 5).expect("a small buffer");
    desk.malloc(PAGE, 1).expect("room");
    desk.card.fail(Word::Record, 0, CODE);
    let refusal = desk.free(BASE).expect_err("a failure");
    assert!(refusal.stops() && desk.manager.is_stopped());
    desk.assert_holds(7, 7, 1);
    desk.traced();
    assert_eq!(desk.malloc(3, 1), Err(Refusal::PoolStopped));
    assert_eq!(desk.free(small(1)), Err(Refusal::PoolStopped));
    assert_eq!(desk.traced(), "");
    assert_eq!(desk.malloc(5, 1), Err(Refusal::PoolStopped));
    assert_eq!(desk.free(BASE), Err(Refusal::PoolStopped));
    assert_eq!(
        desk.traced(),
        "malloc\t8\t1\t0\nresult\t0\t0\t2\nfree\t80\t0\t0\nresult\t0\t0\t2\n"
    );
    let card = desk.close(0);
    assert_eq!(card.small_streams(), [5, 5]);
}

/// A close drops the small buffers in their order, before its own line, and goes on at failures.
#[test]
fn a_close_goes_on() {
    let mut desk = Desk::open();
    for (bytes, stream) in [(3, 7), (1, 8), (2, 7)] {
        desk.malloc(bytes, stream).expect("a small buffer");
    }
    desk.malloc(PAGE, 1).expect("room");
    let traced = desk.card.trace().len();
    desk.card.fail(Word::DropSmall, 1, CODE);
    desk.card.fail(Word::Giveback, 0, CODE);
    let card = desk.close(2);
    let [first, second, third] = [1, 2, 3].map(small);
    assert_eq!(
        card.trace()[traced..],
        format!(
            "dropsmall\t{first}\t3\t0\ndropsmall\t{second}\t1\t700\ndropsmall\t{third}\t2\t0\n\
             close\t0\t0\t0\nsync\t0\t0\t0\nunmap\t80\t4\t0\nrelease\t1\t0\t0\n\
             giveback\t80\t40\t700\nresult\t1\t0\t0\n"
        )
    );
    let passed_over = [
        record(Word::DropSmall, second, 1, CODE),
        record(Word::Giveback, BASE, VA, CODE),
    ];
    assert_eq!(card.failures(), passed_over);
    assert_eq!(card.small_streams(), [7, 8, 7, 7, 8, 7]);
}

/// Pointers that can't be stop the manager, and nothing else changes.
#[test]
fn incredible_pointers() {
    for pointer in [0, small(1), BASE, BASE + 1, BASE + VA - 1] {
        let mut desk = Desk::open();
        desk.malloc(3, 5).expect("a small buffer");
        let mut stopped = *desk.manager.value();
        stopped.pool.state = caldarimpu::ffi::state::STOPPED;
        desk.traced();
        desk.card.give(Word::Small, pointer);
        let refusal = desk.malloc(2, 1).expect_err("a pointer");
        let (record, opening) = (record(Word::Small, pointer, 2, 0), false);
        assert_eq!(refusal, Refusal::Incredible { record, opening });
        assert_eq!((refusal.number(), refusal.stops()), (Some(15), true));
        assert_eq!(refusal.orphan(), None);
        assert_eq!(
            refusal.to_string(),
            format!(
                "the driver gave a pointer that can't be (small {pointer} 2): close the pool; mend \
                 the driver"
            )
        );
        assert_eq!(desk.traced(), format!("small\t{pointer}\t2\t0\n"));
        assert!(*desk.manager.value() == stopped, "the manager has changed");
        assert!(desk.manager.is_stopped());
        assert_eq!(desk.free(small(1)), Err(Refusal::PoolStopped));
        let card = desk.close(0);
        assert_eq!(card.small_streams(), [5, 1, 5]);
    }
}

/// Only the pointer counts: before a root, behind it, and where a root comes to lie later.
#[test]
fn pointers_beside_roots() {
    let mut desk = Desk::open();
    for pointer in [BASE - 1, BASE + VA] {
        desk.card.give(Word::Small, pointer);
        assert_eq!(desk.malloc(3, 2), Ok((pointer, 3)));
    }
    assert_eq!(desk.malloc(VA, 1), Ok((BASE, VA)));
    desk.card.give(Word::Reserve, BASE + VA);
    assert_eq!(desk.malloc(PAGE, 1), Ok((BASE + VA, 4)));
    assert_eq!(desk.free(BASE + VA), Ok((3, 2)));
    assert_eq!(desk.free(BASE + VA), Ok((4, 1)));
    let small = desk.manager.value().small.entries();
    let (pointer, size, stream) = (BASE - 1, 3, 2);
    let left = SmallBuffer {
        pointer,
        size,
        stream,
    };
    assert_eq!(small, [left]);
    desk.close(0);
}

/// The pointers that are guessed are as good as others, but not twice.
#[test]
fn guessed_pointers() {
    let mut desk = Desk::open();
    for guessed in [1 << 63, (1 << 63) + 1] {
        desk.card.give(Word::Small, guessed);
        assert_eq!(desk.malloc(3, 2), Ok((guessed, 3)));
    }
    desk.card.give(Word::Small, 1 << 63);
    let refusal = desk.malloc(3, 2).expect_err("it is held");
    assert_eq!(refusal.number(), Some(15));
    desk.close(0);
}

/// Notes the runs of each call, and panics where it is told to.
#[derive(Default)]
struct Noting {
    card: Card,
    runs: Vec<u64>,
    calls: Vec<(Call, Option<Call>)>,
    breaks: Option<Word>,
}

impl Answers for Noting {
    fn answer(&mut self, wanted: Record) -> Result<u64, Code> {
        if self.breaks == Some(wanted.word) {
            self.breaks = None;
            panic!("the driver breaks");
        }
        self.card.answer(wanted)
    }

    fn told(&mut self, call: &Happened) {
        self.runs.push(call.runs);
        self.calls.push((call.call, call.asked));
    }
}

#[test]
fn what_is_told() {
    let mut driver = Noting::default();
    let config = Config::new(PAGE, VA);
    let mut manager = Manager::open(&mut driver, config).expect("an opening");
    manager.malloc(&mut driver, 3, 5).expect("a small buffer");
    manager.free(&mut driver, small(1)).expect("a small buffer");
    manager.malloc(&mut driver, 5, 5).expect("room");
    let refusal = manager.malloc(&mut driver, 0, 5);
    assert_eq!(refusal, Err(Refusal::BadSize { size: 0 }));
    assert_eq!(driver.runs, [2, 2, 1, 2, 1]);
    let malloc = |bytes| Call::Malloc { bytes, stream: 5 };
    let address = small(1);
    let told = [
        (Call::Open(config), Some(Call::Open(config))),
        (malloc(3), None),
        (Call::Free { address }, None),
        (malloc(5), Some(malloc(8))),
        (malloc(0), None),
    ];
    assert_eq!(driver.calls, told);
    assert_eq!(manager.close(&mut driver), Ok(0));
}

/// A driver that panics poisons a manager as it does a pool.
#[test]
fn panics() {
    for word in [Word::Small, Word::DropSmall, Word::Map] {
        let mut driver = Noting::default();
        let config = Config::new(PAGE, VA);
        let mut manager = Manager::open(&mut driver, config).expect("an opening");
        manager.malloc(&mut driver, 3, 5).expect("a small buffer");
        let before = *manager.value();
        driver.breaks = Some(word);
        let ended = catch_unwind(AssertUnwindSafe(|| match word {
            Word::Small => manager.malloc(&mut driver, 2, 1).map(drop),
            Word::DropSmall => manager.free(&mut driver, small(1)).map(drop),
            _ => manager.malloc(&mut driver, PAGE, 1).map(drop),
        }));
        assert!(ended.is_err(), "the driver does not panic");
        assert!(*manager.value() == before, "the manager has changed");
        let interrupted = manager.interrupted().expect("a call");
        let made = usize::from(word == Word::Map);
        assert_eq!(interrupted.records.len(), made);
        assert_eq!(manager.malloc(&mut driver, 2, 1), Err(Refusal::Poisoned));
        assert_eq!(manager.free(&mut driver, small(1)), Err(Refusal::Poisoned));
        assert_eq!(manager.close(&mut driver), Ok(0));
        let last = driver.calls.last().expect("a close");
        assert_eq!(*last, (Call::Close, Some(Call::Close)));
    }
}

/// An opening that fails gives back what it took.
#[test]
fn an_opening_that_fails() {
    let mut card = Card::new();
    card.fail(Word::Sync, 0, CODE);
    let config = Config {
        initial_pages: 2,
        ..Config::new(PAGE, VA)
    };
    let refusal = Manager::open(&mut card, config).expect_err("a failure");
    assert!(refusal.number() == Some(14) && !refusal.stops());
    assert!(card
        .trace()
        .ends_with("giveback\t80\t40\t0\nresult\t0\t0\t0\n"));
}

#[test]
fn a_manager_shows_how_full_it_is() {
    let mut desk = Desk::open();
    desk.malloc(3, 5).expect("a small buffer");
    let text = format!("{:?}", desk.manager);
    assert!(text.starts_with("Manager { state: 1, page: 4, va: 40, "));
    assert!(text.ends_with("small: 1, current: 3, highest: 3, begun: None, .. }"));
    desk.close(0);
}
