//! 14 and 15: what they say, and what they leave in no table.

use caldarimpu::{Card, Config, Driver, Orphan, Pool, Refusal, Word};

const PAGE: u64 = 4;
const VA: u64 = 40;
const BASE: u64 = 2 * VA;
const CODE: u64 = 700;

/// A malloc of three pages that the card's next answers refuse.
fn malloc(prepare: impl FnOnce(&mut Card)) -> (Card, Pool, Refusal) {
    let mut card = Card::new();
    let mut pool = Pool::open(&mut card, Config::new(PAGE, VA)).expect("an opening");
    prepare(&mut card);
    let refusal = pool.malloc(&mut card, 12, 1).expect_err("a refusal");
    (card, pool, refusal)
}

/// An opening with two pages that is refused.
fn open(prepare: impl FnOnce(&mut Card)) -> (Card, Refusal) {
    let mut card = Card::new();
    prepare(&mut card);
    let config = Config {
        initial_pages: 2,
        ..Config::new(PAGE, VA)
    };
    let refusal = Pool::open(&mut card, config).expect_err("a refusal");
    (card, refusal)
}

/// Handles that were created and not released.
fn held(card: &Card) -> Vec<u64> {
    let of = |word| move |record: &&caldarimpu::Record| record.word == word && record.code == 0;
    let released: Vec<u64> = (card.seen().iter().filter(of(Word::Release)))
        .map(|record| record.first)
        .collect();
    let created = card.seen().iter().filter(of(Word::Create));
    (created.map(|record| record.first))
        .filter(|handle| !released.contains(handle))
        .collect()
}

/// The one handle that the close leaves is the orphan.
#[test]
fn the_page_of_a_map_that_failed() {
    let (mut card, pool, refusal) = malloc(|card| card.fail(Word::Map, 1, CODE));
    assert!(refusal.stops());
    assert_eq!(
        refusal.to_string(),
        "a driver call failed (map 84 2, code 700): close the pool, then release handle 2"
    );
    assert_eq!(pool.close(&mut card), Ok(0));
    assert_eq!(held(&card), [2]);
    let Some(Orphan::Page { handle }) = refusal.orphan() else {
        panic!("no page: {:?}", refusal.orphan());
    };
    card.release(handle).expect("a release");
    assert_eq!(held(&card), []);
}

/// A page that is moved is out of the tables as well.
#[test]
fn the_page_of_a_move_that_failed() {
    let mut card = Card::new();
    let mut pool = Pool::open(&mut card, Config::new(PAGE, VA)).expect("an opening");
    for address in [BASE, BASE + 4, BASE + 8] {
        let buffer = pool.malloc(&mut card, 4, 1).expect("room");
        assert_eq!(buffer.address, address);
    }
    for address in [BASE, BASE + 8] {
        pool.free(&mut card, address).expect("a live buffer");
    }
    card.fail(Word::Map, 1, CODE);
    let refusal = pool.malloc(&mut card, 8, 1).expect_err("a failure");
    assert_eq!(refusal.orphan(), Some(Orphan::Page { handle: 3 }));
    assert_eq!(pool.close(&mut card), Ok(0));
    assert_eq!(held(&card), [3]);
}

#[test]
fn the_page_of_an_opening() {
    let (card, refusal) = open(|card| card.fail(Word::Map, 1, CODE));
    assert!(!refusal.stops());
    assert_eq!(
        refusal.to_string(),
        "a driver call failed (map 84 2, code 700): no pool was opened; release handle 2"
    );
    assert_eq!(refusal.orphan(), Some(Orphan::Page { handle: 2 }));
    assert_eq!(held(&card), [2]);
}

#[test]
fn failures_that_leave_nothing() {
    for (word, text) in [
        (Word::Create, "create 0 4"),
        (Word::Access, "access 80 12"),
        (Word::Record, "record 0 1"),
    ] {
        let (mut card, pool, refusal) = malloc(|card| card.fail(word, 0, CODE));
        assert_eq!(refusal.orphan(), None);
        assert_eq!(
            refusal.to_string(),
            format!("a driver call failed ({text}, code 700): close the pool")
        );
        assert_eq!(pool.close(&mut card), Ok(0));
        assert_eq!(held(&card), []);
    }
    let (card, refusal) = open(|card| card.fail(Word::Sync, 0, CODE));
    assert_eq!(refusal.orphan(), None);
    assert_eq!(
        refusal.to_string(),
        "a driver call failed (sync 0 0, code 700): no pool was opened"
    );
    assert_eq!(held(&card), []);
}

#[test]
fn a_range_that_is_not_believed() {
    let (card, refusal) = open(|card| card.give(Word::Reserve, BASE + 2));
    let base = BASE + 2;
    let va_size = VA;
    assert_eq!(refusal.orphan(), Some(Orphan::Range { base, va_size }));
    assert_eq!(
        refusal.to_string(),
        "the driver gave a base or a handle that can't be (reserve 82 40): no pool was opened; \
         give base 82 back; mend the driver"
    );
    assert_eq!(card.seen().len(), 1);

    let mut card = Card::new();
    let mut pool = Pool::open(&mut card, Config::new(PAGE, VA)).expect("an opening");
    pool.malloc(&mut card, 8, 1).expect("room");
    card.give(Word::Reserve, 242);
    let refusal = pool.malloc(&mut card, 36, 1).expect_err("a base");
    let base = 242;
    assert_eq!(refusal.orphan(), Some(Orphan::Range { base, va_size }));
    assert_eq!(
        refusal.to_string(),
        "the driver gave a base or a handle that can't be (reserve 242 40): close the pool, then \
         give base 242 back; mend the driver"
    );
    assert_eq!(pool.close(&mut card), Ok(0));
    let given_back = |record: &&caldarimpu::Record| record.word == Word::Giveback;
    let bases: Vec<u64> = (card.seen().iter().filter(given_back))
        .map(|record| record.first)
        .collect();
    assert_eq!(bases, [BASE]);
}

/// It is another page's too, so the close releases it.
#[test]
fn a_handle_that_is_not_believed() {
    let (mut card, pool, refusal) = malloc(|card| card.give(Word::Create, 2));
    assert_eq!(refusal.orphan(), None);
    assert_eq!(
        refusal.to_string(),
        "the driver gave a base or a handle that can't be (create 2 4): close the pool; mend the \
         driver"
    );
    assert_eq!(pool.close(&mut card), Ok(0));
    assert_eq!(held(&card), []);
}
