//! A pool on a made-up card, from its opening to its close. Prints the trace, which judge accepts:
//!
//!     cargo run --offline --quiet --example tour | ../../target/run/judge

use caldarimpu::{Card, Config, Driver, Orphan, Pool, Refusal, Word};

const PAGE: u64 = 2 << 20;

fn main() -> Result<(), Refusal> {
    let mut card = Card::new();
    let toured = tour(&mut card);
    // Of a tour that ends early too.
    print!("{}", card.trace());
    toured?;
    stop(&mut Card::new())
}

fn tour(card: &mut Card) -> Result<(), Refusal> {
    let mut pool = Pool::open(card, Config::new(PAGE, 10 * PAGE))?;

    // Two streams, buffers side by side.
    let tone = pool.malloc(card, 2 * PAGE, 1)?;
    let other = pool.malloc(card, PAGE, 2)?;
    let tail = pool.malloc(card, PAGE, 1)?;
    pool.free(card, tone.address)?;
    pool.free(card, tail.address)?;

    // Three pages are free, no three of them together. They are mapped anew, side by side; the
    // places where they were are zombies as long as stream 1 may be at work there.
    let long = pool.malloc(card, 3 * PAGE, 1)?;
    assert_eq!(pool.value().zombies.count, 2);

    // Stream 1 is done. The next malloc unmaps the zombies before all else.
    card.finish_below(pool.value().counter);
    pool.malloc(card, PAGE, 2)?;
    assert_eq!(pool.value().zombies.count, 0);

    // A refusal says what is wrong, and the pool goes on.
    let refusal = pool
        .malloc(card, PAGE + 1, 2)
        .expect_err("no multiple of the page size");
    eprintln!("refused: {refusal}");

    pool.free(card, long.address)?;
    pool.free(card, other.address)?;
    let failures = pool.close(card)?;
    assert_eq!(failures, 0);
    Ok(())
}

/// A driver call that fails ends the pool: it is closed, and what it could not know of is released.
fn stop(card: &mut Card) -> Result<(), Refusal> {
    let mut pool = Pool::open(card, Config::new(PAGE, 10 * PAGE))?;
    card.fail(Word::Map, 1, 700);
    let refusal = pool.malloc(card, 3 * PAGE, 1).expect_err("no second map");
    eprintln!("refused: {refusal}");
    assert!(refusal.stops());
    pool.close(card)?;
    match refusal.orphan() {
        Some(Orphan::Page { handle }) => card.release(handle).expect("a release"),
        other => panic!("a map leaves a page, not {other:?}"),
    }
    Ok(())
}
