//! Sizes in bytes, on a made-up card: `d_malloc_on` and `d_free` as a program has them that asked
//! the original's memory manager, one for the whole program behind a lock. Pointers out, and on
//! standard error the bytes that are held. Prints the trace, which judge accepts:
//!
//!     cargo run --offline --quiet --example manager | ../../target/run/judge

use std::sync::Mutex;

use caldarimpu::{Card, Config, Manager, Refusal};

const PAGE: u64 = 2 << 20;

/// The manager with the driver that it is called on.
struct Memory {
    driver: Card,
    manager: Manager,
}

static MEMORY: Mutex<Option<Memory>> = Mutex::new(None);

/// Does something with the one manager, under the lock.
fn with<T>(act: impl FnOnce(&mut Memory) -> T) -> T {
    let mut memory = MEMORY
        .lock()
        .expect("no thread has panicked under the lock");
    act(memory.as_mut().expect("the manager is open"))
}

/// A buffer of `size` bytes for work on a stream.
fn d_malloc_on(size: u64, stream: u64) -> Result<u64, Refusal> {
    with(|Memory { driver, manager }| {
        let buffer = manager.malloc(driver, size, stream)?;
        Ok(buffer.address)
    })
}

/// Gives it back, whoever served it.
fn d_free(pointer: u64) -> Result<(), Refusal> {
    with(|Memory { driver, manager }| manager.free(driver, pointer).map(drop))
}

/// Current and highest, as the original's `MemTracker` tells them.
fn tell(when: &str) -> (u64, u64) {
    let (current, highest) = with(|memory| (memory.manager.current(), memory.manager.highest()));
    eprintln!("{when}: current {current}, highest {highest}");
    (current, highest)
}

fn main() -> Result<(), Refusal> {
    let mut driver = Card::new();
    let manager = Manager::open(&mut driver, Config::new(PAGE, 32 * PAGE))?;
    *MEMORY.lock().expect("a lock") = Some(Memory { driver, manager });
    let used = use_it();
    let Memory {
        mut driver,
        manager,
    } = (MEMORY.lock().expect("a lock").take()).expect("the manager is open");
    // Drops the small buffer that is still held, and closes the pool.
    let failures = manager.close(&mut driver);
    // Of a session that ends early too.
    print!("{}", driver.trace());
    used?;
    assert_eq!(failures?, 0);
    Ok(())
}

fn use_it() -> Result<(), Refusal> {
    // Three pages of the pool, and two small buffers, the driver's.
    let tone = d_malloc_on(3 * PAGE - 5, 1)?;
    let header = d_malloc_on(400, 1)?;
    d_malloc_on(PAGE - 1, 2)?;
    let held = 3 * PAGE + 400 + (PAGE - 1);
    assert_eq!(tell("three buffers"), (held, held));

    d_free(header)?;
    d_free(tone)?;
    assert_eq!(tell("two of them freed"), (PAGE - 1, held));

    // The peak of what comes now. Two of the free pages are handed out again.
    with(|memory| memory.manager.reset_highest());
    assert_eq!(d_malloc_on(PAGE + 1, 1)?, tone);
    let held = 2 * PAGE + (PAGE - 1);
    assert_eq!(tell("highest reset, one more"), (held, held));

    for refusal in [
        d_malloc_on(0, 1).expect_err("no bytes"),
        d_free(header).expect_err("a second free"),
    ] {
        eprintln!("refused: {refusal}");
    }
    Ok(())
}
