//! The proved virtual memory pool, for programs in Rust.
//!
//! The pool itself is a library in Rattle, whose functions are proved to do what docs/RULES.md says.
//! It makes no driver call: it is lent the driver's answers and writes down the calls that they
//! belong to. This package makes those calls. Write a [`Driver`] over the card's driver, then
//!
//! ```no_run
//! # use caldarimpu::{Card, Config, Pool};
//! # fn tour(mut driver: Card) -> Result<(), caldarimpu::Refusal> {
//! let mut pool = Pool::open(&mut driver, Config::new(2 << 20, 1 << 30))?;
//! let buffer = pool.malloc(&mut driver, 4 << 20, 1)?;
//! pool.free(&mut driver, buffer.address)?;
//! pool.close(&mut driver)?;
//! # Ok(())
//! # }
//! ```
//!
//! A pool takes sizes that are multiples of its page size. [`Manager`] takes them in bytes: it
//! rounds them up for a pool of its own, has the driver serve those below a page, and counts the
//! bytes that are held.
//!
//! [`Driver::happened`] is told each call with its driver calls and its result; it displays as a
//! trace, which the programs replay and judge read. [`Driver::passed_over`] is told the driver
//! calls that failed and ended no call.

#![deny(unsafe_code, missing_docs)]

mod ahead;
mod card;
mod driver;
#[allow(
    unsafe_code,
    reason = "the library's functions are called here, and nowhere else"
)]
pub mod ffi;
mod kept;
mod manager;
mod pool;
mod refusal;
mod trace;
mod value;

pub use card::Card;
pub use driver::{Answers, Code, Driver, Record, Word};
pub use kept::Interrupted;
pub use manager::Manager;
pub use pool::{Buffer, Freed, Pool};
pub use refusal::{Orphan, Refusal};
pub use trace::{Call, Config, Happened};
