//! The trace of docs/RULES.md 6: a call, its driver calls, its result, one line each.

use std::fmt;

use crate::{Record, Word};

/// How a pool is opened.
#[derive(Clone, Copy, Debug, PartialEq, Eq)]
pub struct Config {
    /// The driver's smallest page size.
    pub granularity: u64,
    /// The page size to use, a multiple of the granularity; 0 for the granularity itself.
    pub override_size: u64,
    /// The bytes of each reservation.
    pub va_size: u64,
    /// Pages made at once.
    pub initial_pages: u64,
    /// The stream that they are made on.
    pub initial_stream: u64,
}

impl Config {
    /// Pages of the granularity, none of them made at once.
    pub fn new(granularity: u64, va_size: u64) -> Self {
        Self {
            granularity,
            override_size: 0,
            va_size,
            initial_pages: 0,
            initial_stream: 0,
        }
    }

    /// The page size that is used.
    pub fn page_size(&self) -> u64 {
        match self.override_size {
            0 => self.granularity,
            size => size,
        }
    }
}

/// A call of a pool or a manager.
#[derive(Clone, Copy, Debug, PartialEq, Eq)]
#[allow(missing_docs, reason = "the methods of Pool say what they are")]
pub enum Call {
    Open(Config),
    Malloc { bytes: u64, stream: u64 },
    Free { address: u64 },
    Close,
}

/// A call that has ended. It displays as its lines of a trace. Those of small buffers stand before
/// what the pool was asked for; they have no line of a call and no result.
#[derive(Clone, Copy, Debug, PartialEq, Eq)]
pub struct Happened<'a> {
    /// The call.
    pub call: Call,
    /// What the pool was asked for: the call itself, and of a manager's malloc with the size in
    /// whole pages; none where the manager did not ask its pool.
    pub asked: Option<Call>,
    /// Its driver calls, in order.
    pub records: &'a [Record],
    /// The answer's number: 0 for success.
    pub answer: u64,
    /// The answer's first value.
    pub first: u64,
    /// The answer's second value.
    pub second: u64,
    /// How often the library was run for it: more than once where an answer could not be guessed.
    pub runs: u64,
}

impl<'a> Happened<'a> {
    /// The driver calls that failed and ended no call: those that take something away, which is
    /// then still there; an asked, whose event counts as not complete; and any of a close.
    pub fn failures(&self) -> impl Iterator<Item = &'a Record> {
        let call = self.call;
        let is_passed_over = move |word| match word {
            Word::Unmap | Word::Release | Word::Asked => true,
            _ => call == Call::Close,
        };
        let failed = self.records.iter().filter(|record| record.code != 0);
        failed.filter(move |record| is_passed_over(record.word))
    }
}

impl fmt::Display for Happened<'_> {
    fn fmt(&self, out: &mut fmt::Formatter) -> fmt::Result {
        let is_of_pool = |record: &Record| !record.word.is_of_small();
        let of_pool = self.records.iter().position(is_of_pool);
        let (of_small, of_pool) = self.records.split_at(of_pool.unwrap_or(self.records.len()));
        lines(out, of_small)?;
        let Some(asked) = self.asked else {
            return Ok(());
        };
        let (word, numbers) = match asked {
            Call::Open(config) => {
                let page_size = config.page_size();
                ("open", [page_size, config.va_size, config.initial_pages])
            }
            Call::Malloc { bytes, stream } => ("malloc", [bytes, stream, 0]),
            Call::Free { address } => ("free", [address, 0, 0]),
            Call::Close => ("close", [0, 0, 0]),
        };
        line(out, word, numbers)?;
        lines(out, of_pool)?;
        line(out, "result", [self.first, self.second, self.answer])
    }
}

fn lines(out: &mut fmt::Formatter, records: &[Record]) -> fmt::Result {
    for record in records {
        let numbers = [record.first, record.second, record.code];
        line(out, record.word.name(), numbers)?;
    }
    Ok(())
}

fn line(out: &mut fmt::Formatter, word: &str, [first, second, third]: [u64; 3]) -> fmt::Result {
    writeln!(out, "{word}\t{first}\t{second}\t{third}")
}
